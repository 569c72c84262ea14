var exported = 'e', notExported = 'e';
