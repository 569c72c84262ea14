var shadowed = 'c', handedOn = 'c';
