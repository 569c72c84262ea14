var once = 'once of e';
