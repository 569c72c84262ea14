var twice = 'twice of c', own = 'own of c';
get accessor => 'accessor of c';
