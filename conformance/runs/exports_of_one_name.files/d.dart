var twice = 'twice of d';
set accessor(value) {}
