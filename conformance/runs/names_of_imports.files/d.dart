var deep = 'deep of d';
var deeper = 'deeper of d';
