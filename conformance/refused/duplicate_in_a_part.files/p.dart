part of l;

get x => 1;
