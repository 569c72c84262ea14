part of l;
