async() => sync; var async = 1;
int f() { } async(int x) => x;
