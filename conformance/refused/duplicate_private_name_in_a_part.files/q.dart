part of l;

class _f {}
