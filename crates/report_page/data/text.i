# 3 "b.h" 1
int n;
# 2 "a.c" 2
int f(void) { return 1 / n; }
