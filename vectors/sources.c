/* Sources that the grammar takes and a C compiler too: each line stands in the table PLAIN of
   crates/source_tests/src/grammar_sources.rt, and vectors/sources.sh says whether that is so and asks gcc. */
int x; short y; long z; char c; signed char d; unsigned e;
static const volatile unsigned long flags = 0x1FuL, mask = 017u, none = 0;
extern signed short counters[4];
long long wide = 10ll; unsigned long long widest = 0XFFULL;
_Bool ready = 1; char letter = 'a', quote = '\'', line_end = '\n', coded = '\x41', octal = '\101';
typedef unsigned char byte_t; byte_t buffer[8] = {1, 2, 3,};
struct point { int x, y; const char *label; }; struct point origin = {0, 0, 0}, *here = &origin;
struct { int only; } nameless;
struct node { struct node *next; byte_t value[2]; }; struct node list = {&list, {1, 2}};
enum color { RED, GREEN = 2, BLUE, }; enum color paint = BLUE;
enum { LOW, HIGH = LOW + 1 };
int (*rows)[4], *columns[4], **twice, *const fixed = 0, (inside);
int table[2][3] = {{1, 2, 3}, {4, 5, 6}};
int from_values[] = {1, 2};
int *restrict alone;
typedef struct point *point_p; typedef int row_t[3], number_t; row_t row; number_t number;
static int helper(int a, int *const b);
void unnamed(int, char *, const int *, struct point *);
int nothing(void) { return 0; }
int empty_list() { return 1; }
void no_value(void) { return; }
static inline int squared(register int v) { return v * v; }
static int helper(int a, int *const b) { *b = a; return *b; }
int *address(void) { static int kept = 1; extern int x; return &kept; }
void steps(void) { int i, j = 0; auto int k; ; i = 0; { int i; i = j; } k = i; i = k, j = k; }
int choose(int a, int b) { if (a) return b; if (b) a = 1; else a = 2; return a; }
int nearest(int a, int b) { if (a) if (b) return 1; else return 2; return a; }
int chained(int n) { if (n < 0) { n = 0; } else if (n > 9) { n = 9; } else { n++; } return n; }
int looping(int n) { while (n > 0) n--; do { n += 2; } while (n < 10); do n++; while (0); return n; }
int counting(int n) { for (;;) break; for (n = 0; n < 3; n++) continue; return n; }
int declaring(int n) { for (int k = 0, m = 1; k < m; ++k) n = k; return n; }
int cases(int v) { switch (v) { case 1: case RED + 3: v = 2; break; default: v = 0; } return v; }
int no_cases(int v) { switch (v) { } return v; }
int arithmetic(int a, int b) { return a * b / 3 % 5 + a - b << 1 >> 2; }
int compared(int a, int b) { return (a < b) + (a > b) + (a <= b) + (a >= b) + (a == b) + (a != b); }
int logical(int a, int b) { return (a & b) | (a ^ b) && a || b ? a : b ? 1 : 2; }
void assigned(int a) { a = 1; a *= 2; a /= 2; a %= 3; a += 1; a -= 1; }
void masked(int a) { a <<= 1; a >>= 1; a &= 7; a ^= 1; a |= 2; }
int unary(int a, int *p) { ++a; --a; a++; a--; return -a + +a - ~a + !a + *p + *&a; }
int postfix(struct node *n, int (*m)[4]) { return n->next->value[1] + (*n).value[0] + m[1][2]; }
int called(void) { return nothing() + squared(3) + choose(1, 2 + 3); }
unsigned sizes(int a) { return sizeof a + sizeof(int) + sizeof(struct point *) + sizeof (a) * 2; }
int casts(int a) { return (int)(unsigned char)a + (byte_t)-a + *(int *)&a + (int)sizeof(const char **); }
# 1 "other.c"
#pragma once upon a time
