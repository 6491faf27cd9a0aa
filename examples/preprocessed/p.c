# 1 "wrap.c"
# 1 "<built-in>"
# 1 "<command-line>"
# 1 "wrap.c"
extern void abort(void);
extern void __assert_fail(const char *__assertion, const char *__file, unsigned int __line, const char *__function) __attribute__ ((__nothrow__ , __leaf__)) __attribute__ ((__noreturn__));
void reach_error() { __assert_fail("0", "wrap.c", 3, "reach_error"); }
# 5 "wrap.c"
extern unsigned char __VERIFIER_nondet_uchar();
int main() {
  unsigned char c = __VERIFIER_nondet_uchar();
# 8 "wrap.c" 3 4
  unsigned char d = c + 1;
  if (d < c) { reach_error(); }
  return 0;
}
