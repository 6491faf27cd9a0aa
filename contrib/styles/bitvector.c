extern void abort(void);
void reach_error() {}
void __VERIFIER_assert(int cond) { if (!(cond)) { ERROR: { reach_error(); abort(); } } return; }
unsigned char __VERIFIER_nondet_uchar();
int main() {
  unsigned char b = __VERIFIER_nondet_uchar();
  unsigned char c = b << 4 | b >> 4;
  __VERIFIER_assert((unsigned char)(c << 4 | c >> 4) == b);
  return 0;
}
