extern void abort(void);
void reach_error() {}
void __VERIFIER_assert(int cond) { if (!(cond)) { ERROR: { reach_error(); abort(); } } return; }
int __VERIFIER_nondet_int();
int main() {
  int s = 0;
  switch (__VERIFIER_nondet_int()) { case 1: s = 1; break; default: s = 2; }
  __VERIFIER_assert(s);
  return 0;
}
