extern void abort(void);
void reach_error() {}
void __VERIFIER_assert(int cond) { if (!(cond)) { ERROR: { reach_error(); abort(); } } return; }
int __VERIFIER_nondet_int();
int main() {
  int n = __VERIFIER_nondet_int();
  int a[n];
  a[0] = 1;
  return 0;
}
