extern void abort(void);
void reach_error() {}
void __VERIFIER_assert(int cond) { if (!(cond)) { ERROR: { reach_error(); abort(); } } return; }
int __VERIFIER_nondet_int();
int main() {
  int i = 0, n = 10;
  while (i < n) { i++; }
  __VERIFIER_assert(i == n);
  return 0;
}
