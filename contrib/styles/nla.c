extern void abort(void);
void reach_error() {}
void __VERIFIER_assert(int cond) { if (!(cond)) { ERROR: { reach_error(); abort(); } } return; }
int __VERIFIER_nondet_int();
void assume_abort_if_not(int cond) { if (!cond) { abort(); } }
int main() {
  int n = __VERIFIER_nondet_int();
  assume_abort_if_not(n >= 0 && n <= 100);
  int i = 0, s = 0;
  while (i < n) { i++; s += i; }
  __VERIFIER_assert(2 * s == n * (n + 1));
  return 0;
}
