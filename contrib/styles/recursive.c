extern void abort(void);
void reach_error() {}
void __VERIFIER_assert(int cond) { if (!(cond)) { ERROR: { reach_error(); abort(); } } return; }
int fib(int n) { if (n < 2) { return n; } else { return fib(n - 1) + fib(n - 2); } }
int main() {
  __VERIFIER_assert(fib(5) == 5);
  return 0;
}
