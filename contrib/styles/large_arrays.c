extern void abort(void);
void reach_error() {}
void __VERIFIER_assert(int cond) { if (!(cond)) { ERROR: { reach_error(); abort(); } } return; }
int main() {
  int a[100000];
  int i;
  for (i = 0; i < 100000; i++) { a[i] = 42; }
  __VERIFIER_assert(a[3] == 42);
  return 0;
}
