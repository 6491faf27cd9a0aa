extern void abort(void);
void reach_error() {}
void __VERIFIER_assert(int cond) { if (!(cond)) { ERROR: { reach_error(); abort(); } } return; }
int main() {
  int x = 1;
  int *p = &x;
  __VERIFIER_assert(*p == 1);
  return 0;
}
