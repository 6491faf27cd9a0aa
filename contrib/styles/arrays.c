extern void abort(void);
void reach_error() {}
void __VERIFIER_assert(int cond) { if (!(cond)) { ERROR: { reach_error(); abort(); } } return; }
int a[16];
int main() {
  int i;
  for (i = 0; i < 16; i++) { a[i] = i; }
  __VERIFIER_assert(a[3] == 3);
  return 0;
}
