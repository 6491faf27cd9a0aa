extern void abort(void);
void reach_error() {}
void __VERIFIER_assert(int cond) { if (!(cond)) { ERROR: { reach_error(); abort(); } } return; }
int main() {
  int x = 0;
  again: x++;
  if (x < 3) goto again;
  return 0;
}
