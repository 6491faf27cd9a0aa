extern void abort(void);
void reach_error() {}
void __VERIFIER_assert(int cond) { if (!(cond)) { ERROR: { reach_error(); abort(); } } return; }
int main() {
  int m[4][8];
  int i, j;
  for (i = 0; i < 4; i++) { for (j = 0; j < 8; j++) { m[i][j] = i + j; } }
  __VERIFIER_assert(m[3][7] == 10);
  return 0;
}
