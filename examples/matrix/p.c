extern unsigned char __VERIFIER_nondet_uchar(void);
void reach_error(void) {}
void __VERIFIER_assert(int cond) { if (!cond) { reach_error(); } }
unsigned char a[2][3] = { { 1, 2, 3 }, { 4 } };
int main(void) {
  int i = 0;
  while (i < 4) {
    unsigned char row = __VERIFIER_nondet_uchar();
    unsigned char column = __VERIFIER_nondet_uchar();
    if (row < 2 && column < 3 && a[row][column] < 9) {
      a[row][column]++;
    }
    i++;
  }
  __VERIFIER_assert(a[0][0] <= 9 && a[1][2] <= 9);
  return 0;
}
