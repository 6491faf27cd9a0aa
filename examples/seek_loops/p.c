extern int __VERIFIER_nondet_int(void);
void reach_error(void) {}
int main(void) {
  int rows = __VERIFIER_nondet_int();
  int columns = __VERIFIER_nondet_int();
  int cells = 0;
  for (int row = 0; row < rows; row++) {
    for (int column = 0; column < columns; column++) {
      cells = cells + 1;
    }
  }
  if (rows < columns && cells == 15) {
    reach_error();
  }
  return 0;
}
