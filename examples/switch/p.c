extern int __VERIFIER_nondet_int(void);
void reach_error(void) {}
int main(void) {
  int state = 0;
  for (int turn = 0; turn < 3; turn++) {
    int input = __VERIFIER_nondet_int();
    switch (state) {
      case 0:
        if (input == 7) { state = 1; }
        break;
      case 1:
        state = 0;
        if (input < 0) { state = 2; }
        break;
      default:
        reach_error();
    }
  }
  return 0;
}
