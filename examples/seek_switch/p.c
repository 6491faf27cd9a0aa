extern int __VERIFIER_nondet_int(void);
void reach_error(void) {}
int main(void) {
  int state = 0;
  for (int turn = 0; turn < 3; turn++) {
    switch (state) {
      case 0:
        if (__VERIFIER_nondet_int() == 7) { state = 1; }
        break;
      case 1:
        state = 0;
        if (__VERIFIER_nondet_int() == -1) { state = 2; }
        break;
      default:
        reach_error();
    }
  }
  return 0;
}
