extern int __VERIFIER_nondet_int(void);
void reach_error(void) {}
int main(void) {
  int state = 0;
  int open = 0;
  while (1) {
    int input = __VERIFIER_nondet_int();
    switch (state) {
      case 0:
        if (input == 1) { state = 1; }
        break;
      case 1:
        open = 1;
        state = 2;
        if (input < 0) { continue; }
      case 2:
        open = 0;
        state = 0;
        break;
      default:
        reach_error();
    }
    if (open && state != 2) { reach_error(); }
  }
  return 0;
}
