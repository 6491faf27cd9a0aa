extern int __VERIFIER_nondet_int(void);
void reach_error(void) {}
int main(void) {
  int size = __VERIFIER_nondet_int();
  int used = __VERIFIER_nondet_int();
  if (size > 2 && size < 100 && used <= 6 && used >= 2 * size) {
    reach_error();
  }
  return 0;
}
