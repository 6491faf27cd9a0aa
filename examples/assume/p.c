extern void abort(void);
void assume_abort_if_not(int cond) {
  if (!cond) { abort(); }
}
extern int __VERIFIER_nondet_int(void);
int main(void) {
  int a = __VERIFIER_nondet_int();
  int b = __VERIFIER_nondet_int();
  assume_abort_if_not(a > 0 && b > 0);
  int mean = (a + b) / 2;
  return mean > 0;
}
