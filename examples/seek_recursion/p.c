extern int __VERIFIER_nondet_int(void);
void reach_error(void) {}
int divisor(int a, int b) {
  if (b == 0) {
    return a;
  }
  return divisor(b, a % b);
}
int main(void) {
  int a = __VERIFIER_nondet_int();
  int b = __VERIFIER_nondet_int();
  if (b > 10 && a > b && a < 20 && divisor(a, b) == 6) {
    reach_error();
  }
  return 0;
}
