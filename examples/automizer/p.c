extern int __VERIFIER_nondet_int(void);
int main(void) {
  int i = __VERIFIER_nondet_int();
  int j = 1;
  if (i > 0) {
    j = j - i;
    j = i * 2;
  }
  return j;
}
