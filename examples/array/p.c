extern int __VERIFIER_nondet_int(void);
void reach_error(void) {}
int main(void) {
  int a[3] = { 0 };
  int max = 0;
  for (int i = 0; i < 3; i++) {
    a[i] = __VERIFIER_nondet_int();
    if (a[i] > max) {
      max = a[i];
    }
  }
  if (a[0] != max && a[1] != max && a[2] != max) {
    reach_error();
  }
  return 0;
}
