void reach_error() { }
int __VERIFIER_nondet_int();
unsigned char __VERIFIER_nondet_uchar();
int main() {
  int n = __VERIFIER_nondet_int();
  int sum = 0;
  for (int i = 0; i < n; i++) {
    sum = sum + __VERIFIER_nondet_uchar();
  }
  if (sum == 300) {
    reach_error();
  }
  return 0;
}
