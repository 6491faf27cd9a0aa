void reach_error() { }
int __VERIFIER_nondet_int();
int main() {
  int n = __VERIFIER_nondet_int();
  int i = 0;
  int sum = 0;
  while (i < n) {
    sum = sum + i;
    i = i + 1;
  }
  if (sum == 10) {
    reach_error();
  }
  return 0;
}
