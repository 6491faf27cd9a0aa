void reach_error() { }
int __VERIFIER_nondet_int();
int main() {
  int n = __VERIFIER_nondet_int();
  int i = 0;
  while (i < n) {
    i = i + 1;
  }
  if (i == 1000) {
    reach_error();
  }
  return 0;
}
