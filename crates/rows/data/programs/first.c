void reach_error() { }
int __VERIFIER_nondet_int();
int main() {
  int x = __VERIFIER_nondet_int();
  if (x == 5) {
    reach_error();
  }
  return 0;
}
