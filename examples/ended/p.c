void reach_error() { }
int __VERIFIER_nondet_int();
int main() {
  int size = __VERIFIER_nondet_int();
  int used = __VERIFIER_nondet_int();
  if (size > 0 && used >= size) {
    reach_error();
  }
  return 0;
}
