int __VERIFIER_nondet_int();
int main() {
  int x = __VERIFIER_nondet_int();
  x + 1;
  return 0;
}
