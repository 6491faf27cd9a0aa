int __VERIFIER_nondet_int();
int main() {
  int x = __VERIFIER_nondet_int();
  if (x > 2147483646) { return 0; }
  return x + 1;
}
