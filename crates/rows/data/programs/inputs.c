int plain(void) { return 1; }
int main() {
  unsigned char small = __VERIFIER_nondet_uchar();
  small = plain();
  int x, y = 0;
  x = __VERIFIER_nondet_int();
  y = x;
  int z = __VERIFIER_nondet_int();
  y = z;
  int one = __VERIFIER_nondet_int(), two = 0;
  x += __VERIFIER_nondet_int();
  x = 1 + __VERIFIER_nondet_int();
  { x = __VERIFIER_nondet_int(); }
  return 0;
}
