extern unsigned int __VERIFIER_nondet_uint(void);
void reach_error(void) {}
int main(void) {
  unsigned int x = __VERIFIER_nondet_uint();
  unsigned int low = x & ~(x - 1U);
  unsigned int swapped = (x >> 16) | (x << 16);
  if ((x ^ low) == 0U && swapped == 0x80000000U) {
    reach_error();
  }
  return 0;
}
