extern void abort(void);
extern unsigned int __VERIFIER_nondet_uint(void);
void reach_error(void) {}
void __VERIFIER_assert(int cond) {
  if (!cond) {
    ERROR: { reach_error(); abort(); }
  }
  return;
}
int main(void) {
  unsigned int n = __VERIFIER_nondet_uint();
  unsigned int sum = 0;
  for (unsigned int i = 0; i <= n; i++) {
    sum += i;
  }
  __VERIFIER_assert(sum != 6);
  return 0;
}
