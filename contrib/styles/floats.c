extern void abort(void);
void reach_error() {}
void __VERIFIER_assert(int cond) { if (!(cond)) { ERROR: { reach_error(); abort(); } } return; }
int main() {
  float x = 1.0f;
  __VERIFIER_assert(x > 0.0f);
  return 0;
}
