#define N 3
extern void abort(void);
void reach_error() {}
void __VERIFIER_assert(int cond) { if (!(cond)) { ERROR: { reach_error(); abort(); } } return; }
int main() {
  __VERIFIER_assert(N == 3);
  return 0;
}
