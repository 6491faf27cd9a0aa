extern void abort(void);
void reach_error() {}
void __VERIFIER_assert(int cond) { if (!(cond)) { ERROR: { reach_error(); abort(); } } return; }
extern int printf(const char *, ...);
int main() {
  printf("x");
  return 0;
}
