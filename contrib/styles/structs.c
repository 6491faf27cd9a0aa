extern void abort(void);
void reach_error() {}
void __VERIFIER_assert(int cond) { if (!(cond)) { ERROR: { reach_error(); abort(); } } return; }
struct s { int a; };
int main() {
  struct s v;
  v.a = 1;
  return 0;
}
