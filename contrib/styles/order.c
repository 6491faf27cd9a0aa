extern void abort(void);
void reach_error() {}
void __VERIFIER_assert(int cond) { if (!(cond)) { ERROR: { reach_error(); abort(); } } return; }
int n;
int f() { n++; return n; }
int main() {
  int x = f() + f();
  return x;
}
