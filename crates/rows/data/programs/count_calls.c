void reach_error() { }
int g;
void h() { g = g + 1; }
void f() { h(); }
int main() {
  int i = 0;
  while (i < 3) {
    f();
    i = i + 1;
  }
  if (g != 0) {
    reach_error();
  }
  return 0;
}
