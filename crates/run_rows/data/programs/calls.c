void reach_error() { }
void h() { }
int main() {
  int x = 0;
  h();
  if (x == 1) {
    reach_error();
  }
  reach_error();
  return 0;
}
