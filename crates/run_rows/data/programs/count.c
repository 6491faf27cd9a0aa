void reach_error() { }
int main() {
  int i = 0;
  while (i < 3) {
    i = i + 1;
    i;
  }
  reach_error();
  return 0;
}
