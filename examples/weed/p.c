void reach_error() { }
int main() {
  int i = 0;
  int s = 0;
  while (i < 10) {
    int j = 0;
    while (j < 10) {
      s = s + 1;
      j = j + 1;
    }
    i = i + 1;
  }
  if (s != 100) {
    reach_error();
  }
  return 0;
}
