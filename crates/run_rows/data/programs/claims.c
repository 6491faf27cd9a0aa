int g;
int same(int a) {
  return a;
}
int main() {
  int x = 0;
  for (int i = 0; i < 3; i++) {
    long x = i;
    g = x;
  }
  while (g < 3) g++; while (g < 5) g++;
  do { g = 9; } while (g < 9);
  return 0;
}
int late;
