void reach_error() { }
short a[3];
unsigned long y;
int main() {
  int x = -1;
  a[1] = 70000;
  {
    unsigned char x = 200;
    x;
  }
  x;
  reach_error();
  return 0;
}
