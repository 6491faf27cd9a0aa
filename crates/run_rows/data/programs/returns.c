void reach_error() { }
int minus() { return -1; }
int least() { return -2147483647 - 1; }
int none() { }
int main() {
  minus();
  least();
  none();
  reach_error();
  return 0;
}
