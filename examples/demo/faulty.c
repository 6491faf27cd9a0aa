void reach_error() { }
int __VERIFIER_nondet_int();
int main() {
  int x1 = 0;
  while (x1 < 65) {
    x1 = x1 + 1;
  }
  if (x1 != 65) {
    reach_error();
  }
  int x2 = 0;
  while (x2 < 7) {
    x2 = x2 + 1;
  }
  if (x2 != 7) {
    reach_error();
  }
  int x3 = 0;
  while (x3 < 69) {
    x3 = x3 + 1;
  }
  if (x3 != 69) {
    reach_error();
  }
  int x4 = 0;
  while (x4 < 75) {
    x4 = x4 + 1;
  }
  if (x4 != 75) {
    reach_error();
  }
  int x5 = 0;
  while (x5 < 32) {
    x5 = x5 + 1;
  }
  if (x5 != 32) {
    reach_error();
  }
  int x6 = 0;
  while (x6 < 66) {
    x6 = x6 + 1;
  }
  if (x6 != 66) {
    reach_error();
  }
  int x7 = 0;
  while (x7 < 35) {
    x7 = x7 + 1;
  }
  if (x7 != 35) {
    reach_error();
  }
  int x8 = 0;
  while (x8 < 91) {
    x8 = x8 + 1;
  }
  if (x8 != 91) {
    reach_error();
  }
  int x9 = 0;
  while (x9 < 86) {
    x9 = x9 + 1;
  }
  if (x9 != 86) {
    reach_error();
  }
  int x10 = 0;
  while (x10 < 14) {
    x10 = x10 + 1;
  }
  if (x10 != 14) {
    reach_error();
  }
  int x11 = 0;
  while (x11 < 14) {
    x11 = x11 + 1;
  }
  if (x11 != 14) {
    reach_error();
  }
  int x12 = 0;
  while (x12 < 64) {
    x12 = x12 + 1;
  }
  if (x12 != 64) {
    reach_error();
  }
  int x13 = 0;
  while (x13 < 31) {
    x13 = x13 + 1;
  }
  if (x13 != 31) {
    reach_error();
  }
  int x14 = 0;
  while (x14 < 75) {
    x14 = x14 + 1;
  }
  if (x14 != 75) {
    reach_error();
  }
  int x15 = 0;
  while (x15 < 50) {
    x15 = x15 + 1;
  }
  if (x15 != 50) {
    reach_error();
  }
  int x16 = 0;
  while (x16 < 23) {
    x16 = x16 + 1;
  }
  if (x16 != 23) {
    reach_error();
  }
  int x17 = 0;
  while (x17 < 86) {
    x17 = x17 + 1;
  }
  if (x17 != 86) {
    reach_error();
  }
  int x18 = 0;
  while (x18 < 55) {
    x18 = x18 + 1;
  }
  if (x18 != 55) {
    reach_error();
  }
  int x19 = 0;
  while (x19 < 51) {
    x19 = x19 + 1;
  }
  if (x19 != 51) {
    reach_error();
  }
  int x20 = 0;
  while (x20 < 61) {
    x20 = x20 + 1;
  }
  if (x20 != 61) {
    reach_error();
  }
  int x21 = 0;
  while (x21 < 53) {
    x21 = x21 + 1;
  }
  if (x21 != 53) {
    reach_error();
  }
  int x22 = 0;
  while (x22 < 68) {
    x22 = x22 + 1;
  }
  if (x22 != 68) {
    reach_error();
  }
  int x23 = 0;
  while (x23 < 80) {
    x23 = x23 + 1;
  }
  if (x23 != 80) {
    reach_error();
  }
  int x24 = 0;
  while (x24 < 59) {
    x24 = x24 + 1;
  }
  if (x24 != 59) {
    reach_error();
  }
  int x25 = 0;
  while (x25 < 62) {
    x25 = x25 + 1;
  }
  if (x25 != 62) {
    reach_error();
  }
  int x26 = 0;
  while (x26 < 25) {
    x26 = x26 + 1;
  }
  if (x26 != 25) {
    reach_error();
  }
  int x27 = 0;
  while (x27 < 40) {
    x27 = x27 + 1;
  }
  if (x27 != 40) {
    reach_error();
  }
  int x28 = 0;
  while (x28 < 74) {
    x28 = x28 + 1;
  }
  if (x28 != 74) {
    reach_error();
  }
  int x29 = 0;
  while (x29 < 75) {
    x29 = x29 + 1;
  }
  if (x29 != 75) {
    reach_error();
  }
  int x30 = 0;
  while (x30 < 11) {
    x30 = x30 + 1;
  }
  if (x30 != 11) {
    reach_error();
  }
  int x31 = 0;
  while (x31 < 74) {
    x31 = x31 + 1;
  }
  if (x31 != 74) {
    reach_error();
  }
  int x32 = 0;
  while (x32 < 11) {
    x32 = x32 + 1;
  }
  if (x32 != 11) {
    reach_error();
  }
  int x33 = 0;
  while (x33 < 19) {
    x33 = x33 + 1;
  }
  if (x33 != 19) {
    reach_error();
  }
  int x34 = 0;
  while (x34 < 91) {
    x34 = x34 + 1;
  }
  if (x34 != 91) {
    reach_error();
  }
  int x35 = 0;
  while (x35 < 49) {
    x35 = x35 + 1;
  }
  if (x35 != 49) {
    reach_error();
  }
  int x36 = 0;
  while (x36 < 68) {
    x36 = x36 + 1;
  }
  if (x36 != 68) {
    reach_error();
  }
  int x37 = 0;
  while (x37 < 56) {
    x37 = x37 + 1;
  }
  if (x37 != 56) {
    reach_error();
  }
  int x38 = 0;
  while (x38 < 33) {
    x38 = x38 + 1;
  }
  if (x38 != 33) {
    reach_error();
  }
  int x39 = 0;
  while (x39 < 25) {
    x39 = x39 + 1;
  }
  if (x39 != 25) {
    reach_error();
  }
  int x40 = 0;
  while (x40 < 9) {
    x40 = x40 + 1;
  }
  if (x40 != 9) {
    reach_error();
  }
  int y = __VERIFIER_nondet_int();
  if (y == 7) {
    reach_error();
  }
  return 0;
}
