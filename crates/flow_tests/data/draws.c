int __VERIFIER_nondet_int();
int twice(int a, int b) { return a + b; }
int main() { int i = 0; unsigned t = 7; while (i < 12) { int r = __VERIFIER_nondet_int(); int z[3]; t = t * 31u + (unsigned)(r % 5 + z[1]); i = twice(i, 1); if (t % 7 == 3 && r != 4) { for (int j = i; j > 0; --j) if (j % 2) { int n = j; continue; } else t ^= j; } } return t / (i - 12 + 1); }
