extern void abort(void);
void reach_error() { }
int __VERIFIER_nondet_int();
unsigned char __VERIFIER_nondet_uchar();
int g = 3; int a[4] = {1, 2, 3}; short s; unsigned long long u = 5; char c = 120; _Bool b;
void touch(int k) { if (k) { g += k; return; } g--; }
int noval(int k) { if (k > 2) { int z = k; return z + 1; } }
int fact(int n) { if (n <= 1) return 1; return n * fact(n - 1); }
int loops(int n) {
  int i, sum = 0;
  for (i = 0; i < n; i++) { if (i == 3) continue; { int t = i * 2; if (t > 8) break; sum += t; } }
  do { sum--; if (sum % 2) { int q = sum; continue; } } while (sum > 10);
  for (int j = 0, m = 2; ; j++, m *= 2) { int w[2]; w[0] = j; if (w[0] > 2) { int r = m; return sum + r; } a[j & 3] += m; }
}
int main() {
  int x = __VERIFIER_nondet_int(), y;
  unsigned char h = __VERIFIER_nondet_uchar();
  y = x > 0 && h > 2 || g == 3 ? (touch(x), loops(6)) : fact(5);
  a[x & 3] = y++; a[1]++; --a[2]; s = a[1] ? (char)300 : -1;
  u = u * 3 - (unsigned)y; u <<= 2; c++; c += 10; b = y;
  L: while (y > 0) { y -= 5; if (!(y % 3)) { int t; t = ~y; a[0] ^= t; } else ; }
  touch(0); (void)fact(4); fact(3);
  x = -x; x = +x; b = !x;
  noval(3);
  { int z = a[x & 3] = 7, k = z << 1; s = z, k; }
  x = fact(6) / 2 % 7 >> 1;
  for (;;) { if (x++ > 4) break; ; }
  int q[5] = {1, x}; long w;
  for (int k = 0; k < 5; k++) { do { if (q[k] < 0) break; if (k == 1) { long long p = q[k]; u += p; continue; } q[k] -= 2; } while (0 || q[k] > 0 ? x-- > 0 : 0); }
  if (a[0] & 1) { y = noval(4) + a[x & 3] + (w > 3 ? 1 : q[2]--); } else abort();
  if (x == 5) return y;
  while (1) { if (y++ > 3) { int r = y; { int r2 = r; if (r2) break; } } }
  reach_error();
  return y;
}
