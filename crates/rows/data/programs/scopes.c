int g;
void quiet(int a) { g = a; }
int __VERIFIER_nondet_int(void);
int main() {
  int x = __VERIFIER_nondet_int(); g = 1; quiet(x);
  if (x) { int y = 2; g = y; } else g = 3;
  for (int i = 0; i < 3; i++) g = g + i;
  quiet(0); quiet(1);
  g = x ? 4 : 5;
  return 0;
}
void stop() { g = (reach_error(), 1); }
