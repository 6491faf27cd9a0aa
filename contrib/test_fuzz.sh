#!/usr/bin/env bash
# Tries contrib/fuzz: bytes of inputs become values, crashes are those of the property, libFuzzer and AFL++ find some,
# and author makes confirmed witnesses of them. What the machine or the release doesn't have is left out, and named.
. "$(dirname "$(readlink -f "$0")")/testing.sh"
fuzz=$room/witval/contrib/fuzz
ulimit -c 0
without=''
left_out() {
  without+=", without $1"
  echo "left out: $1"
}

# built WHAT WORDS.. CC: the compiler builds it, and nothing is said
built() {
  run env CC="$1" "$fuzz/build" "${@:2}"
  same "$1 builds ${*: -1}" "$status$found$(cat "$room/complaint")" 0
}

# draws WHAT PROGRAM BYTES STATUS VALUES: how a program ends on these bytes, and what it drew
draws() {
  run env WITVAL_VALUES=values bash -c 'printf "$1" | "$2"; exit "${PIPESTATUS[1]}"' - "$3" "$2"
  same "$1: status" "$status" "$4"
  same "$1: values" "$(tr '\n' ' ' <values)" "$5"
}

cat >types.c <<'C'
extern void abort(void);
extern void exit(int);
void reach_error() { }
_Bool __VERIFIER_nondet_bool(); char __VERIFIER_nondet_char(); unsigned char __VERIFIER_nondet_uchar();
short __VERIFIER_nondet_short(); unsigned short __VERIFIER_nondet_ushort(); int __VERIFIER_nondet_int();
unsigned int __VERIFIER_nondet_uint(); long __VERIFIER_nondet_long(); unsigned long __VERIFIER_nondet_ulong();
long long __VERIFIER_nondet_longlong(); unsigned long long __VERIFIER_nondet_ulonglong();
int main() {
  _Bool a = __VERIFIER_nondet_bool();
  char b = __VERIFIER_nondet_char();
  unsigned char c = __VERIFIER_nondet_uchar();
  short d = __VERIFIER_nondet_short();
  unsigned short e = __VERIFIER_nondet_ushort();
  int f = __VERIFIER_nondet_int();
  unsigned int g = __VERIFIER_nondet_uint();
  long h = __VERIFIER_nondet_long();
  unsigned long i = __VERIFIER_nondet_ulong();
  long long j = __VERIFIER_nondet_longlong();
  unsigned long long k = __VERIFIER_nondet_ulonglong();
  if (a && b == -2 && c == 254 && d == -2 && e == 65534 && f == -2 && g == 4294967294) {
    if (h == -2 && i > 9000 && j == -2 && k == 18446744073709551614ULL) { reach_error(); }
    exit(3);
  }
  if (f == 7) { abort(); }
  return 5;
}
C
cat >small.c <<'C'
extern void abort(void);
void reach_error() { }
unsigned char __VERIFIER_nondet_uchar();
int turns;
int read(int least) { return least + turns; }
void assume_abort_if_not(int cond) { if (!cond) { abort(); } }
int main() {
  int sum[2];
  turns = turns + 1;
  assume_abort_if_not(turns == 1 && sum[1] == 0);
  unsigned char x = __VERIFIER_nondet_uchar();
  if (x > 200) {
    unsigned char y = __VERIFIER_nondet_uchar();
    if (y == read(60)) { reach_error(); }
  }
  return 0;
}
C
sed 's/int sum\[2\];/int sum[2] = {witval_cell(), witval_cell()};/' small.c >copy.c
cat >twice.c <<'C'
void reach_error();
int __VERIFIER_nondet_int();
int calls;
int main() {
  calls = calls + 1;
  if (calls == 2) { reach_error(); }
  __VERIFIER_nondet_int();
  return 0;
}
C
cat >endless.c <<'C'
int __VERIFIER_nondet_int();
int main() {
  while (1) { __VERIFIER_nondet_int(); }
}
C
cat >overflow.c <<'C'
void reach_error() { }
int __VERIFIER_nondet_int();
char __VERIFIER_nondet_char();
int main() {
  char how = __VERIFIER_nondet_char();
  int x = __VERIFIER_nondet_int();
  if (how == 1) { x = x + 1; }
  if (how == 2) { x = x << 1; }
  if (how == 3) { reach_error(); }
  return 0;
}
C
twos='-2 254 -2 65534 -2 4294967294 -2 18446744073709551614 -2'
ends='\376\377\377\377' most='\377\377\377\177'
long=$ends'\377\377\377\377'
some='\376\376\376\377\376\377'$ends$ends$long$long$long whole=$some$long
compilers=''
for cc in clang gcc; do
  if ! command -v $cc >/dev/null; then left_out $cc; continue; fi
  compilers+="$cc "
  for it in KLEE LIBFUZZER OVERFLOW NONE; do
    holds "$cc warns of nothing, $it" $cc -O1 -Wall -Wextra -Werror -DWITVAL_$it -c "$fuzz/inputs.c" -o warned.o
  done
  for it in types small copy endless; do built $cc $it.c $cc-$it; done
  built $cc --overflow overflow.c $cc-overflow
  built $cc overflow.c $cc-wrapped
  draws "$cc: all types" ./$cc-types "\\377$whole" 134 "1 $twos 18446744073709551614 "
  draws "$cc: the last one isn't given" ./$cc-types "\\1$some" 0 "1 $twos 0 "
  draws "$cc: no bytes" ./$cc-types '' 0 '0 0 0 0 0 0 0 0 0 0 0 '
  draws "$cc: a half number, then abort" ./$cc-types '\2\0\0\0\0\0\0\7' 0 '0 0 0 0 0 7 0 0 0 0 0 '
  draws "$cc: a violation" ./$cc-small '\311\75more' 134 '201 61 '
  draws "$cc: none" ./$cc-small '\310\75' 0 '200 '
  draws "$cc: cells" ./$cc-copy '\311\75' 134 '0 0 201 61 '
  draws "$cc: an overflow" ./$cc-overflow "\\1$most" 132 '1 2147483647 '
  draws "$cc: an overflow to the left" ./$cc-overflow "\\2$most" 132 '2 2147483647 '
  draws "$cc: reach_error where overflow is asked for" ./$cc-overflow '\3' 0 '3 0 '
  draws "$cc: overflow where reach_error is asked for" ./$cc-wrapped "\\1$most" 0 '1 2147483647 '
  run env WITVAL_VALUES=values ./$cc-endless
  same "$cc: a run without end" "$status $(wc -l <values)" '0 4000'
  run env WITVAL_VALUES=nowhere/values ./$cc-small
  same "$cc: a file that can't be written" "$status" 2
done
run "$fuzz/build" small.c
same 'build without a name to build' "$status" 7

# a file in KLEE's documented format: the magic, version 3, an argument, no symbolic arguments, objects
python3 - <<'PY'
def number(value):
    return value.to_bytes(4, "big")
def text(value):
    return number(len(value)) + value
def case(objects, head=b"KTEST" + number(3) + number(1) + text(b"p.bc") + number(0) + number(0)):
    return head + number(len(objects)) + b"".join(text(name) + text(data) for name, data in objects)
def write(name, data):
    with open(name, "wb") as file:
        file.write(data)
twos = b"\xfe" + b"\xff" * 3
least = b"\0" * 7 + b"\x80"
of_types = [(b"int", twos), (b"uint_1", twos), (b"bool", b"\3"), (b"longlong_12", least)]
whole = case([(b"model_version", b"\1\0\0\0"), *of_types])
write("whole.ktest", whole)
write("old.ktest", case([(b"x", b"\xff\xff")], b"KTEST" + number(1) + number(0)))
write("short.ktest", whole[:-1])
write("newer.ktest", case([], b"KTEST" + number(4) + number(0) + number(0) + number(0)))
write("wide.ktest", case([(b"int", b"\0" * 9)]))
PY
# prints WHAT STATUS VALUES WORDS..
prints() {
  run "$fuzz/ktest-values" "${@:4}"
  same "ktest-values, $1" "$status ${found//$'\n'/ }" "$2 $3"
}
prints 'signs by names' 0 '-2 4294967294 1 -9223372036854775808' whole.ktest
prints 'none' 0 '4294967294 4294967294 3 9223372036854775808' --unsigned whole.ktest
prints 'version 1, all signed' 0 '-1' --signed old.ktest
prints 'a name that says nothing' 1 '' old.ktest
for it in short newer wide nosuch; do prints "$it" 1 '' $it.ktest; done
prints 'another file' 1 '' small.c

# how a program is linked for KLEE, with a stub in KLEE's place: names and sizes of the objects, then the violation
if command -v clang >/dev/null && command -v llvm-link >/dev/null && command -v lli >/dev/null; then
  cat >stub.c <<'C'
#include <stdio.h>
#include <stdlib.h>
void klee_make_symbolic(unsigned char *value, size_t size, const char *name) {
  *value = size == 1 ? 201 : 0;
  printf("%s %zu\n", name, size);
}
void klee_report_error(const char *file, int line, const char *message, const char *suffix) {
  printf("%s\n", suffix);
  exit(9);
}
C
  sed 's/read(60)/read(200)/' small.c >klee.c
  for it in types klee stub; do clang -O0 -w -emit-llvm -c $it.c -o $it.bc; done
  clang -O1 -Wall -Wextra -Werror -DWITVAL_KLEE -emit-llvm -c "$fuzz/inputs.c" -o inputs.bc
  for it in types klee; do
    llvm-link $it.bc -override=inputs.bc stub.bc -o $it-whole.bc 2>complaint || cat complaint
  done
  run lli klee-whole.bc
  same 'KLEE: a violation' "$status ${found//$'\n'/ }" '9 uchar 1 uchar 1 violated.err'
  run lli types-whole.bc
  same 'KLEE: names and sizes' "${found//$'\n'/ }" \
    'bool 1 char 1 uchar 1 short 2 ushort 2 int 4 uint 4 long 8 ulong 8 longlong 8 ulonglong 8'
else
  left_out 'llvm-link and lli'
fi

# authored WHAT PROGRAM PROPERTY [MODEL]: author makes a witness of the values, and it is confirmed
authored() {
  cp values "$1.values"
  if [ -z "$has_author" ]; then return 0; fi
  run "$witval" author --program "$2" --property "$3" --values "$1.values" --model "${4-LP64}"
  same "$1: author" "$status${found%%$'\n'*}" '0- entry_type: "violation_sequence"'
  echo "$found" >"$1.yml"
  run "$witval" validate --program "$2" --property "$3" --witness "$1.yml"
  same "$1: validate" "$status ${found%%$'\n'*}" '0 violation confirmed'
}
echo 'CHECK( init(main()), LTL(G ! overflow) )' >overflow.prp
run "$witval" author --program p.c --property unreach.prp --values /dev/null
has_author=yes
if [ "$status" = 7 ]; then has_author='' && left_out 'author, which the release lacks'; fi
for cc in $compilers; do
  draws "$cc: all types" ./$cc-types "\\377$whole" 134 "1 $twos 18446744073709551614 "
  authored "$cc-types" types.c unreach.prp
  draws "$cc: cells" ./$cc-copy '\311\75' 134 '0 0 201 61 '
  authored "$cc-small" small.c unreach.prp
  draws "$cc: an overflow" ./$cc-overflow "\\1$most" 132 '1 2147483647 '
  authored "$cc-overflow" overflow.c overflow.prp
done

echo 'int main() { return 0; }' >none.c
if gcc -m32 none.c -o none 2>/dev/null; then
  export CFLAGS=-m32
  built gcc types.c ilp32-types
  unset CFLAGS
  draws 'ILP32: all types' ./ilp32-types "\\1\\376\\376\\376\\377\\376\\377$ends$ends$ends$ends$long$long" 134 \
    '1 -2 254 -2 65534 -2 4294967294 -2 4294967294 -2 18446744073709551614 '
  authored ilp32-types types.c unreach.prp ILP32
else
  left_out 'gcc -m32'
fi

echo 'int LLVMFuzzerTestOneInput(const void *data, long size) { return 0; }' >none.c
if clang -fsanitize=fuzzer none.c -o none 2>/dev/null; then
  for it in types copy twice; do built clang --libfuzzer $it.c fuzz-$it; done
  built clang --libfuzzer --overflow overflow.c fuzz-overflow
  run ./fuzz-twice -runs=2000 -seed=1
  same 'libFuzzer: each run begins anew' "$status" 0
  for it in copy overflow; do
    run ./fuzz-$it -seed=1 -max_total_time=60 -exact_artifact_path=crash-$it
    holds "libFuzzer finds a crash of $it.c" test "$status" != 0 -a -s crash-$it
    run env WITVAL_VALUES=values ./fuzz-$it crash-$it
    cp values replayed
    run env WITVAL_VALUES=values bash -c './clang-$0 <crash-$0' $it
    holds "its crash is one of the program: $status" test "$status" = 134 -o "$status" = 132
    same 'with the same values' "$(cat values)" "$(cat replayed)"
    case $it in
      copy) authored libfuzzer-small small.c unreach.prp ;;
      overflow) authored libfuzzer-overflow overflow.c overflow.prp ;;
    esac
  done
else
  left_out libFuzzer
fi

if command -v afl-clang-fast >/dev/null && command -v afl-fuzz >/dev/null; then
  export AFL_I_DONT_CARE_ABOUT_MISSING_CRASHES=1 AFL_SKIP_CPUFREQ=1 AFL_NO_AFFINITY=1
  export AFL_NO_UI=1 AFL_BENCH_UNTIL_CRASH=1 AFL_QUIET=1
  built afl-clang-fast copy.c afl-copy
  mkdir seeds && printf aa >seeds/a
  run timeout 120 afl-fuzz -s 1 -i seeds -o found -- ./afl-copy
  crashes=(found/default/crashes/id*)
  holds 'AFL++ finds a crash' test -s "${crashes[0]}"
  run env WITVAL_VALUES=values bash -c '"$1" <"$2"' - "./${compilers%% *}-copy" "${crashes[0]}"
  same 'its crash is one of the program' "$status" 134
  authored afl-small small.c unreach.prp
else
  left_out AFL++
fi
told "test_fuzz$without"
