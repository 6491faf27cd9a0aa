/* This file is part of witval, a validator of software verification witnesses.
 *
 * SPDX-License-Identifier: Apache-2.0
 *
 * The inputs of a C program while a fuzzer runs it (docs/FUZZERS.md). `build`, beside this file, compiles a program
 * with it; the program's main, abort and exit are called program_main, program_abort and program_exit then.
 *
 * An input takes as many bytes as its type has, little end first, from standard input or from libFuzzer's buffer, and
 * is 0 after their end. Where the environment has WITVAL_VALUES, the file of that name holds the values that the last
 * run drew, a line each. */
#include <fcntl.h>
#include <setjmp.h>
#include <stdio.h>
#include <stdlib.h>
#include <string.h>
#include <unistd.h>

#ifdef WITVAL_KLEE

/* KLEE makes the values, and keeps them under the names of the inputs; a violation is a report of its own. */
void klee_make_symbolic(void *address, size_t size, const char *name);
void klee_report_error(const char *file, int line, const char *message, const char *suffix) __attribute__((noreturn));

static void draw(const char *name, void *value, size_t size) { klee_make_symbolic(value, size, name); }

static void note(const char *format, long long value) { (void)format, (void)value; }

void reach_error(void) { klee_report_error("inputs.c", 0, "reach_error is called", "violated.err"); }

#else

/* A run that draws more than this ends: a witness, which has at most 1 MiB, has no room for more. */
#define MOST_DRAWS 4000

static const unsigned char *bytes;
static size_t left;
static int draws;
static int values = -1;
static jmp_buf end;

/* The run ends here, and nothing is wrong. */
static void end_run(void) { longjmp(end, 1); }

static void draw(const char *name, void *value, size_t size) {
  (void)name;
  if (++draws > MOST_DRAWS) end_run();
  size_t taken = size < left ? size : left;
  memcpy(value, bytes, taken);
  bytes += taken;
  left -= taken;
}

/* Written at once, so that a crash loses none. */
static void note(const char *format, long long value) {
  char line[32];
  int size = snprintf(line, sizeof line, format, value);
  if (values >= 0 && write(values, line, size) != size) _exit(2);
}

void program_abort(void) { end_run(); }

void program_exit(int status) {
  (void)status;
  end_run();
}

/* What is violated: reach_error is called, or else an operator overflows, where the compiler has the program trap. */
void reach_error(void) {
#ifdef WITVAL_OVERFLOW
  end_run();
#else
  abort();
#endif
}

/* A cell without initializer holds 0: in a copy of the program, `int x = witval_cell();` in place of `int x;`. */
int witval_cell(void) {
  note("%lld\n", 0);
  return 0;
}

int program_main(void);

static void run(const unsigned char *given, size_t size) {
  const char *name = getenv("WITVAL_VALUES");
  if (values >= 0) close(values);
  values = name ? open(name, O_WRONLY | O_CREAT | O_TRUNC, 0666) : -1;
  if (name && values < 0) _exit(2);
  bytes = given;
  left = size;
  draws = 0;
  if (!setjmp(end)) program_main();
}

#ifdef WITVAL_LIBFUZZER

/* libFuzzer has all runs in one process: each begins with the program's variables as the first one found them. `build`
 * puts them into sections of these names, where there are any. */
#define SECTION(name)                                                      \
  extern unsigned char __start_##name[] __attribute__((weak));             \
  extern unsigned char __stop_##name[] __attribute__((weak));              \
  static void reset_##name(void) {                                         \
    static unsigned char *first;                                           \
    size_t size = __stop_##name - __start_##name;                          \
    if (size && !first) first = memcpy(malloc(size), __start_##name, size); \
    else if (size) memcpy(__start_##name, first, size);                    \
  }
SECTION(program_data)
SECTION(program_bss)

int LLVMFuzzerTestOneInput(const unsigned char *given, size_t size) {
  reset_program_data();
  reset_program_bss();
  run(given, size);
  return 0;
}

#else

int main(void) {
  static unsigned char given[1 << 20];
  run(given, fread(given, 1, sizeof given, stdin));
  return 0;
}

#endif
#endif

#define INPUT(name, type, format)         \
  type __VERIFIER_nondet_##name(void) {   \
    type value = 0;                       \
    draw(#name, &value, sizeof value);    \
    note(format, (long long)value);       \
    return value;                         \
  }
INPUT(char, char, "%lld\n")
INPUT(uchar, unsigned char, "%lld\n")
INPUT(short, short, "%lld\n")
INPUT(ushort, unsigned short, "%lld\n")
INPUT(int, int, "%lld\n")
INPUT(uint, unsigned int, "%lld\n")
INPUT(long, long, "%lld\n")
INPUT(ulong, unsigned long, "%llu\n")
INPUT(longlong, long long, "%lld\n")
INPUT(ulonglong, unsigned long long, "%llu\n")

/* The lowest bit of a byte. */
_Bool __VERIFIER_nondet_bool(void) {
  unsigned char value = 0;
  draw("bool", &value, sizeof value);
  note("%lld\n", value & 1);
  return value & 1;
}
