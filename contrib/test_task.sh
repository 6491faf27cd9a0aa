#!/usr/bin/env bash
# Tries witval-task: a witness that states another data model or language than the task gets no verdict, by `validate`
# and in the viewer.
. "$(dirname "$(readlink -f "$0")")/testing.sh"
files=(--program p.c --property unreach.prp --witness w.yml)
confirmed=$(cat "$top/examples/first/answer")

# answers WHAT STATUS FIRST-LINE WORDS..
answers() {
  local what=$1 wanted=$2 first=$3
  shift 3
  run "$task" "$@"
  same "$what: status" "$status" "$wanted"
  same "$what: reply" "${found%%$'\n'*}" "$first"
}

answers 'the same model' 0 'violation confirmed' --data-model ILP32 validate "${files[@]}"
same 'the whole answer' "$found" "$confirmed"
answers 'model and language' 0 'violation confirmed' --data-model=ILP32 --language=C validate "${files[@]}"
answers 'no options' 0 'violation confirmed' validate "${files[@]}"
answers 'another model' 3 'refused task-model "ILP32"' --data-model LP64 validate "${files[@]}"
answers 'another model, by =' 3 'refused task-model "ILP32"' --data-model=LP64 validate --program=p.c --property=unreach.prp --witness=w.yml
answers 'another model in the viewer' 3 'refused task-model "ILP32"' --data-model LP64 view "${files[@]}"
answers 'the viewer' 0 'violation confirmed' --data-model ILP32 view "${files[@]}"
answers 'an option of the module' 0 'violation confirmed' --data-model ILP32 --name-property validate "${files[@]}"
for it in LP32 '' ilp32 'ILP32 ' $'ILP32\nLP64' -; do answers "no data model: $it" 7 '' --data-model "$it" validate "${files[@]}"; done
answers 'no value' 7 '' --data-model
answers 'another language' 7 '' --language Java validate "${files[@]}"
answers 'a list in the viewer' 7 '' --data-model LP64 view --list list
answers 'a list by =' 7 '' --data-model LP64 view --list=list

answers 'another model, as JSON' 3 '{"answer":"refused","code":"task-model","detail":"\"ILP32\""}' --data-model LP64 validate "${files[@]}" --json
sed 's/data_model:.*/data_model: "a \\\\ \\" \\t b"/' w.yml >stated.yml
answers 'any text' 3 'refused task-model "a \\ \" \t b"' --data-model LP64 validate "${files[@]:0:5}" stated.yml
answers 'any text, as JSON' 3 '{"answer":"refused","code":"task-model","detail":"\"a \\\\ \\\" \\t b\""}' --data-model LP64 validate --json "${files[@]:0:5}" stated.yml
answers 'no witness, as JSON' 4 '{"answer":"fault","detail":"read witness"}' --data-model LP64 validate "${files[@]:0:5}" nosuch.yml --json

# a wrong `true`: in LP64 the sum can't overflow, in ILP32 it can
cat >long.c <<'C'
long __VERIFIER_nondet_long();
int main() {
  long x = __VERIFIER_nondet_long();
  if (x >= 0 && x <= 2147483647) {
    x = x + 1;
  }
  return 0;
}
C
echo 'CHECK( init(main()), LTL(G ! overflow) )' >overflow.prp
cat >long.yml <<YML
- entry_type: invariant_set
  metadata:
    format_version: "2.0"
    uuid: 01234567-89ab-4cde-8f01-23456789abcd
    creation_time: 2026-11-29T12:00:00Z
    producer: {name: hand, version: "1"}
    task: {input_files: [long.c], input_file_hashes: {long.c: $(sha256sum <long.c | cut -c1-64)}, specification: "G ! overflow", data_model: LP64, language: C}
  content: []
YML
lies=(validate --program long.c --property overflow.prp --witness long.yml)
answers 'LP64 alone' 0 'correctness confirmed' "${lies[@]}"
answers 'LP64 about a task of LP64' 0 'correctness confirmed' --data-model LP64 "${lies[@]}"
answers 'LP64 about a task of ILP32' 3 'refused task-model "LP64"' --data-model ILP32 "${lies[@]}"
sed 's/LP64/ILP32/' long.yml >other.yml
answers 'ILP32 about it' 1 'correctness not confirmed' --data-model ILP32 "${lies[@]:0:6}" other.yml

# witnesses that can't be compared, or read
cat w.yml w.yml >twice.yml
answers 'two entries' 3 'refused task-model "ILP32"' --data-model LP64 validate "${files[@]:0:5}" twice.yml
printf 'no: yaml: [' >bad.yml
answers 'no YAML' 3 'refused yaml-grammar' --data-model ILP32 validate "${files[@]:0:5}" bad.yml
answers 'no witness' 4 'fault read witness' --data-model ILP32 validate "${files[@]:0:5}" nosuch.yml
answers 'a folder' 4 'fault read witness' --data-model ILP32 validate "${files[@]:0:5}" .
mkfifo pipe
answers 'a pipe' 7 '' --data-model ILP32 validate "${files[@]:0:5}" pipe
answers 'a device' 7 '' --data-model ILP32 validate "${files[@]:0:5}" /dev/zero
answers 'words without a witness' 7 'refused usage' --data-model ILP32 validate --program p.c
odd=$'\u202ew\n \'"$x.yml\n'
cp w.yml "$odd"
answers 'a name with bidi marks and line feeds' 3 'refused task-model "ILP32"' --data-model LP64 validate "${files[@]:0:5}" "$odd"
answers 'that name, the same model' 0 'violation confirmed' --data-model ILP32 validate "${files[@]:0:5}" "$odd"
ln -s "$task" "$room/linked"
task=$room/linked
answers 'by a link' 0 'violation confirmed' --data-model ILP32 validate "${files[@]}"
told witval-task
