#!/usr/bin/env bash
# Tries witval-line: one line of JSON for a line of a list, whatever its bytes are and whatever becomes of the
# validator.
. "$(dirname "$(readlink -f "$0")")/testing.sh"
fields='p.c unreach.prp w.yml'

# outcome WHAT OUTCOME STATUS WORDS..
outcome() {
  local what=$1 wanted=$2 ended=$3
  shift 3
  run "$line" "$@"
  same "$what: witval-line's status" "$status$(cat "$room/complaint")" 0
  same "$what: one line" "$(wc -l <<<"$found")" 1
  same "$what: outcome" "$(key "$found" outcome)" "$wanted"
  same "$what: status" "$(key "$found" status)" "$ended"
}

outcome 'a line' judged 0 "$fields"
same 'the reply' "$(python3 -c 'import json, sys; print("\n".join(json.loads(sys.argv[1])["reply"]))' "$found")" "$(cat "$top/examples/first/answer")"
same 'the sums' "$(key "$found" sums)" "$(python3 -c 'import hashlib; print([hashlib.sha256(open(it, "rb").read()).hexdigest() for it in ("p.c", "unreach.prp", "w.yml")])')"
holds 'seconds and megabytes' python3 -c 'import json, sys; it = json.loads(sys.argv[1]); assert 0 < it["seconds"] < 60 and 1 < it["megabytes"] < 200' "$found"
outcome 'tabs' judged 0 $'p.c\tunreach.prp\tw.yml'
outcome 'its data model' judged 0 "$fields ILP32"
same 'the data model is told' "$(key "$found" data_model)" ILP32
outcome 'another data model' judged 3 "$fields LP64"
same 'no verdict' "$(key "$found" reply)" "['refused task-model \"ILP32\"']"
outcome 'no data model' line None "$fields LP32"
for it in '' ' ' 'p.c' 'p.c unreach.prp' "$fields ILP32 more" $'p.c\tunreach.prp\tw.yml\t' $'\n'; do outcome "no line: $it" line None -- "$it"; done
outcome 'no file' judged 4 'p.c unreach.prp nosuch.yml'
outcome 'names that begin with a dash' judged 4 -- '-p.c -u -w'

# bytes
outcome 'a byte order mark' judged 0 $'\ufeff'"$fields"
outcome 'a carriage return' judged 0 "$fields"$'\r'
outcome 'blanks that are not ASCII' line None $'p.c\u00a0unreach.prp\u3000w.yml'
outcome 'blanks of control' line None $'p.c\vunreach.prp\fw.yml'
odd=$'\u202e\u2066 w\n\x01\'"\\$(touch oops)`touch oops`;.yml'
cp w.yml "$odd"
outcome 'a name with line feeds, quotes and bidi marks' judged 0 $'p.c\tunreach.prp\t'"$odd"
outcome 'a name that is not UTF-8' line 7 $'p.c unreach.prp \xff\xfe'
holds 'the answer is ASCII' bash -c '! LC_ALL=C grep -q "[^ -~]" <<<"$1"' - "$found"
outcome 'a line that is too long' line None "$(head -c 20000 /dev/zero | tr '\0' x) b c"
holds 'nothing was run' [ ! -e oops ]

# files that are none
mkfifo pipe
outcome 'an endless program' judged 3 '/dev/zero unreach.prp w.yml'
same 'it has no sum' "$(key "$found" sums | cut -c1-6)" '[None,'
outcome 'a pipe that gives nothing' time None --seconds 1 'pipe unreach.prp w.yml'
outcome 'a folder' judged 4 '. unreach.prp w.yml'
truncate -s 1T huge
outcome 'a file of a terabyte' judged 3 'huge unreach.prp w.yml'

# about WHAT: a witness about this program, of an invariant set without invariants
about() {
  cat <<YML
- entry_type: invariant_set
  metadata:
    format_version: "2.0"
    uuid: 01234567-89ab-4cde-8f01-23456789abcd
    creation_time: 2026-11-29T12:00:00Z
    producer: {name: hand, version: "1"}
    task: {input_files: [$1], input_file_hashes: {$1: $(sha256sum <"$1" | cut -c1-64)}, specification: "G ! call(reach_error())", data_model: ILP32, language: C}
  content: []
YML
}

# limits, met by the validator itself
cat >hard.c <<'C'
void reach_error() { }
unsigned long long __VERIFIER_nondet_ulonglong();
int main() {
  unsigned long long x = __VERIFIER_nondet_ulonglong();
  unsigned long long y = __VERIFIER_nondet_ulonglong();
  unsigned long long z = __VERIFIER_nondet_ulonglong();
  if (x * (y + z) != x * y + x * z) {
    reach_error();
  }
  return 0;
}
C
about hard.c >hard.yml
outcome 'processor time' time None --seconds 1 'hard.c unreach.prp hard.yml'
{ echo 'int main() {'; seq 30000 | sed 's/.*/  int v& = &;/'; echo '  return 0; }'; } >big.c
about big.c >big.yml
outcome 'memory' memory 6 --megabytes 50 'big.c unreach.prp big.yml'
outcome 'more memory' judged 3 --megabytes 400 'big.c unreach.prp big.yml'
printf 'big.c unreach.prp big.yml\n%s\n' "$fields" >begins_big
run "$line" --megabytes 50 --list begins_big
same 'a first line that runs out of memory costs one line' "$status $(python3 -c '
import json, sys
print(*(json.loads(it)["outcome"] for it in sys.stdin))' <<<"$found")" '0 memory judged'
run bash -c 'ulimit -v 50000; "$0" --list begins_big' "$room/witval/witval-view"
same "the viewer's list ends there, as docs/VIEW.md says" "$status $found" '6 '

# becomes WHAT OUTCOME STATUS SCRIPT: this script stands for the validator
becomes() {
  printf '#!/bin/sh\n%s\n' "$4" >"$room/stands"
  chmod +x "$room/stands"
  WITVAL_TASK=$room/stands outcome "$1" "$2" "$3" --seconds 1 "$fields"
}
becomes 'waiting' time None 'sleep 30'
becomes 'waiting with its output closed' time None 'exec >&-; sleep 30'
becomes 'a call that leaves another that waits' time None 'echo violation confirmed; sleep 30 & exit 0'
becomes 'it kills itself' crash None 'kill -SEGV $$'
becomes 'a part of it was killed' crash None 'exit 139'
becomes 'it is killed before its time' crash None 'kill -KILL $$'
becomes 'no answer' crash 1 'exit 1'
becomes 'a status of none' crash None 'echo violation confirmed; exit 77'
becomes 'it could not be built' start 8 'exit 8'
becomes 'memory wants' memory 6 'exit 6'
becomes 'a report of 10 MB' judged 0 'echo violation confirmed; yes | head -c 10000000'
same 'its front is shown' "$(key "$found" cut) $(wc -c <<<"$found")" "True $(wc -c <<<"$found")"
holds 'and no more' [ "${#found}" -lt 400000 ]
WITVAL_TASK=$room/nosuch outcome 'no validator' start None "$fields"
echo none >"$room/stands"
WITVAL_TASK=$room/stands outcome 'a validator that is none' start None "$fields"

# standard input: judged as it comes, one bad line costs one line
mkfifo input
"$line" --list - <input >as_it_comes &
exec 3>input
echo "$fields" >&3
for _ in {1..100}; do [ -s as_it_comes ] || sleep 0.1; done
same 'the first answer comes before the second line' "$(wc -l <as_it_comes)" 1
printf 'bad\n%s' "$fields LP64" >&3
exec 3>&-
wait $!
outcomes() { python3 -c 'import json, sys; print(*(json.loads(it)["outcome"] + str(json.loads(it).get("status", "")) for it in open(sys.argv[1])))' "$1"; }
same 'all three' "$(outcomes as_it_comes)" 'judged0 line judged3'
{ printf '\xef\xbb\xbf%s\r\n\n\0\n%s\0\n' "$fields" "$fields"; head -c 5000000 /dev/zero | tr '\0' x; printf '\n\xff\xfe\n%s' "$fields"; } >bytes
"$line" --list bytes >out && ended=0 || ended=$?
same 'lines of any bytes' "$ended $(outcomes out)" '0 judged0 line line line line line judged0'
"$line" --list bytes --from 2 --step 3 --most 2 >out
same 'each third from the second' "$(outcomes out)" 'line line'
# a list that was cut goes on, wherever it was cut
told_of() { python3 -c 'import json, sys; [print(*sorted((k, v) for k, v in json.loads(it).items() if k not in ("seconds", "megabytes"))) for it in open(sys.argv[1])]' "$1"; }
"$line" --list bytes >whole
for it in 0 30 "$(head -n 3 whole | wc -c)" "$(($(head -n 3 whole | wc -c) + 7))" "$(wc -c <whole)"; do
  head -c "$it" whole >resumed
  run "$line" --list bytes --resume resumed
  same "gone on after $it bytes" "$status$found $(told_of resumed)" "0 $(told_of whole)"
done
run "$line" --list bytes --from 2 --step 3 --most 2 --resume each_third
run "$line" --list bytes --from 2 --step 3 --most 2 --resume each_third
same 'each third, twice' "$status $(outcomes each_third)" '0 line line'
cp out strange
run "$line" --list marked_other --resume strange
same 'no list to go on with' "$status $(cat strange)" "1 $(cat out)"
run "$line" --list bytes --from 3 --resume whole
same 'the answers of other lines' "$status$found $(wc -l <whole)" '1 7'
run "$line" --list bytes --resume /dev/full
same 'gone on to a full disk' "$status $(cat "$room/complaint")" "5 witval-line: a line can't be written: No space left on device"
run "$line" --list bytes --resume nosuch/out
same 'gone on to no folder' "$status $(cat "$room/complaint")" "5 witval-line: 'nosuch/out' can't be written to: No such file or directory"
{ tr '\0' x </dev/zero || true; } | timeout 3 bash -c 'ulimit -v 400000; exec "$0" --list -' "$line" >out && ended=0 || ended=$?
same 'a line without an end: its answer comes, in little memory' "$ended $(outcomes out)" '124 line'
{ yes || true; } | timeout 3 bash -c 'ulimit -v 400000; exec "$0" --list -' "$line" >out && ended=0 || ended=$?
holds 'lines without an end: answers come' [ "$ended $(($(wc -l <out) > 1000))" = '124 1' ]

# what can't be written, and misuse
run bash -c '"$0" "p.c unreach.prp w.yml" >/dev/full' "$line"
same 'a full disk' "$status $(cat "$room/complaint")" "5 witval-line: a line can't be written: No space left on device"
run bash -c '"$0" "p.c unreach.prp w.yml" >&-' "$line"
same 'no standard output' "$status" 5
run bash -c 'set +o pipefail; "$0" --list bytes | true; exit ${PIPESTATUS[0]}' "$line"
same 'a closed pipe' "$status $(cat "$room/complaint")" "5 witval-line: a line can't be written: Broken pipe"
for it in '' '--seconds 0 x' '--seconds x x' '--list bytes x' '--list bytes --from 0' '--megabytes -1 x' '-x' '--list - --resume out' '--resume out x'; do
  run "$line" $it
  same "misuse: $it" "$status$found" 2
done
run "$line" --list nosuch
same 'no list' "$status $(cat "$room/complaint")" "1 witval-line: the list can't be read: No such file or directory"
told witval-line
