#!/usr/bin/env bash
# Tries lists by GNU parallel (where it stands here) and by the array job's script as Slurm calls it: order, answers,
# a call that was cut at any moment, a list of any bytes, a full disk, a closed pipe, several hosts by ssh over
# loopback (where sshd stands here).
. "$(dirname "$(readlink -f "$0")")/testing.sh"
"$cluster/make-tasks" 8 tasks
cd tasks
by_parallel=$cluster/by-parallel

# What is told of each line of these files, but for what a call used.
answers() {
  python3 -c '
import json, sys
for name in sys.argv[1:]:
    for it in open(name):
        print(*sorted((k, v) for k, v in json.loads(it).items() if k not in ("seconds", "megabytes")))' "$@"
}
lines() { python3 -c 'import json, sys; print("".join(json.loads(it)["line"] + "\n" for it in open(sys.argv[1])), end="")' "$1"; }

"$cluster/../witval-line" --list list >one
same 'answers, four forms' "$(python3 -c '
import collections, json
print(sorted(collections.Counter(json.loads(it)["reply"][0].split(" \"")[0] for it in open("one")).items()))')" \
  "[('correctness confirmed', 2), ('refused hash', 2), ('violation confirmed', 2), ('violation not confirmed', 2)]"
same 'the order' "$(lines one)" "$(cat list)"

# what is whole of a file that was cut
ready() { run "$cluster/whole-lines" "$@"; }
ready list nosuch
same 'nothing yet' "$status $found" '0 0'
head -n 5 one >cut
cp cut five
ready list cut
same 'five lines' "$status $found" '0 5'
printf '{"line": "p/6' >>cut
ready list cut
same 'a line that was cut' "$status $found" '0 5'
holds 'it is cut off' cmp -s cut five
sed '3d' five >missing
cp missing before
printf '{' >>missing
ready list missing
same 'a line is missing' "$status$found" 1
same 'nothing is changed' "$(cat missing)" "$(cat before; printf '{')"
sed '4s/.*/no JSON/' five >broken
ready list broken
same 'a line is no JSON' "$status$found" 1
head -n 3 list >short
ready short five
same 'more answers than lines' "$status$found" 1

{ cat one; echo more; } | "$cluster/whole-lines" --append list appended 2>/dev/null && status=0 || status=$?
same 'lines are appended while they are the list'"'"'s' "$status $(answers appended)" "1 $(answers one)"
sed 3d one | "$cluster/whole-lines" --append list gap 2>/dev/null || true
same 'nothing after a gap' "$(answers gap)" "$(head -n 2 one | answers /dev/stdin)"
"$cluster/whole-lines" --append list /dev/full <one 2>/dev/null && status=0 || status=$?
same 'appended to a full disk' "$status" 5

# Slurm's script
part() { SLURM_ARRAY_TASK_ID=$1 run bash "$cluster/by-slurm.sbatch" 3 "$(dirname "$cluster")" list "$2" --seconds 60; }
for it in 1 2 3; do part "$it" slurm; same "part $it" "$status$found" 0; done
same 'all parts' "$(answers slurm.* | sort)" "$(answers one | sort)"
for it in 1 2 3; do
  { head -n 1 "slurm.$it"; sed -n 2p "slurm.$it" | head -c 30; } >"again.$it"
  part "$it" again
  same "part $it goes on" "$status $(answers "again.$it")" "0 $(answers "slurm.$it")"
done
part 2 again
same 'a part that is done' "$status $(answers again.2)" "0 $(answers slurm.2)"
for it in 0 4; do part "$it" slurm; same "no part $it" "$status" 2; done
cp slurm.1 strange.2
part 2 strange
same 'the answers of another part' "$status $(answers strange.2)" "1 $(answers slurm.1)"

# a real Slurm, where one answers: an array job that is cancelled, and goes on by the number of one task and then by all
if command -v sbatch >/dev/null && timeout 10 sinfo >/dev/null 2>&1; then
  by_slurm() { sbatch --parsable --mem=900 "$@" "$cluster/by-slurm.sbatch" 4 "$(dirname "$cluster")" list "$PWD/real" --seconds 600; }
  job=$(by_slurm --array=1-4)
  for _ in {1..300}; do [ -s real.1 ] || sleep 0.1; done
  scancel "$job"
  while squeue --noheader --jobs "$job" 2>/dev/null | grep -q .; do sleep 0.5; done
  echo "Slurm: cancelled when $(cat real.* | wc -l) of 8 lines were judged"
  by_slurm --array=3 --wait >/dev/null || true
  same 'one task of the array' "$(answers real.3)" "$(sed -n '3~4p' one | answers /dev/stdin)"
  by_slurm --array=1-4 --wait >/dev/null || true
  same 'Slurm, cancelled and gone on' "$(answers real.* | sort)" "$(answers one | sort)"
else
  echo 'no Slurm answers here'
fi

if ! command -v parallel >/dev/null; then
  echo 'GNU parallel is not here'
  told lists
  exit
fi
export JOBS=${JOBS:-2}
EACH=3 run "$by_parallel" list by --seconds 60
same 'GNU parallel' "$status $(answers by)" "0 $(answers one)"
run "$by_parallel" list by --seconds 60
same 'nothing is left' "$status $(answers by)" "0 $(answers one)"
for it in 'TERM 1' 'KILL 0.5' 'KILL 1.5'; do
  rm -f cut
  # (a shell of its own says nothing of a call that was killed)
  bash -c 'timeout -s $0 "$1" list cut --seconds 60; true' "$it" "$by_parallel" >/dev/null 2>&1 || true
  sleep 0.2
  run "$by_parallel" list cut --seconds 60
  same "cut by $it" "$status $(answers cut)" "0 $(answers one)"
done
{ printf '\xef\xbb\xbf'; sed -n 1p list; printf '\n\0\n{}\n-x y z\n$(touch oops) `touch oops` ;touch\n\xff\xfe \xe2\x80\xae\n'; head -c 300000 /dev/zero | tr '\0' x; printf '\n'; sed -n 2p list | tr -d '\n'; } >odd
run "$by_parallel" odd by_odd --seconds 60
same 'a list of any bytes' "$status $(python3 -c 'import json; print(*(json.loads(it)["outcome"] for it in open("by_odd")))')" \
  '0 judged line line line judged line line line judged'
holds 'nothing of it was run' [ ! -e oops ]
mkdir 'a b'
cp list "a b/a'list"
EACH=3 run "$by_parallel" "a b/a'list" "a b/o\"ut"
same 'names with blanks and quotes' "$status $(answers "a b/o\"ut")" "0 $(answers one)"
cd ..
EACH=3 run "$by_parallel" tasks/list by_folder --folder tasks
same 'names of another folder' "$status $(answers by_folder)" "0 $(answers tasks/one)"
cd tasks
export EACH=4
run "$by_parallel" list /dev/full
holds 'a full disk' [ "$status" != 0 ]
run bash -c 'set +o pipefail; "$0" list /dev/stdout | true; exit ${PIPESTATUS[0]}' "$by_parallel"
holds 'a closed pipe' [ "$status" != 0 ]
: >empty
run "$by_parallel" empty by_empty
same 'an empty list' "$status $(cat by_empty)" '0 '
run "$by_parallel" nosuch out
same 'no list' "$status" 2
run "$by_parallel" short one
same 'the answers of another list' "$status" 1

if "$cluster/ssh-here" "$room/ssh" >/dev/null 2>&1; then
  export PARALLEL_SSH="ssh -F $room/ssh/config"
  HOSTS=one,two run "$by_parallel" list by_hosts --seconds 60
  same 'two hosts by ssh' "$status $(answers by_hosts)" "0 $(answers one)"
  HOSTS=one,two run timeout 100 "$by_parallel" odd by_hosts_odd --seconds 60
  same 'any bytes, by ssh' "$status $(answers by_hosts_odd)" "0 $(answers by_odd)"
  HOSTS=one,nosuch run timeout 100 "$by_parallel" list by_lost --seconds 60
  same 'a host that is not there: another judges its lines' "$status $(answers by_lost)" "0 $(answers one)"
  HOSTS=nosuch run timeout 100 "$by_parallel" list by_none --seconds 60
  same 'no host' "$status $(cat by_none)" '1 '
  "$cluster/ssh-here" "$room/ssh" stop
else
  echo 'sshd is not here'
fi
told lists
