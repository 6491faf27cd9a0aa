#!/usr/bin/env bash
# Tries what ./witval and ./witval-view say of their words: help, versions, and at a terminal what is wrong; the
# program's own answer stays.
. "$(dirname "$(readlink -f "$0")")/testing.sh"
files='--program p.c --property unreach.prp --witness w.yml'

# explains WORDS MESSAGE: the words are misuse, and this is said of them.
explains() {
  run env WITVAL_EXPLAINS=1 "$witval" $1
  same "$1: status" "$status" 7
  same "$1: answer" "$found" 'refused usage'
  same "$1: message" "$(cat "$room/complaint")" "witval: $2 (witval --help shows all words)"
  run "$witval" $1
  same "$1, no terminal" "$status $found$(cat "$room/complaint")" '7 refused usage'
}

explains '--bogus' 'there is no option --bogus'
explains '-x' 'there is no option -x'
explains 'judge' "there is no mode 'judge': validate, show, normalise, demo, certify, recheck, author or weed"
explains '--program p.c' 'a mode is missing: validate, show, normalise, demo, certify, recheck, author or weed'
explains 'validate' 'validate needs --program'
explains 'validate --program p.c --property unreach.prp' 'validate needs --witness'
explains 'show' 'show needs --witness'
explains 'normalise' 'normalise needs --witness'
explains 'demo' 'demo needs --number'
explains 'certify --program p.c --property unreach.prp' 'certify needs --witness'
explains "recheck $files" 'recheck needs --certificate'
explains "author $files" 'author needs --values'
explains 'weed --program p.c --property unreach.prp' 'weed needs --witness'
explains "validate show $files" "'show' is one word too many after the mode validate"
explains "validate $files --steps=3 --steps 3" '--steps stands twice'
explains "validate $files --witness=w.yml" '--witness stands twice'
explains "validate $files --json=1" '--json takes no value'
explains 'validate --witness' '--witness needs a value'
explains 'validate --witness --program p.c --property unreach.prp' '--witness needs a value'
explains "validate $files --steps 0" "--steps is a number from 1 to 100000000, and not '0'"
explains "validate $files --steps=100000001" "--steps is a number from 1 to 100000000, and not '100000001'"
explains "validate $files --steps 99999999999999999999" "--steps is a number from 1 to 100000000, and not '99999999999999999999'"
explains "validate $files --conflicts 1000001" "--conflicts is a number from 1 to 1000000, and not '1000001'"
explains 'demo --number 1000000' "--number is a number from 0 to 999999, and not '1000000'"
explains 'demo --number 1x' "--number is a number from 0 to 999999, and not '1x'"
explains "validate $files --version" 'there is no option --version'
explains "validate $files --prog p.c" 'there is no option --prog'

for it in "validate $files" "show --witness w.yml" "validate $files --json" "validate $files --steps +99 --conflicts=3"; do
  run env WITVAL_EXPLAINS=1 "$witval" $it
  same "$it: status" "$status" 0
  same "$it: nothing is said" "$(cat "$room/complaint")" ''
done
if command -v script >/dev/null; then
  said=$(script -qec "'$witval' --bogus" /dev/null </dev/null | tr -d '\r') || true
  holds 'at a terminal' grep -q 'there is no option --bogus' <<<"$said"
fi

version="witval $(cat "$top/release/VERSION")"
for it in "$witval" "$room/witval/witval-view"; do
  run "$it" --version
  same "$it --version" "$status ${found%%$'\n'*}" "0 $version"
  run "$it" --help
  same "$it --help" "$status$(cat "$room/complaint")" 0
  holds "$it --help names the options" grep -q -e --witness <<<"$found"
done
for it in help -h 'validate --help' 'demo help'; do
  run "$witval" $it
  same "$it" "$status ${found%%$'\n'*}" '0 witval: a validator of software verification witnesses, format 2.0'
done
run "$witval"
same 'no words' "$status$found" 7
for it in --bogus '--list' '--html --sarif' validate; do
  run "$room/witval/witval-view" $it
  same "viewer $it" "$status $found" '7 refused usage'
  holds "viewer $it: it says why" [ -s "$room/complaint" ]
done
run "$room/witval/release/witval-x86_64-linux" --help
same 'the program itself' "$status $found$(cat "$room/complaint")" '7 refused usage'
holds 'a page beside it says where the help is' grep -q 'witval --help' "$room/witval/release/README"

# a full disk and a closed pipe
run bash -c '"$0" validate '"$files"' >/dev/full' "$witval"
same 'a full disk' "$status" 5
run bash -c '"$0" validate '"$files"' >&-' "$witval"
same 'no standard output' "$status" 5
run bash -c 'set +o pipefail; (sleep 0.5; exec timeout 300 "$0" demo --number 7) | true; exit "${PIPESTATUS[0]}"' "$witval"
holds 'a closed pipe ends it' [ "$status" = 5 -o "$status" = 141 ]
viewer=$room/witval/witval-view
echo 'p.c unreach.prp w.yml' >list
for it in "$files" "$files --html" "$files --sarif" '--list list'; do
  run bash -c '"$0" '"$it"' >/dev/full' "$viewer"
  same "the viewer, a full disk: $it" "$status" 5
done
run bash -c '"$0" --list list >/dev/full' "$viewer"
holds 'it says so' grep -q "couldn't be written" "$room/complaint"

# lists of the viewer: a mark in front is a part of the name, other bytes than UTF-8 are no list, a line that is none ends it
printf '\xef\xbb\xbf' | cat - list >marked
run "$viewer" --list marked
same 'a byte order mark' "$status $(grep -c 'fault read program' <<<"$found")" '4 1'
printf 'p\xff.c unreach.prp w.yml\n' >bytes
run "$viewer" --list bytes
same 'no UTF-8' "$status $found $(cat "$room/complaint")" "4  witval-view: the list can't be read, or isn't UTF-8"
{ cat list; echo 'p.c unreach.prp w.yml ILP32'; cat list; } >longer
run "$viewer" --list longer
same 'four words' "$status $(wc -l <<<"$found")" '7 1'
told words
