#!/usr/bin/env bash
# Tries contrib/other-checkers: the obligations of an example are taken by each checker that is there, and not by one that says no; a folder
# that is there already, a violation sequence and misused words end with their status.
. "$(dirname "$(readlink -f "$0")")/testing.sh"
others=$room/witval/contrib/other-checkers
mkdir "$room/witval/tools"
cp "$top/tools/lrat-check" "$room/witval/tools/"
export WITVAL=$witval

# asked WHAT STATUS LAST WORDS..: the status, and the last line that is printed, which may be a pattern
asked() {
  local what=$1 wanted=$2 last=$3 line
  shift 3
  run "$others" "$@"
  same "$what: status" "$status" "$wanted"
  line=$(tail -n 1 <<<"$found")
  # shellcheck disable=SC2053
  if [[ $line == $last ]]; then same "$what" yes yes; else same "$what" "$line" "$last"; fi
}

loop=(--program "$top/examples/loop/p.c" --property "$top/examples/loop/unreach.prp" --witness "$top/examples/loop/w.yml")
asked 'all obligations' 0 '3 of 3 obligations verified by * programs' "${loop[@]}" --folder all
holds 'a manifest' test -s all/manifest.json
same 'the first obligation' "$(head -n 1 <<<"$found" | cut -d' ' -f1-3)" 'obligation 1 property'
same 'the texts of three' "$(cd all && echo [0-9]*)" '1.cnf 1.lrat 2.cnf 2.lrat 3.cnf 3.lrat'
asked 'a certificate that is given' 0 '3 of 3 *' "${loop[@]}" --certificate all/certificate --folder again
same 'no other certificate' "$(ls again/certificate 2>&1 | grep -c 'No such file')" 1
asked 'a folder that is there' 7 '' "${loop[@]}" --folder all
asked 'a violation sequence' 3 'refused kind' --program p.c --property unreach.prp --witness w.yml --folder none
asked 'no property' 7 '' --program p.c --witness w.yml --folder other

printf '#!/bin/sh\necho "s NOT VERIFIED"\n' >no
chmod +x no
asked 'a checker that says no' 1 '0 of 3 *' "${loop[@]}" --checker ./no --folder refused
sed 's/2:/1:/' all/certificate >wrong
asked 'a certificate that is refused' 3 '*' "${loop[@]}" --certificate wrong --folder wronged
told test_other_checkers
