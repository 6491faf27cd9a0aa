#!/usr/bin/env bash
# Whether the table of docs/TASKS.md is what contrib/styles-table prints: each program in the style of a folder is
# judged by the release.
. "$(dirname "$(readlink -f "$0")")/testing.sh"
run "$top/contrib/styles-table"
same 'status' "$status" 0
printf '%s\n' "$found" >printed
while IFS= read -r line; do same 'a row of docs/TASKS.md' "$line" "$(grep -m 1 -xF -e "$line" printed || true)"; done < <(grep '^|' "$top/docs/TASKS.md")
same 'as many rows' "$(grep -c '^|' "$top/docs/TASKS.md")" "$(grep -c '^|' printed)"
told styles
