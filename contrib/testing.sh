# shellcheck shell=bash disable=SC2034
# For the tests of contrib/, which read it: a room of its own in which the scripts and the release stand as an archive
# has them, and a count of what was tried. A test ends with `told NAME`.
set -euo pipefail
export LC_ALL=C.UTF-8
top=$(dirname "$(dirname "$(readlink -f "${BASH_SOURCE[0]}")")")
room=$(mktemp -d)
trap 'rm -rf "$room"' EXIT
tried=0 failed=0
mkdir "$room/witval" "$room/work"
cp -R "$top"/{witval,witval-task,witval-view,release} "$room/witval/"
cp -R "$top"/contrib "$room/witval/"
witval=$room/witval/witval task=$room/witval/witval-task line=$room/witval/contrib/witval-line cluster=$room/witval/contrib/cluster
cp "$top"/examples/first/{p.c,w.yml,unreach.prp} "$room/work/"
cd "$room/work"

# What a call prints, and its status: `found` and `status`.
run() { found=$("$@" 2>"$room/complaint" </dev/null) && status=0 || status=$?; }

# same WHAT FOUND WANTED
same() {
  tried=$((tried + 1))
  if [ "$2" != "$3" ]; then
    failed=$((failed + 1))
    printf '%s: found %.400s, and not %.400s\n' "$1" "$2" "$3"
  fi
}

# holds WHAT COMMAND..: the command has status 0.
holds() {
  local what=$1
  shift
  if "$@"; then same "$what" yes yes; else same "$what" no yes; fi
}

# The value of a key of a line of JSON, as Python prints it.
key() { python3 -c 'import json, sys; print(json.load(sys.stdin).get(sys.argv[1]))' "$2" <<<"$1"; }

# The links of the pages of an unpacked folder that lead nowhere.
broken_links() {
  (
    cd "$1"
    for file in README.md docs/*.md examples/README.md; do
      sed 's/`[^`]*`//g; s/](/\n](/g' "$file" | sed -n 's/^](\([^)#]*\).*/\1/p' | while read -r it; do
        case $it in '' | http*) ;; *) [ -e "$(dirname "$file")/$it" ] || echo "$file: $it" ;; esac
      done
    done
  )
}

# Each command of the README in this folder prints what stands below it: how many were tried, and those that don't.
transcripts() {
  python3 - <<'PY'
import pathlib, re, subprocess
blocks = re.findall(r"(?m)((?:^    .*\n|^\n)+)", pathlib.Path("README.md").read_text())
tried, wrong, where = 0, [], "."
for line in "".join(it for block in blocks for it in re.split(r"(?m)^(?=    \$ )", block) if it.startswith("    $ ")).split("    $ ")[1:]:
    command, _, rest = line.partition("\n")
    wanted = "".join(it[4:] + "\n" for it in rest.splitlines() if it.strip() or it.startswith("    "))
    ran = subprocess.run(["bash", "-c", f"cd {where} && {command} || echo status $?; echo; pwd"], capture_output=True, text=True, stdin=subprocess.DEVNULL)
    found, where = ran.stdout.rstrip("\n").rsplit("\n", 1)
    tried += 1
    if found.rstrip("\n") != wanted.rstrip("\n"):
        wrong.append(command)
print(tried, *wrong)
PY
}

told() {
  echo "$1: $((tried - failed)) of $tried passed"
  [ "$failed" = 0 ]
}
