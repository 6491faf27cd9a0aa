#!/usr/bin/env bash
# Tries that ./witval, ./witval-view and ./witval-task never take a program of other sources than those that stand there:
# in a small repository whose build only names its sum, after each change by which a file's size, its times or its name
# stay what they were. It counts how often the sums are taken.
. "$(dirname "$(readlink -f "$0")")/testing.sh"

# A repository of three crates; its programs print their paths.
small=$room/small
mkdir -p "$small"/{release,tools,crates/{witval_main,witval_view,low}/{src,specs,proofs/deep}}
cp "$top"/{witval,witval-view,witval-task} "$small/"
cp "$top"/tools/{remember,sources-sum,crates-below} "$small/tools/"
mv "$small/tools/remember" "$small/tools/remembers"
cat >"$small/tools/remember" <<'END'
#!/usr/bin/env bash
here=$(dirname "$(readlink -f "$0")")
echo taken >>"${TAKEN:-/dev/null}"
exec "$here/remembers"
END
cat >"$small/tools/build" <<'END'
#!/usr/bin/env bash
cd "$(dirname "$(readlink -f "$0")")/.."
sum=$(tools/sources-sum)
mkdir -p out
for it in out/witval{,-view}-"$sum"; do
  printf '#!/bin/sh\necho "%s"\n' "$it" >"$it"
  chmod +x "$it"
done
echo "out/witval-$sum"
END
chmod +x "$small"/tools/*
printf 'low:\nother:\nwitval_main: low\nwitval_view: low\n' >"$small/crates.txt"
for it in witval_main witval_view low; do
  echo "fn $it() {}" >"$small/crates/$it/src/lib.rt"
  echo "$it = 1" >"$small/crates/$it/specs/Lib.antt"
  echo "$it = 1" >"$small/crates/$it/proofs/deep/Answers.antt"
done
for it in witval witval-view; do
  printf '#!/bin/sh\necho release/%s\n' "$it-x86_64-linux" >"$small/release/$it-x86_64-linux"
  chmod +x "$small/release/$it-x86_64-linux"
done
echo 1.0 >"$small/release/VERSION"

sum_of() { sha256sum <"$1" | cut -c1-64; }

# The stamp of the release that stands there.
stamp() {
  local release=$small/release
  {
    echo toolchain none
    echo "sources $("$small/tools/sources-sum")"
    echo "program $(sum_of "$release/witval-x86_64-linux")"
    echo "viewer $(sum_of "$release/witval-view-x86_64-linux")"
  } >"$release/STAMP"
}

# What the stamp says at a word.
stamped() { [ ! -f "$small/release/STAMP" ] || sed -n "s/^$1 //p" "$small/release/STAMP"; }

# The program that is right: one that was built of the sources that stand here, that of the release where both sums are
# those of the stamp, or one that is to be built. right PART WORD
right() {
  local sum release=release/witval$1-x86_64-linux
  sum=$("$small/tools/sources-sum")
  if [ ! -x "$small/out/witval$1-$sum" ] && [ -f "$small/$release" ] && [ "$sum" = "$(stamped sources)" ] && [ "$(sum_of "$small/$release")" = "$(stamped "$2")" ]; then
    echo "$release"
  else
    echo "out/witval$1-$sum"
  fi
}

# The right programs answer, twice over.
judged() {
  local what=$1 call wanted
  for call in 1 2; do
    wanted=$(right '' program)
    run "$small/witval" validate
    same "$what, call $call" "$status $found" "0 $wanted"
    wanted=$(right -view viewer)
    run "$small/witval-view" validate
    same "$what, viewer, call $call" "$status $found" "0 $wanted"
  done
  wanted=$(right '' program)
  run "$small/witval-task" validate
  same "$what, task" "$status $found" "0 $wanted"
}

# taken WHAT WANTED COMMAND..: how often the sums are taken while it runs.
taken() {
  local what=$1 wanted=$2
  shift 2
  : >"$room/taken"
  export TAKEN=$room/taken
  "$@" >"$room/said" 2>&1
  same "$what: sums taken" "$(grep -c . "$room/taken" || true)" "$wanted"
}

# as_before FILE COMMAND..: changes a file, and gives it its old times.
as_before() {
  local file=$1
  shift
  cp -p "$file" "$room/before"
  "$@"
  touch -r "$room/before" "$file"
}

# Turns a byte of a file, which keeps its size and its times.
turn() { as_before "$1" eval "printf '%s' '$2' | dd of='$1' bs=1 seek=3 conv=notrunc status=none"; }

# Clones of it, in which the sums are kept, and the next of them.
clones=40 next=0
clone() {
  next=$((next + 1))
  small=$room/clones/$next
  low=$small/crates/low
}

# change WHAT COMMAND..: in the next clone the sums aren't taken while nothing has changed; then it is changed.
change() {
  local what=$1
  shift
  clone
  taken "$what: before" 0 "$small/witval" validate
  "$@"
  judged "$what"
}

low=$small/crates/low
stamp
judged 'a clone without what was seen'
echo 'fn low() {}' >"$low/src/lib.rt"
taken 'a file that is new' 2 bash -c "'$small/witval' validate; '$small/witval' validate"
rm -rf "$small/out"
mkdir "$room/clones"
for ((it = 1; it <= clones; it++)); do cp -r "$small" "$room/clones/$it"; done
sleep 4
for ((it = 1; it <= clones; it++)); do "$room/clones/$it/witval" validate >"$room/said"; done

clone
taken 'nothing changed' 0 judged 'nothing changed'
same 'the path' "$("$small/witval" --where)" "$(readlink -f "$small/release/witval-x86_64-linux")"
taken 'another folder' 0 env -C /tmp "$small/witval" validate
ln -s "$small/witval" "$room/linked"
taken 'by a link' 0 "$room/linked" validate
same 'by a link' "$(cat "$room/said")" release/witval-x86_64-linux
taken 'on a search path' 0 env PATH="$small:$PATH" witval validate
taken 'beside itself' 0 env -C "$small" ./witval validate
taken 'another language and time zone' 0 env LC_ALL=de_DE.UTF-8 TZ=Asia/Tokyo "$small/witval" validate
mkdir -p "$room/elsewhere/$next"
taken 'a search path of folders' 0 env -C "$room/clones" CDPATH="$room/elsewhere" "$next/witval" validate

# a byte, with size and times kept; again at once, and back
byte() { turn "$low/src/lib.rt" x; }
change 'a byte changed' byte
same 'not the release' "$(right '' program)" "out/witval-$("$small/tools/sources-sum")"
turn "$low/src/lib.rt" l
judged 'the byte changed back'
for it in 1 2 3 4 5 6 7 8; do
  turn "$low/src/lib.rt" "$it"
  wanted=$(right '' program)
  run "$small/witval" validate
  same "changed again, $it" "$found" "$wanted"
done
old_time() {
  echo 'fn old() {}' >"$low/src/lib.rt"
  touch -d '2001-02-03 04:05:06' "$low/src/lib.rt"
}
change 'new content with an old time' old_time
in_its_place() {
  echo 'fn two() {}' >"$low/src/next"
  touch -r "$low/src/lib.rt" "$low/src/next"
  mv "$low/src/next" "$low/src/lib.rt"
}
change 'another file in its place' in_its_place
swapped() {
  mv "$low/src/lib.rt" "$low/src/third"
  mv "$low/specs/Lib.antt" "$low/src/lib.rt"
  mv "$low/src/third" "$low/specs/Lib.antt"
}
change 'two files swapped' swapped

# files and folders that are added, gone and renamed
added() { echo 'fn new() {}' >"$low/proofs/deep/New.antt"; }
change 'a file added' added
gone() { rm "$low/proofs/deep/Answers.antt"; }
change 'a file gone' gone
renamed() { mv "$low/proofs/deep/Answers.antt" "$low/proofs/deep/Invariants.antt"; }
change 'a file renamed' renamed
moved() { mkdir "$low/proofs/more" && mv "$low/proofs/deep/Answers.antt" "$low/proofs/more/"; }
change 'a file moved' moved
folder_renamed() { mv "$low/proofs/deep" "$low/proofs/low"; }
change 'a folder renamed' folder_renamed
folder_gone() { mv "$low/specs" "$low/later"; }
change 'a folder of a crate gone' folder_gone
folder_added() { mkdir -p "$low/src/inner" && echo x >"$low/src/inner/x.rt"; }
change 'a folder added' folder_added
unused() { mkdir -p "$small/crates/other/src" && echo 'fn other() {}' >"$small/crates/other/src/lib.rt"; }
change 'a crate that nothing stands on' unused
used() { unused && as_before "$small/crates.txt" sed -i 's/^low:$/low:other/' "$small/crates.txt"; }
change 'a crate that something stands on' used
crate_gone() { mv "$low" "$small/crates/lower"; }
change 'a crate gone' crate_gone

# the programs
for part in '' -view; do
  another() { as_before "$small/release/witval$part-x86_64-linux" sed -i 's/release/RELEASE/' "$small/release/witval$part-x86_64-linux"; }
  change "another program$part" another
done
replaced() { cp -p "$small/release/witval-x86_64-linux" "$room/kept" && turn "$small/release/witval-x86_64-linux" x; }
change 'a program replaced' replaced
rm "$small"/out/witval-*
cp "$room/kept" "$small/release/witval-x86_64-linux"
judged 'the old program again'
clone
rm "$small/release/witval-x86_64-linux"
run "$small/witval" validate
same 'no program of the release' "$found" "out/witval-$("$small/tools/sources-sum")"
rm "$small"/out/witval-*
run "$small/witval" validate
same 'a built program that is gone' "$found" "out/witval-$("$small/tools/sources-sum")"
other_stamp() { as_before "$small/release/STAMP" sed -i 's/^sources ./sources _/' "$small/release/STAMP"; }
change 'the stamp of other sources' other_stamp
no_stamp() { rm "$small/release/STAMP"; }
change 'no stamp of a release' no_stamp

# what lies behind a link isn't kept
clone
cp -p "$low/src/lib.rt" "$room/aside.rt"
ln -sf "$room/aside.rt" "$low/src/lib.rt"
sleep 4
judged 'a link'
turn "$room/aside.rt" y
judged 'a byte behind a link'

# what was seen is damaged, of another clone, or can't be kept
for it in seen seen-paths; do
  for damage in 'truncate -s -1' 'truncate -s 0' rm 'sed -i 1s/^./_/' "cp $top/witval"; do
    damaged() { $damage "$small/out/$it" && turn "$low/src/lib.rt" x; }
    change "$it: $damage" damaged
  done
done
clone
rm -r "$small/out"
: >"$small/out"
taken 'nothing can be kept' 2 bash -c "'$small/witval' validate; '$small/witval' validate"
same 'nothing can be kept: what is said' "$(sort -u "$room/said")" release/witval-x86_64-linux
clone
rm -r "$small/out"
chmod -R a-w "$small"
for it in 1 2 3; do
  run "$small/witval" validate
  same 'a clone that is read only' "$status $found$(cat "$room/complaint")" '0 release/witval-x86_64-linux'
done
chmod -R u+w "$small"
clone
mv "$small" "$room/moved"
small=$room/moved
taken 'a clone that was moved' 0 judged 'a clone that was moved'
cp -a "$small" "$room/copied"
small=$room/copied low=$room/copied/crates/low
turn "$low/src/lib.rt" x
judged 'a copy that was changed'

# calls at once, which leave nothing but what was seen
clone
for round in 1 2 3; do
  rm -rf "$small/out"
  for it in 1 2 3 4 5 6 7 8; do "$small/witval" validate >"$room/at-once$it" 2>&1 & done
  wait
  same "at once, $round" "$(sort -u "$room"/at-once*)" release/witval-x86_64-linux
  same "at once, $round: what is left" "$(cd "$small/out" && echo *)" 'seen seen-paths'
done
told 'programs of the sources that stand there'
