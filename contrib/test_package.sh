#!/usr/bin/env bash
# Makes the package, installs it by dpkg into a folder of its own, tries what is installed there without the
# toolchain, removes it, and looks that nothing is left. Needs dpkg and, as dpkg does, root.
. "$(dirname "$(readlink -f "$0")")/testing.sh"
version=$(cat "$top/release/VERSION")
package=$top/witval_${version}_amd64.deb
"$top/tools/package" --unchecked >/dev/null
first=$(sha256sum <"$package")
"$top/tools/package" --unchecked >/dev/null
same 'two packages are the same bytes' "$(sha256sum <"$package")" "$first"
run bash -c 'cd "$1" && sha256sum --quiet -c "witval_$2_amd64.deb.sha256"' - "$top" "$version"
same 'the sum beside it' "$status" 0

installed=$room/installed
mkdir -p "$installed/var/lib/dpkg/info" "$installed/var/lib/dpkg/updates" "$installed/tmp"
touch "$installed/var/lib/dpkg/status" "$installed/var/lib/dpkg/available"
by_dpkg() { run dpkg --root="$installed" --force-depends --log="$room/log" "$@"; same "dpkg $1" "$status" 0; }
by_dpkg --install "$package"
run dpkg --root="$installed" --status witval
holds 'the version of the package' grep -qxF "Version: $version" <<<"$found"
alone() { env -i PATH="$installed/usr/bin:/usr/bin:/bin" HOME="$room" "$@"; }
for it in witval witval-view witval-task; do holds "$it is installed" [ -x "$installed/usr/bin/$it" ]; done
doc=$installed/usr/share/doc/witval
run alone "$doc/smoketest.sh"
same 'the smoke test' "$status $(sed -n 1p <<<"$found") ${found##*$'\n'}" "0 witval $version smoke test passed"
holds 'no toolchain was there' bash -c '! env -i PATH="$1/usr/bin:/usr/bin:/bin" sh -c "command -v rt"' - "$installed"
for it in first loop; do
  cd "$doc/examples/$it"
  for words in witval 'witval-task --data-model ILP32 --language C'; do
    run alone $words validate --program p.c --property unreach.prp --witness w.yml
    same "$words: the example $it" "$status $found" "$(cat status) $(cat answer)"
  done
  run alone witval-view --program p.c --property unreach.prp --witness w.yml
  same "the viewer: the example $it" "$status $(head -n 1 <<<"$found")" "0 $(head -n 1 answer)"
done
cd "$doc"
same "the README's transcripts" "$(PATH="$installed/usr/bin:/usr/bin:/bin" transcripts)" "$(grep -c '^    \$ ' README.md)"
same 'all links lead somewhere' "$(broken_links "$doc")" ''
holds 'a page beside the programs says where the help is' grep -q 'witval --help' "$installed/usr/lib/witval/release/README"
cd examples/first
echo 'p.c unreach.prp w.yml ILP32' >"$room/list"
run alone ../../contrib/witval-line --list "$room/list"
same 'a list' "$status $(key "$found" outcome) $(key "$found" status)" '0 judged 0'
cd "$room"
for it in witval witval-view; do
  run alone "$it" --version
  same "$it --version" "$status ${found%%$'\n'*}" "0 witval $version"
  run alone "$it" --help
  same "$it --help" "$status" 0
  help=$found
  run man -l "$installed/usr/share/man/man1/$it.1.gz"
  same "man $it" "$status" 0
  # the page has each line of the help
  same "man $it: the text of --help" "$(comm -23 <(sed 's/^ *//; s/ *$//' <<<"$help" | sort -u) <(sed 's/^ *//; s/ *$//' <<<"$found" | sort -u))" ''
done
run alone env WITVAL_EXPLAINS=1 witval --bogus
same 'misuse' "$status $(cat "$room/complaint")" '7 witval: there is no option --bogus (witval --help shows all words)'
run alone witval --build
same 'nothing is built' "$status" 8
completes() {
  run bash -c '. "$1"; COMP_WORDS=($2 "$3") COMP_CWORD=${#COMP_WORDS[@]}; COMP_CWORD=$((COMP_CWORD - 1)); _witval; echo "${COMPREPLY[*]}"' - \
    "$installed/usr/share/bash-completion/completions/witval" "$1" "$2"
  same "bash completes $1 $2" "$found" "$3"
}
completes witval --pro '--program --property'
completes witval val validate
completes witval-view --s '--steps --sarif'
completes 'witval-task --data-model' L LP64
completes 'witval-task --language' '' C
completes 'witval --steps' '' ''
completes witval-task v 'validate view'
completes 'witval view' --ht --html
# each option of a help is completed
options() { grep -oE -- '(^|[[:space:]])--[a-z]+' | tr -d ' ' | grep -vxE -- '--(option|build|where)' | sort -u; }
for it in witval witval-view; do
  run bash -c '. "$1"; COMP_WORDS=($2 --) COMP_CWORD=1; _witval; printf "%s\n" "${COMPREPLY[@]}"' - \
    "$installed/usr/share/bash-completion/completions/witval" "$it"
  same "bash completes the options of $it" "$(comm -23 <(alone "$it" --help | options) <(sort <<<"$found"))" ''
done
if command -v zsh >/dev/null; then
  run zsh -fc 'fpath=($1 $fpath); autoload -Uz compinit && compinit -u -D; whence -w _witval; echo ${_comps[witval]} ${_comps[witval-view]} ${_comps[witval-task]}' - \
    "$installed/usr/share/zsh/vendor-completions"
  same 'zsh knows them' "$status $(tr '\n' ' ' <<<"$found")" '0 _witval: function _witval _witval _witval '
  holds 'zsh reads them' zsh -n "$installed/usr/share/zsh/vendor-completions/_witval"
  # a shell at a terminal of its own, which is typed into
  cat >"$room/typed" <<'ZSH'
zmodload zsh/zpty
zpty shell 'zsh -f -i'
zpty -w shell "PS1=; fpath=(${(q)1} \$fpath); autoload -Uz compinit; compinit -u -D; echo re''ady"
zpty -r shell out '*ready*'
zpty -w -n shell "$2"$'\t'
zpty -r shell out "*$3*"
zpty -d shell
ZSH
  types() {
    run timeout 300 zsh -f "$room/typed" "$installed/usr/share/zsh/vendor-completions" "$1" "$2"
    same "zsh completes $1" "$status" 0
  }
  types 'witval --prog' --program
  types 'witval wee' weed
  types 'witval view --ht' --html
  types 'witval-view --js' --json
  types 'witval-task --data-model L' LP64
  for it in witval witval-view; do
    run zsh -fc 'service=$1; _arguments() { print -rl -- "$@" }; by_zsh() { . $2 }; by_zsh "$@"' - "$it" "$installed/usr/share/zsh/vendor-completions/_witval"
    same "zsh has the options of $it" "$(comm -23 <(alone "$it" --help | options) <(sed -n 's/^\(--[a-z]*\)\[.*/\1/p' <<<"$found" | sort))" ''
  done
fi
for it in 'Apache License' 'Copyright 2026' clap serde_json; do holds "copyright has $it" grep -q "$it" "$installed/usr/share/doc/witval/copyright"; done
by_dpkg --purge witval
same 'nothing is left' "$([ ! -e "$installed/usr" ] || find "$installed/usr" -type f -o -type l)" ''
rm -f "$package" "$package.sha256"
told package
