#!/usr/bin/env bash
# Makes the archive and unpacks it in a folder of its own, where nothing of the toolchain or the repository is
# reached: the smoke test, the terminal transcripts of its README, its links, the entry, one text of all licences, a
# list.
. "$(dirname "$(readlink -f "$0")")/testing.sh"
version=$(cat "$top/release/VERSION")
archive=$top/witval-$version.zip
"$top/tools/archive" --unchecked >/dev/null 2>&1
first=$(sha256sum <"$archive")
"$top/tools/archive" --unchecked >/dev/null 2>&1
same 'two archives are the same bytes' "$(sha256sum <"$archive")" "$first"
run bash -c 'cd "$1" && sha256sum --quiet -c "witval-$2.zip.sha256"' - "$top" "$version"
same 'the sum beside it' "$status" 0
cd "$room"
unzip -q "$archive"
there=$room/witval-$version

# no toolchain on the PATH
alone() { (cd "$there" && env -i PATH=/usr/bin:/bin HOME="$room" "$@"); }
holds 'there is no toolchain' bash -c '! env -i PATH=/usr/bin:/bin sh -c "command -v rt"'
run alone "$there/smoketest.sh"
same 'the smoke test' "$status ${found##*$'\n'}" '0 smoke test passed'
same 'the version' "$(sed -n 1p <<<"$found")" "witval $version"
same 'its sources are told' "$(sed -n 2p <<<"$found")" "$(sed -n '/^sources/p' "$top/release/STAMP")"

cp -R "$there" writable
same "the README's transcripts" "$(cd writable && PATH=/usr/bin:/bin transcripts)" "$(grep -c '^    \$ ' writable/README.md)"
same 'all links lead somewhere' "$(broken_links "$there")" ''
same 'CITATION.cff has the version' "$(sed -n 's/^version: //p' "$top/CITATION.cff")" "\"$version\""
same 'CHANGELOG.md begins with it' "$(grep -m 1 '^## ' "$there/CHANGELOG.md")" "## $version"
holds 'a page beside the programs says where the help is' grep -q 'witval --help' "$there/release/README"
run alone contrib/styles-table
same 'the table of TASKS.md, there' "$found" "$(grep '^|' "$there/docs/TASKS.md")"
for it in Apache 'MIT' clap serde_json; do holds "LICENSES.txt has $it" grep -q "$it" "$there/LICENSES.txt"; done
for it in crates crates.txt tools docs/ARCHITECTURE.md docs/DECISIONS.md docs/GATE.md release/licences; do holds "no $it" [ ! -e "$there/$it" ]; done
for it in NOTICE CHANGELOG.md witval-task contrib/witval-line contrib/witval.py contrib/witval.yml contrib/cluster/by-parallel docs/CLUSTER.md; do
  holds "$it" [ -e "$there/$it" ]
done
run env -i PATH=/usr/bin:/bin /usr/bin/python3 -c 'import sys; print(sys.version_info >= (3, 8))'
same 'the machine has Python' "$found" True
run alone contrib/cluster/make-tasks 4 "$room/tasks"
run bash -c 'cd tasks && env -i PATH=/usr/bin:/bin "$0" --list list' "$there/contrib/witval-line"
same 'a list' "$(grep -c '"outcome": "judged"' <<<"$found")" 4
mkdir "$room/as_installed" && cp -R "$there"/contrib/{witval.py,cluster} "$top/contrib/test_toolinfo.py" "$room/as_installed/" && cp -R "$top/examples" "$there/release" "$room/"
run env WITVAL="$there/witval" python3 "$room/as_installed/test_toolinfo.py"
same 'its module over the examples' "$status$(cat "$room/complaint")" 0
holds 'no program of another machine' bash -c 'cd "$1" && rm release/witval-x86_64-linux && ! ./witval --build 2>/dev/null && ./witval show --witness w.yml 2>/dev/null; [ $? = 8 ]' - writable

# what only a person can state is filled in at one place
mkdir filled && cp -R "$top"/{tools,contrib,release,README.md,NOTICE,LICENSE,CHANGELOG.md,docs,examples,witval,witval-task,witval-view} filled/
sed -i 's|^project_url$|& https://witval.example|; s|^entry_maintainer$|& someone|; s|^maintainer$|& A Person|; s|^institution$|& An Institute|; s|^doi$|& 10.5281/zenodo.1|; s|^country$|& Nowhere|; s|^repository_url$|& https://code.example|' filled/contrib/CONTACT
run filled/tools/entry
same 'the entry says nothing is missing' "$status$(cat "$room/complaint")" 0
for it in 'project_url: "https://witval.example"' 'repository_url: "https://code.example"' '  - "someone"' '  - name: "A Person"' '    doi: "10.5281/zenodo.1"'; do
  holds "the entry has $it" grep -qxF -e "$it" <<<"$found"
done
filled/tools/archive --unchecked >/dev/null
holds 'the module has the URL' grep -qxF 'PROJECT_URL = "https://witval.example"' <(unzip -p "filled/witval-$version.zip" "witval-$version/contrib/witval.py")
run "$top/tools/entry"
holds 'and here what is missing is named' grep -q "doesn't state" "$room/complaint"
same 'the entry in the archive is that' "$(cat "$there/contrib/witval.yml")" "$found"
same 'the entry has the version' "$(sed -n 's/^  - version: //p' <<<"$found")" "\"$version\""
told archive
