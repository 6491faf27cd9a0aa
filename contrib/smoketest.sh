#!/bin/sh
# Stands at the top of the archive, and of the documents of the package: confirms the witness of examples/first by the
# program beside it, or else by the one that is installed. It writes nothing, and may be called from any folder.
# Status 0 and the line "smoke test passed" where the answer is as stored.
top=$(dirname "$(readlink -f "$0")")
witval=$top/witval
[ -x "$witval" ] || witval=witval
cd "$top/examples/first" || exit 1
found=$("$witval" validate --program p.c --property unreach.prp --witness w.yml)
status=$?
if [ "$status" = "$(cat status)" ] && [ "$found" = "$(cat answer)" ]; then
  "$witval" --version && echo "smoke test passed"
else
  echo "smoke test FAILED: status $status, and it printed: $found"
  exit 1
fi
