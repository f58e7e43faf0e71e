#!/usr/bin/env bash
# All tests. First the proofs: every listed crate is proved, every must-fail edit is refused, and none is bad, every program writes what is
# stored. Then the Rust side, with the proved library. The last line is the toolchain's own 'N passed, M failed'; the line above it gives
# the time. Where what follows the proofs fails, neither stands there, and the exit status is 1.
set -uo pipefail
cd "$(dirname "$0")" || exit 2
start=$SECONDS
log=$(mktemp)
trap 'rm -f "$log"' EXIT
rt ci 2>&1 | tee "$log" | sed -u '/^[0-9]* passed, [0-9]* failed$/d'
status=${PIPESTATUS[0]}
if [[ $status -eq 0 ]]; then
    if grep -qE '^rt: ok;.*, [0-9]+ bad(;|$)' "$log"; then
        echo "test.sh: a must-fail edit is bad, so nothing shows that it is refused" >&2
        exit 1
    fi
    # What `rt ci` proved does not serve here: the library is built from what `rt check` and `rt lib` kept, and proved where they kept nothing.
    (cd crates/exchange && rt lib) && rust/test.sh || exit 1
fi
echo "all tests took $((SECONDS - start)) s"
grep -E '^[0-9]+ passed, [0-9]+ failed$' "$log" | tail -n 1
exit "$status"
