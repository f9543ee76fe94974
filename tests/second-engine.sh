#!/usr/bin/env bash
# The second engine's own tests. The last line is `N passed, M failed`.
# usage: tests/second-engine.sh
set -u
root=$(cd "$(dirname "$0")/.." && pwd) || exit 2
# shellcheck source=scripts/tools.sh
. "$root/scripts/tools.sh"
need_cargo
need gcc gcc
cd "$root/tests/second-engine" || exit 2
out=$(cargo test --quiet --release --offline --locked 2>&1)
status=$?
printf '%s\n' "$out"
passed=$(printf '%s\n' "$out" | sed -n 's/^test result: .* \([0-9]*\) passed; \([0-9]*\) failed.*/\1/p' | awk '{ n += $1 } END { print n + 0 }')
failed=$(printf '%s\n' "$out" | sed -n 's/^test result: .* \([0-9]*\) passed; \([0-9]*\) failed.*/\2/p' | awk '{ n += $1 } END { print n + 0 }')
if [ "$status" != 0 ] && [ "$failed" = 0 ]; then failed=1; fi
echo "$passed passed, $failed failed"
[ "$failed" = 0 ]
