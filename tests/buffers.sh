#!/usr/bin/env bash
# Compiles tests/exact_buffers.c, which hands the C calls buffers of exact length, and runs it under valgrind.
# The last line is `N passed, M failed`; the exit status is 1 if anything failed.
# usage: tests/buffers.sh
set -u
root=$(cd "$(dirname "$0")/.." && pwd) || exit 2
# shellcheck source=scripts/tools.sh
. "$root/scripts/tools.sh"
# shellcheck source=scripts/library.sh
. "$root/scripts/library.sh"
need gcc gcc
need valgrind valgrind
find_library "$root"
cd "$root" || exit 2
built=$(mktemp -d) || exit 2
trap 'rm -rf "$built"' EXIT

# The symbols are for valgrind's reports.
if gcc -std=c11 -g -Wall -Wextra -Werror -pedantic -Iinclude tests/exact_buffers.c "$FARZHUDYL_LIB_DIR/libfarzhudyl.a" \
    -o "$built/exact_buffers" &&
    valgrind --quiet --error-exitcode=3 --leak-check=full --errors-for-leak-kinds=all "$built/exact_buffers"; then
    echo "1 passed, 0 failed"
else
    echo "0 passed, 1 failed"
    exit 1
fi
