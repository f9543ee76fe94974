#!/usr/bin/env bash
# Measures how much stack each call of include/farzhudyl.h takes, and holds it to FARZHUDYL_STACK_MAX. The last line is
# `N passed, M failed`; the exit status is 1 if anything failed.
# usage: tests/stack.sh [LIMIT]     LIMIT, in bytes, in place of FARZHUDYL_STACK_MAX
set -u
root=$(cd "$(dirname "$0")/.." && pwd) || exit 2
# shellcheck source=scripts/tools.sh
. "$root/scripts/tools.sh"
# shellcheck source=scripts/library.sh
. "$root/scripts/library.sh"
need gcc gcc
find_library "$root"
cd "$root" || exit 2
built=$(mktemp -d) || exit 2
trap 'rm -rf "$built"' EXIT
# Without optimisation each function of the test has a frame of its own. The dynamic linker finds memcpy and memset at the start, not
# within a call, where it would take stack of its own.
gcc -std=c11 -O0 -Wall -Wextra -Werror -pedantic -pthread -Wl,-z,now -Iinclude tests/stack.c bench/sheets.c \
    "$FARZHUDYL_LIB_DIR/libfarzhudyl.a" -o "$built/stack" || exit 1
"$built/stack" "$@"
