#!/usr/bin/env bash
# The plain C engine of the benchmark against document 01's bench and against all sets of small sheets.
# usage: tests/plain.sh
set -u
root=$(cd "$(dirname "$0")/.." && pwd) || exit 2
# shellcheck source=scripts/tools.sh
. "$root/scripts/tools.sh"
need gcc gcc
room=$(mktemp -d) || exit 2
trap 'rm -rf "$room"' EXIT
gcc -std=c11 -O2 -Wall -Wextra -Werror -pedantic -I "$root/bench" "$root/bench/plain.c" "$root/bench/plain_test.c" -o "$room/plain_test" || exit 1
"$room/plain_test"
