#!/usr/bin/env bash
# Holds every call of include/farzhudyl.h and the plain C engine against the second engine, answer by answer, byte by byte and slot by
# slot. The last line is `N passed, M failed`; the exit status is 1 if anything failed.
# usage: tests/comparison.sh [CASES [SEED]]     15,000 generated calls of each without CASES: about a minute; of the smallest group that
#                                               two entries share, every pair of entries of CASES / 75 lists, each also flawed twice
set -u
root=$(cd "$(dirname "$0")/.." && pwd) || exit 2
# shellcheck source=scripts/tools.sh
. "$root/scripts/tools.sh"
# shellcheck source=scripts/library.sh
. "$root/scripts/library.sh"
need_cargo
need gcc gcc
need ar binutils
find_library "$root"
cd "$root/tests/comparison" || exit 2
cargo build --quiet --release --offline --locked || exit 2
exec target/release/comparison "$@"
