#!/usr/bin/env bash
# Builds the second engine and the comparison with Debian's own cargo and rustc, without a warning, whatever cargo comes first on the path;
# and runs the second engine's self check. Debian's are installed beside the others where that can be done; if not, a line says so, and
# nothing is counted. The last line is `N passed, M failed`; the exit status is 1 if anything failed.
# usage: tests/debian-cargo.sh
set -u
root=$(cd "$(dirname "$0")/.." && pwd) || exit 2
# shellcheck source=scripts/tools.sh
. "$root/scripts/tools.sh"
# shellcheck source=scripts/library.sh
. "$root/scripts/library.sh"
# shellcheck source=tests/counts.sh
. "$root/tests/counts.sh"
need gcc gcc
need ar binutils
find_library "$root"
export PATH=/usr/bin:/bin
unset RUSTC CARGO RUSTUP_TOOLCHAIN CARGO_BUILD_RUSTC RUSTC_WRAPPER
if lacks cargo && ! (need cargo cargo); then
    echo "left out: what is built with Debian's own cargo"
    counted
    exit
fi
need_cargo
echo "$(cargo --version), $(rustc --version)"
built=$(mktemp -d) || exit 2
trap 'rm -rf "$built"' EXIT
export CARGO_TARGET_DIR=$built RUSTFLAGS='-D warnings'

for crate in second-engine comparison; do
    (cd "$root/tests/$crate" && cargo build --quiet --release --offline --locked --all-targets)
    count $? "building tests/$crate with Debian's own cargo"
    grep -qxF "rust-version = \"$oldest_rustc\"" "$root/tests/$crate/Cargo.toml"
    count $? "tests/$crate/Cargo.toml says the version of rustc that scripts/tools.sh asks for"
done
"$built/release/second-engine" selfcheck 50 1
count $? "the second engine's self check, built with Debian's own cargo"
counted
