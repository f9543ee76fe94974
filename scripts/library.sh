# shellcheck shell=bash
# Sourced, after tools.sh, by the commands that link the engine: finds its library.
# usage: find_library ROOT
#        make_by_rt ROOT WORD NAME MADE FILE     has `rt WORD` prove and build the crate NAME, and copies MADE of its out/ to FILE
# FARZHUDYL_LIB_DIR is the folder of the library libfarzhudyl.a to take as it is. Without it that is target/staticlib, and the library is
# made anew if the crates have changed since; FARZHUDYL_LIB_DIR is then set.
# shellcheck source=scripts/made.sh
. "${BASH_SOURCE[0]%/*}/made.sh" || exit 2
# shellcheck source=scripts/prove.sh
. "${BASH_SOURCE[0]%/*}/prove.sh" || exit 2

make_by_rt() {
    local root=$1 word=$2 name=$3 from=$1/crates/$3/out/$4 file=$5
    local -a sources
    crate_sources "$root"
    making "$file" "${sources[@]}" && prove_quietly "$root" "$word" "$name" && rm -f -- "$file" && cp -- "$from" "$file" && made "$file"
}

find_library() {
    local root=$1 given=${FARZHUDYL_LIB_DIR:-} folder library
    local -a sources
    folder=${given:-$root/target/staticlib}
    library=$folder/libfarzhudyl.a
    crate_sources "$root"
    if [ -z "$given" ] && stale "$library" "${sources[@]}"; then
        need_rattle
        echo "proving and building the library, once" >&2
        make_by_rt "$root" lib farzhudyl_c libfarzhudyl_c.a "$library" || exit 2
    fi
    if [ ! -f "$library" ]; then
        echo "missing: $library, the library that \`rt lib\` makes of the crate farzhudyl_c" >&2
        exit 2
    fi
    FARZHUDYL_LIB_DIR=$(cd "$folder" && pwd) || exit 2
    export FARZHUDYL_LIB_DIR
}
