# shellcheck shell=bash
# Sourced, after tools.sh and library.sh, by ./run and ./install: builds what they start or put, unless that is done.
# usage: build_programs ROOT NAME ..     target/bin/NAME, by rt; NAME is strong, clean or splits
#        build_show ROOT                 target/show, from examples/show.c and the library
#        build_second ROOT               $second_engine, the second engine as a program, by cargo
# The first two exit with 2 if that fails; build_second has a status other than 0 then, and `reason` says why in one line.
# shellcheck disable=SC2034 # that is for the command that sources this

second_engine=tests/second-engine/target/release/farzhudyl-second

build_programs() {
    local root=$1 name found=''
    local -a sources
    shift
    crate_sources "$root"
    for name; do
        if stale "$root/target/bin/$name" "${sources[@]}"; then found=1; fi
    done
    if [ -z "$found" ]; then return 0; fi
    need_rattle
    echo "proving and building, once: $*" >&2
    # rt also runs it, on no input.
    for name; do make_by_rt "$root" run "$name" "$name" "$root/target/bin/$name" || exit 2; done
}

build_show() {
    local root=$1 program=$1/target/show library compiler
    find_library "$root"
    library=$FARZHUDYL_LIB_DIR/libfarzhudyl.a
    local -a sources=("$root"/{examples/{show.c,common.h,names.h,read_listing.h},include/farzhudyl.h} "$library")
    if ! stale "$program" "${sources[@]}"; then return 0; fi
    if ! compiler=$(command -v cc || command -v gcc); then
        need gcc gcc
        compiler=gcc
    fi
    making "$program" "${sources[@]}" &&
        "$compiler" -std=c11 -O2 -I"$root/include" "$root/examples/show.c" "$library" -o "$program" && made "$program" || exit 2
}

build_second() {
    local root=$1 program=$1/$second_engine said
    local -a sources=("$root"/tests/second-engine/{src,Cargo.toml,Cargo.lock})
    if ! stale "$program" "${sources[@]}"; then return 0; fi
    if lacks_cargo; then return 1; fi
    echo "building the second engine, once" >&2
    if ! making "$program" "${sources[@]}"; then
        reason="cannot write in ${program%/*}"
        return 1
    fi
    if ! said=$(cd "$root/tests/second-engine" && cargo build --quiet --release --offline --locked --color never 2>&1); then
        reason="cargo cannot build it: $(grep -m 1 '^error' <<<"$said" || tail -n 1 <<<"$said")"
        return 1
    fi
    made "$program"
}
