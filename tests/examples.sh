#!/usr/bin/env bash
# Compiles the header alone and every program of examples/, as C11 and as C++17. Runs each program on every sheet of examples/ and of
# tests/examples/ under each kind, and compares what it writes with tests/examples/PROGRAM/SHEET.KIND, or with the file beside the sheet
# (examples/SHEET.KIND for client, examples/SHEET.KIND.names for show). For shared each line of SHEET.KIND has two names and what is to be
# written of them. pool, which takes no kind but two sheets, has cases of its own, and so has weights: tests/examples/weights/SHEET.listed
# is what it writes of a sheet, and each line of SHEET.sides has a set and what is to be written of it. Tries bad usage, refused sheets,
# input and output that fail, for shared names that are not there, and for lines damaged listings. Runs the C builds under valgrind. The
# last line is `N passed, M failed`; the exit status is 1 if anything failed.
# usage: tests/examples.sh [PREFIX]     PREFIX is where the library is installed; without it, this folder's header and library are taken
set -u
root=$(cd "$(dirname "$0")/.." && pwd) || exit 2
# shellcheck source=scripts/tools.sh
. "$root/scripts/tools.sh"
# shellcheck source=tests/counts.sh
. "$root/tests/counts.sh"
# shellcheck source=scripts/library.sh
. "$root/scripts/library.sh"
if [ $# -gt 1 ]; then
    echo "usage: tests/examples.sh [PREFIX]" >&2
    exit 2
fi
need gcc gcc
need g++ g++
need valgrind valgrind
if [ $# = 1 ]; then
    need pkg-config pkg-config
    prefix=$(cd "$1" && pwd) || exit 2
    if [ ! -f "$prefix/lib/pkgconfig/farzhudyl.pc" ]; then
        echo "missing: $prefix/lib/pkgconfig/farzhudyl.pc" >&2
        exit 2
    fi
    # xargs takes a space in a path as pkg-config writes it.
    mapfile -t library < <(PKG_CONFIG_PATH=$prefix/lib/pkgconfig pkg-config --cflags --libs farzhudyl | xargs -r printf '%s\n')
    mapfile -t header < <(PKG_CONFIG_PATH=$prefix/lib/pkgconfig pkg-config --cflags farzhudyl | xargs -r printf '%s\n')
else
    find_library "$root"
    library=(-Iinclude "$FARZHUDYL_LIB_DIR/libfarzhudyl.a")
    header=(-Iinclude)
fi
cd "$root" || exit 2
built=$(mktemp -d) || exit 2
trap 'rm -rf "$built"' EXIT
mkdir "$built/c" "$built/c++" "$built/given" || exit 2

words=('' strong clean splits)
reasons=(
    [2]='the sheet has no bytes, or over 12,288'
    [3]='a byte of the sheet is not A to Z, 0 to 9, minus, point, space or line feed'
    [4]='line 1 has no line feed, or is not one or more names, single spaces between'
    [5]='two names are equal'
    [6]='there are over 32 names'
    [7]='there are not as many lines of values as names, or the last line has no line feed'
    [8]='a line does not have as many well-formed values as there are names, single spaces between'
    [9]='two mirrored values differ'
    [11]='a value is below -1,000,000 or above 1,000,000'
    [12]='a distance is negative, or that of an entry to itself is not 0'
    [16]='a pair is unscored, which only strong groups allow'
)
# Compiles C files as C or as C++; the symbols are for valgrind's reports.
compile() { # c|c++ WORD ..
    local language=$1
    shift
    case $language in
        c) gcc -std=c11 -g -Wall -Wextra -Werror -pedantic -x c "$@" ;;
        c++) g++ -std=c++17 -g -Wall -Wextra -Werror -pedantic -x c++ "$@" ;;
    esac
}

# A command ends with this status and has written the bytes of this file, and on standard error this line, or nothing if it is empty.
expect() { # NAME STATUS FILE LINE COMMAND ..   the sheet on standard input
    local name=$1 status=$2 file=$3 line=$4 ended=0
    shift 4
    "$@" >"$built/out" 2>"$built/err" || ended=$?
    printf '%s' "${line:+$line$'\n'}" >"$built/line"
    if [ "$ended" = "$status" ] && cmp "$file" "$built/out" && cmp "$built/line" "$built/err"; then
        count 0 "$name"
    else
        count 1 "$name"
        echo "exit status $ended, wanted $status; standard output and standard error, < wanted, > found:"
        diff "$file" "$built/out"
        diff "$built/line" "$built/err"
    fi
}

# A command writes `refused N` and ends with 1; show says why.
expect_refusal() { # NAME NUMBER PROGRAM COMMAND ..   the sheet on standard input
    local name=$1 number=$2 line=''
    if [ "$3" = show ]; then line="show: ${reasons[$number]}"; fi
    shift 3
    echo "refused $number" >"$built/wanted"
    expect "$name" 1 "$built/wanted" "$line" "$@"
}

# The word for a kind: show takes the kind's name, the others its number.
word() { # PROGRAM KIND
    if [ "$1" = show ]; then echo "${words[$2]}"; else echo "$2"; fi
}

# What follows the word for a kind: two names for shared, here of four.sheet and of the sheets that are refused for their values.
set_names() { # PROGRAM
    if [ "$1" = shared ]; then names=(A B); else names=(); fi
}

# The file that says what a program writes.
wanted() { # PROGRAM SHEET KIND
    local beside=examples/$2.${words[$3]}
    if [ "$1" = client ] && [ -f "$beside" ]; then
        echo "$beside"
    elif [ "$1" = show ] && [ -f "$beside.names" ]; then
        echo "$beside.names"
    else
        echo "tests/examples/$1/$2.${words[$3]}"
    fi
}

# A command writes the bytes of this file, which may be a refusal.
expect_file() { # NAME FILE PROGRAM COMMAND ..   the sheet on standard input
    local name=$1 file=$2 program=$3
    shift 3
    if [ "$(head -c 8 "$file")" = 'refused ' ]; then
        expect_refusal "$name" "$(cut -d ' ' -f 2 "$file")" "$program" "$@"
    else
        expect "$name" 0 "$file" '' "$@"
    fi
}

# Runs a program on a sheet; shared once for each two names.
on_sheet() { # PROGRAM SHEET-FILE KIND COMMAND ..
    local program=$1 sheet=$2 kind=$3 file first second line
    shift 3
    file=$(wanted "$program" "$(basename "$sheet" .sheet)" "$kind")
    if [ "$program" != shared ]; then
        expect_file "$* ${words[$kind]}, $sheet" "$file" "$program" "$@" "$(word "$program" "$kind")" <"$sheet"
        return
    fi
    if [ ! -s "$file" ]; then count 1 "$file has no line"; fi
    while read -r first second line; do
        echo "$line" >"$built/pair"
        expect_file "$* ${words[$kind]} $first $second, $sheet" "$built/pair" shared "$@" "$kind" "$first" "$second" <"$sheet"
    done <"$file"
}

# Runs a program on a refused sheet. A sheet that passes 9 gets 1 from shared for kind 3.
on_refused() { # PROGRAM NUMBER.WHAT KIND COMMAND ..
    local program=$1 sheet=$2 kind=$3 number=${2%%.*}
    shift 3
    if [ "$program$kind" = shared3 ] && [ "$number" -gt 9 ]; then number=1; fi
    expect_refusal "$* ${words[$kind]}, $sheet" "$number" "$program" "$@" "$(word "$program" "$kind")" "${names[@]}" \
        <"$built/refused/$sheet"
}

# Bad arguments: one line about usage. Numbers that are no kind go to the library.
on_arguments() { # PROGRAM FILE
    local program=$1 file=$2 usage argument
    local no_kinds=('' ' 1' '1 ' '+1' '1x' 'x1' '01' '-0' '-' '1.0' '0x1' '1e0' $'1\n' 4294967297 4294967298 -4294967295 2147483648
        -2147483649 9223372036854775808 18446744073709551617 -18446744073709551615 100000000000000000000001 strong)
    if [ "$program" = show ]; then
        usage='usage: show strong|clean|splits < SHEET'
        no_kinds=('' ' strong' 'strong ' Strong stron strongx groups 1 2 3 0 $'clean\n')
    else
        usage="usage: $program 1|2|3 < SHEET"
        if [ "$program" = shared ]; then usage='usage: shared 1|2 NAME NAME < SHEET'; fi
        for argument in 0 4 -1 -7 255 257 65537 2147483647 -2147483648; do
            expect_refusal "$file $argument" 1 "$program" "$file" "$argument" "${names[@]}" <examples/four.sheet
        done
    fi
    for argument in "${no_kinds[@]}"; do
        expect "$file '$argument'" 2 /dev/null "$usage" "$file" "$argument" "${names[@]}" <examples/four.sheet
    done
    expect "$file without an argument" 2 /dev/null "$usage" "$file" <examples/four.sheet
    argument=$(word "$program" 1)
    expect "$file with an argument too many" 2 /dev/null "$usage" "$file" "$argument" "${names[@]}" "$argument" <examples/four.sheet
    if [ "$program" = shared ]; then
        expect "$file without names" 2 /dev/null "$usage" "$file" 1 <examples/four.sheet
        expect "$file with one name" 2 /dev/null "$usage" "$file" 1 A <examples/four.sheet
        expect "$file with names only" 2 /dev/null "$usage" "$file" A B <examples/four.sheet
    fi
}

# A name that is not on the sheet, as the first and as the second name of shared.
on_missing() { # NAME COMMAND ..
    local name=$1 line="shared: no entry of the sheet has the name '$1'"
    shift
    expect "$* 1 '$name' A" 2 /dev/null "$line" "$@" 1 "$name" A <tests/examples/mixed.sheet
    expect "$* 2 A '$name'" 2 /dev/null "$line" "$@" 2 A "$name" <tests/examples/mixed.sheet
}

# Names that shared does not find. The first that is missing is told, before a kind or a value is looked at.
on_names() { # FILE
    local file=$1 name kind
    for name in '' ' ' 'A ' ' A' $'A\n' a AA 'A LONGNAME' LONGNAM LONGNAMEX NAME C 3 90 0; do on_missing "$name" "$file"; done
    for kind in 1 3; do
        expect "$file $kind E F, 11.over" 2 /dev/null "shared: no entry of the sheet has the name 'E'" "$file" "$kind" E F \
            <"$built/refused/11.over"
    done
}

# Pools: in the order of either sheet, of a sheet with itself, with half points, and of as many bytes as there can be; 17, of two of four
# names too, and 18, for a whole point and for half a point.
on_pools() { # COMMAND ..
    local four=examples/four.sheet two=$built/refused/12.own books=examples/books.sheet stones=examples/stones.sheet
    expect "$* of books and stones" 0 examples/pooled.sheet '' "$@" "$books" "$stones"
    expect "$* of stones and books" 0 tests/examples/pool/stones-books '' "$@" "$stones" "$books"
    expect "$* of four and four" 0 tests/examples/pool/four-four '' "$@" "$four" "$four"
    expect "$* of halves and four" 0 tests/examples/pool/halves-four '' "$@" examples/halves.sheet "$four"
    expect "$* of 32 entries" 0 "$built/crowd.-1000000" '' "$@" "$built/crowd.-1" "$built/crowd.-999999"
    expect "$* of the longest" 0 "$built/crowd.-999999.5" '' "$@" "$built/crowd.-0.5" "$built/crowd.-999999"
    expect_refusal "$* of other names" 17 pool "$@" "$four" examples/burials.sheet
    expect_refusal "$* of more names" 17 pool "$@" "$two" "$four"
    expect_refusal "$* of fewer names" 17 pool "$@" "$four" "$two"
    expect_refusal "$* of a sum out of range" 18 pool "$@" "$built/crowd.-1000000" "$built/crowd.-1"
    expect_refusal "$* of a sum half a point out of range" 18 pool "$@" "$built/crowd.-1000000" "$built/crowd.-0.5"
}

# A refused sheet as the first and as the second to pool; where both are refused, it is the first that counts.
on_refused_pool() { # NUMBER.WHAT COMMAND ..
    local sheet=$built/refused/$1 number=${1%%.*} empty=$built/refused/2.no-bytes
    shift
    expect_refusal "$* $sheet, first" "$number" pool "$@" "$sheet" examples/four.sheet
    expect_refusal "$* $sheet, second" "$number" pool "$@" examples/four.sheet "$sheet"
    expect_refusal "$* $sheet, before no bytes" "$number" pool "$@" "$sheet" "$empty"
    expect_refusal "$* $sheet, after no bytes" 2 pool "$@" "$empty" "$sheet"
}

# All that pool is tried on.
on_pool() { # FILE
    local file=$1 four=examples/four.sheet sheet bad way usage='usage: pool FIRST SECOND'
    on_pools "$file"
    for sheet in "$built"/refused/{?.*,11.*}; do on_refused_pool "$(basename "$sheet")" "$file"; done
    expect "$file without sheets" 2 /dev/null "$usage" "$file"
    expect "$file with one sheet" 2 /dev/null "$usage" "$file" "$four"
    expect "$file with three sheets" 2 /dev/null "$usage" "$file" "$four" "$four" "$four"
    for bad in / "$built/none" ''; do
        expect "$file '$bad', first" 2 /dev/null "pool: cannot read $bad" "$file" "$bad" "$four"
        expect "$file '$bad', second" 2 /dev/null "pool: cannot read $bad" "$file" "$four" "$bad"
    done
    for way in to_full to_closed; do
        for sheet in "$four" examples/burials.sheet; do # a pool, and a refusal
            expect "$way $file $sheet" 2 /dev/null 'pool: cannot write standard output' "$way" "$file" "$four" "$sheet"
        done
    done
}

# The listed splits of a sheet, and single ones by a side.
on_weights() { # SHEET-FILE COMMAND ..
    local sheet=$1 files side line
    shift
    files=tests/examples/weights/$(basename "$sheet" .sheet)
    expect_file "$*, $sheet" "$files.listed" weights "$@" <"$sheet"
    if [ ! -s "$files.sides" ]; then count 1 "$files.sides has no line"; fi
    while read -r side line; do
        case $line in
            refused*) echo "$line" ;;
            *) echo "$side $line" ;;
        esac >"$built/side"
        expect_file "$* $side, $sheet" "$built/side" weights "$@" "$side" <"$sheet"
    done <"$files.sides"
}

# A refused sheet to weigh, with a side and without; the sheet's checks come before the side's.
on_refused_weights() { # NUMBER.WHAT COMMAND ..
    local sheet=$built/refused/$1 number=${1%%.*}
    shift
    expect_refusal "$*, $sheet" "$number" weights "$@" <"$sheet"
    expect_refusal "$* 00000003, $sheet" "$number" weights "$@" 00000003 <"$sheet"
    expect_refusal "$* ffffffff, $sheet" "$number" weights "$@" ffffffff <"$sheet"
}

# All that weights is tried on.
on_weighing() { # FILE
    local file=$1 sheet argument way
    local usage='usage: weights [SET] < SHEET'
    for sheet in examples/*.sheet tests/examples/*.sheet; do on_weights "$sheet" "$file"; done
    for sheet in "$built"/refused/*; do on_refused_weights "$(basename "$sheet")" "$file"; done
    for argument in '' ' ' c 000000c 000000000c 0000000C 0x00000c 0000000g '0000000c ' ' 000000c' ' 0000000c' +000000c -000000c \
        $'0000000c\n' 1ffffffff 10000000c fffffffffffffffff C D; do
        expect "$file '$argument'" 2 /dev/null "$usage" "$file" "$argument" <examples/copies.sheet
    done
    expect "$file with two sets" 2 /dev/null "$usage" "$file" 0000000c 0000000c <examples/copies.sheet
    for argument in '' 0000000c; do
        for way in from_folder from_closed; do
            # shellcheck disable=SC2086 # no word if it is empty
            expect "$way $file $argument" 2 /dev/null 'weights: cannot read standard input' "$way" "$file" $argument
        done
        for way in to_full to_closed; do
            for sheet in copies four; do # weights, and a refusal
                # shellcheck disable=SC2086 # no word if it is empty
                expect "$way $file $argument, $sheet" 2 /dev/null 'weights: cannot write standard output' "$way" "$file" $argument \
                    <"examples/$sheet.sheet"
            done
        done
    done
}

from_folder() { "$@" </; }
from_closed() { "$@" <&-; }
to_full() { "$@" >/dev/full; }
to_closed() { "$@" >&-; }

# Input and output that fail.
on_failures() { # PROGRAM FILE
    local program=$1 file=$2 kind way
    for kind in 1 3; do # a listing, and a refusal
        for way in from_folder from_closed; do
            expect "$way $file $kind" 2 /dev/null "$program: cannot read standard input" "$way" "$file" \
                "$(word "$program" "$kind")" "${names[@]}"
        done
        for way in to_full to_closed; do
            expect "$way $file $kind" 2 /dev/null "$program: cannot write standard output" "$way" "$file" \
                "$(word "$program" "$kind")" "${names[@]}" <examples/four.sheet
        done
    done
}

# The refused sheets, NUMBER.WHAT.
mkdir "$built/refused" && cd "$built/refused" || exit 2
printf '' >2.no-bytes
head -c 12289 /dev/zero | tr '\0' 'A' >2.12289-bytes
head -c 100000 /dev/zero | tr '\0' '\n' >2.100000-bytes
head -c 12288 /dev/zero | tr '\0' 'A' >4.12288-bytes
printf 'A B\n9 8\n8 9\r\n' >3.carriage-return
printf 'A B\n9\t8\n8 9\n' >3.tab
printf 'A b\n9 8\n8 9\n' >3.lower-case
printf 'A B\n9 8\n8 9\n\0' >3.byte-0
printf 'A B\n9 8,5\n8,5 9\n' >3.comma
printf 'A B' >4.no-line-feed
printf '\n' >4.no-name
printf 'A  B\n9 8\n8 9\n' >4.two-spaces
printf 'A LONGNAME9\n9 8\n8 9\n' >4.nine-bytes
printf 'A B.\n9 8\n8 9\n' >4.point
printf 'A B A\n9 8 7\n8 9 6\n7 6 9\n' >5.equal-names
seq -f 'N%g' -s ' ' 33 >6.33-names
printf 'A B\n9 8\n' >7.line-missing
printf 'A B\n9 8\n8 9\n\n' >7.line-too-many
printf 'A B\n9 8\n8 9' >7.no-line-feed
printf 'A B\n9 8\n8 9\n.5' >7.point
printf 'A B\n9 8\n8\n' >8.value-missing
printf 'A B\n9 -0\n-0 9\n' >8.minus-zero
printf 'A B\n9 8\n8 9 \n' >8.space-at-end
printf 'A B\n9 --\n-- 9\n' >8.two-minus-signs
printf 'A B\n9 -2147483648\n-2147483648 9\n' >8.ten-digits
printf 'A B\n9 .5\n.5 9\n' >8.no-digit
printf 'A B\n9 5.\n5. 9\n' >8.no-half
printf 'A B\n9 5.0\n5.0 9\n' >8.no-half-but-0
printf 'A B\n9 0.50\n0.50 9\n' >8.two-digits-behind
printf 'A B\n9 12345678.5\n12345678.5 9\n' >8.eight-digits-and-half
printf 'A B\n9 8\n7 9\n' >9.mirrored
printf 'A B\n9 8.5\n8 9\n' >9.half-on-one-side
printf 'A B\n9 -\n7 9\n' >9.mark-on-one-side
printf 'A B\n0 1000001\n1000001 0\n' >11.over
printf 'A B\n0 -1000001\n-1000001 0\n' >11.under
printf 'A B\n0 1000000.5\n1000000.5 0\n' >11.over-by-half
printf 'A B\n0 -1000000.5\n-1000000.5 0\n' >11.under-by-half
printf 'A B\n0 9999999.5\n9999999.5 0\n' >11.seven-digits-and-half
printf 'A B\n0 -1\n-1 0\n' >12.negative
printf 'A B\n0 -0.5\n-0.5 0\n' >12.minus-half
printf 'A B\n0 1\n1 1\n' >12.own
printf 'A B\n0 1\n1 0.5\n' >12.own-half
printf 'A B\n0 -\n- 0\n' >16.unscored
printf 'A B\n- -1\n-1 1\n' >16.own-unscored
cd "$root" || exit 2

# 32 entries with names of 8 bytes, each value the same.
for value in -1 -999999 -1000000 -0.5 -999999.5; do
    row=$(yes -- "$value" | head -n 32 | paste -sd ' ')
    { seq -f 'ENTRY%03g' -s ' ' 32 && yes -- "$row" | head -n 32; } >"$built/crowd.$value"
done

printf '#include "farzhudyl.h"\n#include "farzhudyl.h"\n' >"$built/alone.c"
for language in c c++; do
    compile "$language" -c "$built/alone.c" "${header[@]}" -o "$built/alone.o"
    count $? "the header alone, as $language"
    for source in examples/*.c; do
        program=$(basename "$source" .c)
        file=$built/$language/$program
        set_names "$program"
        compile "$language" "$source" -x none "${library[@]}" -o "$file"
        status=$?
        count "$status" "compiling $source as $language"
        if [ "$status" != 0 ]; then continue; fi
        if [ "$program" = pool ]; then
            on_pool "$file"
            continue
        fi
        if [ "$program" = weights ]; then
            on_weighing "$file"
            continue
        fi
        for sheet in examples/*.sheet tests/examples/*.sheet; do
            for kind in 1 2 3; do on_sheet "$program" "$sheet" "$kind" "$file"; done
        done
        for sheet in "$built"/refused/*; do
            sheet=$(basename "$sheet")
            for kind in 1 2 3; do
                case "${sheet%%.*} $kind" in
                    '12 1' | '12 2' | '16 1') ;; # not refused
                    *) on_refused "$program" "$sheet" "$kind" "$file" ;;
                esac
            done
        done
        on_arguments "$program" "$file"
        on_failures "$program" "$file"
        if [ "$program" = shared ]; then on_names "$file"; fi
    done
done

memory=(valgrind --quiet --error-exitcode=3 --leak-check=full --errors-for-leak-kinds=all)
for source in examples/*.c; do
    program=$(basename "$source" .c)
    file=$built/c/$program
    if [ ! -x "$file" ]; then continue; fi
    if [ "$program" = pool ]; then
        on_pools "${memory[@]}" "$file"
        for sheet in 2.12289-bytes 9.mirrored 11.over; do on_refused_pool "$sheet" "${memory[@]}" "$file"; done
        continue
    fi
    if [ "$program" = weights ]; then
        for sheet in examples/{copies,registers,unscored}.sheet tests/examples/spans.sheet; do
            on_weights "$sheet" "${memory[@]}" "$file"
        done
        for sheet in 2.12289-bytes 9.mirrored 12.own; do on_refused_weights "$sheet" "${memory[@]}" "$file"; done
        continue
    fi
    set_names "$program"
    on_sheet "$program" examples/burials.sheet 1 "${memory[@]}" "$file"
    on_sheet "$program" examples/burials.sheet 2 "${memory[@]}" "$file"
    on_sheet "$program" examples/registers.sheet 3 "${memory[@]}" "$file"
    on_sheet "$program" tests/examples/full.sheet 1 "${memory[@]}" "$file"
    on_sheet "$program" examples/unscored.sheet 1 "${memory[@]}" "$file"
    on_sheet "$program" examples/halves.sheet 1 "${memory[@]}" "$file"
    on_sheet "$program" tests/examples/spans.sheet 3 "${memory[@]}" "$file"
    for sheet in 2.no-bytes 2.12289-bytes 9.mirrored 12.own 16.unscored; do on_refused "$program" "$sheet" 3 "${memory[@]}" "$file"; done
done
on_missing LONGNAMEX "${memory[@]}" "$built/c/shared"

# What examples/README.md shows: each command, and the lines behind it.
mkdir "$built/shown" && ln -s "$root/examples" "$built/c/"{shared,pool,weights} "$built/shown" || exit 2
sed -n 's/^    \$ \(\.\/.*\)/\1/p' examples/README.md >"$built/commands"
sed -n '/^    \$ /,/^$/{/^    \$ /d;s/^    //p}' examples/README.md >"$built/wanted"
[ "$(cut -d ' ' -f 1 "$built/commands" | sort -u | paste -sd ' ')" = './pool ./shared ./weights' ] && [ -s "$built/wanted" ]
count $? "examples/README.md shows what shared, pool and weights write"
expect "the commands of examples/README.md" 0 "$built/wanted" '' env -C "$built/shown" bash -e "$built/commands"

# How lines reads a listing: each case is a listing, in which printf's escapes stand for bytes.
first='set size index\n'
no_listings=(
    '' 'set size index' 'Set size index\n' 'set size  index\n' '00000001 1 1\n' '\n' "\\n$first" "$first\\n" "$first$first" "$first\\0"
    "${first}00000001 1 1" "${first}00000001 1 1 \\n" "${first}00000001 1 1\\n\\n" "${first}00000001 1 1\\n\\0" "${first}00000001 1 1\\r\\n"
    "${first}00000001 1\\n" "${first}00000001\\n" "${first}0000000" "${first}00000001 1 " "${first}00000001 1 1\\n00000002"
    "${first} 00000001 1 1\\n" "${first}00000001  1 1\\n" "${first}00000001 1  1\\n" "${first}00000001\\t1 1\\n"
    "${first}0000001 1 1\\n" "${first}000000001 1 1\\n" "${first}0x000001 1 1\\n" "${first}0000000A 2 1\\n" "${first}0000000g 1 1\\n"
    "${first}00000000 0 1\\n" "${first}00000003 1 1\\n" "${first}00000003 3 1\\n" "${first}00000003 02 1\\n" "${first}00000003 +2 1\\n"
    "${first}00000003 4294967298 1\\n" "${first}00000001 1 0\\n" "${first}00000001 1 01\\n" "${first}00000001 1 -1\\n"
    "${first}00000001 1 .5\\n" "${first}00000001 1 1.\\n" "${first}00000001 1 1.0\\n" "${first}00000001 1 0.0\\n"
    "${first}00000001 1 00.5\\n" "${first}00000001 1 01.5\\n" "${first}00000001 1 -0.5\\n" "${first}00000001 1 1.50\\n"
    "${first}00000001 1 1.4\\n" "${first}00000001 1 1.5.5\\n" "${first}00000001 1 1,5\\n" "${first}00000001 1 0.5"
    "${first}00000001 1.5 1\\n" "${first}00000001 1 1000000000000000000.5\\n" "${first}00000000 0 0.5\\n"
    "${first}00000001 1 +1\\n" "${first}00000001 1 1x\\n" "${first}00000001 1 1000000000000000000\\n"
    "${first}00000001 1 18446744073709551617\\n" "${first}00000001 1 1\\n00000001 1 1\\n" "${first}00000002 1 1\\n00000001 1 1\\n"
    "${first}00000003 2 1\\n00000004 1 1\\n"
)
rising=''
for ((a = 0; a < 32; a++)); do rising+=$(printf '%08x 1 1' $((1 << a)))'\n'; done
for ((a = 1; a < 9; a++)); do
    for ((b = 0; b < a && a * (a - 1) / 2 + b < 32; b++)); do rising+=$(printf '%08x 2 1' $((1 << a | 1 << b)))'\n'; done
done
file=$built/given/lines
compile c examples/lines.c tests/examples/given_listing.c "${header[@]}" -o "$file"
status=$?
count "$status" "compiling examples/lines.c for given listings"
if [ "$status" = 0 ]; then
    for listing in "${no_listings[@]}" "$first${rising}00010001 2 1\\n"; do
        expect "lines of $listing" 2 /dev/null 'lines: these bytes are no listing' "$file" 1 < <(printf '%b' "$listing")
    done
    for listing in '' 'set size' "${first}0" "${first}0000000" "${first}00000001" "${first}00000001 " "${first}00000001 1" \
        "${first}00000001 1 " "${first}00000001 1 1" "${first}00000001 1 1." "${first}00000001 1 1.5"; do
        expect "lines of $listing, under valgrind" 2 /dev/null 'lines: these bytes are no listing' "${memory[@]}" "$file" 1 \
            < <(printf '%b' "$listing")
    done
    printf 'lines 0\n' >"$built/wanted"
    expect "lines of no group" 0 "$built/wanted" '' "$file" 1 < <(printf '%b' "$first")
    printf 'lines 64\nlargest: set 00000003, size 2, index 1\ngreatest index: set 00000001, size 1, index 1\n' >"$built/wanted"
    expect "lines of 64 groups" 0 "$built/wanted" '' "$file" 1 < <(printf '%b' "$first$rising")
    for index in 999999999999999999 999999999999999999.5; do
        printf '%s\n' 'lines 2' 'largest: set ffffffff, size 32, index 2' "greatest index: set abcdef09, size 19, index $index" \
            >"$built/wanted"
        expect "lines of the greatest numbers" 0 "$built/wanted" '' "$file" 1 \
            < <(printf '%b' "${first}abcdef09 19 $index\\nffffffff 32 2\\n")
    done
    # Indices that differ by half a point.
    printf '%s\n' 'lines 3' 'largest: set 00000003, size 2, index 0.5' 'greatest index: set 00000002, size 1, index 1.5' >"$built/wanted"
    expect "lines of half points" 0 "$built/wanted" '' "$file" 1 \
        < <(printf '%b' "${first}00000001 1 1\\n00000002 1 1.5\\n00000003 2 0.5\\n")
fi

counted
