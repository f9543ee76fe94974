#!/usr/bin/env bash
# Runs the three programs through ./run on the sheets of examples/ and on refused ones, the program of names, and both engines; and
# compares files that differ. The last line is `N passed, M failed`.
# usage: tests/programs.sh
set -u
cd "$(dirname "$0")/.." || exit 2
# shellcheck source=scripts/tools.sh
. scripts/tools.sh
# shellcheck source=tests/counts.sh
. tests/counts.sh
# shellcheck source=scripts/agree.sh
. scripts/agree.sh
# shellcheck source=scripts/made.sh
. scripts/made.sh
need gcc gcc
need_cargo
room=$(mktemp -d) || exit 2
trap 'rm -rf "$room"' EXIT
check() { # NAME KIND EXPECTED   the sheet on standard input
    local found
    found=$(./run "$2" 2>/dev/null)
    [ "$found" = "$3" ]
    count $? "$1"$'\n'"expected:"$'\n'"$3"$'\n'"found:"$'\n'"$found"
}

first='set size index'
check 'strong groups of four entries' strong "$(printf '%s\n' "$first" '00000001 1 1' '00000002 1 1' '00000004 1 3' '00000008 1 6' '00000003 2 2' '00000007 3 2')" <examples/four.sheet
check 'clean groups of four entries' clean "$(printf '%s\n' "$first" '00000003 2 2' '00000007 3 6')" <examples/four.sheet
check 'splits of four copies' splits "$(printf '%s\n' "$first" '00000002 1 2' '00000004 1 2' '00000008 1 2' '0000000c 2 4' '0000000e 3 2')" <examples/copies.sheet
check 'strong groups with an unscored pair' strong "$(cat examples/unscored.strong)" <examples/unscored.sheet
check 'clean groups with an unscored pair' clean 'refused 16' <examples/unscored.sheet
check 'splits with an unscored pair' splits 'refused 16' <examples/unscored.sheet
check 'one entry, unscored' strong "$first" < <(printf 'A\n-\n')
check 'strong groups with half points' strong "$(cat examples/halves.strong)" <examples/halves.sheet
check 'clean groups with half points' clean "$(cat tests/examples/client/halves.clean)" <examples/halves.sheet
check 'splits with half points' splits "$(cat tests/examples/client/spans.splits)" <tests/examples/spans.sheet
for kind in strong clean splits; do
    check "one entry, $kind" "$kind" "$first" < <(printf 'A\n0\n')
    check "12,289 line feeds, $kind" "$kind" 'refused 2' < <(head -c 12289 /dev/zero | tr '\0' '\n')
    check "a longer sheet, $kind" "$kind" 'refused 2' < <(head -c 100000 /dev/zero | tr '\0' 'A')
    check "no byte, $kind" "$kind" 'refused 2' </dev/null
    check "-0, $kind" "$kind" 'refused 8' < <(printf 'A\n-0\n')
    check "007, $kind" "$kind" 'refused 8' < <(printf 'A\n007\n')
    check "two minus signs, $kind" "$kind" 'refused 8' < <(printf 'A\n--\n')
    check "a mark on one side, $kind" "$kind" 'refused 9' < <(printf 'A B\n0 -\n0 0\n')
    check "1000001, $kind" "$kind" 'refused 11' < <(printf 'A\n1000001\n')
    check "1000000.5, $kind" "$kind" 'refused 11' < <(printf 'A\n1000000.5\n')
    check "5.0, $kind" "$kind" 'refused 8' < <(printf 'A\n5.0\n')
    check ".5, $kind" "$kind" 'refused 8' < <(printf 'A\n.5\n')
    check "a point in line 1, $kind" "$kind" 'refused 4' < <(printf 'A.\n0\n')
done
check '1000000 and 999999.5' strong "$first"$'\n''00000001 1 0.5' < <(printf 'A B\n1000000 999999.5\n999999.5 999999.5\n')
check 'an own value that is not 0' splits 'refused 12' < <(printf 'A B\n1 5\n5 0\n')
check 'an own value of half a point' splits 'refused 12' < <(printf 'A B\n0.5 5\n5 0\n')

# Runs a command, which is to end with a status, to write exactly what the file $room/expected has, and to say on standard error exactly
# the line SAID; with SAID - it may say anything.
whole() { # NAME STATUS SAID COMMAND ..     the sheet on standard input
    local name=$1 status=$2 said=$3 ended=0
    shift 3
    "$@" >"$room/out" 2>"$room/err" || ended=$?
    [ "$ended" = "$status" ] && cmp "$room/expected" "$room/out" && { [ "$said" = - ] || [ "$(cat "$room/err")" = "$said" ]; }
    count $? "$name (status $ended): $(cat "$room/out" "$room/err")"
}

# A program that is up to date is started without a word, and nothing but the listing is on standard output; so too while one is made,
# as rt finds anew that it is proved.
for sheet in four copies; do
    for kind in strong clean splits; do
        cp "tests/examples/client/$sheet.$kind" "$room/expected"
        whole "$kind of $sheet.sheet, every byte" 0 '' ./run "$kind" <"examples/$sheet.sheet"
        whole "both engines, $kind of $sheet.sheet" 0 - ./run --second "$kind" <"examples/$sheet.sheet"
    done
done
cp examples/unscored.strong "$room/expected"
whole 'both engines, strong of unscored.sheet' 0 - ./run --second strong <examples/unscored.sheet
cp tests/examples/client/unscored.clean "$room/expected"
whole 'both engines, clean of unscored.sheet' 0 - ./run --second clean <examples/unscored.sheet
cp examples/halves.strong "$room/expected"
whole 'both engines, strong of halves.sheet' 0 - ./run --second strong <examples/halves.sheet
cp tests/examples/client/spans.splits "$room/expected"
whole 'both engines, splits of spans.sheet' 0 - ./run --second splits <tests/examples/spans.sheet
cp tests/examples/client/four.strong "$room/expected"
rm -f target/bin/strong.made
whole 'a program that is looked at again' 0 'proving and building, once: strong' ./run strong <examples/four.sheet
echo 'refused 2' >"$room/expected"
whole 'both engines, no byte' 0 '' ./run --second strong </dev/null
whole 'both engines, a longer sheet' 0 '' ./run --second splits < <(head -c 100000 /dev/zero | tr '\0' 'A')
whole 'names of a refused sheet' 1 - ./run --names clean </dev/null

names() { # NAME KIND LINES WORDS   the names of a sheet on standard input: so many lines have the words
    local found
    found=$(./run --names "$2" 2>/dev/null | grep -cE "$4")
    [ "$found" = "$3" ]
    count $? "$1: $found lines, not $3"
}
names 'names of the clean groups' clean 1 '\bA B$' <examples/four.sheet
names 'names of the larger clean group' clean 1 '\bA B C$' <examples/four.sheet
names 'names of the splits' splits 1 '\b4 +C D$' <examples/copies.sheet
names 'names of the strong groups with an unscored pair' strong 3 ' [AB]$' <examples/unscored.sheet
names 'names of the strong groups of half a point' strong 2 '^ +1 +0\.5 +[AB]$' <examples/halves.sheet

: >"$room/expected"
usage='usage: ./run [--names|--second] strong|clean|splits < SHEET'
whole 'no word' 2 "$usage" ./run </dev/null
whole 'an unknown kind' 2 "$usage" ./run other </dev/null
whole 'an unknown kind of names' 2 "$usage" ./run --names other </dev/null
whole 'no kind for both engines' 2 "$usage" ./run --second </dev/null
whole 'an unknown option' 2 "$usage" ./run --other strong </dev/null
whole 'two kinds' 2 "$usage" ./run strong clean </dev/null
said=$(./run --help 2>"$room/err") && [ "$said" = "$usage" ] && [ ! -s "$room/err" ]
count $? "./run --help"

# ./test starts nothing for a word that it does not know; here it could not, since there is no rt.
mkdir -p "$room/few" "$room/other/target"
for name in bash cat dirname find grep mkdir rm stat; do ln -s "$(command -v "$name")" "$room/few/$name"; done
cp -R test scripts "$room/other"
usage=$(sed -n "s/^usage='\(.*\)'$/\1/p" test)
for word in all --version ''; do whole "./test '$word'" 2 "$usage" env PATH="$room/few" "$room/other/test" "$word" </dev/null; done
whole './test with two words' 2 "$usage" env PATH="$room/few" "$room/other/test" --help --help </dev/null
echo "$usage" >"$room/expected"
whole './test --help' 0 '' env PATH="$room/few" "$room/other/test" --help </dev/null
: >"$room/expected"
whole './test without rt' 2 'the command rt is missing; it is of the Rattle kit, and proves and builds this repository' \
    env PATH="$room/few" "$room/other/test" </dev/null
[ -d "$room/other/target" ] && [ -n "$usage" ]
count $? "./test leaves target/ alone"

# A tool that is too old is named, with the version that is needed.
printf '#!/bin/sh\necho "cargo 1.41.0"\n' >"$room/few/cargo"
chmod +x "$room/few/cargo"
needed() { (PATH=$room/few need_cargo); }
whole 'an older cargo for the tests' 2 "cargo 1.41.0 is too old: 1.56 or later is needed (Debian's package cargo)" needed
for case in '1.56 1.56 0' '1.56.0 1.56 0' '1.100.2 1.56 0' '2.0 1.56 0' '1.55.9 1.56 1' '0.99 1.56 1' '1.6 1.56 1'; do
    read -r version least status <<<"$case"
    whole "version $version beside $least" "$status" '' is_at_least "$version" "$least"
done

# Engines that differ: ./run with two stand-ins that are up to date.
mkdir -p "$room/repo/crates" "$room/repo/target/bin" "$room/repo/tests/second-engine/"{src,target/release}
cp -R run scripts "$room/repo"
touch "$room/repo/crates.txt" "$room/repo/tests/second-engine/Cargo."{toml,lock}
printf '#!/bin/sh\nprintf "set size index\\n00000001 1 1\\n"\n' >"$room/repo/target/bin/strong"
printf '#!/bin/sh\nprintf "set size index\\n00000001 1 2\\n"\n' >"$room/repo/tests/second-engine/target/release/farzhudyl-second"
chmod +x "$room/repo/target/bin/strong" "$room/repo/tests/second-engine/target/release/farzhudyl-second"
up_to_date() { # FILE SOURCE ..
    making "$@" && made "$1"
}
crate_sources "$room/repo"
up_to_date "$room/repo/target/bin/strong" "${sources[@]}"
up_to_date "$room/repo/tests/second-engine/target/release/farzhudyl-second" "$room/repo"/tests/second-engine/{src,Cargo.toml,Cargo.lock}
whole 'engines that differ' 1 "the engines differ at line 2: the engine has \`00000001 1 1\`, the second engine has \`00000001 1 2\`" \
    "$room/repo/run" --second strong </dev/null
rm "$room/repo/tests/second-engine/target/release/farzhudyl-second"
: >"$room/expected"
whole 'both engines, an older cargo' 2 'no second engine, as cargo 1.41.0 is too old: 1.56 or later is needed' \
    env PATH="$room/few" "$room/repo/run" --second strong </dev/null
rm "$room/few/cargo"
whole 'both engines, no cargo' 2 'no second engine, as the command cargo is missing' env PATH="$room/few" "$room/repo/run" --second strong </dev/null

# Two files that are equal or differ, as ./run --second compares them.
printf 'a\nb\nc\n' >"$room/first"
agrees() { # NAME STATUS SAID   the second file on standard input
    cat >"$room/second"
    whole "$1" "$2" "$3" agree "$room/first" "$room/second"
}
agrees 'equal files' 0 '' < <(printf 'a\nb\nc\n')
agrees 'a line that differs' 1 "the engines differ at line 2: the engine has \`b\`, the second engine has \`bb\`" < <(printf 'a\nbb\nc\n')
agrees 'a line less' 1 "the engines differ at line 3: the engine has \`c\`, the second engine has no such line" < <(printf 'a\nb\n')
agrees 'a line more' 1 "the engines differ at line 4: the engine has no such line, the second engine has \`d\`" < <(printf 'a\nb\nc\nd\n')
agrees 'no last byte' 1 "the engines differ at line 3: the engine has \`c\`, the second engine has \`c\` without a line feed" \
    < <(printf 'a\nb\nc')
agrees 'another last byte' 1 "the engines differ at line 3: the engine has \`c\`, the second engine has \`c \` without a line feed" \
    < <(printf 'a\nb\nc ')
agrees 'an empty file' 1 "the engines differ at line 1: the engine has \`a\`, the second engine has no such line" </dev/null
: >"$room/first"
agrees 'two empty files' 0 '' </dev/null
agrees 'the first file is empty' 1 "the engines differ at line 1: the engine has no such line, the second engine has \`a\`" \
    < <(printf 'a\n')

counted
