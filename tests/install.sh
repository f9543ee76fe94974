#!/usr/bin/env bash
# Installs into temporary folders, holds what is there against what is promised, and takes it away again; then every case in which
# ./install is to refuse. The last line is `N passed, M failed`; the exit status is 1 if anything failed.
# usage: tests/install.sh
set -u
root=$(cd "$(dirname "$0")/.." && pwd) || exit 2
# shellcheck source=scripts/tools.sh
. "$root/scripts/tools.sh"
# shellcheck source=tests/counts.sh
. "$root/tests/counts.sh"
need_rattle
need gcc gcc
need g++ g++
need pkg-config pkg-config
need groff groff
need man man-db
need nm binutils
need_cargo
cd "$root" || exit 2
unset DESTDIR
room=$(mktemp -d) || exit 2
trap 'rm -rf "$room"' EXIT
chmod 755 "$room"

# Every file and directory below a folder, with its mode and what a link leads to.
tree() { # FOLDER
    (cd "$1" && find . -mindepth 1 -printf '%M %p %l\n' | sort)
}

# What is to be in a prefix that did not exist.
expected() {
    local name
    printf 'drwxr-xr-x ./%s \n' bin include lib lib/pkgconfig share share/doc share/doc/farzhudyl share/farzhudyl share/man \
        share/man/man1 share/man/man3
    printf -- '-rw-r--r-- ./%s \n' include/farzhudyl.h lib/libfarzhudyl.a lib/pkgconfig/farzhudyl.pc share/doc/farzhudyl/LICENSE \
        share/farzhudyl/installed share/man/man1/farzhudyl.1 share/man/man3/farzhudyl.3
    for name in strong clean splits show second; do
        printf -- '-rwxr-xr-x ./bin/farzhudyl-%s \n' "$name"
        printf 'lrwxrwxrwx ./share/man/man1/farzhudyl-%s.1 farzhudyl.1\n' "$name"
    done
    for name in listing numbers smallest_shared refined_weight single_linkage average_linkage anchored_scores distances_back pair_list \
        name pool score; do
        printf 'lrwxrwxrwx ./share/man/man3/farzhudyl_%s.3 farzhudyl.3\n' "$name"
    done
}

# A case that is refused: the status is as said, standard output is empty, standard error is one line that has the text, and the folder
# $room/bad is as it was.
refused() { # NAME STATUS TEXT COMMAND ..
    local name=$1 status=$2 text=$3 ended=0
    shift 3
    tree "$room/bad" >"$room/before"
    "$@" >"$room/out" 2>"$room/err" </dev/null || ended=$?
    tree "$room/bad" >"$room/after"
    [ "$ended" = "$status" ] && [ ! -s "$room/out" ] && [ "$(wc -l <"$room/err")" = 1 ] && grep -qF -- "$text" "$room/err" &&
        diff "$room/before" "$room/after"
    count $? "$name (status $ended; $(cat "$room/err"))"
}

# ---- what is installed

prefix=$room/a/prefix
umask 077
./install "$prefix" >"$room/out"
count $? "installing"
umask 022
cat "$room/out"
diff <(expected | sort) <(tree "$prefix")
count $? "the files and their modes"
cmp include/farzhudyl.h "$prefix/include/farzhudyl.h"
count $? "the header is the repository's"
cmp LICENSE "$prefix/share/doc/farzhudyl/LICENSE"
count $? "the licence is the repository's"
if [ -n "${FARZHUDYL_LIB_DIR:-}" ]; then library=$FARZHUDYL_LIB_DIR; else library=target/staticlib; fi
cmp "$library/libfarzhudyl.a" "$prefix/lib/libfarzhudyl.a"
count $? "the library is the one that was proved"

echo '#include <farzhudyl.h>' >"$room/alone.c"
gcc -std=c11 -Wall -Wextra -Werror -pedantic -I "$prefix/include" -c "$room/alone.c" -o "$room/alone.o"
count $? "the header alone, as C11"
g++ -x c++ -std=c++17 -Wall -Wextra -Werror -pedantic -I "$prefix/include" -c "$room/alone.c" -o "$room/alone.o"
count $? "the header alone, as C++17"

symbols=$(nm -A "$prefix/lib/libfarzhudyl.a" 2>&1)
! printf '%s\n' "$symbols" | awk '$(NF - 1) == "U" { print $NF }' | grep -vxE 'memcpy|memset'
count $? "no undefined symbol but memcpy and memset"
! printf '%s\n' "$symbols" | awk '$(NF - 1) ~ /^[A-TV-Z]$/ { print $NF }' | grep -v '^farzhudyl_'
count $? "no global symbol that is not named farzhudyl_"
diff <(expected | sed -n 's/.*\(farzhudyl_[a-z_]*\)\.3 .*/\1/p' | sort) \
    <(printf '%s\n' "$symbols" | awk '$(NF - 1) == "T" { print $NF }' | grep '^farzhudyl_' | sort)
count $? "the library's calls have a man page each"

export PKG_CONFIG_PATH=$prefix/lib/pkgconfig
[ "$(pkg-config --modversion farzhudyl)" = "$(cat VERSION)" ]
count $? "the version of farzhudyl.pc"
[ "$(pkg-config --variable=prefix farzhudyl)" = "$prefix" ]
count $? "the prefix of farzhudyl.pc"
unset PKG_CONFIG_PATH

tests/examples.sh "$prefix" >"$room/out" 2>&1
status=$?
cat "$room/out"
if [[ $(tail -n 1 "$room/out") =~ ^([0-9]+)\ passed,\ ([0-9]+)\ failed$ ]]; then
    passed=$((passed + BASH_REMATCH[1]))
    failed=$((failed + BASH_REMATCH[2]))
    if [ "$status" != 0 ] && [ "${BASH_REMATCH[2]}" = 0 ]; then count 1 "the examples (status $status)"; fi
else
    count 1 "the examples (status $status)"
fi

for sheet in four copies unscored halves; do
    for kind in strong clean splits; do
        listed=tests/examples/client/$sheet.$kind
        [ -f "$listed" ] || listed=examples/$sheet.$kind
        "$prefix/bin/farzhudyl-$kind" <"examples/$sheet.sheet" | diff "$listed" -
        count $? "farzhudyl-$kind on $sheet.sheet"
        "$prefix/bin/farzhudyl-second" "$kind" <"examples/$sheet.sheet" | diff "$listed" -
        count $? "farzhudyl-second $kind on $sheet.sheet"
        ./run --names "$kind" <"examples/$sheet.sheet" >"$room/names" 2>/dev/null
        "$prefix/bin/farzhudyl-show" "$kind" <"examples/$sheet.sheet" 2>/dev/null | diff "$room/names" - && [ -s "$room/names" ]
        count $? "farzhudyl-show $kind on $sheet.sheet"
    done
done

# ---- the man pages

for section in 1 3; do
    page=$prefix/share/man/man$section/farzhudyl.$section
    said=$(groff -mdoc -ww -Tutf8 -z "$page" 2>&1) && [ -z "$said" ]
    count $? "groff on farzhudyl.$section: $said"
    if command -v mandoc >/dev/null 2>&1; then
        said=$(mandoc -Tlint "$page" 2>&1) && [ -z "$said" ]
        count $? "mandoc on farzhudyl.$section: $said"
    fi
    grep -qF "version $(cat VERSION)." "$page" && ! grep -q '@[A-Z]*@' "$page"
    count $? "the version in farzhudyl.$section"
done
for page in farzhudyl_listing farzhudyl_refined_weight farzhudyl_score; do
    MANPATH=$prefix/share/man man 3 "$page" 2>/dev/null | grep -qF "FARZHUDYL_LISTING_MAX"
    count $? "man 3 $page"
done
for page in farzhudyl-strong farzhudyl-second farzhudyl; do
    MANPATH=$prefix/share/man man 1 "$page" 2>/dev/null | grep -qF "refused"
    count $? "man 1 $page"
done
# What the pages show is true: a literal block of a page, by its number, as a reader sees it.
block() { # SECTION NUMBER
    awk -v wanted="$2" '/^\.Bd -literal/ { number++; on = 1; next } /^\.Ed/ { on = 0 } on && number == wanted' \
        "$prefix/share/man/man$1/farzhudyl.$1" | sed 's/\\&//g; s/\\e/\\/g'
}
for case in '3 1 examples/four.sheet' '3 2 tests/examples/client/four.strong' '3 3 examples/books.sheet' '3 4 examples/stones.sheet' \
    '3 5 examples/pooled.sheet' '1 1 examples/four.sheet' '1 2 tests/examples/client/four.clean' '1 3 examples/unscored.sheet' \
    '1 4 examples/unscored.strong' '1 5 examples/halves.sheet' '1 6 examples/halves.strong' '1 7 examples/copies.sheet' \
    '1 8 tests/examples/client/copies.splits'; do
    read -r section number file <<<"$case"
    block "$section" "$number" | diff "$file" -
    count $? "block $number of farzhudyl.$section"
done
(
    cd "$room" && block 3 6 >groups.c && cp "$root/examples/four.sheet" . &&
        block 3 7 | PKG_CONFIG_PATH=$prefix/lib/pkgconfig bash -e | diff "$root/tests/examples/client/four.strong" -
)
count $? "the program that farzhudyl.3 shows, compiled as it says"
# What the header shows of a pool: the two sheets and the pool, side by side.
sed -n '/their pool:$/,/^   Answers/s/^       //p' include/farzhudyl.h >"$room/shown"
for case in '1-7 books' '13-19 stones' '25- pooled'; do
    read -r columns sheet <<<"$case"
    diff "examples/$sheet.sheet" <(cut -c "$columns" "$room/shown")
    count $? "$sheet.sheet in the header"
done
# And what README.md shows: the sheet with its two listings side by side, and the program with the line that compiles it.
diff examples/four.sheet <(sed -n '/^    A B C D$/,/^$/s/^    //p' README.md | head -n 5)
count $? "the sheet of README.md"
sed -n '/^    set size index /,/^$/s/^    //p' README.md >"$room/shown"
diff tests/examples/client/four.strong <(cut -c 1-40 "$room/shown" | sed 's/ *$//; /^$/d')
count $? "the listing of README.md"
diff tests/examples/show/four.strong <(cut -c 45- "$room/shown")
count $? "the names of README.md"
(
    cd "$room" && sed -n '/^    #include <stdio.h>$/,/^    }$/s/^    //p' "$root/README.md" >client.c &&
        sed -n 's/^    \(cc -std=c11 client.c .*\)/\1/p' "$root/README.md" | PKG_CONFIG_PATH=$prefix/lib/pkgconfig bash -e &&
        ./client | diff <(printf 'set size index\n00000001 1 1\n00000002 1 1\n') -
)
count $? "the program of README.md, compiled as it says"
[ "$(printf 'A\n-0\n' | "$prefix/bin/farzhudyl-strong")" = 'refused 8' ]
count $? "the refusal that farzhudyl.1 shows"

# ---- again, and away

tree "$prefix" >"$room/before"
cp "$prefix/share/farzhudyl/installed" "$room/installed"
echo old >"$prefix/include/farzhudyl.h"
touch "$prefix/bin/gone"
echo 'file bin/gone' >>"$prefix/share/farzhudyl/installed"
./install "$prefix/" >/dev/null && tree "$prefix" | diff "$room/before" - && cmp include/farzhudyl.h "$prefix/include/farzhudyl.h" &&
    cmp "$room/installed" "$prefix/share/farzhudyl/installed"
count $? "installing over an earlier installation"
./install --remove "$prefix" && [ ! -e "$room/a" ]
count $? "--remove takes away everything, and the directories that were made"

mkdir -p "$room/full/lib/pkgconfig" "$room/full/bin" "$room/full/share/man"
echo mine >"$room/full/bin/mine"
tree "$room/full" >"$room/before"
./install "$room/full" >/dev/null && echo also >"$room/full/share/man/man3/mine.3" && ./install --remove "$room/full" &&
    rm "$room/full/share/man/man3/mine.3" && rmdir "$room/full/share/man/man3" && tree "$room/full" | diff "$room/before" -
count $? "--remove keeps what was there before, and a directory with another file"

DESTDIR=$room/stage ./install /opt/some/place >/dev/null && diff <(expected | sort) <(tree "$room/stage/opt/some/place")
count $? "DESTDIR"
[ "$(PKG_CONFIG_PATH=$room/stage/opt/some/place/lib/pkgconfig pkg-config --variable=prefix farzhudyl)" = /opt/some/place ]
count $? "farzhudyl.pc says PREFIX without DESTDIR"
DESTDIR=$room/stage ./install --remove /opt/some/place && [ ! -e "$room/stage" ]
count $? "--remove with DESTDIR"
(cd "$room" && DESTDIR=stage "$root/install" >/dev/null) && [ -f "$room/stage/usr/local/include/farzhudyl.h" ] &&
    (cd "$room" && DESTDIR=stage "$root/install" --remove /usr/local) && [ ! -e "$room/stage" ]
count $? "a relative DESTDIR, and /usr/local without PREFIX"
said=$(./install --help 2>"$room/err") && [[ $said == usage:* ]] && [ ! -s "$room/err" ]
count $? "--help"

# ---- refused, with nothing left behind

mkdir "$room/bad"
echo text >"$room/bad/file"
refused "an unknown option" 2 'unknown option --prefix' ./install --prefix "$room/bad/new"
refused "two prefixes" 2 'more than one PREFIX' ./install "$room/bad/new" "$room/bad/other"
refused "a relative prefix" 2 'not an absolute path' ./install bad/new
refused "an empty prefix" 2 'PREFIX is empty' ./install ''
refused "a prefix with .." 2 '..' ./install "$room/bad/x/../new"
refused "a prefix with a space" 2 'character' ./install "$room/bad/new folder"
refused "a prefix that is a file" 1 "$room/bad/file is not a directory" ./install "$room/bad/file"
refused "a prefix below a file" 1 "$room/bad/file is not a directory" ./install "$room/bad/file/new"
refused "nothing to remove" 1 'nothing is installed' ./install --remove "$room/bad/new"
mkdir -p "$room/bad/taken/include/farzhudyl.h"
refused "a directory where a file goes" 1 'farzhudyl.h is a directory' ./install "$room/bad/taken"

mkdir -p "$room/bad/damaged/share/farzhudyl"
for line in "file $room/bad/file" 'file ../file' 'file bin/../../file' 'directory ..' 'file' 'upwards -1' 'other bin'; do
    echo "$line" >"$room/bad/damaged/share/farzhudyl/installed"
    refused "a manifest with the line '$line'" 1 'is damaged' ./install --remove "$room/bad/damaged"
    refused "installing over a manifest with the line '$line'" 1 'is damaged' ./install "$room/bad/damaged"
done

# Without rt, and without a cargo that can build the second engine: all is put as long as it is built.
mkdir "$room/few"
for name in bash awk basename cat chmod cmp cp cut dirname env find gcc cc grep head id ln mkdir mktemp mv rm rmdir sed sort stat tail touch wc; do
    found=$(command -v "$name") && ln -s "$found" "$room/few/$name"
done
PATH=$room/few ./install "$room/bad/new" >/dev/null 2>"$room/err" && [ ! -s "$room/err" ] && diff <(expected | sort) <(tree "$room/bad/new") &&
    ./install --remove "$room/bad/new"
count $? "neither rt nor cargo, where all is built: $(cat "$room/err")"
rm -f target/bin/strong.made
refused "no rt" 2 'the command rt is missing' env PATH="$room/few" ./install "$room/bad/new"
# Each stand-in for cargo or rustc, what is said of it in one line, and all but the second engine is put.
left_out() { # NAME TEXT
    rm -f tests/second-engine/target/release/farzhudyl-second.made
    PATH=$room/few:$room/tools ./install "$room/bad/new" 2>"$room/err" >/dev/null &&
        [ "$(grep -v '^building' "$room/err")" = "left out: farzhudyl-second, as $2" ] &&
        diff <(expected | sort | grep -v bin/farzhudyl-second) <(tree "$room/bad/new") && ./install --remove "$room/bad/new"
    count $? "$1: all but farzhudyl-second: $(cat "$room/err")"
}
stand_in() { # COMMAND VERSION [ERROR]     with ERROR it says that, and fails, where it is asked for more than its version
    # shellcheck disable=SC2016 # the word is the stand-in's
    printf '#!/bin/sh\nif [ "$1" = --version ]; then echo "%s"; else echo "error: %s" >&2; exit 101; fi\n' "$1 $2" "${3:-}" >"$room/tools/$1"
    chmod +x "$room/tools/$1"
}
mkdir "$room/tools"
./run strong <examples/four.sheet >/dev/null 2>&1
left_out 'no cargo' 'the command cargo is missing'
stand_in cargo 1.48.0
stand_in rustc 1.63.0
left_out 'an older cargo' 'cargo 1.48.0 is too old: 1.56 or later is needed'
stand_in cargo 1.65.0
stand_in rustc '1.62.1 (e092d0b6b 2022-07-16)'
left_out 'an older rustc' 'rustc 1.62.1 is too old: 1.63 or later is needed'
rm "$room/tools/rustc"
left_out 'no rustc' 'the command rustc is missing'
stand_in rustc ''
left_out 'a rustc that does not say its version' 'the command rustc does not say its version: 1.63 or later is needed'
stand_in rustc 1.100.0
stand_in cargo 2.0.0 'failed to parse lock file'
left_out 'a cargo that fails' 'cargo cannot build it: error: failed to parse lock file'
./install "$prefix" >/dev/null 2>&1 && [ -x "$prefix/bin/farzhudyl-second" ] && ./install --remove "$prefix"
count $? "the second engine is put again"

# A copy that fails midway: by the limit of the size of a file, and by a command that fails on its tenth call; once into nothing, and
# once over an earlier installation.
mkdir "$room/failing"
cat >"$room/failing/tenth" <<'END'
#!/usr/bin/env bash
echo >>"$CALLS"
if [ "$(wc -l <"$CALLS")" = 10 ]; then exit 1; fi
PATH=${PATH#*:} exec "$(basename "$0")" "$@"
END
chmod 755 "$room/failing/tenth"
limited() ( # KILOBYTES PREFIX
    ulimit -f "$1"
    exec ./install "$2"
)
tenth() { # COMMAND PREFIX
    local ended=0
    rm -f "$room/calls"
    ln -s tenth "$room/failing/$1"
    CALLS=$room/calls PATH=$room/failing:$PATH ./install "$2" || ended=$?
    rm "$room/failing/$1"
    return "$ended"
}
for earlier in '' 'over an earlier installation, '; do
    if [ -n "$earlier" ]; then
        ./install "$room/bad/new" >/dev/null
        echo old >"$room/bad/new/include/farzhudyl.h"
    fi
    refused "${earlier}a page that cannot be written whole" 1 'cannot write' limited 8 "$room/bad/new"
    refused "${earlier}a program that cannot be written whole" 1 "cannot write $room/bad/new/bin" limited 20 "$room/bad/new"
    for name in cp chmod ln mv mkdir; do
        if [ -n "$earlier" ] && [ "$name" = mkdir ]; then continue; fi
        refused "${earlier}the tenth $name fails" 1 'cannot' tenth "$name" "$room/bad/new"
    done
    if [ -n "$earlier" ]; then
        [ "$(cat "$room/bad/new/include/farzhudyl.h")" = old ]
        count $? "the earlier files are back"
    fi
done
./install --remove "$room/bad/new"

# No right to write: as nobody if this is root. nobody may have no right to read this folder, so it is a copy.
mkdir "$room/copy"
cp -R install scripts include man LICENSE VERSION crates.txt "$room/copy"
chmod -R a+rX "$room/copy"
other=()
if [ "$(id -u)" = 0 ]; then other=(setpriv --reuid=65534 --regid=65534 --clear-groups); fi
mkdir -p "$room/bad/closed/lib" "$room/bad/half/lib"
chmod 555 "$room/bad/closed" "$room/bad/closed/lib" "$room/bad/half/lib"
chmod 777 "$room/bad/half"
refused "no right to write" 1 "no right to write in $room/bad/closed" "${other[@]}" "$room/copy/install" "$room/bad/closed/new"
refused "no right to write in one of the directories" 1 "no right to write in $room/bad/half/lib" \
    "${other[@]}" "$room/copy/install" "$room/bad/half"
./install "$room/bad/mine" >/dev/null
chmod 555 "$room/bad/mine/lib"
refused "no right to remove" 1 "no right to write" "${other[@]}" "$room/copy/install" --remove "$room/bad/mine"
chmod 755 "$room/bad/closed" "$room/bad/mine/lib"

counted
