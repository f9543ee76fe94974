#!/usr/bin/env bash
# What signals leave: ./install stopped at every command that it starts and at many moments in time, over an earlier installation and into
# nothing; and trees that a run was cut off in. The last line is `N passed, M failed`; the exit status is 1 if anything failed.
# usage: tests/interrupted.sh
set -u
root=$(cd "$(dirname "$0")/.." && pwd) || exit 2
# shellcheck source=scripts/tools.sh
. "$root/scripts/tools.sh"
# shellcheck source=scripts/library.sh
. "$root/scripts/library.sh"
# shellcheck source=scripts/build.sh
. "$root/scripts/build.sh"
# shellcheck source=tests/counts.sh
. "$root/tests/counts.sh"
need_rattle
need env coreutils 8.31
need gcc gcc
need_cargo
cd "$root" || exit 2
ulimit -c 0
unset DESTDIR FARZHUDYL_PROGRESS
room=$(mktemp -d) || exit 2
# A command that was just started may get its signal while it still is this shell.
trap 'if [ "$BASHPID" = $$ ]; then rm -rf "$room"; fi' EXIT
prefix=$room/prefix
mkdir "$room/tmp" "$room/bin" || exit 2

# ---- an earlier installation and a later one, which differ in every file

facts() { # FOLDER     every file and directory in it, with its mode, its bytes, and what a link leads to
    if [ ! -e "$1" ]; then return; fi
    (cd "$1" && find . -printf '%M %p %l\n' | sort && find . -type f -exec sha256sum {} + | sort)
}

./install "$prefix" >/dev/null || exit 2
facts "$prefix" >"$room/after"
# Earlier there was one file that is there no longer, and the licence was not there, nor its directories.
find "$prefix" -type f ! -name installed -exec sh -c 'for file; do echo earlier >>"$file"; done' sh {} +
find "$prefix" -type l -exec ln -sfn earlier {} \;
rm -r "$prefix/share/doc"
echo mine >"$prefix/bin/gone"
# shellcheck disable=SC1003 # the backslash ends the line for sed
sed -i -e '/share\/doc/d' -e '$a\' -e 'file bin/gone' "$prefix/share/farzhudyl/installed"
cp -a "$prefix" "$room/earlier"
facts "$prefix" >"$room/before"
: >"$room/nothing"

start() { # before|nothing
    rm -rf "$prefix" "$room/tmp"
    mkdir "$room/tmp"
    if [ "$1" = before ]; then cp -a "$room/earlier" "$prefix"; fi
}

# A stand-in for each command that ./install starts. The call with the number AT sends SIGNAL to the process group of ./install, before or
# after it does its work; with MORE the twenty after it do too. KILL goes to the stand-in's own group as well, which may be another.
cat >"$room/bin/any" <<'STAND_IN'
#!/bin/sh
read -r calls <"$CALLS"
calls=$((calls + 1))
echo "$calls" >"$CALLS"
PATH=${PATH#*:}
send() {
    read -r group <"$CALLS.group"
    kill -s "$SIGNAL" -- "-$group" 2>/dev/null
    if [ "$SIGNAL" = KILL ]; then kill -s KILL 0; fi
}
if [ "$calls" = "$AT" ] || { [ -n "$MORE" ] && [ "$calls" -gt "$AT" ] && [ "$calls" -le $((AT + 20)) ]; }; then
    if [ "$WHEN" = before ]; then
        send
        exec "${0##*/}" "$@"
    fi
    "${0##*/}" "$@"
    ended=$?
    send
    exit "$ended"
fi
exec "${0##*/}" "$@"
STAND_IN
chmod +x "$room/bin/any"
for name in cat chmod cp find ln mkdir mktemp mv rm rmdir sed sort stat; do ln -s any "$room/bin/$name"; done
export CALLS=$room/calls AT=0 SIGNAL=TERM WHEN=before MORE=''

# Starts ./install in a process group of its own, which ignores no signal, whatever this command was started to ignore.
begin() {
    echo 0 >"$CALLS"
    set -m
    # shellcheck disable=SC2016 # the words are the inner shell's
    TMPDIR=$room/tmp PATH=$room/bin:$PATH env --default-signal=HUP,INT,QUIT,TERM sh -c 'echo $$ >"$CALLS.group" && exec ./install "$1"' sh \
        "$prefix" >"$room/out" 2>"$room/err" </dev/null &
    command=$!
    set +m
}

# A signal at the moment at which a command of its ends may make bash say that it has no record of that process; this is bash's own word, and
# seldom.
end() {
    ended=0
    { wait "$command" || ended=$?; } 2>/dev/null
    sed -i '/: wait_for: No record of process [0-9]*$/d' "$room/err"
}

declare -A outcomes=()

# What a run leaves that got a signal: all as it was, or all of the later installation, and nothing else; and its status says which. A
# signal that comes before ./install heeds it ends it without a word.
see() { # before|nothing NAME
    local found=neither
    facts "$prefix" >"$room/found"
    if cmp -s "$room/found" "$room/$1" && [[ $ended =~ ^(129|130|131|143)$ ]]; then
        if [ ! -s "$room/err" ] || [ "$(cat "$room/err")" = "interrupted: nothing is changed in $prefix" ]; then found=$1; fi
    elif cmp -s "$room/found" "$room/after" && [ "$ended" = 0 ] && [ ! -s "$room/err" ]; then
        found=after
    fi
    outcomes[$found]=$((${outcomes[$found]:-0} + 1))
    [ "$found" != neither ] && [ -z "$(ls -A "$room/tmp")" ]
    count $? "$2: status $ended, left $found; $(cat "$room/err"); in the temporary folder: $(ls -A "$room/tmp")"
    if [ "$found" = neither ]; then diff "$room/$1" "$room/found"; fi
}

# ---- HUP, INT, QUIT and TERM

signals=(HUP INT TERM INT QUIT)
for first in before nothing; do
    start "$first"
    begin
    end
    see "$first" "no signal"
    read -r all <"$CALLS"
    [ "$all" -gt 80 ]
    count $? "the commands that ./install starts are seen: $all"
    step=1
    if [ "$first" = nothing ]; then step=3; fi
    for ((at = 1; at <= all; at += step)); do
        AT=$at SIGNAL=${signals[at % 5]} WHEN=before MORE=''
        if ((at % 2)); then WHEN=after; fi
        if ((at / 2 % 2)); then MORE=1; fi
        start "$first"
        begin
        end
        see "$first" "$SIGNAL $WHEN command $at${MORE:+ and those after it}, over $first"
    done
    AT=0 MORE=''
done

# At moments in time: to the process group, as a terminal sends it, and to the shell alone.
start before
began=${EPOCHREALTIME/[.,]/}
begin
end
took=$((${EPOCHREALTIME/[.,]/} - began))
moments=60
for ((k = 0; k < moments; k++)); do
    start before
    begin
    moment=$((took * k / moments))
    sleep "$((moment / 1000000)).$(printf '%06d' $((moment % 1000000)))"
    signal=${signals[k % 5]}
    if ((k % 2)); then kill -s "$signal" -- "-$command" 2>/dev/null; else kill -s "$signal" "$command" 2>/dev/null; fi
    end
    see before "$signal after $moment microseconds"
done
echo "left as it was: ${outcomes[before]:-0}, and nothing where nothing was: ${outcomes[nothing]:-0}; the later installation: ${outcomes[after]:-0}"
[ "${outcomes[before]:-0}" -gt 30 ] && [ "${outcomes[nothing]:-0}" -gt 10 ] && [ "${outcomes[after]:-0}" -gt 30 ]
count $? "both outcomes are met"

# While rt proves, which is a stand-in here. What becomes of it then, tests/progress.sh sees.
cat >"$room/bin/rt" <<'STAND_IN'
#!/bin/sh
: >"$CALLS.rt"
exec sleep 60
STAND_IN
chmod +x "$room/bin/rt"
for to in '-' ''; do
    start nothing
    rm -f target/bin/strong.made "$CALLS.rt"
    begin
    until [ -f "$CALLS.rt" ]; do sleep 0.1; done
    kill -s INT -- "$to$command"
    end
    [ "$ended" = 130 ] && [ "$(tail -n 1 "$room/err")" = "interrupted: nothing is changed in $prefix" ] && [ ! -e "$prefix" ]
    count $? "INT while rt proves: status $ended; $(cat "$room/err")"
done
rm "$room/bin/rt"
(build_programs "$root" strong clean splits) 2>/dev/null || exit 2

# ---- killed: the next ./install makes it whole, and --remove takes all of it

SIGNAL=KILL
limited() (
    ulimit -f 8
    exec ./install "$prefix"
)
for first in before nothing; do
    start "$first"
    begin
    end
    read -r all <"$CALLS"
    step=2
    if [ "$first" = nothing ]; then step=4; fi
    for ((at = 1; at <= all; at += step)); do
        start "$first"
        AT=$at WHEN=after
        if ((at / 4 % 2)); then WHEN=before; fi
        begin
        end
        AT=0
        name="killed $WHEN command $at, over $first"
        [ "$ended" = 137 ]
        count $? "$name: status $ended"
        if [ "$first" = nothing ]; then
            ./install --remove "$prefix" 2>"$room/err" || grep -q 'nothing is installed' "$room/err"
            count $? "$name, then removed: $(cat "$room/err")"
            rest=''
            if [ -e "$prefix" ]; then rest=$(find "$prefix" ! -type d); fi
            [ -z "$rest" ]
            count $? "$name, then removed: $rest"
            continue
        fi
        case $((at / 2 % 3)) in
            0)
                ./install --remove "$prefix" && [ ! -e "$prefix" ]
                count $? "$name, then removed"
                ;;
            1)
                ./install "$prefix" >/dev/null && facts "$prefix" | diff "$room/after" -
                count $? "$name, then installed"
                ;;
            2) # It mends before it fails. Empty directories may stay.
                ! limited >/dev/null 2>&1 && facts "$prefix" | grep -v '^d' >"$room/found" &&
                    { diff -q "$room/found" <(grep -v '^d' "$room/before") || diff -q "$room/found" <(grep -v '^d' "$room/after"); } >/dev/null
                count $? "$name, then mended"
                ;;
        esac
    done
done

# What ./install of version 2.0.0 left when it was interrupted.
start before
for folder in bin lib share/man/man3; do echo half >"$prefix/$folder/.farzhudyl-new.half"; done
mv "$prefix/lib/libfarzhudyl.a" "$prefix/lib/.farzhudyl-old."
mv "$prefix/share/farzhudyl/installed" "$prefix/share/farzhudyl/.farzhudyl-old.installed"
cp -a "$prefix" "$room/interrupted"
./install --remove "$prefix" && [ ! -e "$prefix" ]
count $? "what an earlier version left is removed"
start nothing
mv "$room/interrupted" "$prefix"
./install "$prefix" >/dev/null && facts "$prefix" | diff "$room/after" -
count $? "what an earlier version left is replaced"

# ---- a run of rt that was cut off

# Three crates, of which the last is a program.
mkdir -p "$room/repo/crates/"{first,second,third}/src
printf 'third: second\nsecond: first\nfirst:\n' >"$room/repo/crates.txt"
for crate in 'first same x' 'second again first::same(x)'; do
    read -r name function value <<<"$crate"
    printf '%s\n' '#![tactic(auto)]' '' 'ghost use Rattle.std.specs.Prelude.{◌≡◌};' '' "pub fn $function(x: u32) -> u32" \
        '    ensures { result ≡ x }' '{' "    $value" '}' >"$room/repo/crates/$name/src/lib.rt"
done
printf '%s\n' '#![tactic(auto)]' '' 'use std::io;' '' 'fn main(rt: HostRuntime) -> io::Result<()> {' '    let number = second::again(3);' \
    '    println!(rt; "{number}")' '}' >"$room/repo/crates/third/src/main.rt"
(build_programs "$room/repo" third) 2>/dev/null && cp "$room/repo/target/bin/third" "$room/third" && [ "$("$room/third")" = 3 ]
count $? "a program over two libraries"
cp -a "$room/repo" "$room/whole"

# Damages a copy of the tree, and builds the program again. SAID is whether that is told.
cut_off() { # NAME SAID COMMAND ..
    local name=$1 said=$2 ended=0
    shift 2
    rm -rf "$room/repo"
    cp -a "$room/whole" "$room/repo"
    (cd "$room/repo/crates" && "$@")
    (build_programs "$room/repo" third) >"$room/out" 2>"$room/err" </dev/null || ended=$?
    [ "$ended" = 0 ] && cmp "$room/third" "$room/repo/target/bin/third" && [ "$said" = "$(grep -c 'in out/ are not whole' "$room/err")" ]
    count $? "cut off $name (status $ended): $(cat "$room/err")"
}
without_program() {
    rm -r ../target/bin third/out/third && rm -r "$@"
}
half_of() { # FILE     of the program, which is not known to be whole then
    rm ../target/bin/third.made
    head -c 100 "$room/third" >"$1"
}
cut_off 'while out/ was removed: all of a crate is gone' 0 without_program first/out
cut_off 'while out/ was removed: a library is gone' 0 without_program first/out/rlib/first.rlib
cut_off 'while out/ was removed: half of a library is gone' 1 without_program second/out/rlib/second.rlib/interface
cut_off 'while out/ was removed: a library has no format' 1 without_program first/out/rlib/first.rlib/format
cut_off 'while out/ was removed: the stamps are gone' 0 without_program {first,second}/out/rlib/stamp first/out/rlib/first.rlib/format
cut_off 'while out/ was removed: a program is gone' 0 without_program third/out/third.o
cut_off 'while target/ was removed: a program is gone' 0 rm -r ../target/bin
cut_off 'while a program was linked' 0 half_of third/out/third
cut_off 'while a program was copied' 0 half_of ../target/bin/third

# A library of which half is written, by rt or by the copying; rt and cp are stand-ins.
cat >"$room/bin/rt" <<'STAND_IN'
#!/bin/sh
echo half >out/libfarzhudyl_c.a
if [ "$CUT" = made ]; then kill -s KILL $$; fi
if [ -n "$MEANWHILE" ]; then sleep 0.1 && touch ../first/src/lib.rt; fi
echo whole >out/libfarzhudyl_c.a
STAND_IN
rm "$room/bin/cp"
cat >"$room/bin/cp" <<'STAND_IN'
#!/bin/sh
if [ "$CUT" = copied ]; then
    echo half >"$3"
    kill -s KILL "$PPID"
    exit 1
fi
PATH=${PATH#*:} exec cp "$@"
STAND_IN
chmod +x "$room/bin/rt" "$room/bin/cp"
mkdir -p "$room/repo/crates/farzhudyl_c/out"
library=$room/repo/target/staticlib/libfarzhudyl.a
found() { # CUT MEANWHILE
    (unset FARZHUDYL_LIB_DIR && export CUT=$1 MEANWHILE=$2 PATH=$room/bin:$PATH && find_library "$room/repo") >/dev/null 2>"$room/err"
}
! found made '' && [ "$(cat "$room/repo/crates/farzhudyl_c/out/libfarzhudyl_c.a")" = half ] && [ ! -e "$library" ]
count $? "half of a library is made"
! found copied '' 2>/dev/null && [ "$(cat "$library")" = half ]
count $? "half of a library is copied"
found '' 1 && [ "$(cat "$library")" = whole ]
count $? "half of a library is not taken for one: $(cat "$room/err")"
found '' '' && [ -s "$room/err" ]
count $? "a library is made again if a crate changed while it was made"
found '' '' && [ ! -s "$room/err" ]
count $? "and only then: $(cat "$room/err")"
touch "$room/repo/crates/"{first/out,farzhudyl_c/out,farzhudyl_c}
found '' '' && [ ! -s "$room/err" ]
count $? "what rt keeps in out/ is no change: $(cat "$room/err")"

counted
