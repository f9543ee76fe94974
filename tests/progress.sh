#!/usr/bin/env bash
# What scripts/prove.sh says while `rt` works, and that nothing is left when it is interrupted; rt is a stand-in here that writes and leaves
# what the real one does. The last line is `N passed, M failed`.
# usage: tests/progress.sh
set -u
root=$(cd "$(dirname "$0")/.." && pwd) || exit 2
# shellcheck source=scripts/tools.sh
. "$root/scripts/tools.sh"
# shellcheck source=tests/counts.sh
. "$root/tests/counts.sh"
# shellcheck source=scripts/prove.sh
. "$root/scripts/prove.sh"
need ps procps
unset FARZHUDYL_PROGRESS
room=$(mktemp -d) || exit 2
trap 'rm -rf "$room"' EXIT
# A repository of five crates. rt takes a and c; then it waits if it is to be interrupted. Of a crate it writes on standard error where it
# runs it, else on standard output, and it leaves its work in the crate's out/. With `ci`, at the top, it goes through all.
mkdir -p "$room/bin" "$room/tmp" "$room/repo/crates/"{a,b,c,top,other}
printf 'top: c b io\na:\nb: a\nc staticlib: a # libc\nother status=3:\n' >"$room/repo/crates.txt"
cat >"$room/bin/rt" <<'END'
#!/bin/sh
echo "words: $* in ${PWD##*/}"
echo "said on standard error" >&2
if [ "$1" = ci ]; then
    [ -f crates.txt ] || exit 2
    printf '== a\nfn a::first: proved\nrt: a proved\n'
    echo 'rt: c is kept: an earlier run on this machine proved the same files over the same libraries'
    echo 'rt: c: trying its must-fail edits (2)'
    printf '== top\nrt: top NOT PROVED\n== b: its tests\nrt: b: its tests are proved\nrt: b proved\n'
    echo 'rt: must-fail c/one.edit: refused, as it must be: rt: a proved'
else
    [ "$PWD" = "$REPO/crates/$2" ] || exit 2
    if [ "$1" = run ]; then exec >&2; fi
    for c in a c; do
        mkdir -p "../$c/out/rlib"
        echo "rt: $c: begins with what a check kept in another place"
        echo "rt: chose --jobs 2 for $c"
        if [ -n "${MODULES:-}" ]; then for m in 1 2 3 4 5 6 7 8 9; do echo "library l$m: modules loaded=$m checked=0"; done; fi
    done
fi
if [ -n "${PIDS:-}" ]; then
    sleep 60 &
    echo "$$ $!" >"$PIDS.new"
    mv "$PIDS.new" "$PIDS"
    wait
fi
printf '%s' "${LAST:-}"
exit "${ENDS:-0}"
END
chmod +x "$room/bin/rt"
export REPO=$room/repo
export PATH=$room/bin:$PATH TMPDIR=$room/tmp

said() { # NAME STATUS OUT ERR WORD ..     runs the words; OUT and ERR are what they are to write
    local name=$1 status=$2 out=$3 err=$4 ended=0
    shift 4
    "$@" >"$room/out" 2>"$room/err" </dev/null || ended=$?
    [ "$ended" = "$status" ] && diff <(printf '%b' "$out") "$room/out" && diff <(printf '%b' "$err") <(sort "$room/err") &&
        [ -z "$(ls -A "$TMPDIR")" ]
    count $? "$name (status $ended)"
}

# What rt writes of the crates a and c.
a_c=''
for crate in a c; do a_c+="rt: $crate: begins with what a check kept in another place\nrt: chose --jobs 2 for $crate\n"; done
said 'the crates that a program needs' 0 "words: check top in top\n$a_c" 'proving 1 of 4: a\nproving 2 of 4: c\nsaid on standard error\n' \
    prove "$room/repo" check top
said 'a program that is run' 0 'words: run top in top\n' \
    "proving 1 of 4: a\nproving 2 of 4: c\n$(printf '%b' "${a_c}said on standard error\n" | sort)\n" prove "$room/repo" run top
all='words: ci in repo\n== a\nfn a::first: proved\nrt: a proved\n'
all+='rt: c is kept: an earlier run on this machine proved the same files over the same libraries\nrt: c: trying its must-fail edits (2)\n'
all+='== top\nrt: top NOT PROVED\n== b: its tests\nrt: b: its tests are proved\nrt: b proved\n'
all+='rt: must-fail c/one.edit: refused, as it must be: rt: a proved\n'
told='not proved, 3 of 5: top\nproved 1 of 5: a\nproved 2 of 5: c\nproved 4 of 5: b\nsaid on standard error\n'
told+='trying the must-fail edits of c: 2\n'
said 'all crates, and the edits' 0 "$all" "$told" prove "$room/repo" ci
LAST='no line feed' said 'a last line without a line feed' 0 "${all}no line feed" "$told" prove "$room/repo" ci
said 'quietly' 0 '' 'proving 1 of 2: a\nproving 2 of 2: c\n' prove_quietly "$room/repo" lib c
ENDS=3 said 'the status is kept' 3 "words: check b in b\n$a_c" 'proving 1 of 2: a\nsaid on standard error\n' prove "$room/repo" check b
ENDS=3 said 'what failed is shown' 3 '' \
    "proving 1 of 2: a\n$(printf '%b' "${a_c}said on standard error\nwords: check b in b\n" | sort)\n" prove_quietly "$room/repo" check b
ENDS=3 MODULES=1 said 'what failed is shown, without the lines that count modules' 3 '' \
    "proving 1 of 2: a\n$(printf '%b' "${a_c}said on standard error\nwords: check b in b\n" | sort)\n" prove_quietly "$room/repo" check b
FARZHUDYL_PROGRESS=7 said 'on another descriptor' 0 "words: check a in a\n$a_c" 'said on standard error\n' \
    prove "$room/repo" check a 7>"$room/seven"
[ "$(cat "$room/seven")" = 'proving 1 of 1: a' ]
count $? "the other descriptor has the line"
FARZHUDYL_PROGRESS=9 said 'a descriptor that is not open' 0 "words: check a in a\n$a_c" \
    'proving 1 of 1: a\nsaid on standard error\n' prove "$room/repo" check a

# A must-fail edit that cannot be applied fails nothing in rt, and is told in one line.
is_bad() { # STATUS LINE
    local found=0
    printf '== a\nfn a::first: bad\nrt: must-fail a/one.edit: refused, 1 bad\n%s\n11 passed, 0 failed\n' "$2" >"$room/log"
    has_bad_edit "$room/log" || found=$?
    [ "$found" = "$1" ]
    count $? "whether an edit is bad: $2"
}
done_now='every proof and must-fail edit was done in this run'
is_bad 1 "rt: ok; handles allowed: none; must-fail edits: 8 refused; $done_now"
is_bad 1 "rt: ok; handles allowed: none; must-fail edits: 8 refused, 2 of them only by a limit; $done_now"
is_bad 0 "rt: ok; handles allowed: none; must-fail edits: 7 refused, 1 bad; $done_now"
is_bad 0 "rt: ok; handles allowed: none; must-fail edits: 80 refused, 2 of them only by a limit, 12 bad; $done_now"
is_bad 1 'rt: FAILED: a'

# Interrupted, nothing goes on: not rt, not what rt started, not what says the progress; and no file is left.
gone() { # PROCESS ..
    local tries=100 process
    for process; do
        while [[ $(ps -o stat= -p "$process") =~ ^[^Z] ]]; do
            tries=$((tries - 1))
            if [ "$tries" = 0 ]; then return 1; fi
            sleep 0.1
        done
    done
}
cat >"$room/starts" <<'END'
#!/usr/bin/env bash
. "$1/scripts/prove.sh"
"$2" "$3" check top
END
for signal in 'TERM ' 'HUP ' 'KILL ' 'TERM -- -' 'HUP -- -' 'INT -- -'; do
    for how in prove prove_quietly; do
        rm -f "$room/pids"
        set -m
        PIDS=$room/pids bash "$room/starts" "$root" "$how" "$room/repo" >/dev/null 2>&1 </dev/null &
        command=$!
        set +m
        until [ -f "$room/pids" ]; do sleep 0.1; done
        read -r rt child <"$room/pids"
        mapfile -t inside < <(ps -o pid= --ppid "$command" | tr -d ' ')
        # With a minus the signal goes to the whole process group of the command, as that of a terminal does.
        # shellcheck disable=SC2086
        kill -$signal"$command"
        wait "$command" 2>/dev/null
        [ "${#inside[@]}" = 2 ] && gone "$rt" "$child" "${inside[@]}" && [ -z "$(ls -A "$TMPDIR")" ]
        count $? "$how interrupted by $signal"
    done
done

counted
