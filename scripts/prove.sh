# shellcheck shell=bash
# Sourced by the commands of this repository: runs `rt`, and says on standard error how far it is.
# usage: prove ROOT WORD ..             runs `rt WORD` where it belongs; what rt writes and its exit status are kept
#        prove_quietly ROOT WORD ..     the same; of what rt writes only the last 20 lines are shown, and only if it fails. Where the
#                                       libraries in out/ are not whole, as a run that was cut off may leave them, they are made anew
#        has_bad_edit FILE              whether rt, whose lines FILE has, passed over must-fail edits that cannot be applied or read
# WORD .. is `check NAME`, `run NAME` or `lib NAME`, which work in the crate's folder, or `ci`, at the top. FARZHUDYL_PROGRESS is the number
# of the descriptor to say it on, 2 without it: ./test sets it, as it puts the standard error of its tests on standard output.

# Writes the crates that rt goes through for the crates named (without names: all), in rt's order: each behind those that it needs, as
# crates.txt leads to them.
crates_in_order() { # ROOT NAME ..
    local root=$1
    shift
    WANTED="$*" awk '
        function visit(name, needed, k, count) {
            if (name in seen) return
            seen[name] = 1
            count = split(needs[name], needed, " ")
            for (k = 1; k <= count; k++) if (needed[k] in needs) visit(needed[k])
            print name
        }
        { sub(/#.*/, "") }
        split($0, part, ":") == 2 && split(part[1], word, " ") { needs[word[1]] = part[2]; listed[++crates] = word[1] }
        END {
            wanted = split(ENVIRON["WANTED"], want, " ")
            if (!wanted) for (k = 1; k <= crates; k++) want[k] = listed[k]
            if (!wanted) wanted = crates
            for (k = 1; k <= wanted; k++) if (want[k] in needs) visit(want[k])
        }' "$root/crates.txt"
}

# FARZHUDYL_PROGRESS if that is open, else 2.
progress_descriptor() {
    if [[ ${FARZHUDYL_PROGRESS:-} =~ ^[0-9]+$ ]] && { : >&"$FARZHUDYL_PROGRESS"; } 2>/dev/null; then
        echo "$FARZHUDYL_PROGRESS"
    else
        echo 2
    fi
}

# Passes rt's lines on, and says what they tell: which crate of those named it starts to prove, where that has changed; and of `rt ci`,
# which proves several at a time, which one is done, and whose must-fail edits it tries.
say_progress() { # DESCRIPTOR CRATE ..
    local descriptor=$1 line k found=0
    local name='([A-Za-z0-9_]+)'
    local begins="^rt: chose --jobs [0-9]+ for $name\$" ends="^rt: $name (proved\$|is kept: |NOT PROVED)"
    local tries="^rt: $name: trying its must-fail edits \(([0-9]+)\)\$"
    local -A places=()
    shift
    for ((k = 1; k <= $#; k++)); do places[${!k}]=$k; done
    while IFS= read -r line; do
        printf '%s\n' "$line"
        if [[ $line =~ $begins ]] && [ -n "${places[${BASH_REMATCH[1]}]:-}" ]; then
            printf 'proving %s of %s: %s\n' "${places[${BASH_REMATCH[1]}]}" $# "${BASH_REMATCH[1]}"
        elif [[ $line =~ $ends ]]; then
            found=$((found + 1))
            if [ "${BASH_REMATCH[2]}" = 'NOT PROVED' ]; then printf 'not proved, '; else printf 'proved '; fi
            printf '%s of %s: %s\n' "$found" $# "${BASH_REMATCH[1]}"
        elif [[ $line =~ $tries ]]; then
            printf 'trying the must-fail edits of %s: %s\n' "${BASH_REMATCH[1]}" "${BASH_REMATCH[2]}"
        fi >&"$descriptor"
    done
    printf '%s' "$line"
}

# Ends rt where the command that started it ends first. The first line of standard input is rt's process group, the second is `done`.
end_with_command() {
    local group='' word=''
    trap '' HUP INT QUIT TERM
    read -r group
    read -r word
    if [ -n "$group" ] && [ -z "$word" ]; then kill -TERM -- "-$group" 2>/dev/null; fi
}

# rt gets a process group of its own, with the two that read its lines, so that all of it can be ended; only this shell holds the pipe to
# end_with_command, so a signal to all of a terminal's group does not end that one.
prove() { # ROOT WORD ..
    local root=$1 word=$2 folder=$1 pipe guard job status descriptor
    local -a crates
    shift 2
    if [ "$word" != ci ]; then folder=$root/crates/$1; fi
    descriptor=$(progress_descriptor)
    mapfile -t crates < <(crates_in_order "$root" "$@")
    exec {pipe}> >(end_with_command >/dev/null)
    guard=$!
    set -m
    (
        set +m -o pipefail
        exec {pipe}>&-
        cd "$folder" || exit 2
        {
            rt "$word" "$@" 2>&1 >&3 3>&- | say_progress "$descriptor" "${crates[@]}" >&2 3>&-
        } 3>&1 | say_progress "$descriptor" "${crates[@]}"
    ) </dev/null &
    job=$!
    set +m
    echo "$job" >&"$pipe"
    wait "$job"
    status=$?
    echo 'done' >&"$pipe"
    exec {pipe}>&-
    wait "$guard"
    return "$status"
}

has_bad_edit() {
    grep -q '^rt: ok.*, [0-9][0-9]* bad' "$1"
}

# Whether rt found a library of out/rlib missing or damaged.
is_not_whole() { # WHAT_RT_WROTE
    grep -q '^rattle: .*\.rlib' <<<"$1"
}

# The log has no name once it is open, so nothing is left of it whatever happens.
prove_quietly() { # ROOT WORD ..
    local root=$1 log out in progress status said again
    exec {progress}>&"$(progress_descriptor)"
    for again in '' 1; do
        log=$(mktemp) || return 2
        exec {out}>"$log"
        exec {in}<"$log"
        rm -f "$log"
        FARZHUDYL_PROGRESS=$progress prove "$@" >&"$out" 2>&1
        status=$?
        said=$(cat <&"$in")
        exec {out}>&- {in}<&-
        if [ "$status" = 0 ] || [ -n "$again" ] || ! is_not_whole "$said"; then break; fi
        echo "the libraries in out/ are not whole, as after a run that was cut off: making them anew" >&2
        rm -rf "$root"/crates/*/out/rlib
    done
    # Lines that only count modules would push out what failed.
    if [ "$status" != 0 ]; then grep -vE '^(statements|library|crate) [a-z0-9_]+: modules loaded=' <<<"$said" | tail -n 20 >&2; fi
    exec {progress}>&-
    return "$status"
}
