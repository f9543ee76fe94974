# shellcheck shell=bash
# Sourced by the commands of this repository: whether a file that they make is whole and up to date, whatever ended the making of it.
# usage: stale FILE SOURCE ..      whether FILE is to be made: it is missing, was not made to its end, or not from these files and folders
#                                  as they are now
#        making FILE SOURCE ..     said before FILE is made from them
#        made FILE                 said once FILE is whole
#        crate_sources ROOT        sets `sources` to what rt makes libraries and programs from: the crates, without out/, where rt keeps
#                                  its work, and crates.txt
# FILE.made is there from `made` on. It has FILE's time and size and the names of what FILE was made from; its own time is that of `making`,
# so that a source which changed meanwhile is newer. FILE.making is its first draft.

file_facts() { # FILE
    stat -c '%y %s' -- "$1"
}

stale() {
    local file=$1
    shift
    [ ! -f "$file" ] || [ ! -f "$file.made" ] || [ "$(<"$file.made")" != "$(file_facts "$file" && printf '%s\n' "$@")" ] ||
        [ -n "$(find "$@" -newer "$file.made" -print -quit)" ]
}

making() {
    local file=$1
    shift
    mkdir -p -- "${file%/*}" && rm -f -- "$file.made" && printf '%s\n' "$@" >"$file.making"
}

made() {
    { file_facts "$1" && cat -- "$1.making"; } >"$1.done" && touch -r "$1.making" -- "$1.done" && mv -f -- "$1.done" "$1.made" &&
        rm -f -- "$1.making"
}

crate_sources() {
    local part
    sources=("$1/crates.txt")
    for part in "$1"/crates/*/{src,specs,proofs}; do
        if [ -e "$part" ]; then sources+=("$part"); fi
    done
}
