# shellcheck shell=bash
# Sourced by ./run: compares what the two engines wrote.
# usage: agree FILE FILE     the engine's, the second engine's; status 0 if they are equal byte for byte. If not, status 1, and one line on
#                            standard error: the first line in which they differ, and what each has there

agree() {
    local at number
    cmp -s -- "$1" "$2" && return 0
    # The first byte that differs, or the one behind the shorter file; and the number of its line.
    at=$(cmp -l -- "$1" "$2" 2>/dev/null | awk '{ print $1; exit }')
    if [ -z "$at" ]; then at=$(($({ wc -c <"$1" && wc -c <"$2"; } | sort -n | head -n 1) + 1)); fi
    number=$(($(head -c $((at - 1)) -- "$1" | wc -l) + 1))
    echo "the engines differ at line $number: the engine $(has_line "$1" "$number"), the second engine $(has_line "$2" "$number")" >&2
    return 1
}

# Says what a file has as the line of a number; bytes that are no letters are shown as cat -v shows them.
has_line() { # FILE NUMBER
    local ending=''
    if [ "$(tail -n "+$2" -- "$1" | head -c 1 | wc -c)" = 0 ]; then
        printf 'has no such line'
        return
    fi
    if [ "$(tail -n "+$2" -- "$1" | head -n 1 | wc -l)" = 0 ]; then ending=' without a line feed'; fi
    printf "has \`%s\`%s" "$(tail -n "+$2" -- "$1" | head -n 1 | cat -v)" "$ending"
}
