# shellcheck shell=bash
# Sourced by the commands of this repository: sees that a tool is there, and new enough where an older one is known to fail; installs one
# that is missing where that can be done.
# usage: need COMMAND PACKAGE [LEAST]     LEAST is the oldest version that will do
#        need_cargo                       cargo and rustc
#        need_rattle                      rt
#        lacks COMMAND [LEAST]            whether the command is missing or older; `reason` then says so
#        lacks_cargo                      the same of cargo and rustc
# The first three exit with 2, and a line that says why, where the tool is not to be had.

# An empty array is an unbound variable to older ones.
if ((BASH_VERSINFO[0] * 100 + BASH_VERSINFO[1] < 404)); then
    echo "bash $BASH_VERSION is too old: 4.4 or later is needed" >&2
    exit 2
fi

# cargo for the edition of the Rust code, rustc as tests/*/Cargo.toml say. Debian 12 has 1.65 and 1.63.
oldest_cargo=1.56
oldest_rustc=1.63

# Writes the version that a command says it has; nothing if it says none.
version_of() { # COMMAND
    [[ $("$1" --version 2>/dev/null) =~ [0-9]+\.[0-9]+(\.[0-9]+)* ]] && echo "${BASH_REMATCH[0]}"
}

# Whether a version is no older than another, by their first two numbers.
is_at_least() { # VERSION LEAST
    local -a found least
    IFS=. read -r -a found <<<"$1"
    IFS=. read -r -a least <<<"$2"
    ((found[0] > least[0] || (found[0] == least[0] && found[1] >= least[1])))
}

lacks() {
    local found
    if ! command -v "$1" >/dev/null 2>&1; then
        reason="the command $1 is missing"
        return 0
    fi
    if [ -z "${2:-}" ]; then return 1; fi
    found=$(version_of "$1")
    if [ -z "$found" ]; then
        reason="the command $1 does not say its version: $2 or later is needed"
    elif ! is_at_least "$found" "$2"; then
        reason="$1 $found is too old: $2 or later is needed"
    else
        return 1
    fi
}

lacks_cargo() {
    lacks cargo "$oldest_cargo" || lacks "${RUSTC:-rustc}" "$oldest_rustc"
}

need() {
    lacks "$1" "${3:-}" || return 0
    if ! command -v "$1" >/dev/null 2>&1 && [ "$(id -u)" = 0 ] && command -v apt-get >/dev/null 2>&1; then
        echo "installing $2 for the command $1" >&2
        apt-get update -qq >/dev/null 2>&1
        DEBIAN_FRONTEND=noninteractive apt-get install -y -qq "$2" >/dev/null 2>&1
        lacks "$1" "${3:-}" || return 0
    fi
    echo "$reason (Debian's package $2)" >&2
    exit 2
}

need_cargo() {
    need cargo cargo "$oldest_cargo"
    need "${RUSTC:-rustc}" rustc "$oldest_rustc"
}

# Rattle's own command cannot be installed from a registry.
need_rattle() {
    lacks rt || return 0
    echo "$reason; it is of the Rattle kit, and proves and builds this repository" >&2
    exit 2
}
