# shellcheck shell=bash
# Sourced by tests: counts what passes and what fails.
# usage: count STATUS NAME     0 is passed; of any other status the name is shown
#        counted               writes `N passed, M failed`; the status is 1 if anything failed

passed=0
failed=0

count() {
    if [ "$1" = 0 ]; then
        passed=$((passed + 1))
    else
        echo "failed: $2"
        failed=$((failed + 1))
    fi
}

counted() {
    echo "$passed passed, $failed failed"
    [ "$failed" = 0 ]
}
