# shellcheck shell=sh disable=SC2154
# Part of the tests that need programs of other packages: counting, and what isn't there.
# shellcheck disable=SC2034

# Counts a test: what it is, and whether it went well (0); the rest is told where it didn't.
count() { # WHAT STATUS DETAIL..
    if [ "$2" -eq 0 ]; then
        passed=$((passed + 1))
    else
        failed=$((failed + 1))
        printf 'FAILED: %s: ' "$1"
        shift 2
        printf '%s\n' "$*"
    fi
}

# Whether the programs of a package are there; a failure where not, or with SPUR_NO_PACKAGES=1 a word.
needs() { # PACKAGE PROGRAM..
    package=$1
    shift
    for program in "$@"; do
        command -v "$program" >/dev/null 2>&1 && continue
        if [ "${SPUR_NO_PACKAGES:-}" = 1 ]; then
            printf 'skipped: what needs %s: the package %s is not there\n' "$program" "$package"
        else
            count "the package $package" 1 "there is no $program; SPUR_NO_PACKAGES=1 does without"
        fi
        return 1
    done
}
