#!/bin/sh
# Document 02, wish 4: one decoder, and no other place that works out what a START's low lines mean. Whoever reads TM1, TM0 or AD stands in
# docs/DECISIONS.md, "Who reads TM and AD"; here the list is compared with the tree, both ways.
#   tests/readers.sh ROOT
# A reader is a function of crates/*/src that names one of the three, as a field or a parameter, or reads byte 5 to 9 of something, which in a record
# are TM, SP, SPV and AD (in the driver they are a call's); or a file of definitions that names one. The last line is 'readers: N passed, M failed'.
set -u
root=$1
passed=0 failed=0

# Comments and quoted words name lines without reading them. A function is told by its crate, its file where that isn't the crate's first, and its name.
functions() {
    awk '
        FNR == 1 {
            name = ""
            n = split(FILENAME, part, "/")
            path = part[n - 2] "::"
            if (part[n] != "lib.rt" && part[n] != "main.rt") path = path substr(part[n], 1, length(part[n]) - 3) "::"
        }
        { sub(/\/\/.*/, ""); gsub(/"[^"]*"/, "") }
        match($0, /(^| )fn [a-z_0-9]+/) { name = substr($0, RSTART, RLENGTH); sub(/.* /, "", name) }
        name != "" && /(^|[^A-Za-z_0-9])(tm1|tm0|ad)([^A-Za-z_0-9]|$)/ { print path name }
        name != "" && path !~ /^spurcalls/ && /[a-z_]\[[5-9]\]/ { print path name }' "$root"/crates/*/src/*.rt
}

definitions() {
    awk '
        { sub(/--.*/, "") }
        /(^|[^A-Za-z_0-9-])(tm1|tm0|ad)([^A-Za-z_0-9-]|$)/ {
            n = split(FILENAME, part, "/")
            print part[n - 2] "/specs/" substr(part[n], 1, length(part[n]) - 5)
        }' "$root"/crates/*/specs/*.antt
}

# The names in the first column of the list's tables.
listed() {
    awk -F '|' '
        /^#/ { here = ($0 ~ /Who reads TM and AD$/) }
        here && /^\| `/ {
            n = split($2, part, "`")
            for (i = 2; i < n; i += 2) print part[i]
        }' "$root/docs/DECISIONS.md"
}

found=$({ functions; definitions; } | sort -u)
known=$(listed | sort)
for name in $(printf '%s\n' "$found" "$known" | sort -u); do
    # shellcheck disable=SC2086
    if [ "$(printf '%s\n' $found | grep -cxF -e "$name")" = 1 ] && [ "$(printf '%s\n' $known | grep -cxF -e "$name")" = 1 ]; then
        passed=$((passed + 1))
    else
        failed=$((failed + 1))
        printf 'FAILED: %s reads TM or AD and is not listed once in docs/DECISIONS.md, or is listed and does not\n' "$name"
    fi
done
echo "readers: $passed passed, $failed failed"
[ "$failed" -eq 0 ] && [ "$passed" -gt 0 ]
