#!/bin/sh
# The page of ./spur report in a real browser: chromium prints it to PDF, pdftotext reads the text back, and the figures are those of
# spurphases, spuraccounts and spurseconds; in pictures of 390 and 1280 pixels the segments of its bar stand in the proportion of the phases:
#   tests/browser.sh RUNNER BIN OUT
# The last line is 'browser: N passed, M failed'. A package that isn't there is a failure, unless SPUR_NO_PACKAGES is 1.
set -u
runner=$1 bin=$2 out=$3
root=$(dirname -- "$(dirname -- "$(readlink -f -- "$0")")")
work=$(mktemp -d)
trap 'rm -rf "$work"' EXIT
passed=0 failed=0
. "$root/tests/packages.sh"

# The sample in which all six marks are reached, and which conforms to its end.
boot=$root/samples/complete.rec
marks='10/1 2/1 5/7 11/2 10/1 15/15'
page() {
    "$root/spur" report "$boot" '10/1=<script>alert(1)</script>' "2/1=\"&'" 5/7=memory 11/2 '10/1=a second time' '15/15=<b>ready</b>'
}

browse() { # WORDS..
    timeout 120 chromium --headless --no-sandbox --disable-gpu --disable-dev-shm-usage --user-data-dir="$work/profile" "$@" "file://$work/page.html" 2>"$work/said"
}

# Whether a line of the text has these numbers behind one another, other words between.
has() { # FILE NUMBER..
    file=$1
    shift
    awk -v wanted="$*" '
        BEGIN { n = split(wanted, want, " ") }
        {
            count = 0
            while (match($0, /[0-9]+(\.[0-9]+)?/)) {
                token[++count] = substr($0, RSTART, RLENGTH)
                $0 = substr($0, RSTART + RLENGTH)
            }
            for (at = 1; at + n - 1 <= count; at++) {
                for (i = 1; i <= n && token[at + i - 1] == want[i] ""; i++) ;
                if (i > n) { found = 1; exit }
            }
        }
        END { exit !found }' "$file"
}
figures() { # WHAT FILE NUMBER..
    what=$1
    shift
    has "$@"
    count "$what" $? "no line has $* behind one another"
}

# The line of spurseconds for a number of cycles.
seconds_of() { # CYCLES
    # shellcheck disable=SC2086
    $runner "$bin/spurseconds" "$1" </dev/null
}

in_text() {
    # shellcheck disable=SC2086
    $runner "$bin/spurphases" 16 $marks <"$boot" >"$work/phases"
    awk '$1 == "mark" { print $NF, $4 }' "$work/phases" >"$work/marks"
    while read -r cycles reached; do
        figures "a phase of $cycles cycles, up to $reached" "$work/page.txt" "$cycles" "$(seconds_of "$cycles")" "$reached" "$(seconds_of "$reached")"
        phases="$phases $cycles"
    done <"$work/marks"
    total=$(sed -n '$s/.* //p' "$work/marks")
    figures 'the total of the phases' "$work/page.txt" "$total" "$(seconds_of "$total")"
    # shellcheck disable=SC2086
    $runner "$bin/spuraccounts" 16 <"$boot" >"$work/accounts"
    while read -r word slot _ starts _ busy; do
        case $word in
        slot) figures "slot $slot" "$work/page.txt" "$slot" "$starts" "$busy" "$(seconds_of "$busy")" ;;
        esac
    done <"$work/accounts"
    # shellcheck disable=SC2046
    set -- $(head -n 1 "$work/accounts")
    figures 'the totals' "$work/page.txt" "$2" "$4" "$(seconds_of "$4")" "$6" "$8" "${10}"
    # on paper the last total stands on a line of its own, above its name
    open=$(awk '/transfers still open/ { print last } { last = $NF }' "$work/page.txt")
    count 'whether a transfer is open' "$([ "$open" = "${12}" ] && echo 0 || echo 1)" "'$open', and not ${12}"
    # a name may go over two lines
    pdftotext "$work/page.pdf" - | tr -d ' \n\f' >"$work/page.run"
    for name in '<script>alert(1)</script>' "\"&'" memory 'asecondtime' '<b>ready</b>'; do
        grep -qF -- "$name" "$work/page.run"
        count "the name $name is text" $? "it isn't on the page"
    done
}

in_pixels() {
    for width in 390 1280; do
        rm -f "$work/page.png"
        browse --window-size="$width,2400" --screenshot="$work/page.png" >/dev/null
        pngtopnm "$work/page.png" >"$work/page.ppm" 2>>"$work/said"
        # shellcheck disable=SC2086
        bar=$("$out/barpixels" $((width / 2)) $phases <"$work/page.ppm")
        count "the bar's segments at $width pixels" $? "no row of pixels is in the proportion of $phases; $(tail -n 3 "$work/said")"
        printf 'the bar at %s pixels: %s\n' "$width" "$bar"
    done
}

page >"$work/page.html" 2>"$work/complaint"
count 'the page' $? "$(cat "$work/complaint")"
phases=
if needs chromium chromium && needs poppler-utils pdftotext; then
    browse --no-pdf-header-footer --print-to-pdf="$work/page.pdf" >/dev/null
    pdftotext -layout "$work/page.pdf" "$work/page.txt" 2>>"$work/said"
    count 'the page as text' $? "$(cat "$work/said")"
    in_text
    browse --dump-dom >"$work/dom"
    ! grep -qi '<script>alert\|<b>ready' "$work/dom"
    count 'no name is markup' $? "$(grep -i 'alert\|<b>' "$work/dom")"
    if needs netpbm pngtopnm; then in_pixels; fi
fi
echo "browser: $passed passed, $failed failed"
[ "$failed" -eq 0 ]
