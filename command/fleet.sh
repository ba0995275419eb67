# shellcheck shell=sh disable=SC2154
# The command ./spur fleet: the phases of many boots as CSV, and what is least, in the middle and greatest among them. Read by ./spur,
# behind desk.sh.
: "${root:?}"

usage_of_fleet='./spur fleet [--limit N] S/N S/N .. -- FILE FILE ..'
newline='
'
carriage_return=$(printf '\r')

# A field of CSV by RFC 4180: in quotes where it has a comma, a quote or a line's end in it, its own quotes doubled.
field_of_csv() { # TEXT
    case $1 in
    *[,\"]* | *"$newline"* | *"$carriage_return"*)
        doubled=$(printf '%s.' "$1" | LC_ALL=C sed 's/"/""/g') # the point keeps a line's end at the text's own
        printf '"%s"' "${doubled%.}"
        ;;
    *) printf '%s' "$1" ;;
    esac
}

# As many commas as there are words.
commas() { # WORDS..
    for word in "$@"; do printf ','; done
}

# How many programs are run at a time.
cores() {
    nproc 2>/dev/null || getconf _NPROCESSORS_ONLN 2>/dev/null || echo 1
}

# The boot report of one recording, with what is wrong with one that can't be opened in the place of the program's complaint. It
# runs in the background, so that the worker hears the signal that ends them both; before is the last that has ended.
boot() { # PLACE FILE
    if can_be_opened "$2"; then
        # shellcheck disable=SC2046,SC2086
        $(runner) "$root/target/bin/spurphases" "$limit" $asked <&3 3<&- >"$room/$1.said" 2>"$room/$1.complaint" &
        wait "$!"
        before=$!
        exec 3<&-
    else
        true >"$room/$1.said"
        printf '%s\n' "${wrong#"$2 "}" >"$room/$1.complaint"
    fi
    true >"$room/$1.done"
}

# Takes one recording after the other that no other worker has: making its file without overwriting it succeeds for one alone. A name
# stays a word of this shell throughout, so that any will do.
worker() { # FILES..
    before=${!:-} place=0
    trap '[ "${!:-}" = "$before" ] || { kill "$!" && wait "$!"; } 2>/dev/null; exit' TERM
    set -C
    for file in "$@"; do
        place=$((place + 1))
        if { true >"$room/$place.taken"; } 2>/dev/null; then boot "$place" "$file"; fi
    done
}

# How many of the recordings are read.
read_so_far() { # OF HOW MANY
    printf '%s of %s recordings' "$(find "$room" -name '*.done' | wc -l)" "$1"
}

# Reads all recordings, as many at a time as the machine has cores.
read_all() { # FILES..
    program='' left=$(cores)
    on_signals interrupted
    while [ "$left" -gt 0 ]; do
        worker "$@" &
        program="$program $!" left=$((left - 1))
    done
    wait_for "$program" read_so_far $#
}

# What is said of a recording: sets why, 'complete' or what it is left out for, and the phases and their total, each behind a comma.
heard_of() { # PLACE
    times='' total=''
    while read -r word _ _ span _ diff; do
        case $word in mark) times="$times,${diff:-$span}" total=$span ;; esac
    done <"$room/$1.said"
    times=$times,$total
    why=$(sed -n '$p' "$room/$1.said")
    if [ -n "$why" ] && [ ! -s "$room/$1.complaint" ]; then return; fi
    why=$(cat "$room/$1.complaint")
    why=${why#spurphases: standard input }
    why=${why:-"the program ended without a verdict"}
}

# The lines of the recordings, in the order given; puts the times of the complete ones into $room/times, and those left out into
# $room/left, both for later.
lines_of_boots() { # FILES..
    true >"$room/times"
    true >"$room/left"
    place=0
    for file in "$@"; do
        place=$((place + 1))
        heard_of "$place"
        field_of_csv "$file"
        if [ "$why" = complete ]; then
            printf ',complete%s\n' "$times"
            printf '%s\n' "$times" >>"$room/times"
        else
            printf ',%s%s\n' "$(field_of_csv "$why")" "$blank,"
            printf ',left out,%s,%s%s\n' "$(field_of_csv "$file")" "$(field_of_csv "$why")" "${blank#,}" >>"$room/left"
        fi
    done
}

# The lines over all complete boots: each column, the total's too, is put to the program by itself.
lines_over_all() { # the columns' names
    count='' least='' median='' greatest='' mean='' remainder='' column=1
    for _ in "$@"; do
        column=$((column + 1)) # the first is what stands before the first comma, and empty
        # shellcheck disable=SC2046
        answered spurfleet $(cut -d , -f "$column" "$room/times")
        read -r _ a _ b _ c _ d _ e _ f <"$room/spurfleet"
        count=$count,$a least=$least,$b median=$median,$c greatest=$greatest,$d mean=$mean,$e remainder=$remainder,$f
    done
    printf ',count%s\n' "$count"
    [ -s "$room/times" ] || return 0
    printf ',%s\n' "least$least" "median$median" "greatest$greatest" "mean$mean" "remainder$remainder"
}

# Takes the marks from the words up to --, and leaves the number of words that were taken.
marks_before_files() { # WORDS..
    asked='' taken=$#
    while [ $# -gt 0 ] && [ "$1" != -- ]; do
        marks "$1"
        asked="$asked $1"
        shift
    done
    [ $# -gt 1 ] || die "there are no recordings: $usage_of_fleet"
    shift
    taken=$((taken - $#))
}

# Ends where a recording can't be one of many, before any is read.
can_be_fleet() { # FILES..
    [ $# -le 4096 ] || die "a fleet has at most 4096 recordings"
    for file in "$@"; do
        case $file in - | /dev/stdin) die "standard input can't be one of a fleet's recordings; a file of that name is ./-" ;; esac
    done
}

fleet() { # [--limit N] S/N .. -- FILE FILE ..
    options "$@"
    shift "$taken"
    marks_before_files "$@"
    shift "$taken"
    can_be_fleet "$@"
    can_be_written
    built spurphases
    built spurfleet
    # shellcheck disable=SC2086
    refused_words "$limit" $asked
    if [ -n "$refused" ]; then
        printf '%s\n' "$refused" 2>/dev/null || die "standard output can't be written"
        exit 2
    fi
    read_all "$@"
    # shellcheck disable=SC2086
    {
        blank=$(commas $asked)
        printf 'file,verdict%s,total\n' "$(printf ',%s' $asked)"
        lines_of_boots "$@"
        lines_over_all $asked total
        cat "$room/left"
    } >"$room/csv" || die "there is no room for the lines"
    if [ -s "$room/left" ]; then status=1; else status=0; fi
    hand_out "$room/csv" "$status"
}
