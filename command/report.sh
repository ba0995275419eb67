# shellcheck shell=sh disable=SC2034,SC2154
# The command ./spur report: judges a whole recording, looks for a boot's marks in it, and has page.sh make of both one HTML page. Here is
# what the page says; page.sh has how it looks. Read by ./spur, behind desk.sh and rules.sh.
: "${root:?}"

usage_of_report='./spur report [--limit N] FILE S/N[=NAME] ..'

# Takes the marks from words with names behind them, for the programs: sets asked.
named_marks() { # S/N[=NAME] ..
    asked=''
    for word in "$@"; do
        marks "${word%%=*}"
        asked="$asked ${word%%=*}"
    done
}

# The mark's word at a place, counted from 0.
word_at() { # PLACE WORDS..
    shift "$1"
    printf '%s' "$2"
}

# The name of the phase that ends with a mark; the mark itself where the user gave none.
name_of() { # S/N[=NAME]
    case $1 in *=?*) printf '%s' "${1#*=}" ;; *) printf '%s' "${1%%=*}" ;; esac
}

# What the page is about, from the lines of the programs: boot, which is complete or empty; outcome (conforming, breach, refused, or
# unjudged where a word of the command is refused); the totals; of a breach its rule, record and span; of a refusal its number and place.
# The boot report ends at the last mark (document 02, wish 1), so a boot can be complete in a recording that is broken or torn behind it.
find_outcome() {
    boot='' number='' place='' rule='' total=''
    if [ -n "$refused" ]; then
        outcome=unjudged number=${refused#refused }
        return
    fi
    {
        read -r _ records _ span _ starts _ acks _ aborted _ open
        read -r verdict
    } <"$room/spuraccounts"
    last=$(sed -n '$p' "$room/spurphases")
    if [ "$last" = complete ]; then
        boot=complete total=$(sed -n 's/^mark [0-9]* span \([0-9]*\).*/\1/p' "$room/spurphases" | sed -n '$p')
    elif [ "$verdict" = conforming ]; then
        verdict=$last # a mark that isn't there
    fi
    # shellcheck disable=SC2086
    set -- $verdict
    case $verdict in
    conforming) outcome=conforming ;;
    'breach rule '*) outcome=breach rule=$3 breaking=$5 breaking_span=$7 ;;
    'refused '*) outcome=refused number=$2 place=${4-} ;;
    *) die "the programs ended without a verdict" ;;
    esac
}

# Has spurseconds tell the seconds of every number of cycles that the page may show: the spans and lengths of the boot report, the busy
# cycles, and the spans of the verdict. Sets known, ' CYCLES=SECONDS CYCLES=SECONDS .. '.
know_seconds() {
    # shellcheck disable=SC2046
    set -- $(sed -n -e 's/.* span \([0-9]*\).*/\1/p' "$room/spuraccounts" "$room/spurphases") \
        $(sed -n -e 's/.* diff //p' "$room/spurphases") $(sed -n -e 's/.* busy //p' "$room/spuraccounts")
    answered spurseconds "$@"
    known=" $(printf '%s\n' "$@" | paste -d = - "$room/spurseconds" | tr '\n' ' ')"
}

# The seconds of a number of cycles, as the program printed them.
seconds() { # CYCLES
    behind=${known#*" $1="}
    printf '%s' "${behind%% *}"
}

# The phases, one to a line: number, span before it, cycles, span at its mark, mark, and its name as HTML.
phases_in_order() { # S/N[=NAME] ..
    ordinal=0 from=0
    for word in "$@"; do
        ordinal=$((ordinal + 1))
        read -r _ _ _ reached _ length
        printf '%s %s %s %s %s %s\n' "$ordinal" "$from" "${length:-$reached}" "$reached" "${word%%=*}" "$(escaped "$(name_of "$word")")"
        from=$reached
    done <"$room/spurphases"
}

report() { # [--limit N] FILE S/N[=NAME] ..
    options "$@"
    shift "$taken"
    [ $# -gt 0 ] || die "there is no recording: $usage_of_report"
    given=$1
    shift
    named_marks "$@"
    can_be_written
    opened "$given" # before a build of minutes
    for name in spuraccounts spurphases spurseconds; do built "$name"; done
    settled "$given"
    # shellcheck disable=SC2086
    refused_words "$limit" $asked
    if [ -z "$refused" ]; then
        heard spuraccounts "$limit"
        # shellcheck disable=SC2086
        heard spurphases "$limit" $asked
        unchanged "$given"
        know_seconds
    fi
    find_outcome
    page "$@" >"$room/page" || die "there is no room for the page"
    case $outcome in conforming) status=0 ;; breach) status=1 ;; *) status=2 ;; esac
    hand_out "$room/page" "$status"
}
