# shellcheck shell=sh disable=SC2154
# The command ./spur explain: a recording's verdict in words, and of a breach the rule, what would have conformed, and the records around
# it. Read by ./spur, behind desk.sh, rules.sh and vcd.sh.
: "${root:?}"

# The records around a breach, six before it and two behind. Their places, at most 2^30, are what the program is asked for, and no figure
# that is shown: each row tells its own.
rows_around() { # PLACE
    if [ "$1" -gt 6 ]; then first=$(($1 - 6)); else first=0; fi
    opened "$recording"
    shown rows "$first" "$(($1 + 2))"
    exec 3<&-
    mv "$room/said" "$room/rows"
}

# The rows as a table. In a row names and values alternate; a column is as wide as its widest word, and a line of the bus has its name in
# capitals. The breaching record stands between > and <. All words are taken as text, the place too: a number of awk's would lose digits.
table() { # PLACE
    awk -v place="$1" '
        function put(row, column, word) {
            cell[row, column] = word
            if (length(word) > width[column]) width[column] = length(word)
        }
        function line(row, before, behind, column, text) {
            text = before
            for (column = 1; column <= columns; column++) text = text sprintf(" %" width[column] "s", cell[row, column])
            print text behind
        }
        {
            columns = NF / 2
            for (column = 1; column <= columns; column++) {
                name = $(2 * column - 1)
                put(0, column, name ~ /^(record|cycle|gap|ns|spare)$/ ? name : toupper(name))
                put(NR, column, $(2 * column))
            }
        }
        END {
            line(0, " ", "")
            for (row = 1; row <= NR; row++)
                if (cell[row, 1] "" == place "") line(row, ">", " <")
                else line(row, " ", "")
        }' "$room/rows"
}

# The totals in words.
totals() { # OF WHAT, then the words of the program's first line
    printf '%s: %s records, a span of %s, STARTs %s, ACKs %s, transfers aborted by a RESET %s, still open %s.\n' \
        "$1" "$3" "$(cycles "$5")" "$7" "$9" "${11}" "${13}"
}

# A breach, by the words of the program's second and third line.
explain_breach() { # breach rule RULE record PLACE span SPAN found FOUND bound BOUND
    printf 'Breach of rule %s at record %s, counted from 0, under hold limit %s.\n\n' "$3" "$5" "$limit"
    for quoted in $(quoted_for "$3"); do printf 'Document 01, rule %s: "%s"\n' "$quoted" "$(sentence "$quoted")"; done
    case $3 in
    8?) printf 'Document 02, wish 2: "%s, %s"\n' "$3" "$(kind "$3")" ;;
    12) printf 'Document 02, wish 5: "The age returns to 0 with each strobe that takes an owed word, in the stepper and in rule 12"\n' ;;
    esac
    printf '\n%s\n\n' "$(what_would_conform "$3" "$9" "${11}")"
    table "$5"
    printf '\ncycle and ns are counted from the first record, gap from the record before.\n'
}

# All that is said, by the lines of spurwhy.
explanation() {
    # shellcheck disable=SC2086
    case $verdict in
    conforming)
        printf 'Conforming: no record breaks a rule, under hold limit %s.\n' "$limit"
        totals 'All of it' $totals
        ;;
    'breach rule '*)
        explain_breach $verdict $found
        totals 'The records before the breach' $totals
        ;;
    'refused 3') printf 'Refused (3): %s Nothing was judged.\n' "$(refusal 3)" ;;
    'refused '*)
        printf 'Refused (%s): %s\n' "${verdict#refused }" "$(refusal "${verdict#refused }")"
        totals "The records that were judged conform, under hold limit $limit" $totals
        ;;
    esac
}

explain() { # [--limit N] [FILE]
    options "$@"
    shift "$taken"
    [ $# -le 1 ] || die "one recording at a time: ./spur explain [--limit N] [FILE]"
    can_be_written
    opened "${1--}" # before a build of minutes
    built spurwhy
    built spurshow
    settled "${1--}"
    heard spurwhy "$limit"
    {
        read -r totals
        read -r verdict
        read -r found
    } <"$room/spurwhy"
    case $totals in refused*) verdict=$totals ;; esac # of a limit that is none there is this line alone
    case $verdict in
    conforming) status=0 ;;
    'breach rule '*)
        place=${verdict#*record }
        rows_around "${place%% *}"
        status=1
        ;;
    'refused '*) status=2 ;;
    *) die "spurwhy ended without a verdict (status $ended)" ;;
    esac
    unchanged "${1--}"
    explanation >"$room/explanation"
    hand_out "$room/explanation" "$status"
}
