# shellcheck shell=sh disable=SC2154
# Part of tests/command.sh: the commands of the analyst's desk, ./spur quote, vcd, explain, report and fleet. The figures of the sample are
# those of samples/README.md, the others are worked out here; bytes, record, quiet, two_marks and the rest are those of bootreport.sh.

# Status 3, nothing on standard output, one line that says why.
undone() { # WHAT COMMAND WORDS..
    what=$1
    shift
    expect "$what" 3 '' 'spur: *' "$spur" "$@"
    count "$what, in one line" "$([ "$(wc -l <"$work/complaint")" -eq 1 ] && echo 0 || echo 1)" "$(cat "$work/complaint")"
}

# What all commands with a recording say of one that can't be read, and of a standard output that can't be written.
unreadable_for() { # COMMAND WORDS BEHIND THE RECORDING..
    command=$1
    shift
    undone "$command: a missing file" "$command" "$work/none.rec" "$@"
    undone "$command: a folder" "$command" "$work" "$@"
    undone "$command: a name of nothing" "$command" '' "$@"
    undone "$command: an option that there is not" "$command" --none "$work/two" "$@"
    unwritable_for "$command" "$work/two" "$@"
}
unwritable_for() { # COMMAND WORDS..
    if [ -c /dev/full ]; then
        expect "$1: a full standard output" 3 '' "*$unwritten" to_full "$spur" "$@"
    fi
    expect "$1: a closed standard output" 3 '' "*$unwritten" to_closed "$spur" "$@"
}

quotes() {
    expect 'quote: slot 0, limit 16' 0 'slot 0 limit 16 others 480 cycles 1970657 seconds 0.1970657' '' "$spur" quote 0 16
    expect 'quote: slot 15, limit 1' 0 'slot 15 limit 1 others 16 cycles 65553 seconds 0.0065553' '' "$spur" quote 15 1
    expect 'quote: slot 7, limit 4' 0 'slot 7 limit 4 others 93 cycles 381022 seconds 0.0381022' '' "$spur" quote 7 4
    for words in '16 1' '99999999999999999999999 1' '16 0' '16 17'; do
        # shellcheck disable=SC2086
        expect "quote: $words" 2 'refused 2' '' "$spur" quote $words
    done
    for words in '0 0' '15 17' '3 4294967300'; do
        # shellcheck disable=SC2086
        expect "quote: $words" 2 'refused 3' '' "$spur" quote $words
    done
    for words in '' 3 '3 4 5' 'x 4' '3 x' '-3 4' '3 -4' '3/4' '--limit 4 3' '3 4x'; do
        # shellcheck disable=SC2086
        undone "quote: '$words'" quote $words
    done
    undone 'quote: an empty word' quote 3 ''
    undone 'quote: two numbers in one word' quote '3 4'
    unwritable_for quote 3 4
}

# The dump's head: each of the 81 lines has the character 33 and its number as its code.
# shellcheck disable=SC2016
dump_head() {
    printf '$version Treadleoak SpurBus library $end\n$timescale 100 ns $end\n$scope module spurbus $end\n'
    code=33
    for line in RESET RQST ARB:3 START ACK TM1 TM0 SP SPV AD:31 VTM1 VTM0 VACK VSACK VAD:32; do
        case $line in
        *:*) bit=${line#*:} ;;
        *) bit=0 ;;
        esac
        while [ "$bit" -ge 0 ]; do
            name=$line
            case $line in *:*) name="${line%:*}[$bit]" ;; esac
            # shellcheck disable=SC2059
            printf "\$var wire 1 \\$(printf %03o "$code") %s \$end\n" "$name"
            code=$((code + 1)) bit=$((bit - 1))
        done
    done
    printf '$upscope $end\n$enddefinitions $end\n'
}
# All 81 values, 1 for those whose codes are given.
dump_values() { # CODES
    awk -v active="$1" 'BEGIN { for (k = 33; k < 114; k++) { c = sprintf("%c", k); print (index(active, c) ? 1 : 0) c } }'
}

# two_marks as a dump, by hand. The codes are " for RQST, ' for START, ( for ACK, ) for TM1, * for TM0, and from - on for AD[31] and so on: - . / 0
# for AD[31] to AD[28], 2 3 4 for AD[26] to AD[24], H and I for AD[4] and AD[3]. RQST in 0 and 1; a START in 2 with TM1 and AD F3000010, its ACK in
# 4; a START in 6 with AD F5000018; an ACK with an error, TM1 alone, in 7; the START again in 9, and success, TM1 and TM0, in 10.
dump_0() {
    dump_head
    echo '#0'
    dump_values '"'
    printf '%s\n' '#1' '#2' '0"' "1'" '1)' 1- 1. 1/ 10 13 14 1H '#3' "0'" '0)' 0- 0. 0/ 00 03 04 0H '#4' '1(' '1)' '1*'
}
dump_5='#5
0(
0)
0*'
dump_6="#6
1'
1)
1-
1.
1/
10
12
14
1H
1I"
dump_two() {
    dump_0
    printf '%s\n' "$dump_5" "$dump_6" '#7' "0'" '1(' 0- 0. 0/ 00 02 04 0H 0I '#8' '0(' '0)' '#9' "1'" '1)' 1- 1. 1/ 10 12 14 1H 1I \
        '#10' "0'" '1(' '1*' 0- 0. 0/ 00 02 04 0H 0I '#11'
}
# Records 3 to 4: the ACK in cycle 4, and the START in 6.
dump_34() {
    dump_head
    echo '#4'
    dump_values '()*'
    printf '%s\n' "$dump_5" "$dump_6" '#7'
}

dump_stdin() { "$spur" vcd "$@" <"$work/two"; }
# shellcheck disable=SC2002
dump_endless() { cat "$work/two" /dev/zero | "$spur" vcd - 3 4; }

dumps() {
    dump_two=$(dump_two) dump_34=$(dump_34)
    expect 'vcd: all records' 0 "$dump_two" '' "$spur" vcd "$work/two"
    expect 'vcd: a range of all' 0 "$dump_two" '' "$spur" vcd "$work/two" 0 7
    expect 'vcd: a range beyond the end' 0 "$dump_two" '' "$spur" vcd "$work/two" 0 99999999999
    expect 'vcd: records 3 to 4' 0 "$dump_34" '' "$spur" vcd "$work/two" 3 4
    expect 'vcd: behind --' 0 "$dump_34" '' "$spur" vcd -- "$work/two" 3 4
    expect 'vcd: standard input' 0 "$dump_two" '' dump_stdin -
    expect 'vcd: standard input, a range' 0 "$dump_34" '' dump_stdin - 3 4
    expect 'vcd: an endless pipe' 0 "$dump_34" '' dump_endless
    expect 'vcd: a torn end' 2 "$dump_two" '*ends within a record' "$spur" vcd "$work/two-torn"
    expect 'vcd: a torn end behind the range' 0 "$dump_34" '' "$spur" vcd "$work/two-torn" 3 4
    undone 'vcd: no record' vcd /dev/null
    undone 'vcd: a range behind the end' vcd "$work/two" 8 9
    undone 'vcd: a range the wrong way round' vcd "$work/two" 4 3
    undone 'vcd: no words' vcd
    undone 'vcd: one number' vcd "$work/two" 3
    undone 'vcd: three numbers' vcd "$work/two" 3 4 5
    undone 'vcd: no number' vcd "$work/two" x 4
    undone 'vcd: no number behind' vcd "$work/two" 3 4x
    undone 'vcd: a limit' vcd --limit 4 "$work/two"
    expect 'vcd: a place of nineteen digits and zeros' 0 "$dump_two" '' "$spur" vcd "$work/two" 0 009999999999999999999
    undone 'vcd: a place of twenty digits' vcd "$work/two" 0 10000000000000000000
    unreadable_for vcd
    unreadable_for vcd 3 4
}

# The words are in the text, each in a line of its own or not.
tells() { # WHAT TEXT WORD..
    what=$1 text=$2
    shift 2
    for word in "$@"; do
        printf '%s\n' "$text" | grep -qwF -- "$word"
        count "$what tells $word" $? "$text"
    done
}
silent_of() { # WHAT TEXT WORD..
    what=$1 text=$2
    shift 2
    for word in "$@"; do
        ! printf '%s\n' "$text" | grep -qwF -- "$word"
        count "$what doesn't tell $word" $? "$text"
    done
}

# Runs a command whose text isn't to the byte: the status, nothing on standard error; the text is left in $said.
runs() { # WHAT STATUS COMMAND..
    what=$1 right=$2
    shift 2
    said=$("$@" 2>"$work/complaint")
    status=$?
    count "$what" "$([ "$status" -eq "$right" ] && [ ! -s "$work/complaint" ] && [ -n "$said" ] && echo 0 || echo 1)" \
        "status $status, not $right; it printed '$said' and complained '$(cat "$work/complaint")'"
}

# The records around the breach, six before it and two behind, are rows, its own the one that is marked, and there are no others.
rows_around() { # WHAT TEXT FIRST BREACH LAST
    rows=0 marked=0 own=
    i=$3
    while [ "$i" -le "$5" ]; do
        row=$(printf '%s\n' "$2" | grep -E "^[^0-9A-Za-z]*$i " | head -n 1)
        [ -z "$row" ] || rows=$((rows + 1))
        case $row in [!0-9\ ]*) marked=$((marked + 1)) own=$i ;; esac
        i=$((i + 1))
    done
    all=$(printf '%s\n' "$2" | grep -cE '^[^0-9A-Za-z]*[0-9]+ ')
    count "$1: rows $3 to $5" "$([ "$rows" -eq $(($5 - $3 + 1)) ] && [ "$all" -eq "$rows" ] && echo 0 || echo 1)" "$rows of $all rows in: $2"
    count "$1: record $4 is marked" "$([ "$marked" -eq 1 ] && [ "$own" = "$4" ] && echo 0 || echo 1)" "$marked marked in: $2"
}

explain_stdin() { "$spur" explain "$@" <"$root/samples/breach.rec"; }

explained() {
    runs 'explain: a breach' 1 "$spur" explain "$root/samples/breach.rec"
    tells 'explain: a breach' "$said" 8c 2783 14679 1467900 2 3
    rows_around 'explain: a breach' "$said" 2777 2783 2785
    runs 'explain: standard input' 1 explain_stdin
    same=$said
    runs 'explain: standard input as -' 1 explain_stdin -
    count 'explain: the same' "$([ "$said" = "$same" ] && echo 0 || echo 1)" "$said"
    runs 'explain: limit 4' 1 "$spur" explain --limit 4 "$boot"
    tells 'explain: limit 4' "$said" 11 2241 13935 1393500 5 4
    rows_around 'explain: limit 4' "$said" 2235 2241 2243
    runs 'explain: a conforming recording' 0 "$spur" explain "$boot"
    tells 'explain: a conforming recording' "$said" 4096 16163
    runs 'explain: a torn end' 2 "$spur" explain "$work/two-torn"
    runs 'explain: limit 0' 2 "$spur" explain --limit 0 "$work/two"
    runs 'explain: a breach in the first record' 1 "$spur" explain "$work/8a"
    tells 'explain: a breach in the first record' "$said" 8a
    rows_around 'explain: a breach in the first record' "$said" 0 0 0
    runs 'explain: a breach in the last record' 1 "$spur" explain "$work/8c"
    tells 'explain: a breach in the last record' "$said" 8c 2 3
    rows_around 'explain: a breach in the last record' "$said" 0 4 4
    runs 'explain: a word too late' 1 "$spur" explain "$root/samples/slow.rec"
    tells 'explain: a word too late' "$said" 12 21 4457 445700 257 256 strobe
    rows_around 'explain: a word too late' "$said" 15 21 21
    undone 'explain: two recordings' explain "$boot" "$boot"
    undone 'explain: a limit that is none' explain --limit x "$boot"
    unreadable_for explain
}

six_marks='10/1 2/1 5/7 11/2 10/1 15/15'
reports_pages() {
    head -c $((2783 * 16)) "$root/samples/phases.rec" >"$work/sound.rec"
    # shellcheck disable=SC2086
    {
        runs 'report: the sample up to its breach' 0 "$spur" report "$work/sound.rec" $six_marks
        tells 'report: the sample' "$said" 2482 2361 6737 1664 775 531 14550 0.0002482 0.0002361 0.0006737 0.0001664 0.0000775 0.0000531 \
            0.0014550
        case $said in '<!DOCTYPE html>'* | '<!doctype html>'*) status=0 ;; *) status=1 ;; esac
        count 'report: a page' "$status" "$said"
        # such a boot is complete: its times are shown, and the breach
        runs 'report: a breach behind the last mark' 1 "$spur" report "$root/samples/phases.rec" $six_marks
        tells 'report: a breach behind the last mark' "$said" 8c 2783 14679 2482 2361 6737 1664 775 531 14550 0.0002361 0.0014550
        runs 'report: a breach before the last mark' 1 "$spur" report "$root/samples/phases.rec" $six_marks 1/5
        tells 'report: a breach before the last mark' "$said" 8c 2783 14679
        silent_of 'report: a breach before the last mark' "$said" 2361 6737 1664 775 531 0.0002361 0.0006737 0.0014550
        runs 'report: a breach of the limit before the last mark' 1 "$spur" report --limit 4 "$root/samples/phases.rec" $six_marks
        tells 'report: limit 4' "$said" 11 2241
        silent_of 'report: limit 4' "$said" 2361 6737 0.0002361
    }
    runs 'report: names' 0 "$spur" report "$work/two" '3/4=<i>a</i>&"' "5/6=it's"
    case $said in *'<i>a</i>'*) status=1 ;; *'&lt;i&gt;a&lt;/i&gt;&amp;'*) status=0 ;; *) status=1 ;; esac
    count 'report: a name is no markup' "$status" "$said"
    runs 'report: a mark that is absent' 2 "$spur" report "$work/sound.rec" 10/1 2/1 11/2 5/7
    silent_of 'report: a mark that is absent' "$said" 2361 8401 0.0002361 0.0008401
    runs 'report: a torn end' 2 "$spur" report "$work/two-torn" 3/4 5/6
    for words in '--limit 0 two 3/4' 'two 16/0' 'two'; do
        # shellcheck disable=SC2086
        runs "report: $words" 2 in_work "$spur" report $words
    done
    for mark in x 3 3/ /4 3:4 -3/4 3/4/5 '=name' '3=name' '3/=name' ''; do
        undone "report: '$mark' in place of a mark" report "$work/two" "$mark"
    done
    undone 'report: a limit that is none' report --limit x "$work/two" 3/4
    unreadable_for report 3/4
}

# Boots of the marks 3/4 and 5/6, one for each line 'P Q' of the input: RQST in 0 and 1, an attention cycle in 2, and parked writes in P
# and Q with ACKs in P + 2 and Q + 1. Lines of octal bytes for printf.
boots() {
    awk '
        function lines(stamp, words,   n, i, b, text) {
            text = sprintf("\\%03o\\%03o\\%03o\\%03o", int(stamp / 16777216) % 256, int(stamp / 65536) % 256, int(stamp / 256) % 256,
                stamp % 256)
            n = split(words, b, " ")
            for (i = 1; i <= 12; i++) text = text sprintf("\\%s", i <= n ? b[i] : "000")
            return text
        }
        { print lines(0, "100") lines(1, "100") lines(2, "003 300") lines($1, "002 217 060 000 001") lines($1 + 2, "001 300") \
            lines($2, "002 217 120 000 001 200") lines($2 + 1, "001 300") }'
}

# The figures of a column of numbers, by sorting.
column() { # FILE FIELD WHAT
    awk -v field="$2" '{ print $field }' "$1" | sort -n | awk -v what="$3" '
        { n[NR] = $1; sum += $1 }
        END {
            mean = (sum - sum % NR) / NR
            if (what == "count") print NR
            if (what == "least") print n[1]
            if (what == "median") print n[int((NR + 1) / 2)]
            if (what == "greatest") print n[NR]
            if (what == "mean") printf "%.0f\n", mean
            if (what == "remainder") printf "%.0f\n", sum - mean * NR
        }'
}

# A field as RFC 4180 has it: quoted where it has a comma, a quote or a newline.
field() {
    case $1 in
    *[\",]* | *'
'*) printf '"%s"' "$(printf '%s.' "$1" | sed 's/"/""/g' | sed '$s/\.$//')" ;;
    *) printf '%s' "$1" ;;
    esac
}

whole() { # NAME P Q: a line of the CSV
    printf '%s,complete,%s,%s,%s\n' "$(field "$1")" "$2" $(($3 - $2)) "$3" >>"$work/csv"
    printf '%s %s %s\n' "$2" $(($3 - $2)) "$3" >>"$work/figures"
}
left_out() { # NAME WHY
    printf '%s,%s,,,\n' "$(field "$1")" "$2" >>"$work/csv"
    printf ',left out,%s,%s,\n' "$(field "$1")" "$2" >>"$work/out"
}
the_end() {
    if [ -s "$work/figures" ]; then
        for what in count least median greatest mean remainder; do
            printf ',%s,%s,%s,%s\n' "$what" "$(column "$work/figures" 1 "$what")" "$(column "$work/figures" 2 "$what")" \
                "$(column "$work/figures" 3 "$what")"
        done
    else
        printf ',count,0,0,0\n'
    fi >>"$work/csv"
    cat "$work/out" >>"$work/csv"
}
new_fleet() {
    echo 'file,verdict,3/4,5/6,total' >"$work/csv"
    : >"$work/figures"
    : >"$work/out"
}
compare_fleet() { # WHAT STATUS WORDS..
    what=$1 right=$2
    shift 2
    the_end
    "$spur" fleet "$@" >"$work/got" 2>"$work/complaint"
    status=$?
    cmp "$work/got" "$work/csv" >"$work/differ" 2>&1
    count "fleet: $what" "$([ ! -s "$work/differ" ] && [ "$status" -eq "$right" ] && [ ! -s "$work/complaint" ] && echo 0 || echo 1)" \
        "status $status, not $right; $(diff "$work/got" "$work/csv" | head -n 20) $(cat "$work/complaint")"
}

# 300 files, 288 of them boots; those that aren't stand among them, and names of all kinds.
three_hundred() {
    mkdir "$work/fleet" "$work/fleet/folder"
    awk 'BEGIN { for (i = 1; i <= 291; i++) { p = 5 + i * 7919 % 997; print p, p + 10 + i * 104729 % 4001 * (i % 5 == 0 ? 500000 : 50) } }' >"$work/boots"
    boots <"$work/boots" >"$work/octal"
    i=0
    new_fleet
    set --
    exec 4<"$work/boots" 5<"$work/octal"
    # shellcheck disable=SC2059
    while read -r p q <&4 && IFS= read -r octal <&5; do
        i=$((i + 1)) name=fleet/b$i
        case $i in
        7) name='fleet/a b' ;;
        11) name='fleet/a,b' ;;
        13) name='fleet/say "so"' ;;
        17) name='fleet/new
line' ;;
        19) name="fleet/it's" ;;
        23) name='fleet/,' ;;
        29) name='fleet/"' ;;
        31) name='-x' ;;
        37) name='fleet/<&>%s\n' ;;
        esac
        printf "$octal" >"$work/$name"
        case $i in
        50) # torn within the last record: its ACK isn't there
            printf "$octal" | head -c 108 >"$work/$name"
            left_out "$name" 'refused 1'
            ;;
        60) # the last mark is absent
            printf "$octal" | head -c 80 >"$work/$name"
            left_out "$name" 'refused 10 place 1'
            ;;
        70) # a START right behind the first cycle of RQST
            { quiet 00 && record 01 02 00 00 00 00; } >"$work/$name"
            left_out "$name" 'breach rule 8b record 1 span 1'
            ;;
        *) whole "$name" "$p" "$q" ;;
        esac
        set -- "$@" "$name"
        case $i in
        3) left_out 'fleet/none' "isn't there" && set -- "$@" fleet/none ;;
        80) left_out 'fleet/folder' 'is a folder' && set -- "$@" fleet/folder ;;
        90) left_out 'fleet/not, "there"' "isn't there" && set -- "$@" 'fleet/not, "there"' ;;
        100) # no record at all
            : >"$work/fleet/empty"
            left_out fleet/empty 'refused 10 place 0' && set -- "$@" fleet/empty
            ;;
        110) # twice the same
            whole fleet/b1 "$(sed -n '1s/ .*//p' "$work/boots")" "$(sed -n '1s/.* //p' "$work/boots")" && set -- "$@" fleet/b1
            ;;
        120) left_out 'fleet/no
ne' "isn't there" && set -- "$@" 'fleet/no
ne' ;;
        130) # a torn piece behind the last mark isn't looked at
            { cat "$work/fleet/b1" && printf torn; } >"$work/fleet/behind"
            whole fleet/behind "$(sed -n '1s/ .*//p' "$work/boots")" "$(sed -n '1s/.* //p' "$work/boots")" && set -- "$@" fleet/behind
            ;;
        140) left_out '' "isn't there" && set -- "$@" '' ;;
        150) left_out fleet/b1/b "isn't there" && set -- "$@" fleet/b1/b ;;
        esac
    done
    exec 4<&- 5<&-
    count "fleet: there are 300 files" "$([ $# -eq 300 ] && echo 0 || echo 1)" "$#"
    spur_before=$spur
    spur=in_work_spur
    compare_fleet '300 files' 1 3/4 5/6 -- "$@"
    spur=$spur_before
}
in_work_spur() { (cd "$work" && "$root/spur" "$@"); }

fleets() {
    three_hundred
    new_fleet
    whole "$work/two" 2 9
    compare_fleet 'one boot' 0 3/4 5/6 -- "$work/two"
    new_fleet
    whole "$work/two" 2 9
    compare_fleet 'one boot, a limit' 0 --limit 16 3/4 5/6 -- "$work/two"
    new_fleet
    left_out "$work/none" "isn't there"
    compare_fleet 'no boot' 1 3/4 5/6 -- "$work/none"
    expect 'fleet: one mark' 0 "file,verdict,3/4,total
$work/two,complete,2,2
,count,1,1
,least,2,2
,median,2,2
,greatest,2,2
,mean,2,2
,remainder,0,0" '' "$spur" fleet 3/4 -- "$work/two"
    expect 'fleet: one mark, left out' 1 "file,verdict,3/5,total
$work/two,refused 10 place 0,,
,count,0,0
,left out,$work/two,refused 10 place 0" '' "$spur" fleet 3/5 -- "$work/two"
    expect 'fleet: a limit that a boot breaks' 1 "file,verdict,3/4,3/4,total
$work/turn,breach rule 11 record 5 span 5,,,
,count,0,0,0
,left out,$work/turn,breach rule 11 record 5 span 5," '' "$spur" fleet --limit 1 3/4 3/4 -- "$work/turn"
    # the first -- ends the options, as in the other commands
    expect 'fleet: no marks' 2 'refused 9' '' "$spur" fleet -- -- "$work/two"
    expect 'fleet: the marks as they are given' 0 "file,verdict,003/04,total
$work/two,complete,2,2
,count,1,1
,least,2,2
,median,2,2
,greatest,2,2
,mean,2,2
,remainder,0,0" '' "$spur" fleet --limit=016 -- 003/04 -- "$work/two"
    # shellcheck disable=SC2086
    expect 'fleet: 33 marks' 2 'refused 9' '' "$spur" fleet $thirty 3/4 3/4 3/4 -- "$work/two"
    expect 'fleet: slot 16' 2 'refused 2' '' "$spur" fleet 3/4 16/0 -- "$work/two"
    expect 'fleet: number 16, and no file' 2 'refused 2' '' "$spur" fleet 3/16 -- "$work/none"
    expect 'fleet: limit 0' 2 'refused 3' '' "$spur" fleet --limit 0 3/4 -- "$work/two"
    expect 'fleet: limit 17, slot 16' 2 'refused 2' '' "$spur" fleet --limit 17 16/0 -- "$work/two"
    undone 'fleet: no words' fleet
    undone 'fleet: no --' fleet 3/4 "$work/two"
    for mark in x 3 3/ /4 3:4 3/4=a ''; do
        undone "fleet: '$mark' in place of a mark" fleet 3/4 "$mark" -- "$work/two"
    done
    undone 'fleet: a limit that is none' fleet --limit x 3/4 -- "$work/two"
    undone 'fleet: an option that there is not' fleet --none 3/4 -- "$work/two"
    unwritable_for fleet 3/4 -- "$work/two"
}

analysts_desk() {
    quotes
    dumps
    explained
    reports_pages
    fleets
}
