# shellcheck shell=sh disable=SC2154
# The command ./spur vcd, and what it shares with ./spur explain: records shown by spurshow. Read by ./spur, behind recording.sh.
: "${root:?}"

# Has spurshow show records of the recording that is open as 3, in $room/said. What it says of the recording's end, a torn record or one
# too many, is put into ending: the records before that are shown all the same. Anything else that it complains of ends the command.
shown() { # rows or vcd, FROM, TO
    run_over spurshow "$@"
    ending=$(cat "$room/complaint")
    case $ending in
    '' | 'spurshow: the recording ends within a record' | 'spurshow: more than 2^30 records') ;;
    *) die "$ending" ;;
    esac
    [ -s "$room/said" ] || die "spurshow ended without a record (status $ended)"
}

# The dump of the records, or of some of them, for a waveform viewer. All of them are asked for as one more than a recording may have, so
# that the program comes to the end, and can tell of one that is torn or too long.
vcd() { # FILE [FROM TO]
    usage='./spur vcd FILE [FROM TO], places counted from 0'
    case ${1-} in
    --) shift ;;
    -?*) die "there is no option $1: $usage" ;;
    esac
    case $# in
    1) set -- "$1" 0 1073741824 ;;
    3) ;;
    *) die "a recording, and from which record to which, or neither: $usage" ;;
    esac
    number "$2" "$2 is no record's place: $usage"
    from=$plain
    number "$3" "$3 is no record's place: $usage"
    [ "${#from}" -le 19 ] && [ "${#plain}" -le 19 ] || die "a record's place has at most 19 digits: $usage"
    can_be_written
    opened "$1" # before a build of minutes
    built spurshow
    shown vcd "$from" "$plain"
    cat "$room/said" 2>/dev/null || die "standard output can't be written"
    [ -n "$ending" ] || exit 0
    printf 'spur: %s\n' "$ending" >&2
    exit 2
}
