# shellcheck shell=sh disable=SC2154
# What the commands of the analyst's desk share: programs that read no recording, a recording that several programs read, marks with
# names. Every figure that these commands show is a word that a proved program has printed, passed on as it is: nothing is counted,
# added or rounded here, since a shell's or awk's numbers would lose digits that a span of 2^61 cycles has. Read by ./spur, behind
# building.sh and recording.sh.
: "${root:?}"

# The lines of a proved program that reads no recording, kept in the room under its name. What it complains of ends the command.
answered() { # NAME WORDS..
    make_room
    answering=$1
    shift
    # shellcheck disable=SC2046
    $(runner) "$root/target/bin/$answering" "$@" </dev/null >"$room/$answering" 2>"$room/complaint"
    ended=$?
    [ ! -s "$room/complaint" ] || die "$(cat "$room/complaint")"
    [ "$ended" -eq 0 ] || die "$answering ended without an answer (status $ended)"
}

# The refusal of the limit or the marks, which doesn't depend on a recording: what the boot report of an empty one has as its only
# line. Sets refused, which is empty where they are as they should be.
refused_words() { # LIMIT MARKS..
    answered spurphases "$@"
    # shellcheck disable=SC2034
    refused=$(sed -n '1s/^refused .*/&/p' "$room/spurphases")
}

# What tells whether a file is still the same: where it is, its size, and when it was last changed.
state_of() { # FILE
    stat -L -c '%d %i %s %y' -- "$1" 2>/dev/null
}

# Makes of the recording that is open as 3 one that several programs can read: a file is read where it is, and what can be read only
# once, a pipe or standard input, is first copied. Sets recording, size and state.
settled() { # FILE
    recording=$1 state=''
    case $1 in - | /dev/stdin) ;; *) if [ -f "$1" ]; then state=$(state_of "$1"); fi ;; esac
    if [ -z "$state" ]; then
        over_recording cat
        [ "$ended" -eq 0 ] || die "the recording can't be copied to a temporary file: $(cat "$room/complaint")"
        recording=$room/recording
        mv "$room/said" "$recording"
        state=$(state_of "$recording")
    fi
    exec 3<&-
    # shellcheck disable=SC2034
    size=$(stat -L -c %s -- "$recording")
}

# Runs a proved program over the settled recording, and keeps its lines in the room under its name.
heard() { # NAME WORDS..
    opened "$recording"
    run_over "$@"
    exec 3<&-
    [ ! -s "$room/complaint" ] || die "$(cat "$room/complaint")"
    [ -s "$room/said" ] || die "$1 ended without a verdict (status $ended)"
    mv "$room/said" "$room/$1"
}

# Ends where the recording isn't what it was when it was settled: two programs may then have read two recordings.
unchanged() { # FILE, as it was given
    [ "$(state_of "$recording")" = "$state" ] || die "$1 changed while it was read"
}

# Puts out what was written into a file of the room, and ends with the status.
hand_out() { # FILE STATUS
    cat "$1" 2>/dev/null || die "standard output can't be written"
    exit "$2"
}
