# shellcheck shell=sh
# What the commands on a recording share: options, opening it, running a program over it with progress, the exit status; read by
# ./spur, which has root and die.
: "${root:?}"

# The folder for what the programs say, and what is running: none yet, whatever the environment has by these names.
room='' program='' watcher=''

# Sets plain to a number without the zeros that may stand in front, which the programs get it without. Any other word ends the command.
number() { # WORD, and what is said of one that is no number
    case $1 in '' | *[!0-9]*) die "$2" ;; esac
    plain=${1#"${1%%[!0]*}"}
    plain=${plain:-0}
}

# The options of a command: sets limit, and taken, the number of words that the command is to shift.
options() { # WORDS..
    limit=16 taken=$#
    while [ $# -gt 0 ]; do
        case $1 in
        --limit)
            [ $# -gt 1 ] || die "--limit needs a number, 1 to 16"
            limit=$2
            shift
            ;;
        --limit=*) limit=${1#--limit=} ;;
        --)
            shift
            break
            ;;
        -?*) die "there is no option $1; ./spur help lists the commands" ;;
        *) break ;;
        esac
        shift
    done
    taken=$((taken - $#))
    number "$limit" "--limit needs a number, 1 to 16"
    limit=$plain
}

# Ends at once where standard output is closed, and not after a long recording.
can_be_written() {
    { true 9>&1; } 2>/dev/null || die "standard output can't be written"
}

# Opens the recording as descriptor 3, or sets wrong to what is wrong with it. A pipe, a device, /dev/fd/63 is as good as a file.
# /dev/stdin is standard input itself: some kinds can't be opened a second time (a socket, another user's pipe). 'command' keeps a
# failing exec from ending the shell.
can_be_opened() { # FILE
    case $1 in
    - | /dev/stdin)
        wrong='standard input is closed'
        { command exec 3<&0; } 2>/dev/null
        return
        ;;
    esac
    wrong="$1 is a folder"
    if [ -d "$1" ]; then return 1; fi
    { command exec 3<"$1"; } 2>/dev/null && return
    folder=$(dirname -- "$1")
    if [ -d "$folder" ] && [ ! -x "$folder" ]; then
        wrong="there is no permission to look into $folder"
    elif [ ! -e "$1" ]; then
        wrong="$1 isn't there"
    elif [ ! -r "$1" ]; then
        wrong="there is no permission to read $1"
    else
        wrong="$1 can't be opened"
    fi
    return 1
}

# Opens the recording, or ends the command.
opened() { # FILE
    can_be_opened "$1" || die "$wrong"
}

# The value of a line 'NAME: VALUE' in one of the system's files on a process; nothing where there is no such file.
field() { # NAME FILE
    sed -n "s/^$1:[[:space:]]*\([0-9][0-9]*\)\$/\1/p" "$2" 2>/dev/null
}

# How far the program is with its standard input, in words. Of a regular file the system tells the place and the size. Of anything
# else it tells the bytes that the process has read, among them some thousand of the loader's.
far() { # the place at which it began
    if [ -f "/proc/$program/fd/0" ]; then
        at=$(field pos "/proc/$program/fdinfo/0") size=$(stat -L -c %s "/proc/$program/fd/0" 2>/dev/null)
        [ -n "$at" ] || return 0
        printf '%s bytes' "$((at - $1))"
        if [ "$1" -lt "${size:-0}" ] && [ "$at" -le "$size" ]; then printf ', %s per cent' "$(((at - $1) * 100 / (size - $1)))"; fi
    else
        at=$(field rchar "/proc/$program/io")
        if [ -n "$at" ]; then printf 'about %s bytes' "$at"; fi
    fi
}

# Shows on the terminal how far the command is, on one line that is rewritten each second from the second one on, until it is
# ended by TERM; it then ends its own sleep too (before the first, $! is still what was running before) and clears the line.
watch() { # the words that tell how far it is
    shown='' before=${!:-}
    trap '[ "${!:-}" = "$before" ] || { kill "$!" && wait "$!"; } 2>/dev/null; [ -z "$shown" ] || printf "\r%-45s\r" "" >&2; exit' TERM
    sleep 2 &
    wait "$!"
    while said=$("$@") && [ -n "$said" ]; do # nothing, where the system doesn't tell
        shown=1
        printf '\r%-45s' "spur: $said" >&2
        sleep 1 &
        wait "$!"
    done
}

# Has every signal that ends a command call a function, with the signal's name behind it.
on_signals() { # FUNCTION
    for signal in HUP INT QUIT TERM; do
        # shellcheck disable=SC2064
        trap "$1 $signal" "$signal"
    done
}

# Ends this shell by a signal, nothing being left.
ended_by() { # SIGNAL
    trap '' HUP INT QUIT TERM
    rm -rf "$room"
    trap - "$1"
    kill -s "$1" "$$"
}

# Ends what was started, the line on the terminal with it, and then this shell by the same signal.
interrupted() { # SIGNAL
    trap '' HUP INT QUIT TERM
    # shellcheck disable=SC2086
    kill $watcher $program ${!:-} 2>/dev/null
    wait 2>/dev/null
    ended_by "$1"
}

# The folder $room, which is removed however the command ends. A command that runs several programs has one.
make_room() {
    [ -z "$room" ] || return 0
    room=$(mktemp -d) || die "there is no room for what the program says"
    trap 'rm -rf "$room"' EXIT
    on_signals ended_by
}

# Shows progress until what was started has ended, and has its status in $ended. Nobody looks for progress where standard error
# isn't a terminal; where the recording is typed the line would be in the way.
wait_for() { # PROCESSES, then the words that tell how far they are
    program=$1
    shift
    if [ -t 2 ] && [ ! -t 3 ]; then
        watch "$@" 3<&- &
        watcher=$!
    fi
    # shellcheck disable=SC2086
    wait $program 2>/dev/null
    ended=$?
    if [ -n "$watcher" ]; then
        kill "$watcher"
        wait "$watcher"
    fi 2>/dev/null
    on_signals ended_by
    program='' watcher=''
}

# Runs a command over the recording, and keeps what it says in the folder $room. It runs in the background, since a shell that
# waits for one in the foreground hears no signal; a background command gets the recording from 3, having no standard input of its own.
over_recording() { # WORDS..
    make_room
    program='' start=$(field pos "/proc/$$/fdinfo/3")
    on_signals interrupted
    "$@" <&3 3<&- >"$room/said" 2>"$room/complaint" &
    wait_for "$!" far "${start:-0}"
}

# Runs a proved program over the recording.
run_over() { # NAME WORDS..
    name=$1
    shift
    # shellcheck disable=SC2046
    over_recording $(runner) "$root/target/bin/$name" "$@"
}

# The verdict in what the program said: its last line, or the one before those of an account. A refusal alone has nothing behind it.
verdict() { # LINES BEHIND IT
    lines=$(wc -l <"$room/said")
    if [ "$lines" -eq 1 ]; then behind=0; else behind=$1; fi
    if [ "$lines" -gt "$behind" ]; then sed -n "$((lines - behind))p" "$room/said"; fi
}

# Passes on what the program said, and exits by its verdict: a Rattle program has no exit status of its own.
tell() { # the verdict that is good, and how many lines stand behind it
    case $(verdict "${2:-0}") in
    "$1") status=0 ;;
    'breach rule '*) status=1 ;;
    'refused '*) status=2 ;;
    *) status=3 ;;
    esac
    cat "$room/said" 2>/dev/null
    written=$? complaint=$(cat "$room/complaint")
    if [ "$status" -eq 3 ]; then complaint=${complaint:-"the program ended without a verdict (status $ended)"}; fi
    if [ -n "$complaint" ]; then printf '%s\n' "$complaint" | sed 's/^/spur: /' >&2; fi
    [ "$written" -eq 0 ] || die "standard output can't be written"
    exit "$status"
}
