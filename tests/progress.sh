# shellcheck shell=sh disable=SC2154
# Part of tests/command.sh: how far a recording is, on a terminal alone, and what an interrupt leaves.

# Half of a recording, and the other half after so many seconds.
slowly() { # SECONDS
    { head -c 32768 "$boot" && sleep "$1" && tail -c 32768 "$boot"; } >"$work/fifo" &
}
from_slow() {
    slowly 3
    "$spur" judge "$work/fifo"
}

# The judge on a terminal of its own, whose every character goes to $work/terminal. What the command starts has a mark, by which
# what is left of it is found, before the terminal's own end can end it. A command that was begun in the background ignores
# Control-C, and so does all that it starts, unless env can undo that.
plain=
if env --default-signal=INT,QUIT true 2>/dev/null; then plain='env --default-signal=INT,QUIT'; fi
on_terminal() {
    # shellcheck disable=SC2016
    WORK=$work SPUR=$spur $plain script -qec 'trap : INT; MARK=$WORK "$SPUR" judge "$WORK/fifo" >"$WORK/out"
        status=$?; grep -ls "MARK=$WORK" /proc/[0-9]*/environ >"$WORK/left"; exit $status' /dev/null >"$work/terminal"
}
none_left() { count "$1: no process is left" "$([ ! -s "$work/left" ] && echo 0 || echo 1)" "$(cat "$work/left")"; }

# What stood on the terminal's lines one after the other, without the blanks that clear them.
lines_shown() { tr '\r' '\n' <"$work/terminal" | sed -e 's/ *$//' -e '/^$/d'; }
cleared() { [ -z "$(tr '\r' '\n' <"$work/terminal" | tail -n 1 | tr -d ' ')" ]; }

quick_on_terminal() {
    slowly 1
    on_terminal </dev/null
    count 'a second on a terminal shows nothing' "$([ ! -s "$work/terminal" ] && echo 0 || echo 1)" "$(lines_shown)"
    none_left 'a second on a terminal'
}

slow_on_terminal() {
    slowly 3
    on_terminal </dev/null
    status=$? shown=$(lines_shown)
    count 'a slow pipe on a terminal: its lines' "$([ "$status $(cat "$work/out")" = "0 $conforms" ] && echo 0 || echo 1)" \
        "status $status; $(cat "$work/out")"
    # All but the loader's own reading is the half that is there.
    told=$(printf '%s\n' "$shown" | sed -n 's/^spur: about \([0-9]*\) bytes$/\1/p' | sed -n 1p)
    count 'a slow pipe on a terminal: how far it is' \
        "$([ "${told:-0}" -ge 32768 ] && [ "${told:-0}" -lt 65536 ] && echo 0 || echo 1)" "$shown"
    count 'a slow pipe on a terminal: nothing else is shown' \
        "$(printf '%s\n' "$shown" | grep -qv '^spur: about [0-9]* bytes$' && echo 1 || echo 0)" "$shown"
    count 'a slow pipe on a terminal: the line is cleared' "$(cleared && echo 0 || echo 1)" "$shown"
    none_left 'a slow pipe on a terminal'
}

# Whether the pipe's writer, which was started last, found no reader.
no_reader() { ! wait "$writer" 2>/dev/null; }

# Control-C on the terminal in the third second.
interrupt_on_terminal() {
    { sleep 4 && printf 0123456789abcdef; } >"$work/fifo" 2>/dev/null &
    writer=$!
    { sleep 3 && printf '\003' && sleep 1; } | on_terminal
    status=$?
    no_reader
    count 'Control-C ends the program' $? 'the pipe still had a reader'
    count 'Control-C is the end of the command' "$([ $status -eq 130 ] && echo 0 || echo 1)" "status $status"
    none_left 'Control-C'
    count 'Control-C clears the line' "$(grep -q bytes "$work/terminal" && cleared && echo 0 || echo 1)" "$(lines_shown)"
    count 'Control-C: nothing is printed' "$([ ! -s "$work/out" ] && echo 0 || echo 1)" "$(cat "$work/out")"
}

terminated() {
    { sleep 2 && printf 0123456789abcdef; } >"$work/fifo" 2>/dev/null &
    writer=$!
    "$spur" judge "$work/fifo" >"$work/out" 2>&1 &
    judging=$!
    sleep 1
    kill "$judging"
    wait "$judging" 2>/dev/null
    status=$?
    no_reader
    count 'TERM ends the program' $? 'the pipe still had a reader'
    count 'TERM is the end of the command' "$([ $status -eq 143 ] && echo 0 || echo 1)" "status $status"
    count 'TERM: nothing is printed' "$([ ! -s "$work/out" ] && echo 0 || echo 1)" "$(cat "$work/out")"
}

# How far a process is that has a recording open at its 1,024th record, having begun at the start, and at the 512th.
of_a_file() {
    (
        . "$root/command/recording.sh"
        exec 4<"$boot"
        dd bs=16384 count=1 <&4 >/dev/null 2>&1
        sleep 5 <&4 4<&- >/dev/null &
        program=$!
        sleep 1
        far 0
        printf '\n'
        far 8192
        kill "$program"
    )
}

progress() {
    expect 'a slow pipe without a terminal' 0 "$conforms" '' from_slow
    terminated
    if [ ! -r /proc/self/io ] || [ ! -r /proc/self/fdinfo/0 ]; then
        skip "progress: this system doesn't tell how far a process is"
        return
    fi
    expect 'how far it is in a file' 0 '16384 bytes, 25 per cent
8192 bytes, 14 per cent' '' of_a_file
    if script -qec true /dev/null </dev/null >/dev/null 2>&1; then
        quick_on_terminal
        slow_on_terminal
        # shellcheck disable=SC2016
        if $plain sh -c 'kill -s INT $$'; then skip 'Control-C: it is ignored here'; else interrupt_on_terminal; fi
    else
        skip "progress on a terminal: there is no script of util-linux"
    fi
}
