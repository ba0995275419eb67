# shellcheck shell=sh disable=SC2154
# Part of tests/command.sh: the first use and a program that misbehaves, with a made-up toolchain: a real proof takes minutes.

# A checkout of five crates with the real command, an rt that proves at once, and a program that says what it is told to.
made_up() {
    tree=$work/tree kit=$work/kit
    library=$kit/toolchain/lib
    mkdir -p "$kit/bin" "$library"
    for crate in low high beside apart spurjudge spurphases spuraccounts; do mkdir -p "$tree/crates/$crate"; done
    cp -R "$spur" "$root/command" "$tree"
    printf '%s\n' '# NAME: what it stands on' 'low:' 'high: low' 'beside: low' 'apart: low' 'spurjudge: high beside low io' \
        'spurphases: high low io' 'spuraccounts: low io' >"$tree/crates.txt"
    cat >"$kit/bin/rt" <<'RT'
#!/bin/sh
crate=$(basename "$PWD")
case $1 in
doc) echo "$KIT/first" ;;
lib | run)
    if [ "$crate" = "${UNPROVED:-}" ]; then
        echo "rt: $crate NOT PROVED"
        exit 1
    fi
    echo "rt: $crate proved"
    if [ "$1" = run ]; then
        mkdir -p out
        cp "$KIT/program" "out/$crate"
    fi
    ;;
esac
RT
    printf '%s\n' '#!/bin/sh' 'shift 2' 'exec "$@"' >"$library/ld-linux-x86-64.so.2"
    # shellcheck disable=SC2016
    printf '%s\n' '#!/bin/sh' '[ -z "${PAUSES:-}" ] || { dd bs="$PAUSES" count=1 >/dev/null 2>&1 && sleep 3; }' 'cat >/dev/null' 'printf "$SAYS"' '[ -z "${COMPLAINS:-}" ] || echo "$COMPLAINS" >&2' \
        '[ -z "${ENDS:-}" ] || kill -s "$ENDS" $$' >"$kit/program"
    chmod 755 "$kit/bin/rt" "$library/ld-linux-x86-64.so.2" "$kit/program"
}

# The command of the made-up checkout.
there() { # VARIABLE=VALUE..
    env PATH="$kit/bin:$PATH" KIT="$kit" "$@" "$tree/spur" judge "$boot"
}
there_phases() { # WORDS..
    env PATH="$kit/bin:$PATH" KIT="$kit" SAYS="$says" "$tree/spur" phases "$@"
}
there_accounts() { # VARIABLE=VALUE..
    env PATH="$kit/bin:$PATH" KIT="$kit" "$@" "$tree/spur" accounts "$boot"
}
missing() { env PATH="$kit/bin:$PATH" KIT="$kit" "$tree/spur" judge "$work/none.rec"; }

building() {
    proofs='spur: building spurjudge, with its proofs
spur: proving low
spur: proving high beside
spur: proving spurjudge'
    expect 'a missing file is told before anything is built' 3 '' "spur: * isn't there" missing
    expect 'first use' 0 'conforming' "$proofs" there SAYS='conforming\n'
    expect 'second use' 0 'conforming' '' there SAYS='conforming\n'
    touch "$tree/crates/low/changed"
    expect 'a crate has changed' 0 'conforming' "$proofs" there SAYS='conforming\n'
    expect 'and is proved' 0 'conforming' '' there SAYS='conforming\n'
    touch "$tree/crates/low/changed"
    expect 'a crate is not proved' 3 '' '*rt: beside NOT PROVED*could not be built' there SAYS='conforming\n' UNPROVED=beside
    expect 'it is tried again' 0 'conforming' "$proofs" there SAYS='conforming\n'
}

# The same of the boot report: usage and a missing file are told before anything is built.
building_phases() {
    says='records 0\ncomplete\n'
    expect 'a boot report: a word that is no mark is told before anything is built' 3 '' 'spur: x is no mark*' there_phases "$boot" x
    expect 'a boot report: and a missing file' 3 '' "spur: * isn't there" there_phases "$work/none.rec" 1/1
    expect 'a boot report: first use' 0 'records 0
complete' 'spur: building spurphases, with its proofs
spur: proving low
spur: proving high
spur: proving spurphases' there_phases "$boot" 1/1
    expect 'a boot report: second use' 0 'records 0
complete' '' there_phases "$boot" 1/1
    says='conforming\n'
    expect 'the verdict conforming isn'"'"'t the boot report'"'"'s' 3 'conforming' 'spur: *verdict*' there_phases "$boot" 1/1
    says='complete \n'
    expect 'nearly a boot report'"'"'s verdict' 3 'complete ' 'spur: *verdict*' there_phases "$boot" 1/1
}

# The same of the accounts, whose verdict is their second line; without all sixteen lines behind it the program has ended half way.
building_accounts() {
    lines=$(with_slots "$nothing")
    expect 'accounts: first use' 0 "$lines" 'spur: building spuraccounts, with its proofs
spur: proving low
spur: proving spuraccounts' there_accounts SAYS="$lines\\n"
    expect 'accounts: second use' 0 "$lines" '' there_accounts SAYS="$lines\\n"
    lines=$(with_slots "$breaks")
    expect 'accounts: a breach' 1 "$lines" '' there_accounts SAYS="$lines\\n"
    expect 'accounts: refused alone' 2 'refused 3' '' there_accounts SAYS='refused 3\n'
    expect 'accounts: a program that says nothing' 3 '' 'spur: *verdict (status 0)' there_accounts SAYS=
    lines="$nothing
slot 0 starts 0 busy 0"
    expect 'accounts: a program that ends half way' 3 "$lines" 'spur: *verdict (status 139)' there_accounts SAYS="$lines\\n" ENDS=SEGV
    lines=$(with_slots "$(printf '%s' "$nothing" | sed 's/conforming/complete/')")
    expect 'accounts: the verdict complete isn'"'"'t theirs' 3 "$lines" 'spur: *verdict*' there_accounts SAYS="$lines\\n"
}

# A file on a terminal, of which the first 8,192 bytes are gone when the command begins; the program reads 16,384 and pauses.
file_on_terminal() {
    # shellcheck disable=SC2016
    env PATH="$kit/bin:$PATH" KIT="$kit" TREE="$tree" WORK="$work" BOOT="$boot" PAUSES=16384 SAYS='conforming\n' script -qec \
        '{ dd bs=8192 count=1 >/dev/null 2>&1; "$TREE/spur" judge >"$WORK/out"; } <"$BOOT"' /dev/null </dev/null >"$work/terminal"
    status=$? first=$(lines_shown | sed -n 1p)
    count 'a file on a terminal: its line' "$([ "$status $(cat "$work/out")" = '0 conforming' ] && echo 0 || echo 1)" "status $status"
    count 'a file on a terminal: how far it is' "$([ "$first" = 'spur: 16384 bytes, 28 per cent' ] && echo 0 || echo 1)" "$first"
    count 'a file on a terminal: the line is cleared' "$(cleared && echo 0 || echo 1)" "$(lines_shown)"
}

first_use() {
    made_up
    building
    building_phases
    building_accounts
    if [ -r /proc/self/fdinfo/0 ] && script -qec true /dev/null </dev/null >/dev/null 2>&1; then
        file_on_terminal
    else
        skip 'a file on a terminal: there is no script of util-linux, or the system does not tell'
    fi
    expect 'a program that says nothing' 3 '' 'spur: *verdict (status 0)' there SAYS=
    expect 'a program that only complains' 3 '' 'spur: odd: input' there SAYS= COMPLAINS='odd: input'
    expect 'a verdict, and another line' 3 'conforming
or not' 'spur: *verdict*' there SAYS='conforming\nor not\n'
    expect 'a line that is nearly a verdict' 3 'conforming so far' 'spur: *verdict*' there SAYS='conforming so far\n'
    expect 'a program that ends half way' 3 'records 1' 'spur: *verdict (status 139)' there SAYS='records 1\n' ENDS=SEGV
    expect 'the verdict complete isn'"'"'t the judge'"'"'s' 3 'complete' 'spur: *verdict*' there SAYS='complete\n'
    # a folder with the tools of the command but no rt
    mkdir "$work/tools"
    for tool in sh env dirname readlink; do ln -s "$(command -v "$tool")" "$work/tools/$tool"; done
    expect 'no rt' 3 '' 'spur: rt, *PATH' env PATH="$work/tools" "$spur" judge "$boot"
}
