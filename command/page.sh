# shellcheck shell=sh disable=SC2154
# The HTML page of ./spur report: one file, without a script or anything from outside. Its figures are words that the programs have
# printed. The bars are to scale without a sum of ours: a bar's viewBox is as wide as the whole in cycles, and each part as wide as its
# own, so it is the browser that scales. Read by ./spur, behind report.sh, which has what the page says.
: "${root:?}"

# A text as HTML, on one line. A control character, which HTML can't have, is shown as one that can't be shown.
escaped() { # TEXT
    printf '%s' "$1" | LC_ALL=C tr '\n\t' '  ' | LC_ALL=C sed -e 's/&/\&amp;/g' -e 's/</\&lt;/g' -e 's/>/\&gt;/g' -e 's/"/\&quot;/g' \
        -e "s/'/\&#39;/g" -e 's/[[:cntrl:]]/�/g'
}

# A number of cycles, and its seconds, for a sentence.
time_in_words() { # ID CYCLES
    printf '<span id="%s-cycles">%s</span> cycles (<span id="%s-seconds">%s</span> s)' "$1" "$2" "$1" "$(seconds "$2")"
}

# How many low digits the numbers of a drawing lose: sets dropped, a pattern of as many characters. Browsers draw in floats of 24 bits, and
# Chromium draws no rectangle wider than 2^25, so a whole with more than seven digits is drawn in tens, hundreds and so on of cycles. That
# is cutting of text, of what is drawn alone: what is written, in the tables and the bars' titles, keeps every digit.
drawn_to() { # WHOLE
    case $1 in
    ????????*) dropped=$(printf '%s' "${1#???????}" | sed 's/./?/g') ;;
    *) dropped='' ;;
    esac
}

# A number of a drawing without the low digits that are dropped; 0 where it has no others.
drawn() { # NUMBER
    # shellcheck disable=SC2254,SC2295
    case $1 in
    ?*$dropped) printf '%s' "${1%$dropped}" ;;
    *) printf 0 ;;
    esac
}

page_head() {
    cat <<END
<!doctype html>
<html lang="en">
<head>
<meta charset="utf-8">
<meta name="viewport" content="width=device-width, initial-scale=1">
<meta name="color-scheme" content="light dark">
<title>$file: SpurBus boot report</title>
<style>
$(cat "$root/command/page.css")
</style>
</head>
<body>
<header>
<p>SpurBus boot report</p>
<h1><bdi id="file">$file</bdi></h1>
</header>
<main>
END
}

page_foot() {
    cat <<END
</main>
<footer>
<p>The counts, cycles and seconds on this page were printed by proved programs and are shown as they were printed: spuraccounts and spurphases are
proved from the bytes of the recording to the lines that they print, and spurseconds makes seconds of cycles. The phases&#39; numbers, the hold limit
and the size of the file are not theirs. A bus cycle is 100 ns, so seconds with seven digits behind the point are exact: nothing is rounded.</p>
</footer>
</body>
</html>
END
}

# The verdict where the boot is complete, and what is said of the rest of the recording.
said_complete() {
    if [ "$outcome" = conforming ]; then
        class=good heading='Conforming and complete'
        rest="Every record keeps the thirteen rules of document 01 under hold limit <span class=\"limit\">$limit</span>, and every mark of the
boot is reached."
    else
        class=mixed heading='Complete, and not sound behind the last mark'
        rest='Every mark of the boot is reached, and up to the last one no rule is broken, so its times are right. What is wrong with the
recording behind it stands below the phases.'
    fi
    cat <<END
<section id="verdict" class="$class">
<h2>$heading</h2>
<p class="total"><span id="boot-seconds">$(seconds "$total")</span> s
<small>(<span id="boot-cycles">$total</span> cycles) from the first record to the last mark</small></p>
<p>$rest</p>
</section>
END
}

# Where a breach is to be looked for. For rules 1 and 2, where the record's stamp isn't gone by, the span is that of the record before.
place_of_breach() {
    case $rule in
    1 | 2) printf 'The span up to the record before it is %s.' "$(time_in_words breach "$breaking_span")" ;;
    *) printf 'It stands %s behind the first record.' "$(time_in_words breach "$breaking_span")" ;;
    esac
}

# That there are no phase times, where there are none.
no_times() {
    if [ -z "$boot" ]; then printf 'There are no phase times: the boot isn&#39;t complete. '; fi
}

# The rule in the words of document 01.
quotation() { # RULE
    for quoted in $(quoted_for "$1"); do
        printf '<p>%s <cite>document 01, rule %s</cite></p>\n' "$(escaped "$(sentence "$quoted")")" "$quoted"
    done
}

# That a rule is broken.
said_breach() { # the section's ID, and how its heading begins
    kind=$(kind "$rule")
    cat <<END
<section id="$1" class="bad">
<h2>$2 of rule <span id="rule">$rule</span>${kind:+: $kind}</h2>
<p>Record <span id="breach-record">$breaking</span>, counted from 0, breaks rule $rule under hold limit <span class="limit">$limit</span>, and
no lower one; no earlier record breaks any. $(place_of_breach)</p>
<blockquote>
$(quotation "$rule")
</blockquote>
<p>$(no_times)<code>./spur explain</code> shows the records around the breach.</p>
</section>
END
}

# Why it is refused; of a mark that isn't there, which one.
reason() { # S/N[=NAME] ..
    if [ "$number" -eq 10 ]; then
        word=$(word_at "$place" "$@")
        printf 'The mark at place <span id="place">%s</span>, counted from 0, isn&#39;t there: <bdi class="name">%s</bdi> (%s).\n' \
            "$place" "$(escaped "$(name_of "$word")")" "${word%%=*}"
        printf 'The recording conforms, and ends before it is reached.'
    else
        escaped "$(refusal "$number")"
    fi
}

# That the recording, or a word of the command, is refused.
said_refused() { # the section's ID, how its heading begins, then S/N[=NAME] ..
    id=$1 heading=$2
    shift 2
    cat <<END
<section id="$id" class="bad">
<h2>$heading (<span id="refusal">$number</span>)</h2>
<p>$(reason "$@") $(no_times)</p>
</section>
END
}

# What is wrong with the recording: in the place of the verdict, or where the boot is complete below its phases.
said_wrong() { # S/N[=NAME] ..
    case $boot$outcome in
    completebreach) said_breach behind 'Behind the boot: breach' ;;
    complete*) said_refused behind 'Behind the boot: refused' "$@" ;;
    breach) said_breach verdict Breach ;;
    *) said_refused verdict Refused "$@" ;;
    esac
}

# Which records the totals and the accounts are of.
records_told() {
    case $outcome$number in
    conforming | refused10) printf 'the recording' ;;
    breach) printf 'the records before the breach' ;;
    *) printf 'the records that were judged' ;;
    esac
}

totals_section() {
    cat <<END
<section id="totals">
<h2>Totals of $(records_told)</h2>
<dl class="figures">
<div><dt>records</dt><dd id="records">$records</dd></div>
<div><dt>span in cycles</dt><dd id="span">$span</dd></div>
<div><dt>span in seconds</dt><dd id="span-seconds">$(seconds "$span")</dd></div>
<div><dt>STARTs</dt><dd id="starts">$starts</dd></div>
<div><dt>ACKs</dt><dd id="acks">$acks</dd></div>
<div><dt>transfers aborted by a RESET</dt><dd id="aborted">$aborted</dd></div>
<div><dt>transfers still open</dt><dd id="open">$open</dd></div>
</dl>
</section>
END
}

# The bar: a part for each phase, and under it as much of number and name as fits. The labels are HTML, which isn't stretched with the
# drawing, and share the width by the same numbers.
bar_of_phases() {
    printf '<svg class="bar" viewBox="0 0 %s 10" preserveAspectRatio="none" role="img" aria-labelledby="phases-heading">\n' "$(drawn "$total")"
    while read -r ordinal from length _ _ name; do
        printf '<rect class="c%s" x="%s" width="%s" height="10"><title>%s %s: %s cycles, %s s</title></rect>\n' \
            $((ordinal % 8)) "$(drawn "$from")" "$(drawn "$length")" "$ordinal" "$name" "$length" "$(seconds "$length")"
    done <"$room/phases"
    printf '</svg>\n<div class="labels" aria-hidden="true">\n'
    while read -r ordinal _ length _ _ name; do
        printf '<span style="flex-grow:%s"><b>%s</b><bdi>%s</bdi></span>\n' "$(drawn "$length")" "$ordinal" "$name"
    done <"$room/phases"
    printf '</div>\n'
}

# A phase in the table, with its part of the bar on a line of its own.
row_of_phase() { # NUMBER FROM CYCLES REACHED MARK NAME
    cat <<END
<tr><td class="ordinal"><span class="c$(($1 % 8))">$1</span></td><th scope="row" class="name"><bdi>$6</bdi></th><td class="mark">$5</td>
<td class="cycles">$3</td><td class="seconds">$(seconds "$3")</td><td class="reached">$4</td><td class="reached-seconds">$(seconds "$4")</td>
<td class="drawn"><svg class="line" viewBox="0 0 $(drawn "$total") 10" preserveAspectRatio="none" aria-hidden="true">
<rect class="c$(($1 % 8))" x="$(drawn "$2")" width="$(drawn "$3")" height="10"/></svg></td></tr>
END
}

phases_section() { # S/N[=NAME] ..
    phases_in_order "$@" >"$room/phases"
    drawn_to "$total"
    cat <<END
<section id="phases">
<h2 id="phases-heading">Phases of the boot</h2>
$(bar_of_phases)
<table>
<caption>Each phase ends with its mark and begins with the one before, the first with the recording&#39;s first record. The bars are to
scale.</caption>
<thead><tr><th scope="col">No.</th><th scope="col" class="name">phase</th><th scope="col">mark</th>
<th scope="col">length, cycles</th><th scope="col">length, seconds</th><th scope="col">reached, cycles</th><th scope="col">reached, seconds</th>
<td></td></tr></thead>
<tbody>
END
    while read -r ordinal from length reached mark name; do
        row_of_phase "$ordinal" "$from" "$length" "$reached" "$mark" "$name"
    done <"$room/phases"
    cat <<END
</tbody>
<tfoot><tr><td></td><th scope="row" class="name">total</th><td></td>
<td class="cycles">$total</td><td class="seconds">$(seconds "$total")</td><td></td><td></td><td></td></tr></tfoot>
</table>
</section>
END
}

row_of_slot() { # SLOT STARTS BUSY
    case $2 in 0) idle=' class="idle"' ;; *) idle='' ;; esac
    cat <<END
<tr$idle><th scope="row" class="slot">$1</th><td class="starts">$2</td>
<td class="busy">$3</td><td class="busy-seconds">$(seconds "$3")</td>
<td class="drawn"><svg class="line" viewBox="0 0 $(drawn "$span") 10" preserveAspectRatio="none" role="img">
<title>slot $1: STARTs $2, busy $3 of $span cycles, $(seconds "$3") s</title><rect width="$(drawn "$3")" height="10"/></svg></td></tr>
END
}

# Who used the bus. All bars have the recording's span as their scale; where that is 0 no cycle is busy, and a viewBox of no width draws
# nothing.
slots_section() {
    drawn_to "$span"
    cat <<END
<section id="slots">
<h2>Who used the bus in $(records_told)</h2>
<table>
<caption>Busy are the cycles in which a transfer of the slot was under way, from its START to the ACK or RESET that ends it, both counted.
A bar&#39;s full width is the span, <span class="scale">$span</span> cycles.</caption>
<thead><tr><th scope="col">slot</th><th scope="col">STARTs</th><th scope="col">busy cycles</th><th scope="col">seconds</th><td></td></tr></thead>
<tbody>
END
    sed -n '3,$p' "$room/spuraccounts" | while read -r _ slot _ slot_starts _ busy; do
        row_of_slot "$slot" "$slot_starts" "$busy"
    done
    printf '</tbody>\n</table>\n</section>\n'
}

# Whether every record was judged.
judged_to_its_end() {
    case $outcome$number in
    conforming | refused10) printf 'yes, all %s records' "$records" ;;
    breach) printf 'no: up to record %s, which breaks a rule' "$breaking" ;;
    refused1) printf 'no: all %s whole records were; left is a piece of fewer than 16 bytes, which is no record' "$records" ;;
    refused8) printf 'no: the first %s records were, and more are left' "$records" ;;
    *) printf 'no: nothing was' ;;
    esac
}

recording_section() {
    cat <<END
<section id="recording">
<h2>The recording</h2>
<dl class="facts">
<div><dt>file</dt><dd><bdi class="file">$file</bdi></dd></div>
<div><dt>size</dt><dd><span id="size">$size</span> bytes</dd></div>
<div><dt>judged to its end</dt><dd id="judged">$(judged_to_its_end)</dd></div>
<div><dt>hold limit</dt><dd class="limit">$limit</dd></div>
</dl>
</section>
END
}

page() { # S/N[=NAME] ..
    case $given in - | /dev/stdin) file='standard input' ;; *) file=$(escaped "$given") ;; esac
    page_head
    if [ -n "$boot" ]; then
        said_complete
        phases_section "$@"
    fi
    if [ "$outcome" != conforming ]; then said_wrong "$@"; fi
    if [ "$outcome" != unjudged ]; then
        totals_section
        slots_section
    fi
    recording_section
    page_foot
}
