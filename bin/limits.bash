# shellcheck shell=bash disable=SC2154,SC2034
# Sourced by mboxalind: texts about the limit of what a program reads, and about the one before W-206, through the built programs. Each is made so that what
# has to be printed is known, and that a program which reads less of it prints something else. Uses here, room, MOST_BYTES, MOST_LINES and MOST_SLOTS of
# mboxalind, LARGEST of check.bash, and holds, failed, hex and by_chance of chance.bash; tells holds in the variable what which text it is.

# The limit of 01, which W-206 raised: a program that kept it cut every longer text.
BYTES_BEFORE=32768

zeros() { head -c "$1" /dev/zero | tr '\0' 0; } # COUNT

# So many lines alike.
lines() { [ "$1" = 0 ] || yes "$2" | head -n "$1"; } # COUNT LINE

# The line of a refusal; by 17 where the text, of so many bytes, is longer than is read.
refusal() { # NUMBER LINE BYTES
    if [ "$3" -gt "$MOST_BYTES" ]; then echo ee110000; else printf 'ee%02x%04x\n' "$1" "$2"; fi
}

# No script is so long: a frame has 11 bytes at most. Both programs that read one have to answer with the line in count, the checker whatever the list is.
refuse_script() { # KIND
    what="a script, $1, of $(wc -c <"$room/script") bytes"
    holds "$room/count" "$room/script" translator
    holds "$room/count" /dev/null translator "$room/script"
    echo zz >"$room/list"
    holds "$room/count" /dev/null checker "$room/script" "$room/list"
}

# A line of zeros, the same behind some frames, and more lines than there may be.
try_script() { # BYTES
    local bytes=$1 frames=$((RANDOM % MOST_LINES))
    zeros "$bytes" >"$room/script"
    refusal 1 0 "$bytes" >"$room/count"
    refuse_script zeros
    { lines $frames 0f; zeros $((bytes - 3 * frames - 1)); echo; } >"$room/script"
    refusal 1 $frames "$bytes" >"$room/count"
    refuse_script "zeros behind $frames frames"
    lines $((bytes / 3 + 1)) 0f | head -c "$bytes" >"$room/script"
    refusal 2 "$MOST_LINES" "$bytes" >"$room/count"
    refuse_script "short lines"
}

# A list is made of a store, lines that do nothing, a load and the size line, in 25 bytes but for those in the middle: one drain of 7 bytes and 4 an address,
# and as many lines of 3 bytes before it as make its length come out.
short_lines() { echo $((3 - ($1 - 25) % 4)); } # BYTES

# The line at which such a list has its size.
size_line() { echo $(($(short_lines "$1") + 3)); } # BYTES

# A list of so many bytes that stores VALUE first and loads it last.
long_list() { # BYTES VALUE
    local short count
    short=$(short_lines "$1")
    count=$((($1 - 25 - 3 * short - 7) / 4))
    echo "100000$2"
    lines "$short" 0c
    printf '0f%04x%s\n' $count "$(zeros $((4 * count)))"
    printf '%s\n' 110000 900001
}

# All programs that read a list have to print PRINTED for the one in the room; beside a recording BESIDE stands behind it, and the checker says VERDICT.
answer_list() { # KIND PRINTED BESIDE VERDICT
    what="a list, $1, of $(wc -c <"$room/list") bytes"
    printf '%s' "$2" >"$room/loads"
    holds "$room/loads" "$room/list" runner
    holds "$room/loads" /dev/null runner "$room/list"
    printf '%s' "$3" >>"$room/loads"
    holds "$room/loads" /dev/null runner "$room/list" "$room/recording"
    printf '%s' "$4" >"$room/count"
    holds "$room/count" /dev/null checker "$room/script" "$room/list"
}

# .. have to refuse it.
refuse_list() { answer_list "$1" "$2"$'\n' "" "$2"$'\n'; } # KIND LINE

# A line of zeros, and a list that is taken up to the limit; the script has another line than the list.
try_list() { # BYTES
    local value
    value=$(by_chance)
    echo 0f >"$room/script"
    zeros "$1" >"$room/list"
    refuse_list zeros "$(refusal 1 0 "$1")"
    long_list "$1" "$value" >"$room/list"
    if [ "$1" -gt "$MOST_BYTES" ]; then
        refuse_list whole ee110000
    else
        answer_list whole "a0$value"$'\n' a100000001$'\n' no$'\n'
    fi
    echo zz >"$room/script"
    refusal 1 0 "$1" >"$room/count"
    what="a script that is malformed, and a list of $1 bytes"
    holds "$room/count" /dev/null checker "$room/script" "$room/list"
}

# A list that goes on behind its size line, by a byte and by a line.
try_going_on() { # BYTES
    local more
    echo 0f >"$room/script"
    for more in 0 0c$'\n'; do
        { long_list "$1" "$(by_chance)"; printf '%s' "$more"; } >"$room/list"
        refuse_list "whole before its last ${#more}" "$(refusal 1 "$(size_line "$1")" $(($1 + ${#more})))"
    done
}

# A drain of the first so many addresses.
drain() { printf '0f%04x%s\n' "$1" "$(seq 0 $(($1 - 1)) | awk '{ printf "%04x", $1 }')"; } # COUNT

# A script and its list: all slots are written to so many times, closed and drained; then nothing is drained so many times; then the first SECOND slots
# are closed and drained. The list has 48 bytes, 11 for each write, 7 for each drain of nothing and 4 for each address.
drained_twice() { # WRITES NOTHING SECOND
    local write second
    write=100000$(by_chance)
    second=$(hex "$3")
    {
        printf '%s\n' 01 "08$LARGEST"
        lines "$1" "$write"
        printf '%s\n' 020001 0f
        lines "$2" 0f
        printf '%s\n' "08$second" 05 0f
    } >"$room/script"
    {
        printf '%s\n' 010001 080000
        lines "$1" "$write"
        echo 02
        drain "$MOST_SLOTS"
        lines "$2" 0f0000
        printf '%s\n' 080000 05
        drain "$3"
        echo "90$LARGEST"
    } >"$room/list"
}

# The list in the room, which has no load, is the script's.
agree() { # BYTES
    [ "$(wc -c <"$room/list")" = "$1" ] || failed "a list was made that hasn't $1 bytes"
    what="a script whose list has $1 bytes"
    holds "$room/list" "$room/script" translator
    answer_list "a script's" '' a100000001$'\n' yes$'\n'
}

# A script whose list has so many bytes.
try_agreeing() { # BYTES
    local left=$(($1 - 48)) nothing
    nothing=$((3 * left % 4))
    drained_twice 0 $nothing $(((left - 7 * nothing) / 4 - MOST_SLOTS))
    agree "$1"
}

# All slots drained twice, and the same with as many writes as there is room for: the longest list.
try_longest() {
    local writes=$((MOST_LINES - 7)) least=$((48 + 8 * MOST_SLOTS))
    drained_twice 0 0 "$MOST_SLOTS"
    agree $least
    drained_twice $writes 0 "$MOST_SLOTS"
    agree $((least + 11 * writes))
}

# The stored answer of a script of so many zeros is what the translator prints.
try_record() { # BYTES
    printf 'm%08x%08x\n%s%s\n' "$1" 9 "$(zeros "$1")" "$(refusal 1 0 "$1")" >"$room/records"
    echo "1 replayed, 0 differ" >"$room/count"
    what="a stored script of $1 bytes"
    holds "$room/count" /dev/null replay "$room/records"
}

# What people type says why a text is refused that is too long.
try_telling() {
    local told
    zeros $((MOST_BYTES + 1)) >"$room/script"
    told=$("$here/bin/mboxalind" translate "$room/script" 2>&1 >/dev/null)
    [[ $told = "refused by 17 at line 0"*"the text is longer than the"* ]] || failed "translate has to tell that a text is too long"
}

# All of it.
try_limits() {
    local what bytes
    echo "30$(by_chance)" >"$room/recording"
    for bytes in $((MOST_BYTES - 1)) "$MOST_BYTES" $((MOST_BYTES + 1)); do
        try_script "$bytes"
        try_list "$bytes"
        try_record "$bytes"
    done
    for bytes in {-2..3}; do
        try_list $((BYTES_BEFORE + bytes))
        try_going_on $((BYTES_BEFORE + bytes))
        try_agreeing $((BYTES_BEFORE + bytes))
    done
    for bytes in {-4..1}; do try_going_on $((MOST_BYTES + bytes)); done
    try_longest
    try_telling
}
