# shellcheck shell=bash disable=SC2154,SC2034
# Sourced by mboxalind: texts made by chance through the built programs. Uses here, room, build, draw, MOST_BYTES and MOST_SLOTS of mboxalind, launch of
# launch.bash, LARGEST of check.bash, and try_limits of limits.bash.

# PROGRAM, with its words behind it, has to print what EXPECTED has for FILE. A caller may say in the variable what which text that is.
holds() { # EXPECTED FILE PROGRAM WORD..
    local expected=$1 file=$2
    shift 2
    (launch "$@") <"$file" >"$room/said"
    cmp -s "$room/said" "$expected" && return
    echo "mboxalind: $1${what:+, given $what,} has to print" >&2
    head -n 5 "$expected" | cut -c 1-100 >&2
    echo "and printed" >&2
    head -n 5 "$room/said" | cut -c 1-100 >&2
    exit 1
}

# The stored answers, with one byte of the answer of record N another; oracle/README.md has the format.
spoilt() {
    local LC_ALL=C text end=0 at i
    text=$(cat "$here/crates/replay/data/answers.txt" && echo .)
    for ((i = 0; i < $1; i++)); do
        at=$end
        end=$((at + 18 + 16#${text:at + 1:8} + 16#${text:at + 9:8}))
    done
    printf '%sx%s' "${text:0:end-2}" "${text:end-1:${#text}-end}"
}

hex() { printf '%04x' "$1"; }

by_chance() { hex $((RANDOM * 2 + RANDOM % 2)); }

# TAKEN samples that are read back in turn and LEFT that aren't; the page has to show the samples that were taken and count the wraps, where a counter goes
# by more than half its range, 32768.
try_recorded() { # TAKEN LEFT
    local i value before=0 wraps=0
    echo 06 >"$room/script"
    echo 060000 >"$room/list"
    : >"$room/loads"
    : >"$room/recording"
    for ((i = 0; i < $1 + $2; i++)); do
        value=$(by_chance)
        echo "30$value" >>"$room/recording"
        ((i == 0 || (16#$value - 16#$before) ** 2 <= 32768 ** 2)) || wraps=$((wraps + 1))
        before=$value
        ((i < $1)) || continue
        printf '%s\n' 140000 110000 | tee -a "$room/script" >>"$room/list"
        echo "a0$value" >>"$room/loads"
    done
    echo 900001 >>"$room/list"
    printf 'a1%08x\n' "$2" >>"$room/loads"
    holds "$room/list" "$room/script" translator
    holds "$room/loads" /dev/null runner "$room/list" "$room/recording"
    try_page $wraps
}

# Each sample that was taken was loaded once, so the page's samples are the loads.
try_page() { # WRAPS
    LIST=list RECORDING=recording draw "$room/list" "$room/recording" "$room/said" "$room/survey" "$room/html"
    sed -n 's/^<tr class="in"><td>[0-9]*<td>[0-9]*<td>\([0-9a-f]*\)<.*/a0\1/p' "$room/html" >"$room/shown"
    grep '^a0' "$room/loads" | cmp -s - "$room/shown" || failed "the page doesn't show the samples that were taken"
    grep -Eq "wraps <strong>$1 times?<" "$room/html" || failed "the page has to count $1 wraps"
}

failed() {
    echo "mboxalind: $1" >&2
    exit 1
}

# In edition 2 the lower of two slots that went back is given first, though the other one went back last.
try_tight() { # VALUE
    local slots=$((RANDOM % (MOST_SLOTS - 199) + 200)) low high new
    low=$(hex $((RANDOM % 128)))
    high=$(hex $((128 + RANDOM % (slots - 128))))
    new=$(hex $slots)
    printf '%s\n' f00002 "08$new" "0c$low" "0c$high" 06 06 "10$new$1" "11$new" >"$room/script"
    printf '%s\n' f00002 080000 0c 0c "06$low" "06$high" "10$low$1" "11$low" "90$new" >"$room/list"
    echo "a0$1" >"$room/loads"
    holds "$room/list" "$room/script" translator
    holds "$room/loads" "$room/list" runner
}

# A title with another number is refused on line 0, and one on a later line there, in a script and in a list.
try_titles() {
    local later=$((RANDOM % 60 + 1))
    printf '%s\n' "f0$(hex $((RANDOM + 3)))" 06 >"$room/script"
    echo ee010000 >"$room/count"
    holds "$room/count" "$room/script" translator
    printf "%${later}s" | sed 's/ /0f\n/g' >"$room/script"
    sed 's/$/0000/' "$room/script" >"$room/list"
    echo f00002 | tee -a "$room/script" >>"$room/list"
    echo 900000 >>"$room/list"
    echo "ee01$(hex $later)" >"$room/count"
    holds "$room/count" "$room/script" translator
    holds "$room/count" "$room/list" runner
    holds "$room/count" /dev/null checker "$room/script" "$room/list"
}

# The checker has to say WORD of the script and a list with these lines.
says() { # WORD LINE..
    echo "$1" >"$room/count"
    printf '%s\n' "${@:2}" >"$room/list"
    holds "$room/count" /dev/null checker "$room/script" "$room/list"
}

# Two slots placed by chance agree; both in one, another value, the other's address and a size that is too small don't.
try_checker() { # VALUE
    local one two other half=$((MOST_SLOTS / 2))
    one=$(hex $((RANDOM % half)))
    two=$(hex $((RANDOM % half + half)))
    other=$(hex $(((16#$1 + RANDOM + 1) % 65536)))
    printf '%s\n' 06 06 "100001$1" 110001 >"$room/script"
    says yes "06$one" "06$two" "10$two$1" "11$two" "90$LARGEST"
    says no "06$two" "06$two" "10$two$1" "11$two" "90$LARGEST"
    says no "06$one" "06$two" "10$two$other" "11$two" "90$LARGEST"
    says no "06$one" "06$two" "10$two$1" "11$one" "90$LARGEST"
    says no "06$one" "06$two" "10$two$1" "11$two" "90$two"
}

# The command has to end with STATUS for the script and a list with these lines, and say WORDS on standard error.
told() { # STATUS WORDS LINE..
    local status=0
    printf '%s\n' "${@:3}" >"$room/list"
    "$here/bin/mboxalind" check "$room/script" "$room/list" >"$room/said" 2>&1 || status=$?
    [ $status = "$1" ] && grep -qF -- "$2" "$room/said" || failed "check has to end with $1 and say '$2', and ended with $status"
}

# Two slots placed by chance; both in one, of which the command names the holder; a list that can't be read.
try_words() {
    local one two half=$((MOST_SLOTS / 2))
    one=$(hex $((RANDOM % half)))
    two=$(hex $((RANDOM % half + half)))
    printf '%s\n' 06 06 >"$room/script"
    told 0 yes "06$one" "06$two" "90$LARGEST"
    told 1 "slot $((16#$two)) is held by handle 0, which line 0 gave: 06$two" "06$two" "06$two" "90$LARGEST"
    told 2 "the list can't be read" "06$one" 06 "90$LARGEST"
}

# Texts made by chance: a value that is written and read; samples that are taken and read in turn; scripts and lists with titles; lists that agree
# with a script or don't; texts about the limit of what is read; a stored answer that is spoilt.
try() {
    local value record taken records=478
    value=$(by_chance)
    record=$((RANDOM % records + 1))
    taken=$((RANDOM % 30 + 1))
    build translator
    build runner
    build checker
    build replay
    printf '%s\n' 06 "100000$value" 110000 >"$room/script"
    printf '%s\n' 060000 "100000$value" 110000 900001 >"$room/list"
    echo "a0$value" >"$room/loads"
    holds "$room/list" "$room/script" translator
    holds "$room/loads" "$room/list" runner
    try_recorded $taken $((RANDOM % 300))
    try_tight "$value"
    try_titles
    try_checker "$value"
    try_words
    try_limits
    spoilt $record >"$room/spoilt"
    printf '%d replayed, 1 differ\nthe first that differs is record %d\n' $records $record >"$room/count"
    holds "$room/count" /dev/null replay "$room/spoilt"
    echo "translator and runner know the value $value and $taken samples, checker says yes and no, check says why, all read $MOST_BYTES bytes and no more, replay finds the spoilt record $record"
}
