# shellcheck shell=bash disable=SC2154,SC2034
# Sourced by mboxalind: a list with a recording beside it. A recording may have gigabytes, so it is handed to the program as a path and never
# copied. Uses here, room, wrong, launch, explain, MOST_LINES and the variable running of mboxalind.

# The path under which a program can open RECORDING, in the variable path; - is standard input.
open_recording() { # RECORDING
    path=$1
    if [ "$1" != - ]; then
        readable "$1"
        return
    fi
    [ -e /dev/stdin ] || wrong "standard input is closed"
    path=/dev/stdin
    # Opening /dev/stdin starts a file anew, and a socket can't be opened: there the bytes that are left have to go through a pipe.
    if [ -S /dev/stdin ] || { [ -f /dev/stdin ] && [ "$(position $BASHPID /dev/stdin)" != 0 ]; }; then exec < <(cat); fi
}

# How many bytes of FILE a process has read: where its handle stands, and for a pipe what it has read in all.
position() { # PID FILE
    local fd at=0 more
    if [ -f "$2" ]; then
        for fd in "/proc/$1/fd/"*; do
            [ "$fd" -ef "$2" ] || continue
            more=$(awk '$1 == "pos:" { print $2 }' "/proc/$1/fdinfo/${fd##*/}")
            [ "${more:-0}" -le "$at" ] || at=$more
        done
    else
        at=$(awk '$1 == "rchar:" { print $2 }' "/proc/$1/io")
    fi 2>/dev/null
    echo "${at:-0}"
}

# How far it is, in one line.
how_far() { # WHAT PID FILE SECONDS
    awk -v what="$1" -v at="$(position "$2" "$3")" -v all="$(stat -Lc %s -- "$3")" -v seconds="$4" 'BEGIN {
        printf "mboxalind: %s, %.1f", what, at / 1e6
        if (all + 0 == 0) print " MB so far"
        else {
            printf " of %.1f MB (%d %%)", all / 1e6, at * 100 / all
            if (at + 0 > 0) printf ", some %d s to go", seconds * (all - at) / at + 0.5
            print ""
        }
    }'
}

# Runs COMMAND, which has to replace its shell (exec), and tells every second on a terminal, else now and then, how far it is with FILE. Its standard
# input and output are the caller's. Its status is the answer.
watched() { # WHAT FILE COMMAND..
    local what=$1 file=$2 in out held ended start=$SECONDS status=0 seconds next=5 told=
    shift 2
    if [ -e /dev/stdin ]; then exec {in}<&0; else exec {in}</dev/null; fi
    exec {out}>&1
    # The command holds the pipe and writes nothing to it, so a read waits until it ends or the second is over.
    exec {ended}< <("$@" {held}>&1 <&"$in" >&"$out")
    running=$!
    exec {in}<&- {out}>&-
    while read -rt 1 -u "$ended"; [ $? -gt 128 ]; do
        seconds=$((SECONDS - start))
        if [ -t 2 ]; then
            printf '\r\033[K%s' "$(how_far "$what" "$running" "$file" $seconds)" >&2
            told=1
        elif [ $seconds -ge $next ]; then
            how_far "$what" "$running" "$file" $seconds >&2
            next=$((next + 10))
        fi
    done
    [ -z "$told" ] || printf '\r\033[K' >&2
    exec {ended}<&-
    wait "$running" || status=$?
    running=
    return $status
}

# What a malformed line of a recording most often has wrong. TEXT is its beginning as cat -v shows it.
recording_hint() { # LINE TEXT BYTES, how many are left from the line on
    if [ "$1" = 4294967295 ]; then
        echo "a recording has at most 4,294,967,295 lines"
        return
    fi
    case $2 in
    M-oM-\;M-\?*) echo "the file begins with a byte order mark, which is no part of a recording" ;;
    *^M) echo "it ends in CR LF; a line ends in LF alone" ;;
    '') echo "the line is empty" ;;
    *)
        if [ "$3" -lt 7 ] && [[ $2 =~ ^(3|30[0-9a-f]{0,4})$ ]]; then echo "the last line is torn: the recording ends before its LF"
        elif [[ $2 =~ ^30[0-9a-fA-F]{4}$ ]]; then echo "hex digits are lowercase"
        elif [[ ${2// /} =~ ^30[0-9a-f]{4}$ ]]; then echo "there are no blanks in a recording"
        elif [[ $2 =~ ^[0-9a-f]{6}$ ]]; then echo "a line of a recording begins with 30"
        else echo "a line of a recording is 30, four lowercase hex digits, and LF"
        fi
        ;;
    esac
}

# All lines before the refused one have 7 bytes: so it is found without reading them.
explain_recording() { # LINE PATH
    local line=$1 begins=$((7 * $1)) text bytes
    echo "refused by 24 at line $line of the recording (counted from 0; it begins at byte $begins): $(words 24)" >&2
    if [ ! -f "$2" ]; then
        echo "  the recording came through a pipe, so the line can't be shown here" >&2
        return
    fi
    bytes=$(($(stat -Lc %s -- "$2") - begins))
    text=$(tail -c "+$((begins + 1))" <"$2" | head -c 60 | head -n 1 | cat -v)
    [ -z "$text" ] || echo "  line $line: $text" >&2
    echo "  $(recording_hint "$line" "$text" "$bytes")" >&2
}

# How many samples the lines of a list take.
takes() { grep -c '^14'; }

counted() { if [ "$1" = 1 ]; then echo "1 sample"; else echo "$1 samples"; fi; }

# Why there are too few: as many are there as the lines before the refused one take.
sample_hint() { # LINE LIST RECORDING
    local has="no recording stands beside it: 'mboxalind help' says how"
    [ -z "$3" ] || has="the recording has $(head -n "$1" "$2" | takes)"
    echo "the list takes $(counted "$(takes <"$2")"), and $has"
}

# Runs LIST with the recording at PATH into OUT; 1 where it refused. With SURVEY, a pipe is surveyed on the way: it can be read only once.
answer_recorded() { # LIST PATH OUT [SURVEY]
    local list=$1 path=$2 out=$3 survey=${4:-} surveyor='' source
    if [ -n "$survey" ] && [ ! -f "$path" ]; then
        exec {source}<"$path" || wrong "$path could not be opened"
        mkfifo "$room/copy"
        LC_ALL=C awk -f "$here/bin/survey.awk" <"$room/copy" >"$survey" &
        surveyor=$!
        exec < <(exec tee "$room/copy" <&"$source")
        path=/dev/stdin
    fi
    watched "reading the recording" "$path" launch runner "$list" "$path" >"$out" || wrong "runner ended without an answer"
    [ -z "$surveyor" ] || wait "$surveyor"
    case $(tail -n 1 "$out") in
    ee*)
        explain "$(cat "$out")" runner "$list" "$path"
        return 1
        ;;
    a1*) ;;
    *) wrong "runner ended without an answer" ;;
    esac
}

# The number in the last line of what was printed.
left_in() { echo $((16#$(tail -n 1 "$1" | cut -c 3-))); }

# The same in words.
left_over() { # LIST PRINTED
    local taken left
    taken=$(takes <"$1")
    left=$(left_in "$2")
    echo "$(counted "$left") left over: the list took $taken of $((taken + left))" >&2
}

# A column for the list: each line that takes a sample has its line of the recording.
samples_beside() { # LIST RECORDING
    echo recording
    head -n "$MOST_LINES" <"$2" | awk 'part == "recording" { line[++lines] = $0; next } { print /^14/ ? line[++taken] : "" }' part=recording - part=list "$1"
}

# The page is whole before OUT is touched, and the survey has as many samples as the program read: a recording may grow meanwhile.
draw() { # LIST PATH PRINTED SURVEY OUT
    # shellcheck disable=SC2094
    [ -s "$4" ] || watched "drawing the recording" "$2" exec env LC_ALL=C awk -f "$here/bin/survey.awk" <"$2" >"$4"
    [ "$(awk '$1 == "whole" { print $2 }' "$4")" = $(($(takes <"$1") + $(left_in "$3"))) ] || wrong "nothing is drawn: the recording changed while it was read"
    LC_ALL=C awk -f "$here/bin/page.awk" -f "$here/bin/picture.awk" part=list "$1" part=printed "$3" part=survey "$4" >"$room/page" || wrong "the page could not be drawn"
    cat "$room/page" >"$5" || wrong "the page could not be written"
}
