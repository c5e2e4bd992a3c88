# shellcheck shell=bash disable=SC2154,SC2034
# Sourced by mboxalind: whether a list from elsewhere agrees with a script, and why not. The line that can't stand and the reason are found by asking the
# proved checker about beginnings of both texts, with frames behind them; so the steps aren't here a second time. Uses here, room, wrong, build, launch,
# input, explain, MOST_LINES and MOST_SLOTS of mboxalind. Both texts lie in the room as script and list, and a list's lines count without its
# size line.

# What the checker says of two files.
verdict() { (launch checker "$1" "$2") || wrong "checker ended without an answer"; }

line_of() { sed -n "$(($2 + 1))p" "$room/$1"; } # TEXT AT

# A line as it is told: no longer than fits a screen.
cut_short() { if [ ${#1} -gt 60 ]; then echo "${1:0:60}.."; else echo "$1"; fi; }

as_hex() { printf '%04x' "$1"; }

# The largest size.
printf -v LARGEST '%04x' "$MOST_SLOTS"

# Do the first LINES lines of both texts agree, with FRAME and its LINE behind them, and with a size of SIZE, else the largest?
stands() { # LINES [FRAME LINE [SIZE]]
    { head -n "$1" "$room/script"; [ -z "${2:-}" ] || echo "$2"; } >"$room/frames"
    { head -n "$1" "$room/list"; [ -z "${3:-}" ] || echo "$3"; echo "90${4:-$LARGEST}"; } >"$room/lines"
    [ "$(verdict "$room/frames" "$room/lines")" = yes ]
}

# The largest number from LOW to HIGH for which COMMAND, with the number behind it, holds. It holds below each for which it does; LOW itself isn't asked.
most() { # LOW HIGH COMMAND..
    local low=$1 high=$2 middle
    shift 2
    while ((low < high)); do
        middle=$(((low + high + 1) / 2))
        if "$@" $middle; then low=$middle; else high=$((middle - 1)); fi
    done
    echo "$low"
}

# What allotted.awk guesses before line AT.
allotted() { # AT WANT [SLOT]
    awk -v at="$1" -v want="$2" -v slot="${3:-}" -f "$here/bin/allotted.awk" part=script "$room/script" part=list "$room/list"
}

# So many lines that write to numbers in a row.
writes() { awk -v first="$1" -v count="$2" 'BEGIN { for (i = 0; i < count; i++) printf "10%04x0000\n", first + i }'; } # FIRST COUNT

# Do COUNT handles in a row hold addresses in a row after so many lines? Only a held handle can be written.
hold() { # HANDLE ADDRESS COUNT LINES
    [ $(($4 + $3)) -le "$MOST_LINES" ] && stands "$4" "$(writes "$1" "$3")" "$(writes "$2" "$3")"
}

# Who holds a slot before line AT.
tell_holder() { # AT SLOT
    local handle gave
    read -r handle gave < <(allotted "$1" holder "$2")
    if [ -n "$handle" ] && hold "$handle" "$2" 1 "$1"; then
        echo "slot $2 is held by handle $handle, which line $gave gave: $(line_of list "$gave")"
    else
        echo "slot $2 is held by another allocation"
    fi
}

run_stands() { stands "$1" "08$(as_hex "$3")" "$2"; } # AT LINE LENGTH

# Why an allocation can't be where its line shows it.
tell_taken() { # AT FRAME LINE
    local address=$((16#${3:2:4})) slots=1
    [ "${2:0:2}" != 08 ] || slots=$((16#${2:2:4}))
    if [ "${3:2:4}" = ffff ]; then
        echo "ffff stands for no address, and this is an allocation"
    elif [ $((address + slots)) -gt "$MOST_SLOTS" ]; then
        echo "it would take slots $address to $((address + slots - 1)), and the last slot is $((MOST_SLOTS - 1))"
    else
        [ $slots = 1 ] || address=$((address + $(most 0 $((slots - 1)) run_stands "$1" "$3")))
        tell_holder "$1" "$address"
    fi
}

# The first of the guesses for line AT with which it stands, in four digits; nothing where none does.
own_number() { # AT FRAME REST, what stands behind the number
    local guess
    while read -r guess; do
        guess=$(as_hex "$guess")
        if stands "$1" "$2" "${2:0:2}$guess$3"; then
            echo "$guess"
            return
        fi
    done < <(allotted "$1" own)
}

# A line that shows a number which isn't its own.
tell_own() { # AT FRAME LINE
    local own what="its allocation's own address"
    case ${2:0:2} in 01) what="the scope's number" ;; 2[012]) what="the need's number" ;; esac
    own=$(own_number "$1" "$2" "${2:6}")
    case $own in
    '') echo "it doesn't show $what" ;;
    ffff) echo "there is no address here, which ffff stands for" ;;
    *) echo "it doesn't show $what, which is $own" ;;
    esac
}

# The line that lets go of a handle: it is held after BEFORE lines, and not after AFTER. Mostly it is the last one that was found.
let_go_by() { # HANDLE ADDRESS BEFORE AFTER LAST
    if [ "$5" -ge "$3" ] && [ "$5" -lt "$4" ] && hold "$1" "$2" 1 "$5" && ! hold "$1" "$2" 1 $(($5 + 1)); then
        echo "$5"
    else
        most "$3" $(($4 - 1)) hold "$1" "$2" 1
    fi
}

# More allocations than these are not asked for, for one drain.
MOST_ASKED=300

# Which lines let go of COUNT handles in a row, given by line GAVE, before line AT: all of them one pop, or each its own. A line each: when, the word
# released, the first address and how many. What went before the last drain doesn't matter. Uses asked and last of drain_events, since of own_drain.
let_go() { # HANDLE ADDRESS COUNT GAVE AT
    local half=$(($3 / 2)) frame
    ((++asked < MOST_ASKED)) || return
    if hold "$1" "$2" "$3" "$5"; then return; fi
    if [ "$3" = 1 ] && [ "$4" -lt "$since" ] && ! hold "$1" "$2" 1 "$since"; then return; fi
    if [ "$3" = 1 ] || ! hold "$1" "$2" 1 "$5"; then
        last=$(let_go_by "$1" "$2" $(($4 + 1)) "$5" "$last")
        frame=$(line_of script "$last")
        if [ "$3" = 1 ] || { [[ $frame = 0[25]* ]] && hold "$1" "$2" "$3" "$last"; }; then
            [[ $frame = 0d* ]] || echo "$last released $2 $3"
            return
        fi
    fi
    let_go "$1" "$2" $half "$4" "$5"
    let_go $(($1 + half)) $(($2 + half)) $(($3 - half)) "$4" "$5"
}

# What the lines before AT gave and let go, in their order.
drain_events() { # AT
    local handle address count gave asked=0 last=0
    while read -r handle address count gave; do
        echo "$gave given $address $count"
        let_go "$handle" "$address" "$count" "$gave" "$1"
    done < <(allotted "$1" runs) | sort -s -n -k 1,1
}

# The drain line at AT, put together from what was let go since the last one; nothing where it doesn't stand.
own_drain() { # AT
    local line since
    since=$(head -n "$1" "$room/script" | awk '$0 == "0f" { at = NR } END { print at + 0 }')
    line=$(drain_events "$1" | awk -v since="$since" '
        $1 >= since && $2 == "given" { for (i = 0; i < $4; i++) delete at[$3 + i] }
        $1 >= since && $2 == "released" { for (i = 0; i < $4; i++) if (!(($3 + i) in at)) { at[$3 + i] = ++n; address[n] = $3 + i } }
        END {
            for (i = 1; i <= n; i++) if (address[i] in at && at[address[i]] == i) { rest = rest sprintf("%04x", address[i]); count++ }
            printf "0f%04x%s", count, rest
        }')
    if stands "$1" 0f "$line"; then echo "$line"; fi
}

# The first place, from 0, at which two drains have different addresses.
first_other() { # DRAIN DRAIN
    local at=6
    while [ "${1:at:4}" = "${2:at:4}" ]; do at=$((at + 4)); done
    echo $(((at - 6) / 4))
}

# A drain that isn't the list's own: its count, else an address or the order.
tell_drain() { # AT FRAME LINE
    local own at
    own=$(own_drain "$1")
    if [ -z "$own" ]; then
        echo "it isn't what dangles by the list's own addresses: the count, an address, or the order"
    elif [ "${own:2:4}" != "${3:2:4}" ]; then
        echo "the count of what dangles is $((16#${own:2:4})), not $((16#${3:2:4})): $(cut_short "$own")"
    else
        at=$(first_other "$own" "$3")
        echo "at place $at, from 0, dangles ${own:6 + 4 * at:4}, not ${3:6 + 4 * at:4}: $(cut_short "$own")"
    fi
}

# What is wrong with line AT, by what its frame does.
tell_line() { # AT FRAME LINE
    if [ "${2:0:2}" != "${3:0:2}" ]; then
        echo "another opcode: the script's line $1 is $2"
        return
    fi
    case ${2:0:2} in
    0f) tell_drain "$@" ;;
    10)
        if stands "$1" "$2" "${3:0:6}${2:6}"; then echo "another value: the script writes ${2:6}"; else tell_own "$@"; fi
        ;;
    *) if [ -n "$(allotted "$1" own)" ]; then tell_own "$@"; else tell_taken "$@"; fi ;;
    esac
}

too_small() { ! stands "$1" "" "" "$(as_hex "$2")"; } # LINES SIZE

within() { stands "$2" "" "" "$1"; } # SIZE LINES

# All lines stand, and the size is smaller than their addresses need.
tell_size() { # LINES
    local size at
    size=$(line_of list "$1" | cut -c 3-)
    at=$(most 0 "$1" within "$size")
    echo "no: the size is $((16#$size)), and the addresses need $(($(most $((16#$size)) $((MOST_SLOTS - 1)) too_small "$1") + 1))"
    echo "  line $at of the list has the first that isn't below the size: $(line_of list "$at")"
}

# Why the answer is no, in words.
why_not() {
    local frames lines at few titles
    (launch translator) <"$room/script" >"$room/out" || wrong "translator ended without an answer"
    if [ "$(head -c 2 "$room/out")" = ee ]; then
        echo "no: our own rules refuse the script, whatever the list is"
        explain "$(cat "$room/out")" translator "$room/script" 2>&1
        return
    fi
    frames=$(wc -l <"$room/script")
    lines=$(($(wc -l <"$room/list") - 1))
    titles=$(head -qn 1 "$room/script" "$room/list" | grep -c '^f00002$')
    if [ "$titles" = 1 ]; then
        echo "no: the title f00002 stands on one text only; where the script has it, line 0 of the list repeats it"
        return
    fi
    few=$((frames < lines ? frames : lines))
    at=$(most 0 $few stands)
    if [ "$at" -lt $few ]; then
        echo "no: line $at of the list can't stand: $(cut_short "$(line_of list "$at")")"
        echo "  $(tell_line "$at" "$(line_of script "$at")" "$(line_of list "$at")")"
    elif [ "$frames" != $lines ]; then
        echo "no: lines too $([ "$lines" -lt "$frames" ] && echo few || echo many): the list has $lines before its size line, the script $frames; those that both have agree"
    else
        tell_size $lines
    fi
}

# Which of the two texts is refused: with a list that can be read, it is the script.
tell_unread() { # ANSWER
    echo 900000 >"$room/readable"
    if [[ $(verdict "$room/script" "$room/readable") = ee* ]]; then
        echo "the script can't be read" >&2
        explain "$1" translator "$room/script"
    else
        echo "the list can't be read" >&2
        explain "$1" runner "$room/list"
    fi
}

check() { # SCRIPT LIST
    local said
    [ $# = 2 ] || wrong "check takes SCRIPT and LIST; 'mboxalind help' says how"
    [ "$*" != "- -" ] || wrong "standard input can't be both SCRIPT and LIST"
    input "$1"
    mv "$room/in" "$room/script"
    input "$2"
    mv "$room/in" "$room/list"
    build checker
    build translator
    said=$(verdict "$room/script" "$room/list") || exit 2
    echo "$said"
    case $said in
    yes) return 0 ;;
    no)
        why_not >&2
        return 1
        ;;
    ee*)
        tell_unread "$said"
        return 2
        ;;
    *) wrong "checker ended without an answer" ;;
    esac
}
