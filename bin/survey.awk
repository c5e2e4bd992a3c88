# One pass over a recording that was found well formed, whatever its size: what picture.awk draws of it. Prints, a fact a line:
#   sample K VALUE                       the samples that a list can take
#   wrap LINE BEFORE AFTER               the first of them; LINE is that of AFTER
#   column FIRST LAST LEAST MOST WRAPS   of WIDTH lines each, the last one perhaps of fewer
#   still LINE SAMPLES VALUE             runs of equal samples, the longest of them, in no order; LINE is that of the first sample
#   whole LINES WIDTH WRAPS STILLS LEAST MOST
# Any POSIX awk. Line numbers go past 2^31, so they are printed by %.0f.

BEGIN {
    MOST_COLUMNS = 2048 # as many as a list can take samples: each of those is a column of its own at first
    MOST_WRAPS = 100
    MOST_STILLS = 40
    LEAST_STILL = 3
    for (i = 0; i < 65536; i++) number[sprintf("30%04x", i)] = i
    width = 1
    room = columns = wraps = column_wraps = stills = kept_stills = equal = 0
}

# There may be thousands of millions of lines: nearly all take the shortest way through here.
{
    value = number[$0]
    if (room-- == 0) start_column()
    if (value == before) equal++
    else {
        if (equal >= LEAST_STILL) note_still(NR - 1)
        equal = 1
        # The shorter way round decides: a counter that fell by more than half its range, 32768, went on past 65535, or the other way past 0.
        step = value - before
        if (step < -32768 || step > 32768) note_wrap()
        if (value < low) low = value
        else if (value > high) high = value
        before = value
    }
}

END {
    if (NR > 0) end_column()
    if (equal >= LEAST_STILL) note_still(NR)
    for (i = 0; i < columns; i++) {
        print "column", first[i], last[i], least[i], most[i], wrapped[i]
        if (i == 0 || least[i] < lowest) lowest = least[i]
        if (i == 0 || most[i] > highest) highest = most[i]
    }
    for (i = 0; i < kept_stills; i++) printf "still %.0f %.0f %d\n", still_line[i], still_samples[i], still_value[i]
    printf "whole %.0f %.0f %.0f %.0f %d %d\n", NR, width, wraps, stills, lowest, highest
}

function start_column() {
    if (NR == 1) before = value
    else end_column()
    if (NR <= MOST_COLUMNS) printf "sample %d %d\n", NR - 1, value
    first[columns] = low = high = value
    room = width - 1
}

# Where there are as many columns as may be, two and two become one.
function end_column(    i) {
    last[columns] = before
    least[columns] = low
    most[columns] = high
    wrapped[columns++] = column_wraps
    column_wraps = 0
    if (columns < MOST_COLUMNS) return
    for (i = 0; i < columns; i += 2) join(i / 2, i, i + 1)
    columns /= 2
    width *= 2
}

function join(to, a, b) {
    first[to] = first[a]
    last[to] = last[b]
    least[to] = least[a] < least[b] ? least[a] : least[b]
    most[to] = most[a] > most[b] ? most[a] : most[b]
    wrapped[to] = wrapped[a] + wrapped[b]
}

function note_wrap() {
    column_wraps++
    if (++wraps <= MOST_WRAPS) printf "wrap %.0f %d %d\n", NR - 1, before, value
}

# The run of equal samples before line END is kept if it is among the longest; shortest is the place of the one that would go.
function note_still(end,    i) {
    stills++
    if (kept_stills < MOST_STILLS) shortest = kept_stills++
    else if (equal <= still_samples[shortest]) return
    still_line[shortest] = end - equal
    still_samples[shortest] = equal
    still_value[shortest] = before
    for (i = 0; i < kept_stills; i++) if (still_samples[i] < still_samples[shortest]) shortest = i
}
