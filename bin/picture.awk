# The pictures of page.awk, which reads what they show.

BEGIN {
    LEFT = 78; RIGHT = 1050; TOP = 34; BOTTOM = 314 # where values are drawn, in a picture that is 1120 wide
    MOST_LINES_ACROSS = 40                          # more wraps than these are ticks alone
    MOST_NUMBERED = 40                              # samples whose list line is written out
}

# ---- axes, and where a value stands in them

function x_at(x) { return LEFT + (x - x_low) / (x_high - x_low) * (RIGHT - LEFT) }
function y_at(y) { return TOP + (y_high - y) / (y_high - y_low) * (BOTTOM - TOP) }

# 1, 2 or 5 times a power of ten, so that the span has some eight steps.
function step_for(span,    step) {
    for (step = 1; step * 10 <= span / 8; step *= 10) continue
    return step >= span / 8 ? step : step * 2 >= span / 8 ? step * 2 : step * 5 >= span / 8 ? step * 5 : step * 10
}

# Much of the range is shown as the whole of it; a counter that moves little is drawn larger, or it would seem to stand still.
function set_values(low, high,    pad) {
    pad = (high - low) / 8 + 2
    y_low = low - pad < 0 ? 0 : int(low - pad)
    y_high = high + pad > 65535 ? 65535 : int(high + pad)
    if (high - low >= 16384) { y_low = 0; y_high = 65535 }
}

function open_picture(title, high) {
    printf "<svg class=\"picture\" viewBox=\"0 0 1120 %d\" role=\"img\" aria-label=\"%s\">\n", high, title
    printf "<rect class=\"panel\" x=\"%d\" y=\"%d\" width=\"%d\" height=\"%d\"/>\n", LEFT, TOP, RIGHT - LEFT, BOTTOM - TOP
}

function write_at(x, y, anchor, class, text) { printf "<text x=\"%.1f\" y=\"%.1f\" text-anchor=\"%s\" class=\"%s\">%s</text>\n", x, y, anchor, class, text }

function value_tick(value) {
    printf "<path class=\"grid\" d=\"M%d %.1fH%d\"/>\n", LEFT, y_at(value), RIGHT
    write_at(LEFT - 8, y_at(value) + 4, "end", "tick", grouped(value))
    write_at(RIGHT + 8, y_at(value) + 4, "start", "tick hex", sprintf("%04x", value))
}

function axes(x_title,    step, x, y) {
    if (y_high - y_low == 65535) { for (y = 0; y < 65536; y += 16384) value_tick(y); value_tick(65535) }
    else { step = step_for(y_high - y_low); for (y = step * int((y_low + step - 1) / step); y <= y_high; y += step) value_tick(y) }
    step = step_for(x_high - x_low)
    for (x = 0; x <= x_high; x += step) {
        printf "<path class=\"mark\" d=\"M%.1f %dv5\"/>\n", x_at(x), BOTTOM
        write_at(x_at(x), BOTTOM + 18, "middle", "tick", grouped(x))
    }
    write_at((LEFT + RIGHT) / 2, BOTTOM + 38, "middle", "axis", x_title)
    write_at(LEFT - 8, TOP - 14, "end", "axis", "value")
    write_at(RIGHT + 8, TOP - 14, "start", "axis", "in hex")
}

# A wrap between two places, across the picture; HINT is shown where the pointer rests.
function wrap_across(x, hint) {
    printf "<g><title>%s</title><path class=\"wrap\" d=\"M%.1f %dV%d\"/>", hint, x, TOP - 4, BOTTOM
    printf "<path class=\"flag\" d=\"M%.1f %dl-5 -9h10z\"/></g>\n", x, TOP - 3
}

function wrap_told(i) { return sprintf("wrap: %d, then %d", wrap_before[i], wrap_after[i]) }

# The first key opens the legend's line; a key is drawn, not coloured ground, so that it prints.
function legend(class, text) {
    if (class == "counter" || class == "store") print "<p class=\"legend\">"
    printf "<span><svg width=\"26\" height=\"14\" aria-hidden=\"true\">"
    if (class == "counter" || class == "wrap") printf "<path class=\"%s\" d=\"M1 7H25\"/>", class
    else if (class == "ticks") printf "<path class=\"%s\" d=\"M13 2v10\"/>", class
    else if (class == "store" || class == "load") printf "<circle class=\"%s\" cx=\"13\" cy=\"7\" r=\"4.5\"/>", class
    else printf "<rect class=\"%s\" width=\"26\" height=\"14\"/>", class
    printf "</svg> %s</span>\n", text
}

# ---- the recording

function middle(column,    end) {
    end = (column + 1) * width
    return (column * width + (end < samples ? end : samples) - 1) / 2
}

# By more than half a counter's range, which is no size of a text.
function wraps_between(before, after) { return after - before < -32768 || after - before > 32768 }

# One stroke through the first, least, greatest and last sample of each column; lifted where the counter wraps between two columns.
function draw_counter(    i, x) {
    printf "<path class=\"counter\" d=\""
    for (i = 0; i < columns; i++) {
        x = x_at(middle(i))
        printf "%s%.1f %.1f", (i == 0 || wraps_between(last[i - 1], first[i]) ? "M" : "L"), x, y_at(first[i])
        if (least[i] < most[i]) printf "V%.1fV%.1fV%.1f", y_at(least[i]), y_at(most[i]), y_at(last[i])
        print ""
    }
    print "\"/>"
    if (samples <= 200) for (i = 0; i < columns; i++) draw_sample(i)
}

function draw_sample(i) {
    printf "<circle class=\"sample%s\" cx=\"%.1f\" cy=\"%.1f\" r=\"4\">", (i < taken ? "" : " spare"), x_at(i), y_at(first[i])
    printf "<title>recording line %d: 30%04x, %d; %s</title></circle>\n", i, first[i], first[i], taker(i)
}

# Of a counter that is slow beside its samples every value stands for a while: what is marked is at least a tenth of the longest.
function is_long(i) { return still_samples[i] * 10 >= longest }

function draw_stills(    i, x, wide) {
    for (i = 0; i < kept_stills; i++) if (is_long(i)) {
        x = x_at(still_line[i])
        wide = x_at(still_line[i] + still_samples[i] - 1) - x
        if (wide < 2) wide = 2
        printf "<rect class=\"still\" x=\"%.1f\" y=\"%d\" width=\"%.1f\" height=\"%d\">", x, TOP, wide, BOTTOM - TOP
        printf "<title>standstill: %s samples of %d from line %s on</title></rect>\n", grouped(still_samples[i]), still_value[i], grouped(still_line[i])
        if (wide > 70) write_at(x + wide / 2, BOTTOM - 8, "middle", "note", "standstill")
    }
}

function draw_wraps(    i) {
    if (wraps <= MOST_LINES_ACROSS) for (i = 0; i < kept_wraps; i++) wrap_across(x_at(wrap_line[i] - 0.5), wrap_told(i))
    else for (i = 0; i < columns; i++) if (wrapped[i]) printf "<path class=\"ticks\" d=\"M%.1f %dv10\"/>\n", x_at(middle(i)), TOP - 14
}

# Under the axis: which samples the list took, by which line where there is room to say so.
function draw_taken(    i, y, edge) {
    y = BOTTOM + 46
    edge = x_at(taken - 0.5)
    if (taken && edge < LEFT + 2) edge = LEFT + 2
    printf "<rect class=\"left\" x=\"%d\" y=\"%d\" width=\"%d\" height=\"18\"/>\n", LEFT, y, RIGHT - LEFT
    if (taken) printf "<rect class=\"taken\" x=\"%d\" y=\"%d\" width=\"%.1f\" height=\"18\"/>\n", LEFT, y, edge - LEFT
    write_at(LEFT - 8, y + 13, "end", "axis", "taken by")
    if (samples <= MOST_NUMBERED) for (i = 0; i < taken; i++) write_at(x_at(i), y + 13, "middle", "by", taken_by[i])
    else if (edge - LEFT > 120) write_at((LEFT + edge) / 2, y + 13, "middle", "by", counted(taken, "sample taken", "samples taken"))
    if (RIGHT - edge > 120) write_at((edge + RIGHT) / 2, y + 13, "middle", "tick", grouped(samples - taken) " left over")
}

function recording_picture() {
    print "<h2>The recorded counter, over the recording's lines</h2>"
    if (!samples) { print "<p>The recording is empty.</p>"; return }
    legend("counter", width == 1 ? "the counter" : "the counter, least to greatest of each " grouped(width) " lines")
    legend(wraps <= MOST_LINES_ACROSS ? "wrap" : "ticks", "wrap: past 65535 to 0, or past 0 to 65535")
    legend("still", "standstill: equal samples in a row")
    legend("taken", samples <= MOST_NUMBERED ? "taken by this line of the list" : "taken by the list")
    legend("left", "left over")
    print "</p>"
    x_low = -0.5
    x_high = samples - 0.5
    set_values(lowest, highest)
    open_picture("The recorded counter over the recording's lines", 384)
    draw_stills()
    axes("line of the recording")
    draw_counter()
    draw_wraps()
    draw_taken()
    print "</svg>"
}

# ---- the list

function draw_events(    e, r) {
    r = events <= 150 ? 4.5 : 2
    printf "<path class=\"loads\" d=\""
    for (e = 0; e < events; e++) if (kind[e] != "14") printf "%s%.1f %.1f\n", (nth[e] ? "L" : "M"), x_at(at_line[e]), y_at(value_of(e))
    print "\"/>"
    for (e = 0; e < events; e++) {
        printf "<circle class=\"%s\" cx=\"%.1f\" cy=\"%.1f\" r=\"%s\">", (kind[e] == "14" ? "store" : "load"), x_at(at_line[e]), y_at(value_of(e)), r
        printf "<title>list line %d: %s %s; %d</title></circle>\n", at_line[e], kind[e], does(e), value_of(e)
    }
}

function draw_taken_wraps(    i, n) {
    for (n = 0; n < kept_wraps && wrap_line[n] < taken; n++) continue
    if (n <= MOST_LINES_ACROSS) for (i = 0; i < n; i++) wrap_across(x_at(taken_by[wrap_line[i]] - 0.5), wrap_told(i))
}

function list_picture(    e, low, high) {
    print "<h2>What the list took and printed, over the list's lines</h2>"
    if (!events) { print "<p>The list takes no sample and prints nothing.</p>"; return }
    legend("store", "14 stores a sample")
    legend("load", "11 or 12 prints a value")
    legend("wrap", "wrap between the sample before and this one")
    print "</p>"
    low = high = value_of(0)
    for (e = 1; e < events; e++) { if (value_of(e) < low) low = value_of(e); if (value_of(e) > high) high = value_of(e) }
    x_low = -0.5
    x_high = list_lines - 1.5 # the size line is last
    set_values(low, high)
    open_picture("What the list took and printed over the list's lines", 360)
    axes("line of the list")
    draw_events()
    draw_taken_wraps()
    print "</svg>"
}
