# One page of HTML that needs nothing else: the recorded counter, and what a list did with it; picture.awk, which has to be given beside this
# file, has its pictures. Input: the list, what was printed, what survey.awk told of the recording, each behind its part=..; the environment has
# the names LIST and RECORDING. Any POSIX awk.

BEGIN {
    MOST_OPEN = 300 # rows that are shown without being asked for
    events = taken = loaded = loads = columns = kept_wraps = kept_stills = longest = 0
}

# ---- reading

part == "list" { read_line(NR - 1) }
part == "printed" && /^a0/ { printed[loads++] = number(substr($0, 3, 4)) }
part == "survey" { read_fact() }

# Stores and loads, in the list's order; a load remembers the line that stored last where it reads.
function read_line(n,    op, address) {
    op = substr($0, 1, 2)
    address = substr($0, 3, 4)
    if (op == "10" || op == "14") stored[address] = n
    list_lines = n + 1
    if (op != "11" && op != "12" && op != "14") return
    kind[events] = op; at_line[events] = n; cell[events] = number(address)
    if (op == "14") { taken_by[taken] = n; nth[events] = taken++ }
    else { nth[events] = loaded++; whence[events] = address in stored ? stored[address] : -1 }
    events++
}

# Not every awk keeps a field a number where it is handed on: + 0 makes it one.
function read_fact(    i, n) {
    for (i = 2; i <= NF; i++) n[i] = $i + 0
    if ($1 == "sample") sample[n[2]] = n[3]
    else if ($1 == "column") { first[columns] = n[2]; last[columns] = n[3]; least[columns] = n[4]; most[columns] = n[5]; wrapped[columns++] = n[6] }
    else if ($1 == "wrap") { wrap_line[kept_wraps] = n[2]; wrap_before[kept_wraps] = n[3]; wrap_after[kept_wraps++] = n[4] }
    else if ($1 == "still") { still_line[kept_stills] = n[2]; still_samples[kept_stills] = n[3]; still_value[kept_stills++] = n[4] }
    else { samples = n[2]; width = n[3]; wraps = n[4]; stills = n[5]; lowest = n[6]; highest = n[7] }
}

function number(hex,    i, n) {
    for (i = 1; i <= length(hex); i++) n = n * 16 + index("0123456789abcdef", substr(hex, i, 1)) - 1
    return n
}

# ---- words

function escaped(text) {
    gsub(/&/, "\\&amp;", text); gsub(/</, "\\&lt;", text); gsub(/>/, "\\&gt;", text); gsub(/"/, "\\&quot;", text)
    return text
}

function named(variable) { return ENVIRON[variable] == "-" ? "standard input" : escaped(ENVIRON[variable]) }

# 1234567 as 1,234,567
function grouped(n,    text, out) {
    text = sprintf("%.0f", n)
    for (out = ""; length(text) > 3; text = substr(text, 1, length(text) - 3)) out = "," substr(text, length(text) - 2) out
    return text out
}

function counted(n, one, many) { return grouped(n) " " (n == 1 ? one : many) }

function value_of(e) { return kind[e] == "14" ? sample[nth[e]] : printed[nth[e]] }

# The list line that takes the sample on a line of the recording.
function taker(line) { return line < taken ? "list line " taken_by[line] : "left over" }

function does(e) {
    if (kind[e] == "14") return "stores sample " nth[e] " at address " cell[e]
    return "prints address " cell[e] ", " (whence[e] < 0 ? "which nothing was stored to" : "stored by line " whence[e])
}

# ---- tables

function open_table(title, rows, head) {
    printf "<details%s><summary>%s</summary><table><thead><tr>%s</tr></thead><tbody>\n", (rows <= MOST_OPEN ? " open" : ""), title, head
}

function close_table() { print "</tbody></table></details>" }

function wrap_table(    i) {
    if (!wraps) return
    open_table(wraps > kept_wraps ? "The first " kept_wraps " of " grouped(wraps) " wraps" : "Wraps", kept_wraps, "<th>recording line<th>before<th>after<th>step<th>taken by")
    for (i = 0; i < kept_wraps; i++)
        printf "<tr><td>%s<td>%d<td>%d<td>%+d<td>%s\n", grouped(wrap_line[i]), wrap_before[i], wrap_after[i], step_of(wrap_before[i], wrap_after[i]), taker(wrap_line[i])
    close_table()
}

# The shorter way round.
function step_of(before, after) { return after - before + (after < before ? 65536 : -65536) }

function still_table(    i, rows) {
    if (!stills) return
    for (i = 0; i < kept_stills; i++) rows += is_long(i)
    open_table(stills > rows ? "The longest " (rows > 1 ? rows " " : "") "of " grouped(stills) " standstills" : "Standstills", rows, "<th>from recording line<th>to<th>samples<th>value")
    for (i = 0; i < kept_stills; i++) if (is_long(i))
        printf "<tr><td>%s<td>%s<td>%s<td>%d\n", grouped(still_line[i]), grouped(still_line[i] + still_samples[i] - 1), grouped(still_samples[i]), still_value[i]
    close_table()
}

function event_table(    e) {
    if (!events) return
    open_table("Samples taken and values printed, line by line", events, "<th>list line<th>value<th>in hex<th class=\"words\">what it does")
    for (e = 0; e < events; e++)
        printf "<tr class=\"%s\"><td>%d<td>%d<td>%04x<td class=\"words\">%s %s\n", (kind[e] == "14" ? "in" : "out"), at_line[e], value_of(e), value_of(e), kind[e], does(e)
    close_table()
}

# ---- the page

function style() {
    print "<style>"
    print ":root { color-scheme: light dark; --ink: #1f2328; --quiet: #59626d; --ground: #fff; --panel: #f7f8fa; --grid: #dfe3e8; --counter: #0b5cad;"
    print "  --load: #1a7f37; --wrap: #c4231c; --still: #f3c15e; --left: #e3e6ea; }"
    print "@media screen and (prefers-color-scheme: dark) { :root { --ink: #e6e8eb; --quiet: #9aa4b0; --ground: #14171b; --panel: #1c2127; --grid: #323941;"
    print "  --counter: #6cb2f7; --load: #5fc77a; --wrap: #ff7b72; --still: #7a5b13; --left: #323941; } }"
    print "body { font: 15px/1.45 system-ui, sans-serif; color: var(--ink); background: var(--ground); margin: 28px auto; padding: 0 24px; max-width: 1180px; }"
    print "h1 { font-size: 22px; margin: 0 0 4px; } h2 { font-size: 17px; margin: 30px 0 2px; } p { margin: 2px 0 8px; }"
    print ".legend { color: var(--quiet); font-size: 13px; } .legend span { margin-right: 20px; white-space: nowrap; } .legend svg { vertical-align: -2px; }"
    print ".picture { display: block; width: 100%; height: auto; break-inside: avoid; } text { font: 12px system-ui, sans-serif; fill: var(--quiet); }"
    print "text.hex { font-family: ui-monospace, monospace; } text.axis { font-size: 13px; fill: var(--ink); } text.by { fill: var(--ground); font-weight: 600; }"
    print "text.note { fill: var(--ink); } .panel { fill: var(--panel); } .grid, .mark { stroke: var(--grid); fill: none; } .mark { stroke: var(--quiet); }"
    print ".counter { fill: none; stroke: var(--counter); stroke-width: 1.8; stroke-linejoin: round; } .sample { fill: var(--counter); stroke: var(--counter); }"
    print ".spare { fill: var(--panel); } .taken { fill: var(--counter); } .left { fill: var(--left); } .still { fill: var(--still); fill-opacity: 0.6; }"
    print ".wrap, .ticks { fill: none; stroke: var(--wrap); stroke-width: 1.6; } .wrap { stroke-dasharray: 5 3; } .flag { fill: var(--wrap); }"
    print ".store { fill: var(--panel); stroke: var(--counter); stroke-width: 2; } .load { fill: var(--load); } .loads { fill: none; stroke: var(--load); stroke-opacity: 0.45; }"
    print "details { margin: 18px 0 0; } summary { cursor: pointer; font-weight: 600; } table { border-collapse: collapse; margin-top: 6px; font-size: 13px; }"
    print "th, td { text-align: right; padding: 2px 18px 2px 0; font-variant-numeric: tabular-nums; } th { color: var(--quiet); font-weight: 400; } .words { text-align: left; }"
    print "tr.in td { color: var(--counter); } tr { break-inside: avoid; } thead { display: table-header-group; }"
    print "@media print { body { margin: 0; padding: 0; font-size: 12px; } summary { list-style: none; } }"
    print "</style>"
}

function told() {
    printf "<p>%s; the list took %s, <strong>%s left over</strong>, and printed %s. ", counted(samples, "sample", "samples"), grouped(taken), grouped(samples - taken), counted(loads, "value", "values")
    printf "The counter wraps <strong>%s</strong>. ", counted(wraps, "time", "times")
    if (stills) printf "The longest standstill has <strong>%s samples</strong>, from line %s on.</p>\n", grouped(longest), grouped(longest_line)
    else print "No three samples in a row are equal.</p>"
}

END {
    for (i = 0; i < kept_stills; i++) if (still_samples[i] > longest) { longest = still_samples[i]; longest_line = still_line[i] }
    print "<!DOCTYPE html>\n<html lang=\"en\"><head><meta charset=\"utf-8\"><meta name=\"viewport\" content=\"width=device-width\">"
    printf "<title>%s, %s</title>\n", named("RECORDING"), named("LIST")
    style()
    printf "</head><body>\n<h1>%s through %s</h1>\n", named("RECORDING"), named("LIST")
    told()
    recording_picture()
    list_picture()
    wrap_table()
    still_table()
    event_table()
    print "</body></html>"
}
