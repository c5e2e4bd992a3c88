# For check.bash: which handle has which address in a list from elsewhere, by the numbers of both texts alone. Reads the script (part=script), then
# the list's lines before line AT (part=list). With want=own it prints what the frame at AT may show, the likeliest first, and nothing where it takes a slot;
# with want=holder the last handle at address SLOT and the line that gave it; with want=runs for each line that gives handles the first handle, its
# address, how many, and the line. What it says is only a guess: check.bash asks the checker before it tells.

BEGIN { handed = needs = runs = 0 }
part == "script" { frame[FNR - 1] = $0; next }
FNR <= at { follow(FNR - 1, frame[FNR - 1], $0) }

END {
    if (want == "own") own(frame[at + 0])
    if (want == "holder") { for (h = handed - 1; h >= 0 && address[h] != slot; h--); if (h >= 0) print h, gave[h] }
    if (want == "runs") for (i = 0; i < runs; i++) print run[i]
}

function number(hex,    i, n) {
    for (i = 1; i <= length(hex); i++) n = n * 16 + index("0123456789abcdef", substr(hex, i, 1)) - 1
    return n + 0
}

function first(text) { return number(substr(text, 3, 4)) }

# The handles that a line gives, n of them from its address on.
function give(line, shown, n,    i) {
    if (n > 0) run[runs++] = handed " " first(shown) " " n " " line
    for (i = 0; i < n; i++) {
        gave[handed] = line
        address[handed++] = first(shown) + i
    }
}

function follow(line, f, shown,    op) {
    op = substr(f, 1, 2)
    if (op == "01") children++
    if (op == "06" || op == "07") give(line, shown, 1)
    if (op == "08") give(line, shown, first(f))
    if (op == "09") { defined[++defines] = substr(f, 3, 4); names[defines] = number(substr(f, 7, 4)) }
    if (op == "20" || op == "21" || op == "22") need[needs++] = op == "20" ? "deferred" : op == "21" ? first(f) : "ignored"
    if (op == "23" && need[first(f)] == "deferred") { need[first(f)] = handed + 0; give(line, shown, 1) }
}

function own(f,    op, i) {
    op = substr(f, 1, 2)
    if (op == "01") print children + 1
    if (op == "20" || op == "21" || op == "22") print needs + 0
    if (op == "08" && first(f) == 0) print 65535
    if (op == "10" || op == "11" || op == "14") print address[first(f)]
    if (op == "0a" || op == "0b" || op == "12") for (i = defines; i > 0; i--) if (defined[i] == substr(f, 3, 4)) print address[names[i]]
    if ((op == "23" || op == "24") && need[first(f)] != "deferred") print need[first(f)] == "ignored" ? 65535 : address[need[first(f)]]
}
