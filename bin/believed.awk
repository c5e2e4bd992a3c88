# What a promise makes its reader believe: the closure of the definitions in specs/ that its `ensures` cites, definition by definition. bin/believed runs it.
# Reads crates/*/specs/*.antt and crates/*/src/*.rt. -v entries: the public entries, each CRATE::[MODULE::]NAME; -v statements: what theorems state, each
# CRATE/FILE/DEFINITION,DEFINITION..; -v want: table, numbers, or the entry or statement whose definitions are listed.
# Leaves, not counted: what the kit's libraries define (std, core, io, Prim, lib, mathlib, native, denote), and the structs and enums that the code declares (specs.declared).
# A name that is neither bound nor in sight is an error, never passed over. Any POSIX awk, in the C locale: names are bytes.

function fail(text) {
    print "believed: " text > "/dev/stderr"
    failed = 1
    exit 1
}

# ---- words: brackets, commas, semicolons and bars stand alone; strings are one word; comments go

function words(line, comment,    s) {
    s = line
    gsub(/"([^"\\]|\\.)*"/, " \001 ", s)
    if (comment == "--") sub(/(^|[ \t])--.*$/, "", s)
    else sub(/\/\/.*$/, "", s)
    gsub(/\[\]/, "\002", s)
    gsub(/\|\|/, " \003 ", s)
    gsub(/[(){}|,;]/, " & ", s)
    gsub(/\[/, " [ ", s)
    gsub(/\]/, " ] ", s)
    gsub("\002", "[]", s)
    gsub("\003", "||", s)
    sub(/^[ \t]+/, "", s)
    sub(/[ \t]+$/, "", s)
    gsub(/[ \t]+/, " ", s)
    return s
}

# ---- what is in sight: sight[FILE, NAME] is a definition's key, or leaf; alias[FILE, NAME] a module

# A module by its path: the file in specs/ that it is, or leaf; else ? and the path, an error only where a promise leads there.
function module_of(path,    p, crate) {
    if (path ~ /^(Prim|lib|mathlib|native|denote)\./) return "leaf"
    if (path ~ /^Rattle\.(core|io|std)\./) return "leaf" # the kit's
    if (path !~ /^Rattle\./) return "?" path
    p = substr(path, 8)
    crate = p
    sub(/\..*$/, "", crate)
    p = substr(p, length(crate) + 2)
    if (p ~ /^specs\.declared\./) return "leaf"
    if (p !~ /^specs\.[A-Za-z0-9]+$/) return "?" path # in proofs/, say
    sub(/^specs\./, "", p)
    return crate "/" p
}

# use PATH.{a, b as c} and use PATH [as X]
function note_use(file, text,    path, names, n, i, a, pair) {
    sub(/^[ \t]*(ghost )?use /, "", text)
    sub(/;?[ \t]*$/, "", text)
    if (match(text, /\.\{/)) {
        path = substr(text, 1, RSTART - 1)
        names = substr(text, RSTART + 2)
        if (!sub(/\}$/, "", names)) fail(file ": a use that doesn't end on its line: " path)
        n = split(names, a, /,[ \t]*/)
        for (i = 1; i <= n; i++) {
            if (split(a[i], pair, " as ") == 1) pair[2] = pair[1]
            uses++
            use_file[uses] = file
            use_module[uses] = module_of(path)
            use_name[uses] = pair[1]
            use_as[uses] = pair[2]
        }
    } else {
        if (split(text, pair, " as ") == 1) {
            pair[2] = pair[1]
            sub(/^.*\./, "", pair[2])
        }
        alias[file, pair[2]] = module_of(pair[1])
    }
}

# A name with places, as refuse◌when◌, is seen by its words: the last of them cites it.
function see(file, name, key,    n, i, part, last) {
    sight[file, name] = key
    if (name !~ PLACE) return
    n = split(name, part, PLACE)
    for (i = 1; i <= n; i++) if (part[i] != "") {
        if (!((file, part[i]) in sight)) sight[file, part[i]] = "part"
        last = part[i]
    }
    sight[file, last] = key
}

# ---- specs/: the definitions of a file, their lines and their words

function define(name, file) {
    key = file "/" name
    if (key in from) fail(file ": " name " is defined twice")
    order[++defined] = key
    from[key] = comment_from ? comment_from : FNR
    file_of[key] = file
    to[key] = FNR
    given[key] = binders
    see(file, name, key)
    comment_from = 0
}

# A segment of a definition is its head, its type, a clause, a field or a constructor; lines that go on are added to it.
function segment(kind, text) {
    segments[key]++
    seg_kind[key, segments[key]] = kind
    seg_text[key, segments[key]] = text
    to[key] = FNR
}

function more(text) {
    seg_text[key, segments[key]] = seg_text[key, segments[key]] " " text
    to[key] = FNR
}

# The names that a text binds as (a b : T) or {a b : T}, whatever follows.
function binders_of(text,    n, i, j, w, names) {
    n = split(text, w, " ")
    names = ""
    for (i = 1; i <= n; i++) if (w[i] == "(" || w[i] == "{") {
        for (j = i + 1; j <= n && w[j] ~ /^[^(){}:]+$/; j++) ;
        if (w[j] == ":") for (j = i + 1; w[j] != ":"; j++) names = names " " w[j]
    }
    return names
}

function spec_line(file, line,    s, w, n, i, indent, head, rest) {
    if (line ~ /^[ \t]*$/) { comment_from = 0; return }
    if (line ~ /^[ \t]*--/) {
        if (!comment_from) comment_from = FNR
        return
    }
    if (line ~ /^use /) { note_use(file, line); comment_from = 0; return }
    if (line ~ /^(infix|infixl|infixr|pub mod|mod) /) { comment_from = 0; return }
    match(line, /^ */)
    indent = RLENGTH
    s = words(line, "--")
    if (indent == 0) { shift = 0; binders = ""; opener = "" }
    if (s ~ /^module _ /) {
        shift = 2
        opener = s
        sub(/^module _ /, "", opener)
        sub(/ where$/, "", opener)
        binders = binders_of(opener)
        if (!comment_from) comment_from = FNR
        return
    }
    indent -= shift
    if (indent == 0) {
        block = ""
        if (match(s, /^(pub )?(record|data) /)) {
            head = substr(s, RLENGTH + 1)
            block = s ~ /^(pub )?record / ? "record" : "data"
            n = split(head, w, " ")
            define(w[1], file)
            sub(/ where$/, "", head)
            given[key] = given[key] binders_of(head)
            # what is bound on the head is bound below it; the words of its types are cited
            segment("head", substr(head, length(w[1]) + 2))
            return
        }
        if (match(s, /^(abbrev |unfoldable |pub )+/)) {
            head = substr(s, RLENGTH + 1)
            n = split(head, w, " ")
            if (w[2] != ":") fail(file ":" FNR ": not understood: " line)
            define(w[1], file)
            if (opener != "") segment("head", opener)
            segment("type", substr(head, length(w[1]) + 4))
            return
        }
        # a clause: of the definition that its first word names, else of the last one
        n = split(s, w, " ")
        if ((file "/" w[1]) in from) key = file "/" w[1]
        if (file_of[key] != file) fail(file ":" FNR ": not understood: " line)
        segment("clause", s)
        comment_from = 0
        return
    }
    if (file_of[key] != file) fail(file ":" FNR ": not understood: " line)
    comment_from = 0
    if (indent == 2 && block == "record") {
        sub(/^pub /, "", s)
        n = split(s, w, " ")
        if (w[2] != ":") fail(file ":" FNR ": not understood: " line)
        segment("field", substr(s, length(w[1]) + 4))
        seg_binds[key, segments[key]] = w[1]
        field[file, w[1]] = key
        return
    }
    if (indent == 2 && block == "data") {
        n = split(s, w, " ")
        for (i = 1; i <= n && w[i] != ":"; i++) {
            made[file, w[i]] = 1
            see(file, w[i], key)
        }
        if (i > n) fail(file ":" FNR ": not understood: " line)
        rest = ""
        for (i++; i <= n; i++) rest = rest " " w[i]
        segment("type", rest)
        return
    }
    more(s)
}

# ---- src/: the contract of each function, and what pub use names again

# use PATH::name, and use PATH::{name, name}; text goes to its semicolon.
function code_use(file, text,    front, n, i, name) {
    sub(/;.*$/, "", text)
    sub(/^(pub )?use /, "", text)
    front = text
    if (!sub(/[{].*$/, "", front)) sub(/[A-Za-z0-9_]+$/, "", front)
    gsub(/[{}]/, ",", text)
    n = split(text, name, ",")
    for (i = 1; i <= n; i++) {
        sub(/^.*(::| )/, "", name[i])
        if (name[i] == "") continue
        code_name[file, name[i]] = 1
        if (again_too) again[file, name[i]] = front name[i]
    }
}

function code_line(file, line,    s, w, n, path, name) {
    if (line ~ /^ghost use /) { note_use(file, line); return }
    if (line ~ /^(pub )?use /) {
        again_too = line ~ /^pub /
        pending = ""
        in_use = 1
    }
    if (in_use) {
        pending = pending line
        if (line !~ /;/) return
        in_use = 0
        code_use(file, pending)
        return
    }
    if (line ~ /^(pub )?(struct|enum|const) /) {
        split(words(line, "//"), w, " ")
        name = w[1] == "pub" ? w[3] : w[2]
        sub(/[:<].*$/, "", name)
        code_name[file, name] = 1
    }
    if (match(line, /^(pub )?(extern "C" )?fn /)) {
        name = substr(line, RLENGTH + 1)
        sub(/[(<].*$/, "", name)
        fn = file "/" name
        signature[fn] = ""
        in_signature = 1
        is_pub[fn] = line ~ /^pub /
    }
    if (fn == "") return
    if (line == "{" || line ~ /^}/ || (in_signature && line ~ /\{$/ && line !~ /(requires|ensures)/)) { fn = ""; return }
    s = words(line, "//")
    if (s ~ /^(requires|ensures) /) in_signature = 0
    if (in_signature) { signature[fn] = signature[fn] " " s; return }
    if (s ~ /^requires /) { asks[fn] = 1; ensures = 0 }
    if (s ~ /^ensures /) {
        ensures = 1
        sub(/^ensures /, "", s)
        sub(/^[a-z0-9_]+ /, "", s)
        promises[fn]++
        promise[fn, promises[fn]] = s
    } else if (ensures) promise[fn, promises[fn]] = promise[fn, promises[fn]] " " s
}

BEGIN { PLACE = "\342\227\214" } # ◌

FNR == 1 {
    is_spec = FILENAME ~ /\.antt$/
    here = FILENAME
    sub(/^crates\//, "", here)
    if (!is_spec) is_source[here] = 1
    if (is_spec) { sub(/\/specs\//, "/", here); sub(/\.antt$/, "", here); is_file[here] = 1 }
    comment_from = 0; shift = 0; binders = ""; opener = ""; block = ""; fn = ""; ensures = 0; key = ""
}

is_spec { spec_line(here, $0); next }
{ code_line(here, $0) }

# ---- the words that a segment cites

function bind(name) {
    if (name == "_") return
    bound_name[++bounds] = name
    bound_depth[bounds] = depth
}

function is_bound(name,    i) {
    for (i = bounds; i > 0; i--) if (bound_name[i] == name) return 1
    return 0
}

# What was bound at this depth or deeper goes.
function unbind(down) {
    while (bounds > 0 && bound_depth[bounds] >= down) bounds--
}

# The definition that a word names in a file: a key, leaf, part; or nothing.
function named(file, w,    module, name) {
    if ((file, w) in sight) return sight[file, w]
    if (match(w, /^[^.]+\./) && RLENGTH < length(w)) {
        module = substr(w, 1, RLENGTH - 1)
        name = substr(w, RLENGTH + 1)
        if ((file, module) in alias) {
            module = alias[file, module]
            if (module == "leaf" || module ~ /^[?]/) return module
            sub(/\..*$/, "", name)
            if (!((module, name) in sight) || file_of[sight[module, name]] != module) fail(file ": " w ": " module " has no " name)
            return sight[module, name]
        }
        if ((file, module) in code_name) return "leaf"
    }
    return ""
}

# A word of a pattern that makes a value; any other one is bound by it.
function makes(file, w,    k) {
    k = named(file, w)
    if (k == "") return 0
    if (k == "leaf" || k == "part") return 1
    return (file_of[k], bare(w)) in made || (file, w) in made_as
}

function bare(w) {
    sub(/^.*\./, "", w)
    return w
}

# What a word has before its fields: r of r.f, where r is no module.
function rooted(file, w,    root) {
    root = w
    sub(/\..*$/, "", root)
    return root == "" || (file, root) in alias || (file, root) in code_name ? w : root
}

function cite(file, w, where,    k) {
    if (w == "do") w = ">>="
    else if (w in plain || w ~ /^[0-9]/ || w ~ /^\./ || w == "_" || w == "\001") return
    w = rooted(file, w)
    if (is_bound(w)) return
    k = named(file, w)
    if (k == "") fail(where ": " w " is not in sight")
    if (k ~ /^[?]/) fail(where ": " w " is of " substr(k, 2) ", which is no file in specs/")
    if (k != "leaf" && k != "part") cites[where] = cites[where] "\n" k
}

# The words of one segment. Bound: what base says, and as it goes binders, patterns, what λ, let and ← name, each to the end of its bracket or alternative.
function scan(file, where, kind, text, base,    n, i, j, w, b, m, self, selves, is_self, itself) {
    n = split(text, w, " ")
    bounds = 0
    depth = 0
    m = split(base, b, " ")
    for (i = 1; i <= m; i++) { depth = -1; bind(b[i]) }
    depth = 0
    i = 1
    if (kind == "clause") {
        # left of =: the name itself, makers, and what is bound
        self = where
        sub(/^.*\//, "", self)
        m = split(self, selves, PLACE)
        depth = -1
        itself = 0
        for (; i <= n && w[i] != "="; i++) {
            is_self = w[i] == self
            for (j = 1; j <= m; j++) if (w[i] == selves[j]) is_self = 1
            if (is_self) itself = 1
            else if (!(w[i] in plain || w[i] ~ /^[0-9.]/)) {
                if (makes(file, w[i])) cite(file, w[i], where)
                else bind(w[i])
            }
        }
        if (i > n || !itself) fail(where ": not understood: " text)
        depth = 0
        i++
    }
    for (; i <= n; i++) {
        if (w[i] == "(" || w[i] == "{" || w[i] == "[") {
            if (w[i] != "[") {
                # (a b : T) binds in what follows the bracket
                for (j = i + 1; j <= n && w[j] ~ /^[^(){}:;,]+$/; j++) ;
                if (j > i + 1 && w[j] == ":") {
                    for (j = i + 1; w[j] != ":"; j++) bind(w[j])
                    i = j
                }
            }
            depth++
            if (w[i] == "[") i = patterns(file, where, w, i, n)
            continue
        }
        if (w[i] == ")" || w[i] == "}" || w[i] == "]") { unbind(depth); depth--; continue }
        if (w[i] == "|") {
            unbind(depth)
            i = patterns(file, where, w, i, n)
            continue
        }
        if (w[i] == "," || w[i] == ";") { unbind(depth); continue }
        if (w[i] == "\316\273") { # λ
            for (i++; i <= n && w[i] !~ /\.$/ && !(w[i] in plain); i++) bind(w[i])
            if (i > n || w[i] !~ /[^.]\.$/) fail(where ": not understood: what \316\273 binds")
            bind(substr(w[i], 1, length(w[i]) - 1))
            continue
        }
        if (w[i] == "let") { bind(w[++i]); continue }
        if (w[i + 1] == "\342\206\220") { bind(w[i]); continue } # ←
        if (w[i + 1] == "=" && (w[i - 1] == "{" || w[i - 1] == ";")) { i++; continue } # a field's name
        cite(file, w[i], where)
    }
}

# After [ or |: a pattern up to its arrow; where none comes it is no alternative.
function patterns(file, where, w, i, n,    j, d) {
    if (w[i + 1] == "|") i++
    d = 0
    for (j = i + 1; j <= n; j++) {
        if (w[j] == "\342\206\246") break # ↦
        if (w[j] == "(") d++
        if (w[j] == ")") d--
        if (d < 0 || w[j] == "]" || w[j] == "|") return i
    }
    if (j > n) return i
    for (i++; i < j; i++) {
        if (w[i] in plain || w[i] ~ /^[0-9.]/) continue
        if (makes(file, w[i])) cite(file, w[i], where)
        else bind(w[i])
    }
    return j
}

# What a definition cites, once.
function look_into(k,    i, base) {
    if (k in looked) return
    looked[k] = 1
    base = given[k]
    for (i = 1; i <= segments[k]; i++) {
        scan(file_of[k], k, seg_kind[k, i], seg_text[k, i], base)
        if (seg_kind[k, i] == "field") base = base " " seg_binds[k, i]
    }
}

# ---- an entry: the file and the function that it is, through pub use

function find(entry,    p, n, crate, file, name, path, i, seen) {
    n = split(entry, p, "::")
    crate = p[1]
    name = p[n]
    file = crate "/src/lib.rt"
    if (n == 3) file = crate "/src/" p[2] ".rt"
    for (i = 0; i < 4; i++) {
        if ((file "/" name) in signature) {
            fn = file "/" name
            if (!is_pub[fn]) fail(entry " is not public")
            return fn
        }
        if (!((file, name) in again)) fail(entry ": no such function in " file)
        n = split(again[file, name], p, "::")
        if (p[1] == "crate") p[1] = crate
        if (n == 2 && !((p[1] "/src/lib.rt") in is_source)) { file = crate "/src/" p[1] ".rt" }
        else {
            crate = p[1]
            file = n == 3 ? crate "/src/" p[2] ".rt" : crate "/src/lib.rt"
        }
        name = p[n]
    }
    fail(entry ": pub use goes in a ring")
}

# The closure of what a root cites: in reached[ROOT, KEY]. used[KEY] is 1 if an entry reaches it, 2 if theorems alone do.
function close_over(root, start, by,    list, n, i, k, m, a) {
    n = split(start, list, "\n")
    known[root] = 1
    for (i = 1; i <= n; i++) {
        k = list[i]
        if (k == "" || (root, k) in reached) continue
        reached[root, k] = 1
        if (!(k in used)) used[k] = by
        look_into(k)
        m = split(cites[k], a, "\n")
        for (; m > 0; m--) list[++n] = a[m]
    }
}

function comma(x,    s) {
    s = sprintf("%d", x)
    while (match(s, /[0-9][0-9][0-9][0-9]($|,)/)) s = substr(s, 1, RSTART) "," substr(s, RSTART + 1)
    return s
}

function span(k) { return to[k] - from[k] + 1 }

# ---- what is printed

# Of what a root reaches, beyond rules and in it: how many lines, and for each file beyond it `FILE` 3 (12), three definitions on twelve lines.
function tell(root,    i, k, f, files, list, count, length_of) {
    far_lines = near_lines = 0
    far = ""
    files = 0
    for (i = 1; i <= defined; i++) {
        k = order[i]
        if (!((root, k) in reached)) continue
        f = file_of[k]
        if (f ~ /^rules\//) {
            near_lines += span(k)
            continue
        }
        far_lines += span(k)
        if (!(f in count)) list[++files] = f
        count[f]++
        length_of[f] += span(k)
    }
    for (i = 1; i <= files; i++) far = far (i > 1 ? ", " : "") "`" list[i] "` " count[list[i]] " (" length_of[list[i]] ")"
    if (far == "") far = "\342\200\223"
}

function print_row(name) {
    tell(name)
    print "| " (name in told ? told[name] : "`" name "`") " | " far " | " comma(far_lines) " | " comma(near_lines) " |"
}

function print_table(    i, k, f, files, list) {
    print "| entry | beyond `rules`: definitions (lines) | lines | lines of `rules` |"
    print "|---|---|---|---|"
    for (i = 1; i <= roots; i++) print_row(root[i])
    print ""
    print "| what a theorem states | beyond `rules`: definitions (lines) | lines | lines of `rules` |"
    print "|---|---|---|---|"
    for (i = 1; i <= theorems; i++) print_row(theorem[i])
    print ""
    print "| file in `crates/rules/specs/` | cited for some entry: definitions (lines) | for the theorems above alone | by neither |"
    print "|---|---|---|---|"
    for (i = 1; i <= defined; i++) {
        k = order[i]
        f = file_of[k]
        if (f !~ /^rules\//) continue
        if (!(f in rule_file)) {
            rule_file[f] = 1
            list[++files] = f
        }
        counts[f, used[k] + 0]++
        sums[f, used[k] + 0] += span(k)
    }
    for (i = 1; i <= files; i++) print "| `" substr(list[i], 7) "` | " cell(list[i], 1) " | " cell(list[i], 2) " | " cell(list[i], 0) " |"
    print "| all | " whole(1) " | " whole(2) " | " whole(0) " |"
}

function cell(f, by) {
    all_counts[by] += counts[f, by]
    all_sums[by] += sums[f, by]
    return counts[f, by] ? counts[f, by] " (" sums[f, by] ")" : "\342\200\223"
}

function whole(by) { return all_counts[by] ? all_counts[by] " (" comma(all_sums[by]) ")" : "\342\200\223" }

# The lines of rules that entries cite, those that theorems alone do, and the least and the most that an entry has beyond rules.
function print_numbers(    i, k, least, most) {
    for (i = 1; i <= defined; i++) {
        k = order[i]
        if (file_of[k] ~ /^rules\//) all_sums[used[k] + 0] += span(k)
    }
    for (i = 1; i <= roots; i++) {
        tell(root[i])
        if (i == 1) least = most = far_lines
        if (far_lines < least) least = far_lines
        if (far_lines > most) most = far_lines
    }
    print comma(all_sums[1]), comma(all_sums[2]), comma(least), comma(most)
}

function print_closure(name,    i, k) {
    for (i = 1; i <= defined; i++) {
        k = order[i]
        if (!((name, k) in reached)) continue
        f = file_of[k]
        sub(/\//, "/specs/", f)
        printf "crates/%s.antt:%d: %s, %d lines\n", f, from[k], substr(k, length(file_of[k]) + 2), span(k)
    }
    tell(name)
    print comma(far_lines) " lines beyond rules, " comma(near_lines) " of rules"
}

# ---- the work, once all files are read

# Imports: only now is it known what each file defines. What a file defines itself goes before what it imports.
function note_imports(    u, file, module, name, as, k) {
    for (u = 1; u <= uses; u++) {
        file = use_file[u]
        module = use_module[u]
        name = use_name[u]
        as = use_as[u]
        if ((file, as) in sight && file_of[sight[file, as]] == file) continue
        if (module == "leaf" || module ~ /^[?]/) {
            see(file, as, module)
            continue
        }
        if (!(module in is_file)) fail(file ": uses " module ", which isn't there")
        k = sight[module, name]
        if (k == "" || file_of[k] != module) k = field[module, name]
        if (k == "") fail(file ": uses " name ", which " module " doesn't define")
        see(file, as, k)
        if ((module, name) in made) made_as[file, as] = 1
    }
}

# What the contract of an entry cites. Its parameters are bound.
function look_into_entry(entry,    f, file, n, i, w, base) {
    f = find(entry)
    if (asks[f]) fail(entry " has a requires")
    if (!promises[f]) fail(entry " has no ensures")
    n = split(signature[f], w, " ")
    base = "result"
    for (i = 1; i <= n; i++) if (w[i] ~ /:$/) base = base " " substr(w[i], 1, length(w[i]) - 1)
    file = f
    sub(/\/[^\/]*$/, "", file)
    for (i = 1; i <= promises[f]; i++) scan(file, entry, "type", promise[f, i], base)
}

# The definitions of CRATE/FILE/NAME,NAME..; its name in the table is told too.
function look_into_theorem(theorem,    n, i, p, name, keys) {
    if (split(theorem, p, "/") != 3) fail(theorem ": not CRATE/FILE/DEFINITION")
    n = split(p[3], name, ",")
    keys = told[theorem] = ""
    for (i = 1; i <= n; i++) {
        if (!((p[1] "/" p[2] "/" name[i]) in from)) fail(p[1] "/" p[2] " has no " name[i])
        keys = keys "\n" p[1] "/" p[2] "/" name[i]
        told[theorem] = told[theorem] (i > 1 ? ", " : "") "`" name[i] "`"
    }
    told[theorem] = told[theorem] " in `" p[1] "/" p[2] "`"
    return keys
}

END {
    if (failed) exit 1
    n = split("( ) { } [ ] , ; | : = \342\206\222 \342\206\220 \342\206\246 \303\227 \342\212\245 Type Unit tt record elim let in", word, " ")
    for (i = 1; i <= n; i++) plain[word[i]] = 1
    note_imports()
    roots = split(entries, root, " ")
    for (r = 1; r <= roots; r++) {
        look_into_entry(root[r])
        close_over(root[r], cites[root[r]], 1)
    }
    theorems = split(statements, theorem, " ")
    for (r = 1; r <= theorems; r++) close_over(theorem[r], look_into_theorem(theorem[r]), 2)
    if (want == "table") print_table()
    else if (want == "numbers") print_numbers()
    else if (want in known) print_closure(want)
    else fail("no entry or theorem is named " want)
}
