# The program behind .ci/promises: it reads every source once, keeps each definition and what its file imports, and prints at the end.
# It lays words out anew and changes none. Under LC_ALL=C all text is bytes.

BEGIN {
    WIDTH = 120
    while ((got = getline line < theorems) > 0) {
        sub(/#.*/, "", line)
        if (split(line, word, " ") == 1) wanted[word[1]] = 1
    }
    if (got < 0) {
        print "promises: " theorems " cannot be read" >"/dev/stderr"
        failed = 1
        exit 1
    }
}

FNR == 1 {
    file = FILENAME
    files[++file_count] = file
    split(file, part, "/")
    crate_of[file] = part[2]
    side = part[3]
    head = module = owner = ""
    block = modules = 0
}

/^(ghost )?use Rattle[.]/ { import($0); next }
side == "src" { code($0); next }
{ definition($0) }

END {
    for (name in wanted) if (found[name] != 1) {
        printf "promises: theorem %s stands %d times in crates/*/proofs, and should once (.ci/theorems)\n", name, found[name] | "sort >&2"
        failed = 1
    }
    if (failed) exit 1
    follow()
    print_all()
}

# ---- reading

# Keeps where the names of a `use` come from: `Rattle.book.specs.Head.{a, b}` in this file.
function import(line,    at, from, n, i, names) {
    sub(/^(ghost )?use Rattle[.]/, "", line)
    at = index(line, ".{")
    if (!at) return
    from = substr(line, 1, at - 1)
    line = substr(line, at + 2)
    sub(/[}].*/, "", line)
    gsub(/[.]/, "/", from)
    n = split(line, names, /, */)
    for (i = 1; i <= n; i++) imported[file, names[i]] = "crates/" from ".antt"
}

# A line of Rattle. The head of a public function goes on to the brace that opens its body, a type to the brace that closes it. A method has
# the name of its type before its own; of an impl of a trait the ghost members are shown, which say what its methods do.
function code(line,    at) {
    if (line ~ /^impl/) owner = owner_of(line)
    if (line ~ /^pub trait /) { trait = line; sub(/^pub /, "", trait); sub(/ *[{].*/, "", trait); return }
    if (line ~ /^[}]/) owner = trait = ""
    if (trait != "") { asked_of(line); return }
    sub(/^ +/, "", line)
    sub(/ *\/\/.*/, "", line)
    if (head == "" && line !~ /^pub ((extern "C" )?fn|struct|enum) / && !(owner ~ / for / && line ~ /^ghost [A-Za-z_]+ = /)) return
    head = head == "" ? line : head " " line
    if (line !~ /[{}]/) return
    if (head ~ /^pub (struct|enum)/) {
        if (!closing(head, index(head, "{"))) return
        keep("type", head)
    } else if (head ~ /^ghost/) {
        if (!closing(head, index(head, "{"))) return
        sub(/ = [{]/, " {", head)
        keep("function", "impl " owner " " head)
    } else {
        at = body_at(head)
        if (!at) return
        head = substr(head, 1, at - 1)
        if (owner != "") sub(/fn /, "fn " owner "::", head)
        keep("function", head)
    }
    head = ""
}

# A line of a trait: its ghost members and its functions, each with its clauses, go on to the semicolon that ends them.
function asked_of(line) {
    sub(/^ +/, "", line)
    sub(/ *\/\/.*/, "", line)
    if (line == "") return
    head = head == "" ? line : head " " line
    if (line !~ /;$/) return
    sub(/;$/, "", head)
    keep("function", trait " " head)
    head = ""
}

# What an impl is of: a type, or a trait for a type.
function owner_of(line) {
    sub(/^impl(<[^>]*>)? /, "", line)
    sub(/ *[{].*/, "", line)
    if (line !~ / for /) sub(/<.*/, "", line)
    return line
}

# Where the brace is that opens a function's body: the first that opens no clause. 0 if it is still to come.
function body_at(text,    rest, at, close_at) {
    rest = text
    while (match(rest, /[{]/)) {
        if (substr(rest, 1, RSTART - 1) !~ /(requires|ensures|ghost)( [a-z_]+)? *$/) return at + RSTART
        close_at = closing(rest, RSTART)
        if (!close_at) return 0
        at += close_at
        rest = substr(rest, close_at + 1)
    }
    return 0
}

# Where the brace is that closes the one at `from`. 0 if it is still to come.
function closing(text, from,    i, c, depth) {
    for (i = from; i <= length(text); i++) {
        c = substr(text, i, 1)
        if (c == "{") depth++
        if (c == "}" && --depth == 0) return i
    }
    return 0
}

# Keeps an item of this file, in the order of the source.
function keep(kind, text) {
    kind_of[++items] = kind
    text_of[items] = text
    file_of[items] = file
    item_of[file, ++item_count[file]] = items
}

# A line of antt. A definition goes on over the lines that stand deeper than its first, and over its own clauses.
function definition(line,    indent, n, i, public) {
    sub(/(^| +)--( .*)?$/, "", line)
    if (line ~ /^ *$/) return
    match(line, /^ */)
    indent = RLENGTH
    line = substr(line, indent + 1)
    if (module != "") { enter(module " " line); return }
    n = split(line, word, " ")
    if (block && (indent > block_indent || word[1] == block_name || word[1] == "unfolding")) { grow(line, indent, n); return }
    block = 0
    while (modules && indent <= module_indent[modules]) modules--
    if (word[1] == "module") { module_indent[++modules] = indent; enter(line); return }
    for (i = 1; word[i] ~ /^(abbrev|unfoldable|opaque)$/; i++) ;
    public = word[i] == "pub"
    if (public) i++
    if (word[i] == "record" || word[i] == "data") start(word[i], word[i + 1], line, indent)
    else if (word[i + 1] == ":") {
        start("plain", word[i], line, indent)
        if (side == "proofs" && public && word[i] in wanted) { kind_of[block] = "theorem"; found[word[i]]++ }
    }
}

# The opening of a module, which may take several lines: its parameters belong to each definition in it.
function enter(line) {
    module = line
    if (line !~ / where$/) return
    sub(/^module [^ ]+ */, "", line)
    sub(/ *where$/, "", line)
    parameters[modules] = line
    module = ""
}

function start(kind, name, line, indent,    i) {
    sub(/^((abbrev|unfoldable|opaque) )*(pub )?/, "", line)
    keep(kind, line)
    block = items
    block_name = name
    block_indent = indent
    in_body = 0
    for (i = 1; i <= modules; i++) given[block] = given[block] " " parameters[i]
    if (!((file, name) in defined)) defined[file, name] = block
}

# One more line of a definition: a field, a clause of the body, or more of the line before.
function grow(line, indent, n,    i) {
    if (kind_of[block] == "record" || kind_of[block] == "data") {
        if (indent > block_indent + 2 || text_of[block] !~ / where(\n|$)/) text_of[block] = text_of[block] " " line
        else {
            sub(/^pub /, "", line)
            text_of[block] = text_of[block] "\n" line
            if (kind_of[block] == "data") for (i = 1; i <= n && word[i] != ":"; i++) defined[file, word[i]] = block
        }
    } else if (indent == block_indent || in_body) {
        in_body = 1
        if (word[1] != "unfolding") body_of[block] = body_of[block] "\n" sprintf("%" (indent - block_indent) "s", "") line
    } else text_of[block] = text_of[block] " " line
}

# ---- what is cited

# From functions and theorems on to every record that their text names, and so on. Of a plain definition of specs/ the name is kept;
# one of proofs/ belongs to a theorem's statement and is shown whole.
function follow(    i, at) {
    for (i = 1; i <= items; i++) if (kind_of[i] == "function" || kind_of[i] == "theorem") show(i)
    for (at = 1; at <= shown_count; at++) {
        i = shown_at[at]
        cite(file_of[i], given[i] " " text_of[i] (kind_of[i] == "plain" ? body_of[i] : ""))
    }
}

function show(i) {
    if (i in shown) return
    shown[i] = 1
    shown_at[++shown_count] = i
}

function cite(from, text,    n, i, home, id) {
    gsub(/\n[^ ]+ :/, " ", text) # a field's own name
    gsub(/[(){},;\n]/, " ", text)
    n = split(text, word, " ")
    for (i = 1; i <= n; i++) {
        home = (from, word[i]) in imported ? imported[from, word[i]] : from
        if (!((home, word[i]) in defined)) continue
        id = defined[home, word[i]]
        if (kind_of[id] != "plain" || home ~ /^crates\/[^\/]*\/proofs/) show(id)
        else cites[crate_of[from], crate_of[home], word[i]] = 1
    }
}

# ---- printing

function print_all(    i, crate, last) {
    print "What the crates promise: every public function with its contract, the theorems that README names, and the records that"
    print "these cite. Of the other definitions of specs/ only the names stand here. Made by .ci/promises; the gate compares."
    for (i = 1; i <= file_count; i++) {
        crate = crate_of[files[i]]
        if (crate != last) {
            if (i > 1) print_cites(last)
            printf "\n\n== %s ==\n", crate
            last = crate
        }
        print_file(files[i])
    }
    print_cites(last)
}

function print_file(name,    k, id, any) {
    for (k = 1; k <= item_count[name]; k++) {
        id = item_of[name, k]
        if (kind_of[id] != "type" && !(id in shown)) continue
        if (!any++) printf "\n-- %s\n", name
        if (kind_of[id] == "type") print_type(text_of[id])
        else if (kind_of[id] == "function") print_function(text_of[id])
        else print_definition(id)
    }
}

function print_type(text) {
    gsub(/pub /, "", text)
    sub(/, *[}]$/, " }", text)
    wrap("", "    ", text)
}

function print_function(text,    at, clause) {
    at = match(text, / +(requires|ensures|ghost)( [A-Za-z_]+)? *[{]/)
    clause = at ? substr(text, at) : ""
    if (at) text = substr(text, 1, at - 1)
    sub(/^pub /, "", text)
    gsub(/[(] +/, "(", text)
    gsub(/, *[)]/, ")", text)
    wrap("", "        ", text)
    while (match(clause, /[{]/)) {
        at = closing(clause, RSTART)
        wrap("    ", "        ", substr(clause, 1, RSTART - 1) substr(clause, RSTART + 1, at - RSTART - 1))
        clause = substr(clause, at + 1)
    }
}

# A theorem's statement, with the parameters of its modules; a record or data type; or a plain definition with its body.
function print_definition(id,    n, i, lines, text) {
    n = split(text_of[id] body_of[id], lines, "\n")
    text = lines[1]
    if (given[id] != "") sub(/ : /, " :" given[id] " → ", text)
    if (kind_of[id] == "theorem") {
        wrap("theorem ", "        ", text)
        return
    }
    if (text ~ /^(record|data) [^ ]+ : Type 0 where$/) {
        for (i = 2; i <= n; i++) text = text (i > 2 ? "; " : " ") lines[i]
        n = 1
    }
    wrap("", "        ", text)
    for (i = 2; i <= n; i++) if (kind_of[id] == "plain") print lines[i]; else wrap("    ", "        ", lines[i])
}

# What a section names and does not show, a line for each crate that it comes from.
function print_cites(home,    i, from, last, key, part, names, n, any) {
    for (i = 1; i <= file_count; i++) {
        from = crate_of[files[i]]
        if (from == last) continue
        last = from
        n = 0
        for (key in cites) {
            split(key, part, SUBSEP)
            if (part[1] == home && part[2] == from) names[++n] = part[3]
        }
        if (n && !any++) print ""
        if (n) wrap("cites " from ": ", "    ", in_order(names, n))
    }
}

# The first n names, sorted, with commas between.
function in_order(names, n,    i, k, name, text) {
    for (i = 2; i <= n; i++) {
        name = names[i]
        for (k = i - 1; k >= 1 && names[k] > name; k--) names[k + 1] = names[k]
        names[k + 1] = name
    }
    text = names[1]
    for (i = 2; i <= n; i++) text = text ", " names[i]
    return text
}

# Prints a text within WIDTH columns, behind `first` and on further lines behind `more`. A line that is too long is broken in its second
# half, where it costs least.
function wrap(first, more, text,    n, i, k, from, next_from, lead, wide, open, cost, end) {
    n = split(text, word, " ")
    for (i = 1; i <= n; i++) {
        cost[i] = 4 * open + odd_break(word[i - 1], word[i])
        open += opened_by(word[i])
    }
    lead = first
    for (from = 1; from <= n; from = next_from) {
        wide = columns(lead) - 1
        for (i = from; i <= n; i++) {
            wide += columns(word[i]) + 1
            if (wide > WIDTH && i > from) break
            end[i] = wide
        }
        next_from = i
        if (i <= n) for (k = i; k > from + 1 && end[k - 1] > WIDTH / 2; k--) if (cost[k] < cost[next_from]) next_from = k
        for (i = from; i < next_from; i++) lead = lead (i > from ? " " : "") word[i]
        print lead
        lead = more
    }
}

# What a break between two words costs besides the brackets that are open there. It is good before an arrow or a product and after a
# comma; it is bad after an operator, before a field and before what closes.
function odd_break(before, after) {
    if (after ~ /^(→|×|->)$/ || before ~ /[,;]$/) return -1
    if (before ~ /^(≡|≤|<|[+]|[+][+]|∷|→|×|↔|->|=|let|Type|&mut)$/ || before ~ /:$/ || after ~ /^([.].*|⌝|[}]|where|in)$/) return 6
    return 0
}

# How many brackets a word leaves open.
function opened_by(text,    opened) {
    gsub(/⌜/, "(", text)
    gsub(/⌝/, ")", text)
    opened = gsub(/[({]/, "", text)
    return opened - gsub(/[)}]/, "", text)
}

# How many columns a text takes: its bytes, without those that continue a character.
function columns(text) {
    gsub(/[\200-\277]/, "", text)
    return length(text)
}
