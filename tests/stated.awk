# What a file of definitions or proofs states: a header 'KEY.name' for each declaration that is asked for, and its text. A definition, record or data type is
# printed whole, a theorem by its statement alone; above both stand the section headers that bind their variables. Comments are left out.
#
#     NAMES   the names asked for, where a field or a constructor stands for the type that has it; exit status 1 where one is not declared
#     WHOLE   1: also every definition of the file. 2: also every theorem, and the file's `use` lines
#
# Where names are asked for, what the file brings in from files of proofs is printed too, and where each word of what is printed comes from: the module that it is brought in
# from, or a declaration of the file itself, which is then printed whole. So no word of a statement changes its meaning unseen. Operators, and the words that PLAIN matches, are left to tests/symbols.txt.
#
# A line that is neither of a declaration nor a `use`, `mod`, `infix`, `ruleset`, section header or line comment is not understood: it is printed as such, and so is a
# block comment, so that nothing stands in a file unseen.
BEGIN {
    count = split(NAMES, list, " ")
    for (i = 1; i <= count; i++) wanted[list[i]] = 1
    depth = 0
}
function indent(line) { match(line, /^ */); return RLENGTH }
# the name that a line declares, or nothing; whether it is a definition, printed whole, is left in `whole`
function declared(line,    n, w, i, kind) {
    n = split(line, w, " ")
    whole = kind = 0
    for (i = 1; i <= n; i++) {
        if (w[i] == "pub" || w[i] == "private") continue
        if (w[i] == "abbrev" || w[i] == "unfoldable") { whole = 1; continue }
        if (w[i] == "record" || w[i] == "data") { whole = kind = 1; continue }
        return (i < n && (w[i + 1] == ":" || kind)) ? w[i] : ""
    }
    return ""
}
function headers(    i, text) {
    text = ""
    for (i = 1; i <= depth; i++) text = text section[i]
    return text
}
function print_once(name, text) { if (!(name in found)) { found[name] = 1; text = headers() text; shown = shown text; printf "== %s.%s\n%s\n", KEY, name, text } }
# the names that a `use` brings in, each with its module
function bring_in(line,    module, list, n, name, i) {
    sub(/^((unfoldable )?pub )?use +/, "", line)
    module = line; sub(/[ ;].*/, "", module); sub(/\.\{.*/, "", module)
    if (!sub(/^[^{]*\{/, "", line)) { name[1] = module; sub(/.*\./, "", name[1]); brought[name[1]] = module; return }
    sub(/\}.*/, "", line)
    n = split(line, list, /, */)
    for (i = 1; i <= n; i++) { split(list[i], name, " as "); gsub(/ /, "", name[1]); brought[(2 in name) ? name[2] : name[1]] = module; delete name }
}
# where the words of what was printed come from
function words_of(    text, n, w, i, k, places) {
    while (shown != "") {
        text = shown; shown = ""
        gsub(/[(){}.,;:]/, " ", text)
        n = split(text, w, /[ \n]+/)
        for (i = 1; i <= n; i++) {
            if (w[i] in said) continue
            said[w[i]] = 1
            if ((w[i] in brought) && w[i] !~ PLAIN && w[i] !~ /◌/) {
                if (!((k = brought[w[i]]) in from)) place[++places] = k
                from[k] = (from[k] == "" ? "" : from[k] ", ") w[i]
            }
            if ((w[i] in own) && !(w[i] in found)) { found[w[i]] = 1; shown = shown own[w[i]]; printf "== %s.%s\n%s\n", KEY, w[i], own[w[i]] }
        }
    }
    for (i = 1; i <= places; i++) printf "%s: words of %s: %s\n", KEY, place[i], from[place[i]]
}
# a run of lines without an empty one between them is one declaration, or a line of a kind that declares nothing
function ended(    i, name, text, at, signature) {
    if (lines == 0) return
    at = indent(line[1])
    name = declared(line[1])
    if (name == "") {
        # a list of rules may go on for some lines
        if (line[1] ~ /^(pub )?ruleset [^=]*= \($/) { lines = 0; return }
        for (i = 1; i <= lines; i++)
            if (line[i] ~ /^((unfoldable )?pub )?use /) {
                bring_in(line[i])
                if (WHOLE > 1 || (NAMES != "" && line[i] ~ /^use Rattle\.[a-z_]+\.proofs\.|[{ ,][^ ,{]+ as [^ ,}]+[,}]/)) print KEY ": " line[i] }
            else if (line[i] !~ /^(pub )?(mod|ruleset) / && at <= outer) print "== " KEY ": not understood: " line[i]
        lines = 0
        return
    }
    outer = at
    text = ""
    signature = !whole
    for (i = 1; i <= lines; i++) {
        if (signature && i > 1 && indent(line[i]) <= at) break
        text = text line[i] "\n"
    }
    # what stands in a `where` block belongs to the declaration above it
    if (at == (depth ? level[depth] + 2 : 0)) {
        own[name] = headers()
        for (i = 1; i <= lines; i++) own[name] = own[name] line[i] "\n"
        if ((name in wanted) || (WHOLE && !signature) || WHOLE > 1) print_once(name, text)
        if (!signature)
            for (i = 2; i <= lines; i++)
                if (indent(line[i]) > at && ((name = declared(line[i])) in wanted)) print_once(name, text)
    } else if (at < (depth ? level[depth] + 2 : 0)) print "== " KEY ": not understood: " line[1]
    lines = 0
}
/\{-|-\}/ { print "== " KEY ": a block comment: " $0 }
/^ *--/ { next }
/^[[:space:]]*$/ { ended(); next }
{
    if (opening) {
        section[depth] = section[depth] $0 "\n"
        if ($0 ~ /where$/) opening = 0
        next
    }
    if (lines == 0) {
        if ($0 ~ /^infix/) next
        while (depth > 0 && indent($0) <= level[depth]) depth--
    }
    if ($0 ~ /^[[:space:]]*(pub )?module[[:space:]]/) {
        ended()
        while (depth > 0 && indent($0) <= level[depth]) depth--
        depth++
        level[depth] = outer = indent($0)
        section[depth] = $0 "\n"
        opening = ($0 !~ /where$/)
        next
    }
    line[++lines] = $0
}
END {
    ended()
    if (WHOLE < 2 && NAMES != "") words_of()
    for (i = 1; i <= count; i++) if (!(list[i] in found)) { print KEY "." list[i] > "/dev/stderr"; missing = 1 }
    exit missing
}
