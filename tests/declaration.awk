# The declaration that a line of a file of definitions or proofs stands in: awk -v LINE=N. What stands in a `where` block belongs to the declaration above it.
function indent(line) { match(line, /^ */); return RLENGTH }
/^ *$/ || /^ *--/ { next }
FNR <= LINE {
    while (depth > 0 && indent($0) <= level[depth]) depth--
    if ($0 ~ /^[[:space:]]*(pub )?module[[:space:]]/) { level[++depth] = indent($0); next }
    if (indent($0) != (depth ? level[depth] + 2 : 0)) next
    words = split($0, word, " ")
    kind = 0
    for (i = 1; i <= words; i++) {
        if (word[i] ~ /^(pub|private|abbrev|unfoldable)$/) continue
        if (word[i] ~ /^(record|data)$/) { kind = 1; continue }
        if (kind || (i < words && word[i + 1] == ":")) name = word[i]
        break
    }
}
END { print name }
