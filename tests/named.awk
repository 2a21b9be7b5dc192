# The names that docs/COVERAGE.md gives, a line each: 'name CRATE FILE NAME' for a definition or a theorem, 'edit CRATE NAME' for a must-fail edit. An item
# begins with crate/File.name or crate/edit; what follows after a comma is of the same file or crate. Remarks in brackets are no names.
/^\|/ || /^[0-9]\./ {
    text = $0
    gsub(/`[^`]*`/, "", text)
    while (gsub(/\([^()]*\)/, "", text)) continue
    parts = split(text, part, /[|;:]/)
    for (i = 1; i <= parts; i++) {
        crate = file = ""
        items = split(part[i], item, /,| and /)
        for (j = 1; j <= items; j++) {
            name = item[j]
            gsub(/^ +| +$/, "", name)
            sub(/\.$/, "", name)
            if (name ~ /^[a-z_]+\/[A-Z][A-Za-z]*\.[^ ]+$/) {
                crate = file = name
                sub(/\/.*/, "", crate)
                sub(/^[^\/]*\//, "", file)
                name = file
                sub(/\..*/, "", file)
                sub(/^[^.]*\./, "", name)
                print "name", crate, file, name
            } else if (name ~ /^[a-z_]+\/[a-z0-9_]+$/ && name !~ /^(tests|examples|bench|docs|include)\//) {
                crate = name
                file = ""
                sub(/\/.*/, "", crate)
                sub(/^[^\/]*\//, "", name)
                print "edit", crate, name
            } else if (crate != "" && name ~ /^[A-Z][A-Za-z]*\.[^ ]+$/) {
                file = name
                sub(/\..*/, "", file)
                sub(/^[^.]*\./, "", name)
                print "name", crate, file, name
            } else if (crate != "" && file != "" && name ~ /^[^ ]+$/) print "name", crate, file, name
            else if (crate != "" && file == "" && name ~ /^[a-z0-9_]+$/) print "edit", crate, name
            # a name within a sentence; what follows after a comma is of its file too
            else while (match(name, /[a-z_]+\/[A-Z][A-Za-z]*\.[^ .]+/)) {
                split(substr(name, RSTART, RLENGTH), within, /[\/.]/)
                crate = within[1]
                file = within[2]
                print "name", crate, file, within[3]
                name = substr(name, RSTART + RLENGTH)
            }
        }
    }
}
