# The contract of one function, from what the toolchain makes of its source (rt check --generated): what it requires, and the text of each clause, with every
# name as the toolchain resolved it, and the module that each such name comes from. What the author wrote, comments included, plays no part.
/^use / { module = $2; alias = (NF > 3 && $3 == "as") ? $4 : module; sub(/\.\{.*/, "", alias); sub(/.*\./, "", alias); uses[++count] = $0; name[count] = alias; next }
/^ *--/ { next }
/^ *abbrev (pub )?(requires|ensures)-[^ ]*-text :/ { on = 1 }
/^ *$/ { on = 0 }
on { text = text $0 "\n" }
/^ *requires = / && !asked { asked = 1; asking = 1 }
asking { asks = asks $0 "\n"; if (/;$/) asking = 0 }
END {
    for (i = 1; i <= count; i++)
        if (uses[i] ~ /\{/ || index(text, name[i] ".") || index(asks, name[i] ".")) print uses[i]
    printf "%s%s", asks, text
}
