/* Whether standard input is a well-formed XML document, of the plain kind: a declaration, elements with attributes, text and the five named characters; no
 * comments, sections or document types. Ends with status 0 if so, and otherwise with 1 after saying at which byte it is not. */
#include <ctype.h>
#include <stdio.h>
#include <stdlib.h>
#include <string.h>

enum { LARGEST = 4 << 20, DEEPEST = 64, MOST_ATTRIBUTES = 32 };

static char text[LARGEST + 1];
static const char *at = text;

static void wrong(const char *what) {
    printf("byte %ld: %s\n", (long)(at - text), what);
    exit(1);
}

static void spaces(void) {
    while (isspace((unsigned char)*at)) at++;
}

static void expect_text(const char *wanted) {
    if (strncmp(at, wanted, strlen(wanted)) != 0) wrong(wanted);
    at += strlen(wanted);
}

/* A name, as its length. */
static int name(void) {
    const char *start = at;
    if (!isalpha((unsigned char)*at) && *at != '_') wrong("a name is missing");
    while (isalnum((unsigned char)*at) || strchr("_-.:", *at)) {
        if (*at == '\0') break;
        at++;
    }
    return (int)(at - start);
}

/* Characters up to one that ends them: none is a control character, `<` does not stand there, and `&` begins a named character. */
static void characters(const char *ends) {
    static const char *const named[] = {"&amp;", "&lt;", "&gt;", "&quot;", "&apos;"};
    while (*at != '\0' && !strchr(ends, *at)) {
        size_t known = 0;
        if (*at == '<' || ((unsigned char)*at < 32 && !isspace((unsigned char)*at))) wrong("a character that may not stand here");
        if (*at == '&') {
            for (size_t i = 0; i < sizeof named / sizeof *named; i++)
                if (strncmp(at, named[i], strlen(named[i])) == 0) known = strlen(named[i]);
            if (known == 0) wrong("a bare &");
        }
        at += known ? known : 1;
    }
}

/* The attributes of a tag: no name twice. */
static void attributes(void) {
    const char *names[MOST_ATTRIBUTES];
    int lengths[MOST_ATTRIBUTES], count = 0;
    for (;;) {
        const char *before = at;
        char quote[2] = "";
        spaces();
        if (*at == '>' || *at == '/' || *at == '?') return;
        if (at == before) wrong("no space before an attribute");
        if (count == MOST_ATTRIBUTES) wrong("too many attributes");
        names[count] = at;
        lengths[count] = name();
        for (int i = 0; i < count; i++)
            if (lengths[i] == lengths[count] && strncmp(names[i], names[count], (size_t)lengths[i]) == 0) wrong("an attribute twice");
        count++;
        expect_text("=");
        if (*at != '"' && *at != '\'') wrong("a quote is missing");
        quote[0] = *at++;
        characters(quote);
        if (*at++ != quote[0]) wrong("a quote is missing");
    }
}

int main(void) {
    const char *open[DEEPEST];
    int lengths[DEEPEST], depth = 0, roots = 0;
    size_t bytes = fread(text, 1, LARGEST + 1, stdin);
    if (bytes > LARGEST || strlen(text) != bytes) wrong("too long, or a zero byte");
    if (strncmp(at, "<?xml", 5) == 0) {
        at += 5;
        attributes();
        expect_text("?>");
    }
    for (;;) {
        if (depth == 0) spaces();
        else characters("<");
        if (*at == '\0') break;
        if (*at != '<') wrong("text outside the root element");
        if (at[1] == '/') {
            int length;
            at += 2;
            if (depth == 0) wrong("an end with no start");
            const char *start = at;
            length = name();
            depth--;
            if (length != lengths[depth] || strncmp(start, open[depth], (size_t)length) != 0) wrong("an end of another element");
            spaces();
            expect_text(">");
            continue;
        }
        at++;
        if (depth == 0 && roots++) wrong("two root elements");
        if (depth == DEEPEST) wrong("too deep");
        open[depth] = at;
        lengths[depth] = name();
        attributes();
        if (*at == '/') at++;
        else depth++;
        expect_text(">");
    }
    if (depth != 0 || roots != 1) wrong("an element without end, or none at all");
    return 0;
}
