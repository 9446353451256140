// Random patterns with numbered comments at every position that layout may have, also inside tokens: `commented SEED COUNT` makes so many,
// and looks whether each style writes every comment, in order. It knows the comments by the numbers that it gave them, and reads no
// trivia. The status is 1 where a comment is lost, or where fewer than half of the patterns are valid.
#include "draw.h"
#include <fancy.h>
#include <inttypes.h>
#include <stdbool.h>
#include <stdio.h>
#include <stdlib.h>
#include <string.h>

enum { CAPACITY = 1 << 16, DEEPEST = 4 };

static char pattern[CAPACITY];
static size_t length, comments, names;

static void put(const char *text) {
    size_t size = strlen(text);
    if (length + size > sizeof pattern) abort();
    memcpy(pattern + length, text, size);
    length += size;
}

// Nothing, whitespace, or a comment: `@`, its number and `;`, which no other text of a pattern has.
static void layout(bool is_verbose) {
    char comment[32];
    bool is_line = is_verbose && below(2) == 0;
    if (is_verbose && below(4) == 0) put(below(2) ? " " : "\n  ");
    if (below(3) > 0) return;
    snprintf(comment, sizeof comment, is_line ? "#@%zu; )\n" : "(?#@%zu; \\) )", comments++);
    put(comment);
}

static void alternation(bool is_verbose, int depth);

static void with_layout(const char *before, bool is_verbose, const char *after) {
    put(before);
    layout(is_verbose);
    put(after);
}

// An escape, or a class, whose hex code has its digits in braces or not.
static void hex_code(bool is_verbose) {
    with_layout("\\x", is_verbose, "");
    if (below(2)) {
        put("61");
        return;
    }
    with_layout("{", is_verbose, "61");
    with_layout("", is_verbose, "}");
}

// Flag letters, after which blanks may be ignored: returns whether they are.
static bool letters(bool is_verbose) {
    static const char *const all[] = {"i", "s", "m", "x"};
    for (size_t left = 1 + below(3); left > 0; left--) {
        const char *letter = all[below(4)];
        with_layout("", is_verbose, letter);
        is_verbose = is_verbose || *letter == 'x';
    }
    layout(is_verbose);
    return is_verbose;
}

// The opening of a named group. In its name `#` and `(?#` begin no comment.
static void name(void) {
    static const char *const openings[][2] = {{"?<", ">"}, {"?'", "'"}, {"?P<", ">"}};
    const char *const *opening = openings[below(3)];
    char text[48];
    snprintf(text, sizeof text, "%s%s%zu%s", opening[0], below(2) ? "#" : "(?#", names++, opening[1]);
    put(text);
}

static void group(bool is_verbose, int depth) {
    static const char *const openings[] = {"", "?:", "?=", "?!", "?<=", "?<!", "?>", "?~", "?~|a|"};
    with_layout("(", is_verbose, "");
    bool inside = is_verbose;
    size_t kind = below(14);
    if (kind < sizeof openings / sizeof *openings) {
        put(openings[kind]);
    } else if (kind == 9) {
        put("?");
        inside = letters(is_verbose);
        put(":");
    } else if (kind == 10) {
        put("?(1)");
        layout(is_verbose);
        put(below(2) ? "a|b" : "|");
        with_layout("", is_verbose, ")");
        return;
    } else if (kind > 11) {
        name();
    } else {
        put("?(");
        alternation(is_verbose, depth + 1);
        put(")a");
    }
    alternation(inside, depth + 1);
    with_layout("", inside, ")");
}

// Returns whether blanks are ignored after it.
static bool atom(bool is_verbose, int depth) {
    switch (below(depth < DEEPEST ? 10 : 7)) {
    case 0: hex_code(is_verbose); return is_verbose;
    case 1:
        put("[b");
        hex_code(is_verbose);
        put("]");
        return is_verbose;
    case 2:
        with_layout("\\b", is_verbose, "{");
        with_layout("", is_verbose, "start");
        with_layout("", is_verbose, "}");
        return is_verbose;
    case 3:
        with_layout("(", is_verbose, "*FAIL)");
        return is_verbose;
    case 4:
        with_layout("(", is_verbose, "?");
        is_verbose = letters(is_verbose);
        put(")");
        return is_verbose;
    case 5:
    case 6: put(below(2) ? "a" : "."); return is_verbose;
    default: group(is_verbose, depth); return is_verbose;
    }
}

static void quantifier(bool is_verbose) {
    if (below(2)) {
        put(below(2) ? "*" : "?");
    } else {
        with_layout("{", is_verbose, "1");
        with_layout("", is_verbose, ",");
        with_layout("", is_verbose, "1");
        with_layout("", is_verbose, "}");
    }
    layout(is_verbose);
    if (below(3) == 0) put("?");
}

static void alternation(bool is_verbose, int depth) {
    for (size_t branches = 1 + below(2); branches > 0; branches--) {
        for (size_t pieces = below(4); pieces > 0; pieces--) {
            layout(is_verbose);
            is_verbose = atom(is_verbose, depth);
            layout(is_verbose);
            if (below(4) == 0) quantifier(is_verbose);
        }
        layout(is_verbose);
        if (branches > 1) put("|");
    }
}

// Whether a text has all the comments, in order, and no other.
static bool has_all(const char *text, size_t size) {
    size_t next = 0;
    for (const char *at = text; (at = memchr(at, '@', size - (size_t)(at - text))) != NULL; at++)
        if (strtoull(at + 1, NULL, 10) != next++) return false;
    return next == comments;
}

int main(int argument_count, char **arguments) {
    static char text[16 * CAPACITY + 1];
    static const uint32_t styles[] = {FANCY_STYLE_KEPT, FANCY_STYLE_VERBOSE, FANCY_STYLE_COMPACT};
    if (argument_count != 3) return 2;
    seed(arguments[1]);
    size_t count = strtoull(arguments[2], NULL, 10), valid = 0, all = 0, lost = 0;
    for (size_t i = 0; i < count; i++) {
        bool is_verbose = below(2);
        uint32_t flags = FANCY_FLAG_UNICODE | (is_verbose ? FANCY_FLAG_IGNORE_SPACE : 0);
        length = comments = names = 0;
        put("()");
        alternation(is_verbose, 0);
        if (fancy_check(pattern, length, flags).status != FANCY_STATUS_OK) continue;
        valid++;
        all += comments;
        for (size_t k = 0; k < sizeof styles / sizeof *styles; k++) {
            fancy_result got = fancy_format(pattern, length, flags, styles[k], 40, text, sizeof text - 1);
            text[got.size] = 0;
            if (got.status == FANCY_STATUS_OK && has_all(text, got.size)) continue;
            lost++;
            printf("lost, style %zu, flags %" PRIu32 ": %.*s\n", k, flags, (int)length, pattern);
        }
    }
    printf("%zu patterns, %zu of them valid, %zu comments: %zu lost\n", count, valid, all, lost);
    return lost > 0 || 2 * valid < count;
}
