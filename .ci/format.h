// What `fancy_format` writes: compared with what is written here by hand, and checked for any pattern.

typedef struct {
    const char *pattern;
    uint32_t flags, style;
    size_t width;
    const char *text;
} formatted_by_hand;

enum { KEPT = FANCY_STYLE_KEPT, VERBOSE = FANCY_STYLE_VERBOSE, COMPACT = FANCY_STYLE_COMPACT };

static const formatted_by_hand wanted_texts[] = {
    {"", U, KEPT, 0, ""},
    {"(?:a){0,1}|\\x41{2,2}", U, KEPT, 0, "a?|\\x41{2}"},
    // quantifiers of which Oniguruma's syntax has another meaning
    {"a{0,1}+b{0,}", U, KEPT, 0, "a?+b*"},
    {"a{0,1}+b{0,}", UO, KEPT, 0, "a{0,1}+b{0,}"},
    // a group that keeps two tokens apart, and flags that change nothing
    {"(a)\\1(?:2)", U, KEPT, 0, "(a)\\1(?:2)"},
    {"(?i)a(?i)b(?s-m:c)", U, KEPT, 0, "(?i)ab(?s:c)"},
    // comments, of which one that is empty goes
    {"a(?#)b(?# one)", U, KEPT, 0, "ab(?# one)"},
    // blanks within a line and several lines, at the end of one, and before a comment through its end
    {"a  b ", UX, KEPT, 0, "a b"},
    {"a  b \n (?:c){1,}   # one", UX, KEPT, 0, "a  b\n c+   # one"},
    // a line that fits, and others
    {"a|b", U, VERBOSE, 80, "a|b"},
    {"a  b", UX, VERBOSE, 80, "a b"},
    {"(abcd|ef)g", U, VERBOSE, 80, "(abcd|ef)g"},
    {"\xc3\xa9\xc3\xa9|\xc3\xa9", U, VERBOSE, SIZE_MAX, "\xc3\xa9\xc3\xa9|\xc3\xa9"},
    {"a\n b", UX, VERBOSE, 80, "a\nb"},
    {"a #|bcdefghi", U, VERBOSE, 11, "(?x)\n  a\\ \\#\n| bcdefghi"},
    {"a #|bcdefghi", UI, VERBOSE, 11, "(?x)\n  a\\x20\\x23\n| bcdefghi"},
    {"(abcd|ef)g", U, VERBOSE, 8, "(?x)\n(\n    abcd\n  | ef\n)\ng"},
    {"\xc3\xa9\xc3\xa9|\xc3\xa9", U, VERBOSE, 3, "(?x)\n  \xc3\xa9\xc3\xa9\n| \xc3\xa9"},
    {"(?x)\n  \xc3\xa9{0,1}\n| b", U, COMPACT, 0, "\xc3\xa9?|b"},
    {"a # one\n b", UX, COMPACT, 0, "a(?# one)b"},
    {"(?x)\na\\x20\\x23", UI, COMPACT, 0, "a #"},
};

// Whether each is written, and whether a number that no style has is said to be one, for any pattern.
static bool are_formatted_by_hand_right(void) {
    char text[64];
    bool is_right = fancy_format(NULL, 0, 0, KEPT, 0, NULL, 0).status == FANCY_STATUS_OK;
    for (size_t i = 0; i < sizeof wanted_texts / sizeof *wanted_texts; i++) {
        const formatted_by_hand *it = &wanted_texts[i];
        fancy_result got = fancy_format(it->pattern, strlen(it->pattern), it->flags, it->style, it->width, text, sizeof text);
        is_right = is_right && got.status == FANCY_STATUS_OK && got.kind == FANCY_ERROR_NONE && got.position == 0 &&
                   got.size == strlen(it->text) && memcmp(text, it->text, got.size) == 0;
    }
    memset(text, 0xA5, sizeof text);
    const char *patterns[] = {"a", "(", "\xff"};
    uint32_t styles[] = {FANCY_STYLE_COMPACT + 1, UINT32_MAX};
    for (int i = 0; i < 6; i++) {
        fancy_result got = fancy_format(patterns[i / 2], 1, U, styles[i % 2], 80, text, sizeof text);
        is_right = is_right && got.status == FANCY_STATUS_UNKNOWN_STYLE && got.kind == FANCY_ERROR_NONE && got.position == 0 && got.size == 0;
    }
    for (size_t i = 0; i < sizeof text; i++) is_right = is_right && (unsigned char)text[i] == 0xA5;
    return is_right;
}

// Whether a large pattern, whose tree is parsed again if its lines are new, is written as a small one.
static bool is_large_by_hand_right(void) {
    enum { COUNT = 8000, BEFORE = 9, AFTER = 2 };
    char *pattern = malloc(COUNT * BEFORE), *text = malloc(COUNT * BEFORE);
    for (size_t i = 0; i < COUNT; i++) memcpy(pattern + i * BEFORE, "(?:b){1,}", BEFORE);
    bool is_right = true;
    for (uint32_t style = KEPT; style <= COMPACT; style += COMPACT - KEPT) {
        fancy_result got = fancy_format(pattern, COUNT * BEFORE, U, style, 0, text, COUNT * BEFORE);
        is_right = is_right && got.status == FANCY_STATUS_OK && got.size == COUNT * AFTER;
        for (size_t i = 0; is_right && i < COUNT; i++) is_right = memcmp(text + i * AFTER, "b+", AFTER) == 0;
    }
    free(pattern);
    free(text);
    return is_right;
}

// The comments of a pattern that are not empty, one after another, for the caller to free.
static char *comments_of(const char *pattern, size_t length, uint32_t flags, size_t *size) {
    fancy_trivium *trivia = malloc(FANCY_MAX_TRIVIA(length) * sizeof *trivia);
    char *comments = malloc(length + 1);
    size_t count = 0;
    *size = 0;
    fancy_trivia(pattern, length, flags, trivia, FANCY_MAX_TRIVIA(length), &count);
    for (size_t i = 0; i < count; i++) {
        size_t bytes = trivia[i].stop - trivia[i].start;
        bool is_line = trivia[i].kind == FANCY_TRIVIUM_LINE_COMMENT || trivia[i].kind == FANCY_TRIVIUM_INNER_LINE_COMMENT;
        bool is_block = trivia[i].kind == FANCY_TRIVIUM_COMMENT || trivia[i].kind == FANCY_TRIVIUM_INNER_COMMENT;
        bool is_comment = is_line || (is_block && bytes > 4);
        if (!is_comment) continue;
        memcpy(comments + *size, pattern + trivia[i].start, bytes);
        *size += bytes;
    }
    free(trivia);
    return comments;
}

// Whether a text has the comments of a pattern, unless they are written in other delimiters, and is parsed as its tree.
static bool is_read_back(const char *pattern, size_t length, uint32_t flags, uint32_t style, const char *text, size_t text_length) {
    size_t size, text_size;
    char *comments = comments_of(pattern, length, flags, &size), *text_comments = comments_of(text, text_length, flags, &text_size);
    bool is_right = style == FANCY_STYLE_COMPACT || (size == text_size && memcmp(comments, text_comments, size) == 0);
    free(comments);
    free(text_comments);
    tree a, b;
    is_right = take_at_once(&a, pattern, length, flags).status == FANCY_STATUS_OK &&
               take_at_once(&b, text, text_length, flags).status == FANCY_STATUS_OK && is_right && is_same_info(&a.info, &b.info) &&
               is_part(&a, 0, &b) && memcmp(a.texts, b.texts, a.info.texts_size) == 0 &&
               memcmp(a.names, b.names, a.info.name_count * sizeof *a.names) == 0 &&
               memcmp(a.backrefs, b.backrefs, a.info.backref_count * sizeof *a.backrefs) == 0;
    release(&a);
    release(&b);
    return is_right;
}

// Whether a pattern is formatted to a text that reads back as it, and that is formatted already; and whether a buffer that is one
// byte too short is said to be, and is left alone, as it is for an invalid pattern.
static bool is_formatted_right(const char *pattern, size_t length, uint32_t flags, uint32_t style, size_t width) {
    size_t capacity = 512 * length + 1024;
    char *text = malloc(capacity), *again = malloc(capacity);
    memset(again, 0xA5, capacity);
    fancy_result read = fancy_check(pattern, length, flags), got = fancy_format(pattern, length, flags, style, width, text, capacity);
    bool is_right = got.status == read.status && got.kind == read.kind && got.position == read.position;
    fancy_result kept = fancy_format(pattern, length, flags, style, width, again, got.size == 0 ? 0 : got.size - 1);
    uint32_t status = got.size == 0 ? read.status : FANCY_STATUS_BUFFER_TOO_SHORT;
    is_right = is_right && kept.status == status && kept.size == got.size && kept.kind == got.kind && kept.position == got.position;
    for (size_t i = 0; i < got.size; i++) is_right = is_right && (unsigned char)again[i] == 0xA5;
    if (read.status == FANCY_STATUS_OK) {
        fancy_result twice = fancy_format(text, got.size, flags, style, width, again, capacity);
        is_right = is_right && is_read_back(pattern, length, flags, style, text, got.size) && twice.status == FANCY_STATUS_OK &&
                   twice.size == got.size && memcmp(text, again, got.size) == 0;
    }
    free(text);
    free(again);
    return is_right;
}

// All of this for a pattern, valid or not.
static bool are_formatted_right(const char *pattern, size_t length, uint32_t flags) {
    return is_formatted_right(pattern, length, flags, FANCY_STYLE_KEPT, 0) &&
           is_formatted_right(pattern, length, flags, FANCY_STYLE_VERBOSE, 40) &&
           is_formatted_right(pattern, length, flags, FANCY_STYLE_COMPACT, 0);
}
