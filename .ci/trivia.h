// What `fancy_trivia` writes: compared with what is written here by hand, and checked for any pattern.

typedef struct {
    const char *pattern;
    uint32_t flags;
    size_t count;
    fancy_trivium trivia[4];
} trivia_by_hand;

enum {
    U = FANCY_FLAG_UNICODE,
    UI = U | FANCY_FLAG_CASEI,
    UX = U | FANCY_FLAG_IGNORE_SPACE,
    UN = U | FANCY_FLAG_IGNORE_NUMBERED_GROUPS_WHEN_NAMED_GROUPS_EXIST,
    UO = U | FANCY_FLAG_ONIGURUMA_MODE,
    UOI = UO | FANCY_FLAG_CASEI,
};

static const trivia_by_hand wanted_trivia[] = {
    {"", U, 0, {{0, 0, 0, 0, 0}}},
    {"a(?#b)c(?i)d(?:e)", U, 4, {{1, 6, FANCY_TRIVIUM_COMMENT, 0, 0}, {7, 11, FANCY_TRIVIUM_INLINE_FLAGS, U, UI},
                                 {12, 15, FANCY_TRIVIUM_OPENING, UI, UI}, {16, 17, FANCY_TRIVIUM_CLOSING, 0, 0}}},
    // after a quantifier, and between an atom and its quantifier
    {"a*(?#b)c", U, 1, {{2, 7, FANCY_TRIVIUM_COMMENT, 0, 0}}},
    {"a(?#b)*", U, 1, {{1, 6, FANCY_TRIVIUM_COMMENT, 0, 0}}},
    // flags inside a group
    {"(?i:a)b", U, 2, {{0, 4, FANCY_TRIVIUM_OPENING, U, UI}, {5, 6, FANCY_TRIVIUM_CLOSING, 0, 0}}},
    {"(?:a(?-i))", UI, 3, {{0, 3, FANCY_TRIVIUM_OPENING, UI, UI}, {4, 9, FANCY_TRIVIUM_INLINE_FLAGS, UI, U},
                           {9, 10, FANCY_TRIVIUM_CLOSING, 0, 0}}},
    {"(a(?i)b)c", U, 1, {{2, 6, FANCY_TRIVIUM_INLINE_FLAGS, U, UI}}},
    // line comments, the last at the end of the pattern
    {"(?x)a # b\nc #", U, 3, {{0, 4, FANCY_TRIVIUM_INLINE_FLAGS, U, UX}, {6, 10, FANCY_TRIVIUM_LINE_COMMENT, 0, 0},
                              {12, 13, FANCY_TRIVIUM_LINE_COMMENT, 0, 0}}},
    // no comments: a character after a backslash, characters of a class
    {"a\\#b", UX, 0, {{0, 0, 0, 0, 0}}},
    {"[(?#)]", U, 0, {{0, 0, 0, 0, 0}}},
    // in a token: the counts of a quantifier, the opening of a group, which may be a part itself, and a hex code in a class
    {"a{1(?#c),2}", U, 1, {{3, 8, FANCY_TRIVIUM_INNER_COMMENT, 0, 0}}},
    {"a{1 #c\n,2}", UX, 1, {{4, 7, FANCY_TRIVIUM_INNER_LINE_COMMENT, 0, 0}}},
    {"((?#b)(?#c)a)", U, 2, {{1, 6, FANCY_TRIVIUM_INNER_COMMENT, 0, 0}, {6, 11, FANCY_TRIVIUM_INNER_COMMENT, 0, 0}}},
    {"((?#c)?:a)", U, 3, {{0, 8, FANCY_TRIVIUM_OPENING, U, U}, {1, 6, FANCY_TRIVIUM_INNER_COMMENT, 0, 0},
                          {9, 10, FANCY_TRIVIUM_CLOSING, 0, 0}}},
    {"[a\\x(?#c){61}]", U, 1, {{4, 9, FANCY_TRIVIUM_INNER_COMMENT, 0, 0}}},
    // a character of two bytes, and a flag that is set
    {"\xc3\xa9(?#\xc3\xa9)", U, 1, {{2, 8, FANCY_TRIVIUM_COMMENT, 0, 0}}},
    {"(?s)", U, 1, {{0, 4, FANCY_TRIVIUM_INLINE_FLAGS, U, U | FANCY_FLAG_DOTNL}}},
    // the parentheses of a group without a name that has no number
    {"(a)(?<n>b)", UN, 2, {{0, 1, FANCY_TRIVIUM_OPENING, UN, UN}, {2, 3, FANCY_TRIVIUM_CLOSING, 0, 0}}},
    // all but the condition of a conditional without branches; comments are apart, and blanks are not
    {"(a)(?(1)|)", U, 2, {{3, 6, FANCY_TRIVIUM_DROPPED, 0, 0}, {7, 10, FANCY_TRIVIUM_DROPPED, 0, 0}}},
    {"(a)(?(1))", U, 2, {{3, 6, FANCY_TRIVIUM_DROPPED, 0, 0}, {7, 9, FANCY_TRIVIUM_DROPPED, 0, 0}}},
    {"(a)(?(1) (?#c)| )", UX, 4, {{3, 6, FANCY_TRIVIUM_DROPPED, 0, 0}, {7, 9, FANCY_TRIVIUM_DROPPED, 0, 0},
                                  {9, 14, FANCY_TRIVIUM_COMMENT, 0, 0}, {14, 17, FANCY_TRIVIUM_DROPPED, 0, 0}}},
    {"(?(a(?#c))|)", U, 3, {{0, 3, FANCY_TRIVIUM_DROPPED, 0, 0}, {4, 9, FANCY_TRIVIUM_COMMENT, 0, 0},
                            {9, 12, FANCY_TRIVIUM_DROPPED, 0, 0}}},
    {"(a)(?(1)b|)", U, 0, {{0, 0, 0, 0, 0}}},
    // a quantifier that an Empty ignores
    {"(?i)a(?:)*b", UO, 4, {{0, 4, FANCY_TRIVIUM_INLINE_FLAGS, UO, UOI}, {5, 8, FANCY_TRIVIUM_OPENING, UOI, UOI},
                            {8, 9, FANCY_TRIVIUM_CLOSING, 0, 0}, {9, 10, FANCY_TRIVIUM_DROPPED, 0, 0}}},
    {"a(?:)*+", UO, 4, {{1, 4, FANCY_TRIVIUM_OPENING, UO, UO}, {4, 5, FANCY_TRIVIUM_CLOSING, 0, 0},
                        {5, 6, FANCY_TRIVIUM_DROPPED, 0, 0}, {6, 7, FANCY_TRIVIUM_DROPPED, 0, 0}}},
    {"(?i){1}(?#c)?", UO, 4, {{0, 4, FANCY_TRIVIUM_INLINE_FLAGS, UO, UOI}, {4, 7, FANCY_TRIVIUM_DROPPED, 0, 0},
                              {7, 12, FANCY_TRIVIUM_COMMENT, 0, 0}, {12, 13, FANCY_TRIVIUM_DROPPED, 0, 0}}},
};

static bool is_trivium(const fancy_trivium *a, const fancy_trivium *b) {
    return a->start == b->start && a->stop == b->stop && a->kind == b->kind && a->flags_before == b->flags_before &&
           a->flags_after == b->flags_after;
}

static bool are_trivia_by_hand_right(void) {
    size_t count = 1;
    bool is_right = fancy_trivia(NULL, 0, 0, NULL, 0, NULL).status == FANCY_STATUS_OK &&
                    fancy_trivia(NULL, 0, 0, NULL, 0, &count).status == FANCY_STATUS_OK && count == 0;
    for (size_t i = 0; i < sizeof wanted_trivia / sizeof *wanted_trivia; i++) {
        const trivia_by_hand *it = &wanted_trivia[i];
        fancy_trivium trivia[4];
        fancy_result got = fancy_trivia(it->pattern, strlen(it->pattern), it->flags, trivia, 4, &count);
        is_right = is_right && got.status == FANCY_STATUS_OK && count == it->count;
        for (size_t k = 0; is_right && k < count; k++) is_right = is_trivium(&trivia[k], &it->trivia[k]);
    }
    return is_right;
}

// Whether a trivium is written as its kind is, and has flags only if its kind has.
static bool is_text_of_kind(const fancy_trivium *it, const char *pattern, size_t length) {
    char first = pattern[it->start], last = pattern[it->stop - 1];
    bool has_no_flags = it->flags_before == 0 && it->flags_after == 0, are_flags = (it->flags_before | it->flags_after) < 512;
    switch (it->kind) {
    case FANCY_TRIVIUM_COMMENT:
    case FANCY_TRIVIUM_INNER_COMMENT:
        return has_no_flags && it->stop - it->start >= 4 && memcmp(pattern + it->start, "(?#", 3) == 0 && last == ')';
    case FANCY_TRIVIUM_LINE_COMMENT:
    case FANCY_TRIVIUM_INNER_LINE_COMMENT: return has_no_flags && first == '#' && (last == '\n' || it->stop == length);
    case FANCY_TRIVIUM_INLINE_FLAGS: return are_flags && first == '(' && last == ')';
    // that of a group without a name is its parenthesis, with the comments and the ignored whitespace after it
    case FANCY_TRIVIUM_OPENING:
        return are_flags && first == '(' && (last == ':' || it->stop - it->start == 1 || pattern[it->start + 1] != '?');
    case FANCY_TRIVIUM_CLOSING: return has_no_flags && it->stop - it->start == 1 && first == ')';
    case FANCY_TRIVIUM_DROPPED: return has_no_flags && memchr("()|*+?{ \t\n\r", first, 11) != NULL;
    default: return false;
    }
}

static bool is_inner(const fancy_trivium *it) {
    return it->kind == FANCY_TRIVIUM_INNER_COMMENT || it->kind == FANCY_TRIVIUM_INNER_LINE_COMMENT;
}

// Whether they follow one another, and each closing parenthesis has its opening before it. A comment inside a token may be in the
// part before it.
static bool are_in_order(const fancy_trivium *trivia, size_t count, const char *pattern, size_t length) {
    size_t start = 0, end = 0, open = 0;
    for (size_t i = 0; i < count; i++) {
        const fancy_trivium *it = &trivia[i];
        if (it->stop <= it->start || it->stop > length || !is_text_of_kind(it, pattern, length)) return false;
        if (is_inner(it) && it->start > start && it->stop <= end) {
            start = it->stop - 1;
            continue;
        }
        if (it->start < end) return false;
        if (it->kind == FANCY_TRIVIUM_CLOSING && open-- == 0) return false;
        open += it->kind == FANCY_TRIVIUM_OPENING;
        start = it->start;
        end = it->stop;
    }
    return open == 0;
}

// Whether a buffer that is one too short is said to be, and is left alone, as it is for an invalid pattern.
static bool are_trivia_kept(const char *pattern, size_t length, uint32_t flags, fancy_trivium *trivia, size_t count) {
    size_t capacity = count == 0 ? 0 : count - 1, again = 99;
    memset(trivia, 0xA5, (capacity + 1) * sizeof *trivia);
    fancy_result read = fancy_check(pattern, length, flags), got = fancy_trivia(pattern, length, flags, trivia, capacity, &again);
    bool is_right = got.kind == read.kind && got.position == read.position && got.size == 0;
    if (read.status != FANCY_STATUS_OK) is_right = is_right && got.status == read.status && again == 99;
    else is_right = is_right && got.status == (count == 0 ? FANCY_STATUS_OK : FANCY_STATUS_BUFFER_TOO_SHORT) && again == count;
    for (size_t i = 0; i < (capacity + 1) * sizeof *trivia; i++) is_right = is_right && ((unsigned char *)trivia)[i] == 0xA5;
    return is_right;
}

// All of this for a pattern, valid or not.
static bool are_trivia_right(const char *pattern, size_t length, uint32_t flags) {
    fancy_trivium *trivia = malloc(FANCY_MAX_TRIVIA(length) * sizeof *trivia);
    size_t count = 0;
    fancy_result got = fancy_trivia(pattern, length, flags, trivia, FANCY_MAX_TRIVIA(length), &count);
    bool is_right = got.status == fancy_check(pattern, length, flags).status && count <= length &&
                    are_in_order(trivia, count, pattern, length) && are_trivia_kept(pattern, length, flags, trivia, count);
    free(trivia);
    return is_right;
}
