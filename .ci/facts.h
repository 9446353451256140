// What `fancy_facts` writes: compared with what is written here by hand, and checked for any pattern.

#define ANY SIZE_MAX

typedef struct {
    const char *pattern;
    uint32_t flags;
    const char *prefix; // null if it is not known
    bool is_prefix_whole, is_easy;
    size_t count;
    // min_length, max_length, min_bytes, max_bytes; is_known, can_be_empty, is_constant_length, is_anchored_at_start, .._end
    fancy_node_facts nodes[8];
} facts_by_hand;

#define NONE {0, 0, 0, 0, 0, 0, 0, 0, 0}
#define ONE {1, 1, 1, 1, 1, 0, 1, 0, 0}

static const facts_by_hand wanted_facts[] = {
    {"", U, "", true, true, 1, {{0, 0, 0, 0, 1, 1, 1, 0, 0}}},
    {"a|bc", U, "", false, true, 5, {{1, 2, 1, 2, 1, 0, 0, 0, 0}, ONE, {2, 2, 2, 2, 1, 0, 1, 0, 0}, ONE, ONE}},
    {"ab|ac", U, "a", false, true, 7, {{2, 2, 2, 2, 1, 0, 1, 0, 0}, {2, 2, 2, 2, 1, 0, 1, 0, 0}, ONE, ONE, {2, 2, 2, 2, 1, 0, 1, 0, 0},
                                       ONE, ONE}},
    // characters of two, three and four bytes; and of one to three, since k, K and the Kelvin sign are one letter
    {"\xc3\xa9{2,}", U, "\xc3\xa9", false, true, 2, {{2, ANY, 4, ANY, 1, 0, 0, 0, 0}, {1, 1, 2, 2, 1, 0, 1, 0, 0}}},
    {"\xe2\x82\xac\xf0\x9f\x98\x80", U, "\xe2\x82\xac\xf0\x9f\x98\x80", true, true, 3, {{2, 2, 7, 7, 1, 0, 1, 0, 0},
                                       {1, 1, 3, 3, 1, 0, 1, 0, 0}, {1, 1, 4, 4, 1, 0, 1, 0, 0}}},
    {"(?i)k", U, "", false, true, 1, {{1, 1, 1, 3, 1, 0, 1, 0, 0}}},
    {".?", U, "", false, true, 2, {{0, 1, 0, 4, 1, 1, 0, 0, 0}, {1, 1, 1, 4, 1, 0, 1, 0, 0}}},
    {"[0-9]", 0, "", false, true, 1, {ONE}},
    // anchors: of all branches, of one piece, of a repeat that may take no turn, and of a look-around
    {"^a$", U, "a", true, true, 4, {{1, 1, 1, 1, 1, 0, 1, 1, 1}, {0, 0, 0, 0, 1, 1, 1, 1, 0}, ONE, {0, 0, 0, 0, 1, 1, 1, 0, 1}}},
    {"^|a", U, "", false, true, 3, {{0, 1, 0, 1, 1, 1, 0, 0, 0}, {0, 0, 0, 0, 1, 1, 1, 1, 0}, ONE}},
    {"(^)?", U, "", false, true, 3, {{0, 0, 0, 0, 1, 1, 1, 0, 0}, {0, 0, 0, 0, 1, 1, 1, 1, 0}, {0, 0, 0, 0, 1, 1, 1, 1, 0}}},
    {"(?=^a)", U, "", true, false, 4, {{0, 0, 0, 0, 1, 1, 1, 1, 0}, {1, 1, 1, 1, 1, 0, 1, 1, 0}, {0, 0, 0, 0, 1, 1, 1, 1, 0}, ONE}},
    {"^a", U | FANCY_FLAG_MULTI, "a", true, true, 3, {{1, 1, 1, 1, 1, 0, 1, 0, 0}, {0, 0, 0, 0, 1, 1, 1, 0, 0}, ONE}},
    // a bound of a look-behind
    {"(?<=a|bc)d", U, "d", true, false, 8, {{1, 1, 1, 1, 1, 0, 1, 0, 0}, {0, 0, 0, 0, 1, 1, 1, 0, 0}, {1, 2, 1, 2, 1, 0, 0, 0, 0}, ONE,
                                            {2, 2, 2, 2, 1, 0, 1, 0, 0}, ONE, ONE, ONE}},
    // lengths that do not fit
    {"(?:a{4294967296}){4294967296}", U, "a", false, true, 3, {{SIZE_MAX, ANY, SIZE_MAX, ANY, 1, 0, 0, 0, 0},
                                            {4294967296, 4294967296, 4294967296, 4294967296, 1, 0, 1, 0, 0}, ONE}},
    // what is not known, and what is known below it
    {"(a)\\1", U, NULL, false, false, 4, {NONE, ONE, ONE, NONE}},
    {"a++", U, NULL, false, false, 3, {NONE, {1, ANY, 1, ANY, 1, 0, 0, 0, 0}, ONE}},
    {"(a)|\\R", U, NULL, false, false, 4, {NONE, ONE, ONE, NONE}},
};

static bool are_same_facts(const fancy_node_facts *a, const fancy_node_facts *b) {
    return a->min_length == b->min_length && a->max_length == b->max_length && a->min_bytes == b->min_bytes &&
           a->max_bytes == b->max_bytes && a->is_known == b->is_known && a->can_be_empty == b->can_be_empty &&
           a->is_constant_length == b->is_constant_length && a->is_anchored_at_start == b->is_anchored_at_start &&
           a->is_anchored_at_end == b->is_anchored_at_end;
}

static bool are_facts_by_hand_right(void) {
    fancy_pattern_facts whole = {9, 9, true, true, true};
    bool is_right = fancy_facts(NULL, 0, 0, NULL, 0, NULL, 0, NULL).status == FANCY_STATUS_BUFFER_TOO_SHORT &&
                    fancy_facts(NULL, 0, 0, NULL, 0, NULL, 0, &whole).status == FANCY_STATUS_BUFFER_TOO_SHORT &&
                    whole.node_count == 1 && whole.prefix_size == 0;
    for (size_t i = 0; i < sizeof wanted_facts / sizeof *wanted_facts; i++) {
        const facts_by_hand *it = &wanted_facts[i];
        const char *wanted = it->prefix ? it->prefix : "";
        fancy_node_facts nodes[8];
        char prefix[8];
        fancy_result got = fancy_facts(it->pattern, strlen(it->pattern), it->flags, nodes, 8, prefix, sizeof prefix, &whole);
        is_right = is_right && got.status == FANCY_STATUS_OK && whole.node_count == it->count && whole.is_easy == it->is_easy &&
                   whole.prefix_size == strlen(wanted) && memcmp(prefix, wanted, whole.prefix_size) == 0 &&
                   whole.has_prefix == (it->prefix != NULL) && whole.is_prefix_whole == it->is_prefix_whole;
        for (size_t k = 0; is_right && k < it->count; k++) is_right = are_same_facts(&nodes[k], &it->nodes[k]);
        if (!is_right) return printf("facts: %s\n", it->pattern), false;
    }
    return is_right;
}

// Whether the facts of a node agree with one another. A character has one to four bytes.
static bool are_facts_possible(const fancy_node_facts *it) {
    static const fancy_node_facts none = NONE;
    if (!it->is_known) return are_same_facts(it, &none);
    bool is_limited = it->max_length != ANY;
    return it->min_length <= it->max_length && it->min_bytes <= it->max_bytes && it->min_length <= it->min_bytes &&
           it->min_bytes / 4 <= it->min_length && it->max_length <= it->max_bytes && it->can_be_empty == (it->min_length == 0) &&
           (!is_limited || it->is_constant_length == (it->min_length == it->max_length));
}

// Whether two buffers of which one is one too short are said to be, and both are left alone.
static bool are_facts_kept(const char *pattern, size_t length, uint32_t flags, const fancy_pattern_facts *whole, int which) {
    size_t nodes = whole->node_count, prefix = whole->prefix_size;
    if ((which ? prefix : nodes) == 0) return true;
    fancy_node_facts *rows = memset(malloc(nodes * sizeof *rows), 0xA5, nodes * sizeof *rows);
    char *text = memset(malloc(prefix + 1), 0xA5, prefix + 1);
    fancy_pattern_facts again = {0, 0, false, false, false};
    fancy_result got = fancy_facts(pattern, length, flags, rows, nodes - !which, text, prefix - !!which, &again);
    bool is_right = got.status == FANCY_STATUS_BUFFER_TOO_SHORT && got.kind == 0 && got.position == 0 && got.size == 0 &&
                    again.node_count == nodes && again.prefix_size == prefix;
    for (size_t i = 0; i < nodes * sizeof *rows; i++) is_right = is_right && ((unsigned char *)rows)[i] == 0xA5;
    for (size_t i = 0; i <= prefix; i++) is_right = is_right && (unsigned char)text[i] == 0xA5;
    free(rows);
    free(text);
    return is_right;
}

// All of this for a pattern, valid or not: a row for each node, and a prefix that is no longer than the pattern.
static bool are_facts_right(const char *pattern, size_t length, uint32_t flags) {
    fancy_pattern_facts whole = {99, 99, false, false, false};
    fancy_info info;
    size_t capacity = FANCY_MAX_NODES(length);
    fancy_node_facts *nodes = malloc(capacity * sizeof *nodes);
    char *prefix = malloc(length + 1);
    fancy_result read = fancy_check(pattern, length, flags), got = fancy_facts(pattern, length, flags, nodes, capacity, prefix, length, &whole);
    bool is_right = got.status == read.status && got.kind == read.kind && got.position == read.position && got.size == 0;
    if (read.status == FANCY_STATUS_OK) {
        fancy_parse(pattern, length, flags, NULL, 0, NULL, 0, NULL, 0, NULL, 0, &info);
        is_right = is_right && whole.node_count == info.node_count && whole.prefix_size <= length &&
                   whole.has_prefix == nodes[0].is_known && (whole.has_prefix || (whole.prefix_size == 0 && !whole.is_prefix_whole)) &&
                   are_facts_kept(pattern, length, flags, &whole, 0) && are_facts_kept(pattern, length, flags, &whole, 1);
        for (size_t i = 0; is_right && i < whole.node_count; i++) is_right = are_facts_possible(&nodes[i]);
    } else {
        is_right = is_right && whole.node_count == 99 && whole.prefix_size == 99;
    }
    free(nodes);
    free(prefix);
    return is_right;
}
