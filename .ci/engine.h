// The calls for engines: whether references are resolved, the names of groups, texts as patterns, what a text begins with, and the
// characters of classes.

static bool is_resolved_row(const fancy_node *node, size_t groups) {
    switch (node->kind) {
    case FANCY_NODE_BACKREF:
    case FANCY_NODE_BACKREF_AT_LEVEL:
    case FANCY_NODE_BACKREF_EXISTS_CONDITION:
    case FANCY_NODE_SUBROUTINE_CALL: return node->group <= groups;
    default: return node->kind != FANCY_NODE_AST_NODE;
    }
}

// Whether a pattern is resolved if its rows are, and each group has the name that is given for it, if there is one.
static bool are_references_right(const char *pattern, size_t length, uint32_t flags) {
    tree t;
    fancy_result read = fancy_check(pattern, length, flags), got = fancy_is_resolved(pattern, length, flags);
    if (read.status != FANCY_STATUS_OK) return is_same_result(got, read);
    take_at_once(&t, pattern, length, flags);
    for (size_t i = 0; i < t.info.node_count; i++)
        if (!is_resolved_row(&t.nodes[i], t.info.total_groups)) read.status = FANCY_STATUS_UNRESOLVED;
    bool is_right = is_same_result(got, read);
    size_t named = 0, count = t.info.name_count;
    for (size_t group = 0; group <= t.info.total_groups + 1; group++) {
        size_t index = fancy_group_name(t.names, count, group);
        is_right = is_right && (index == count || (index < count && t.names[index].group == group));
        named += index < count;
    }
    // a group has at most one name
    is_right = is_right && named == count;
    release(&t);
    return is_right;
}

// The size of the character at the front of a text, and its code.
static size_t code_of(const unsigned char *text, uint32_t *code) {
    size_t size = text[0] < 0x80 ? 1 : text[0] < 0xE0 ? 2 : text[0] < 0xF0 ? 3 : 4;
    *code = size == 1 ? text[0] : text[0] & (0xFFu >> (size + 1));
    for (size_t i = 1; i < size; i++) *code = *code << 6 | (text[i] & 0x3F);
    return size;
}

// Whether a text is written as a pattern whose tree is a literal for each character, in order; whether a buffer that is one byte too
// short is said to be, and is left alone; and whether each character is written as in any other text.
static bool is_escaped_right(const char *text, size_t length, uint32_t flags) {
    size_t capacity = 6 * length + 1, at = 0, size = 0, count = 0;
    char *pattern = malloc(capacity), *again = malloc(capacity);
    memset(again, 0xA5, capacity);
    fancy_result got = fancy_escape(text, length, flags, pattern, capacity), read = fancy_check(text, length, flags);
    if (read.status == FANCY_STATUS_NOT_UTF8) {
        free(pattern);
        free(again);
        return is_same_result(got, read);
    }
    fancy_result kept = fancy_escape(text, length, flags, again, got.size == 0 ? 0 : got.size - 1);
    bool is_right = got.status == FANCY_STATUS_OK && got.size >= length && got.size <= 6 * length && kept.size == got.size &&
                    kept.status == (length == 0 ? FANCY_STATUS_OK : FANCY_STATUS_BUFFER_TOO_SHORT);
    for (size_t i = 0; i < got.size; i++) is_right = is_right && (unsigned char)again[i] == 0xA5;
    tree t;
    is_right = is_right && take_at_once(&t, pattern, got.size, flags).status == FANCY_STATUS_OK;
    if (is_right) {
        is_right = t.info.texts_size == length && memcmp(t.texts, text, length) == 0 && t.info.total_groups == 0;
        for (; at < length; count++) {
            uint32_t code;
            size_t bytes = code_of((const unsigned char *)text + at, &code);
            fancy_result one = fancy_escape(text + at, bytes, flags, again, capacity);
            is_right = is_right && size + one.size <= got.size && memcmp(pattern + size, again, one.size) == 0;
            at += bytes;
            size += one.size;
        }
        size_t first = count > 1 ? 1 : 0;
        is_right = is_right && size == got.size && t.info.node_count == first + (count > 0 ? count : 1);
        for (size_t i = first; i < t.info.node_count && count > 0; i++) is_right = is_right && t.nodes[i].kind == FANCY_NODE_LITERAL;
        release(&t);
    }
    free(pattern);
    free(again);
    return is_right;
}

// Whether the id and the number at the front of a text end where they have to, as far as ASCII goes.
static bool is_start_right(const char *text, size_t length) {
    fancy_result read = fancy_check(text, length, 0), id = fancy_parse_id(text, length);
    size_t value = 99, letters = 0, digits = 0, number = 0;
    fancy_result got = fancy_parse_decimal(text, length, &value);
    if (read.status == FANCY_STATUS_NOT_UTF8) return is_same_result(id, read) && is_same_result(got, read) && value == 99;
    bool fits = true;
    for (; digits < length && text[digits] >= '0' && text[digits] <= '9'; digits++) {
        size_t digit = (size_t)(text[digits] - '0');
        fits = fits && number <= (SIZE_MAX - digit) / 10;
        number = number * 10 + digit;
    }
    for (; letters < length; letters++) {
        unsigned char c = (unsigned char)text[letters];
        if (c >= 0x80 || !((c >= '0' && c <= '9') || c == '_' || ((c | 32) >= 'a' && (c | 32) <= 'z'))) break;
    }
    bool ends = letters == length || (unsigned char)text[letters] < 0x80;
    return got.status == FANCY_STATUS_OK && got.kind == FANCY_ERROR_NONE && got.position == 0 && got.size == (fits ? digits : 0) &&
           value == (got.size > 0 ? number : 99) && id.status == FANCY_STATUS_OK && id.kind == FANCY_ERROR_NONE && id.position == 0 &&
           (ends ? id.size == letters : id.size >= letters);
}

static bool is_character(uint32_t code) { return code < 0xD800 || (code > 0xDFFF && code <= 0x10FFFF); }

// Whether the ranges of a text that may be a class are of characters, in order and with gaps; and whether a buffer that is one too short
// is said to be, and is left alone, as it is if there are none.
static bool are_ranges_right(const char *text, size_t length, uint32_t flags) {
    size_t count = SIZE_MAX, again = 0, least = 0;
    fancy_result got = fancy_class_ranges(text, length, flags, NULL, 0, &count), read = fancy_check(text, length, flags);
    if (read.status == FANCY_STATUS_NOT_UTF8) return is_same_result(got, read) && count == SIZE_MAX;
    bool is_class = got.status == FANCY_STATUS_OK || got.status == FANCY_STATUS_BUFFER_TOO_SHORT;
    bool is_right = got.size == 0 && is_class == (count != SIZE_MAX) && (got.status == FANCY_STATUS_OK) == (count == 0);
    bool is_refused = got.status == FANCY_STATUS_REFUSED && got.kind == FANCY_ERROR_INVALID_CLASS && got.position <= length;
    bool is_several = got.status == FANCY_STATUS_NOT_ONE_CHARACTER && got.kind == FANCY_ERROR_NONE && got.position == 0;
    if (!is_class) return is_right && (is_refused || is_several);
    // the last is beyond the capacity
    fancy_range *ranges = malloc((count + 1) * sizeof *ranges);
    memset(ranges, 0xA5, (count + 1) * sizeof *ranges);
    if (count > 0) {
        fancy_result kept = fancy_class_ranges(text, length, flags, ranges, count - 1, &again);
        is_right = is_right && is_same_result(kept, got) && again == count;
    }
    for (size_t i = 0; i <= count; i++) is_right = is_right && ranges[i].first == 0xA5A5A5A5 && ranges[i].last == 0xA5A5A5A5;
    got = fancy_class_ranges(text, length, flags, ranges, count, &again);
    is_right = is_right && got.status == FANCY_STATUS_OK && got.kind == 0 && got.position == 0 && again == count;
    for (size_t i = 0; i < count; i++) {
        is_right = is_right && least <= ranges[i].first && ranges[i].first <= ranges[i].last && is_character(ranges[i].first) &&
                   is_character(ranges[i].last) && (ranges[i].last < 0xD800) == (ranges[i].first < 0xD800);
        least = (size_t)ranges[i].last + 2;
    }
    is_right = is_right && ranges[count].first == 0xA5A5A5A5;
    free(ranges);
    return is_right;
}

// Whether each node of a pattern has the characters of its text, if it is a class, and those of a literal contain it. Without Unicode
// a dot is refused, and a letter beyond ASCII in any case.
static bool are_nodes_ranges_right(const char *pattern, size_t length, uint32_t flags) {
    tree t;
    bool is_right = true;
    take_at_once(&t, pattern, length, flags);
    for (size_t i = 0; i < t.info.node_count; i++) {
        const fancy_node *node = &t.nodes[i];
        const char *text = t.texts + node->text;
        size_t count = 0, of_class = 0;
        fancy_range ranges[16], wanted[16];
        uint32_t case_flags = (flags & FANCY_FLAG_UNICODE) | (node->casei ? FANCY_FLAG_CASEI : 0), code;
        fancy_result got = fancy_node_ranges(node, t.texts, t.info.texts_size, flags, ranges, 16, &count);
        switch (node->kind) {
        case FANCY_NODE_DELEGATE: {
            fancy_result class = fancy_class_ranges(text, node->text_size, case_flags, wanted, 16, &of_class);
            is_right = is_right && got.status == class.status && got.kind == class.kind && got.position == 0 && count == of_class &&
                       (got.status != FANCY_STATUS_OK || memcmp(ranges, wanted, count * sizeof *ranges) == 0);
            break;
        }
        case FANCY_NODE_LITERAL: {
            bool has_itself = false;
            code_of((const unsigned char *)text, &code);
            for (size_t k = 0; k < count && k < 16; k++) has_itself = has_itself || (ranges[k].first <= code && code <= ranges[k].last);
            bool is_right_size = node->casei || (count == 1 && ranges[0].first == ranges[0].last);
            bool is_refused = got.status == FANCY_STATUS_REFUSED && node->casei && code >= 0x80 && !(flags & FANCY_FLAG_UNICODE);
            is_right = is_right && (is_refused || (got.status == FANCY_STATUS_OK && has_itself && is_right_size));
            break;
        }
        case FANCY_NODE_ANY:
            is_right = is_right && got.status == (flags & FANCY_FLAG_UNICODE ? FANCY_STATUS_OK : FANCY_STATUS_REFUSED);
            break;
        default: is_right = is_right && got.status == FANCY_STATUS_NOT_ONE_CHARACTER && count == 0;
        }
    }
    release(&t);
    return is_right;
}

static bool are_engine_calls_right(const char *text, size_t length, uint32_t flags) {
    return are_references_right(text, length, flags) && is_escaped_right(text, length, flags) && is_start_right(text, length) &&
           are_ranges_right(text, length, flags) && are_nodes_ranges_right(text, length, flags);
}

static bool is_escaped(const char *text, uint32_t flags, const char *wanted) {
    char pattern[64];
    fancy_result got = fancy_escape(text, strlen(text), flags, pattern, sizeof pattern);
    return got.status == FANCY_STATUS_OK && got.size == strlen(wanted) && memcmp(pattern, wanted, got.size) == 0;
}

static bool begins_with_id(const char *text, size_t size) { return fancy_parse_id(text, strlen(text)).size == size; }

static bool begins_with_number(const char *text, size_t size, size_t wanted) {
    size_t value = 7;
    fancy_result got = fancy_parse_decimal(text, strlen(text), &value);
    return got.status == FANCY_STATUS_OK && got.size == size && value == wanted && fancy_parse_decimal(text, strlen(text), NULL).size == size;
}

static bool has_ranges(const char *class, uint32_t flags, size_t wanted, uint32_t first, uint32_t last) {
    fancy_range ranges[8];
    size_t count = 99;
    fancy_result got = fancy_class_ranges(class, strlen(class), flags, ranges, 8, &count);
    return got.status == FANCY_STATUS_OK && count == wanted && (wanted == 0 || (ranges[0].first == first && ranges[wanted - 1].last == last));
}

static bool is_no_class(const char *class, uint32_t flags, uint32_t status, size_t position) {
    fancy_result got = fancy_class_ranges(class, strlen(class), flags, NULL, 0, NULL);
    return got.status == status && got.position == position;
}

static bool are_ranges_by_hand_right(void) {
    const uint32_t u = FANCY_FLAG_UNICODE, i = FANCY_FLAG_CASEI;
    const uint32_t refused = FANCY_STATUS_REFUSED, several = FANCY_STATUS_NOT_ONE_CHARACTER;
    bool is_right = has_ranges("[a-cx]", u, 2, 'a', 'x') && has_ranges("[^a]", u, 3, 0, 0x10FFFF) && has_ranges("\\d", 0, 1, '0', '9') &&
                    has_ranges("\\w", 0, 4, '0', 'z') && has_ranges("[k]", u | i, 3, 'K', 0x212A) && has_ranges("[k]", i, 2, 'K', 'k') &&
                    has_ranges("[k]", u | FANCY_FLAG_MULTI, 1, 'k', 'k') && has_ranges("\xc3\xa9", u, 1, 0xE9, 0xE9) &&
                    has_ranges("[a&&b]", u, 0, 0, 0) && has_ranges("(?s:.)", u, 2, 0, 0x10FFFF);
    is_right = is_right && is_no_class("[z-a]", u, refused, 1) && is_no_class("[\xc3\xa9z-a]", u, refused, 3) &&
               is_no_class("\\p{Greeek}", u, refused, 0) && is_no_class("[^a]", 0, refused, 0) && is_no_class("", u, several, 0) &&
               is_no_class("ab", u, several, 0) && is_no_class("[0-[a]b]", u, several, 0) && is_no_class("[a]{2}", u, several, 0);
    // rows by hand: two characters, a text that is not there or not UTF-8, and a node that has no text
    fancy_node node = {.kind = FANCY_NODE_LITERAL, .end = 1, .text_size = 2};
    is_right = is_right && fancy_node_ranges(&node, "ab", 2, u, NULL, 0, NULL).status == several &&
               fancy_node_ranges(&node, "ab", 1, u, NULL, 0, NULL).status == FANCY_STATUS_NO_TREE &&
               fancy_node_ranges(&node, "a\xff", 2, u, NULL, 0, NULL).status == FANCY_STATUS_NO_TREE;
    node.kind = FANCY_NODE_CONCAT;
    return is_right && fancy_node_ranges(&node, NULL, 0, u, NULL, 0, NULL).status == several &&
           is_no_class("a", 1u << 31, FANCY_STATUS_UNKNOWN_FLAG, 0);
}

static bool resolves(const char *pattern, uint32_t flags) {
    return fancy_is_resolved(pattern, strlen(pattern), flags).status == FANCY_STATUS_OK;
}

static bool are_engine_calls_by_hand_right(void) {
    const uint32_t u = FANCY_FLAG_UNICODE, i = u | FANCY_FLAG_CASEI, x = u | FANCY_FLAG_IGNORE_SPACE;
    bool is_right = is_escaped("", u, "") && is_escaped("a-b&c", u, "a-b&c") && is_escaped("1+1=2 #", u, "1\\+1=2 #") &&
                    is_escaped("1+1=2 #", i, "1\\+1=2 #") && is_escaped("1+1=2 #", x, "1\\+1=2\\ \\#") &&
                    is_escaped("1+1=2 #", x | i, "1\\+1=2\\ \\#") &&
                    is_escaped("\\.+*?()|[]{}^$", 0, "\\\\\\.\\+\\*\\?\\(\\)\\|\\[\\]\\{\\}\\^\\$") &&
                    is_escaped("\n\t\r\x01\x7f", i, "\\n\\t\\r\\x01\\x7F") &&
                    is_escaped("\xc3\xa9\xe2\x80\x8b<\xf0\x9f\x98\x80", 0, "\xc3\xa9\\u200B<\xf0\x9f\x98\x80");
    is_right = is_right && begins_with_id("", 0) && begins_with_id("year}", 4) && begins_with_id("_1\xc3\xa9-", 4) &&
               begins_with_id("{a", 0) && begins_with_id("\xd9\xa3\xe2\x85\xa3+", 5) && begins_with_id(" a", 0);
    is_right = is_right && begins_with_number("", 0, 7) && begins_with_number("12a", 2, 12) && begins_with_number("a12", 0, 7) &&
               begins_with_number("007", 3, 7) && begins_with_number("0", 1, 0) && begins_with_number("+1", 0, 7) &&
               begins_with_number("\xd9\xa3", 0, 7) && begins_with_number("18446744073709551615-", 20, SIZE_MAX) &&
               begins_with_number("18446744073709551616", 0, 7) && begins_with_number("99999999999999999999999", 0, 7);
    is_right = is_right && resolves("(a)\\1", u) && resolves("\\g<0>", u) && resolves("a|b", u) && !resolves("(a)\\2", u) &&
               !resolves("(a)\\g<2>", u) && !resolves("(?(2)a|b)(x)", u) && !resolves("\\g<n>", u) && !resolves("(?<n>a)(?<n>b)\\g<n>", u) &&
               resolves("(?<n>a)(?<n>b)\\k<n>", u) && !resolves("(a)\\k<2+1>", u) && !resolves("(?:x(?=\\3))*(a)", u);
    fancy_name names[] = {{0, 1, 2}, {1, 1, 1}, {1, 1, 3}};
    is_right = is_right && fancy_group_name(names, 3, 1) == 1 && fancy_group_name(names, 3, 2) == 0 && fancy_group_name(names, 3, 3) == 2 &&
               fancy_group_name(names, 3, 0) == 3 && fancy_group_name(names, 2, 3) == 2 && fancy_group_name(NULL, 0, 1) == 0;
    char text[8];
    return is_right && are_ranges_by_hand_right() && fancy_escape(NULL, 0, 0, NULL, 0).status == FANCY_STATUS_OK && fancy_parse_id(NULL, 0).status == FANCY_STATUS_OK &&
           fancy_parse_decimal(NULL, 0, NULL).status == FANCY_STATUS_OK && fancy_is_resolved(NULL, 0, 0).status == FANCY_STATUS_OK &&
           fancy_escape("a", 1, 0, NULL, 9).status == FANCY_STATUS_BUFFER_TOO_SHORT &&
           fancy_escape("\xff", 1, 1024, text, 8).status == FANCY_STATUS_UNKNOWN_FLAG;
}

// The old names of two calls. To call them is a warning, which is not wanted here.
#if defined(__GNUC__)
#pragma GCC diagnostic push
#pragma GCC diagnostic ignored "-Wdeprecated-declarations"
#endif
static bool are_old_names_right(void) {
    fancy_node nodes[] = {{.kind = FANCY_NODE_GROUP, .end = 2}, {.kind = FANCY_NODE_ANY, .end = 2, .newline = true}};
    char old[32], new[32];
    fancy_result got = fancy_pattern("(?:a){0,}", 9, 0, old, sizeof old), wanted = fancy_to_pattern("(?:a){0,}", 9, 0, new, sizeof new);
    bool is_right = is_same_result(got, wanted) && got.size == 2 && memcmp(old, new, 2) == 0;
    got = fancy_pattern_nodes(nodes, 2, NULL, 0, 0, NULL, 0, NULL, FANCY_FLAG_DOTNL, old, sizeof old);
    wanted = fancy_to_pattern_nodes(nodes, 2, NULL, 0, 0, NULL, 0, NULL, FANCY_FLAG_DOTNL, new, sizeof new);
    is_right = is_right && is_same_result(got, wanted) && got.status == FANCY_STATUS_OK && memcmp(old, new, got.size) == 0;
    fancy_info info = {0};
    fancy_name none = {0, 0, 0};
    got = fancy_pattern_nodes_nonnull(nodes, 2, "", 0, 1, &none, 0, &info, FANCY_FLAG_DOTNL, old, sizeof old);
    return is_right && got.status == FANCY_STATUS_OK && got.size == 1 && old[0] == '.' &&
           fancy_pattern_nonnull("ab", 2, 0, old, 1).status == FANCY_STATUS_BUFFER_TOO_SHORT;
}
#if defined(__GNUC__)
#pragma GCC diagnostic pop
#endif
