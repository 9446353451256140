// Compares what C gets with recorded answers: `from_c FILE [refuse]`, where a line of the file has flags, a pattern, a status,
// and what `fre` writes on standard output and on standard error, in hexadecimal with tabs between; or the word `text`, flags,
// a pattern, and the text that is written for its tree; or the word `characters`, flags, a pattern, and the characters that its node
// matches, or the error. A line of the first kind is answered by `examples/lines.c` with
// buffers of just the size, then with each buffer one too short, which has to be said and to leave every buffer as it was,
// and with `refuse` with the first request of the library for memory refused, then with the second, and so on. Other lines
// are passed over. The status is 1 where an answer is another. It is linked with --wrap for malloc, realloc and free.
#include "records.h"
#include "rows.h"
#include "trivia.h"
#include "format.h"
#include "all.h"
#include "engine.h"
#include "facts.h"

static size_t left_until_refusal; // 0: none is refused
static bool was_refused;
static size_t in_use;

void *__real_malloc(size_t size);
void *__real_realloc(void *old, size_t size);
void __real_free(void *old);

static bool is_refused(void) {
    if (left_until_refusal == 0 || --left_until_refusal > 0) return false;
    return was_refused = true;
}

void *__wrap_malloc(size_t size) {
    void *taken = is_refused() ? NULL : __real_malloc(size);
    in_use += taken != NULL;
    return taken;
}

void *__wrap_realloc(void *old, size_t size) {
    void *taken = is_refused() ? NULL : __real_realloc(old, size);
    in_use += taken != NULL && old == NULL;
    return taken;
}

void __wrap_free(void *old) {
    in_use -= old != NULL;
    __real_free(old);
}

static size_t refused;

// Whether the answer now is the recorded one; where memory was refused, that it was is enough.
static bool is_answered(const char *pattern, size_t length, uint32_t flags, char **fields) {
    answer now;
    size_t left = left_until_refusal;
    left_until_refusal = 0;
    FILE *out = open_memstream(&now.out, &now.out_size), *err = open_memstream(&now.err, &now.err_size);
    left_until_refusal = left;
    size_t before = in_use;
    now.status = write_pattern(out, err, pattern, length, flags);
    bool leaks = in_use != before;
    left_until_refusal = 0;
    fclose(out);
    fclose(err);
    bool is_right = was_refused ? now.status == FANCY_STATUS_OUT_OF_MEMORY : is_recorded(&now, fields);
    forget(&now);
    return is_right && !leaks;
}

static bool is_untouched(const void *buffer, size_t size) {
    const uint8_t *bytes = buffer;
    for (size_t i = 0; i < size; i++)
        if (bytes[i] != 0xA5) return false;
    return true;
}

static void *untouched(size_t size) { return memset(malloc(size + 1), 0xA5, size + 1); }

// Whether a buffer that is one too short is said to be, and every buffer left alone: which of the four it is.
static bool is_tree_short(const char *pattern, size_t length, uint32_t flags, const fancy_info *info, int which) {
    size_t capacities[] = {info->node_count, info->texts_size, info->name_count, info->backref_count};
    size_t sizes[] = {sizeof(fancy_node), 1, sizeof(fancy_name), sizeof(size_t)};
    if (capacities[which] == 0) return true;
    capacities[which]--;
    void *buffers[4];
    for (int i = 0; i < 4; i++) buffers[i] = untouched(capacities[i] * sizes[i]);
    fancy_info again;
    fancy_result got = fancy_parse(pattern, length, flags, buffers[0], capacities[0], buffers[1], capacities[1], buffers[2],
                                   capacities[2], buffers[3], capacities[3], &again);
    bool is_right = got.status == FANCY_STATUS_BUFFER_TOO_SHORT && again.node_count == info->node_count &&
                    again.texts_size == info->texts_size && again.name_count == info->name_count &&
                    again.backref_count == info->backref_count;
    for (int i = 0; i < 4; i++) {
        is_right = is_right && is_untouched(buffers[i], capacities[i] * sizes[i] + 1);
        free(buffers[i]);
    }
    return is_right;
}

// A call that writes a text.
typedef fancy_result writer(const char *pattern, size_t length, uint32_t flags, char *buffer, size_t capacity);

static fancy_result print_whole(const char *pattern, size_t length, uint32_t flags, char *buffer, size_t capacity) {
    return fancy_print(pattern, length, flags, FANCY_PRECEDENCE_WHOLE, buffer, capacity);
}

static fancy_result write_kind(const char *pattern, size_t length, uint32_t kind, char *buffer, size_t capacity) {
    (void)pattern, (void)length;
    return fancy_error_text(kind, buffer, capacity);
}

// The same of a text. A null pointer with a length of 0 is as good as any.
static bool is_text_short(const char *pattern, size_t length, uint32_t flags, writer *call) {
    fancy_result whole = call(pattern, length, flags, NULL, 0);
    if (whole.size == 0) return whole.status != FANCY_STATUS_BUFFER_TOO_SHORT;
    char *buffer = untouched(whole.size - 1);
    fancy_result got = call(pattern, length, flags, buffer, whole.size - 1);
    bool is_right = whole.status == FANCY_STATUS_BUFFER_TOO_SHORT && got.status == whole.status && got.size == whole.size &&
                    is_untouched(buffer, whole.size);
    free(buffer);
    return is_right;
}

// Whether the text of a kind is what the message begins with, which a read pattern has.
static bool is_message_begun(const char *pattern, size_t length, uint32_t flags, fancy_result told) {
    char text[47], *message = malloc(told.size);
    fancy_result begun = fancy_error_text(told.kind, text, sizeof text);
    fancy_result whole = fancy_message(pattern, length, flags, message, told.size);
    bool is_right = begun.status == FANCY_STATUS_OK && begun.size > 0 && whole.status == FANCY_STATUS_REFUSED &&
                    begun.size <= whole.size && memcmp(message, text, begun.size) == 0;
    free(message);
    return is_right;
}

static bool is_short_said(const char *pattern, size_t length, uint32_t flags) {
    fancy_result read = fancy_check(pattern, length, flags);
    fancy_result told = fancy_message(pattern, length, flags, NULL, 0);
    if (told.kind != read.kind || told.position != read.position) return false;
    if (read.status == FANCY_STATUS_REFUSED)
        return is_text_short(pattern, length, flags, fancy_message) && is_message_begun(pattern, length, flags, told);
    fancy_info info;
    fancy_parse(pattern, length, flags, NULL, 0, NULL, 0, NULL, 0, NULL, 0, &info);
    for (int i = 0; i < 4; i++)
        if (!is_tree_short(pattern, length, flags, &info, i)) return false;
    return info.node_count <= 2 * length + 1 && is_text_short(pattern, length, flags, print_whole) &&
           is_text_short(pattern, length, flags, fancy_to_pattern);
}

// Whether each span lies in that of the parent.
static bool are_spans_nested(const tree *t, size_t at) {
    for (size_t child = at + 1; child < t->nodes[at].end; child = t->nodes[child].end)
        if (t->nodes[child].start < t->nodes[at].start || t->nodes[child].stop > t->nodes[at].stop ||
            !are_spans_nested(t, child))
            return false;
    return t->nodes[at].start <= t->nodes[at].stop;
}

static bool are_spans_right(const char *pattern, size_t length, uint32_t flags) {
    tree t;
    bool is_tree = take(&t, pattern, length, flags).status == FANCY_STATUS_OK;
    bool is_right = !is_tree || (t.nodes[0].stop <= length && are_spans_nested(&t, 0));
    release(&t);
    return is_right;
}

// Allocates what a pattern gives, and frees it.
static fancy_result parse_and_free(const char *pattern, size_t length, uint32_t flags) {
    fancy_buffers all;
    fancy_result got = fancy_parse_alloc(pattern, length, flags, &all);
    bool has_none = got.status == FANCY_STATUS_OUT_OF_MEMORY;
    if (has_none && !are_all_zero(&all)) got.status = FANCY_STATUS_OK;
    fancy_buffers_free(&all);
    return got;
}

// Writes the ranges of the last node.
static fancy_result last_ranges(const tree *t, uint32_t flags, fancy_range *ranges, size_t capacity) {
    static const fancy_node none = {.kind = FANCY_NODE_EMPTY, .end = 1};
    const fancy_node *last = t->nodes ? &t->nodes[t->info.node_count - 1] : &none;
    return fancy_node_ranges(last, t->texts, t->info.texts_size, flags, ranges, capacity, NULL);
}

// Writes facts to two halves of a buffer.
static fancy_result facts_in(const char *pattern, size_t length, uint32_t flags, char *text, size_t capacity) {
    size_t half = capacity / 2 / sizeof(fancy_node_facts) * sizeof(fancy_node_facts);
    return fancy_facts(pattern, length, flags, (fancy_node_facts *)(void *)text, half / sizeof(fancy_node_facts), text + half, capacity - half,
                       NULL);
}

// Makes the call of a number, of those that take rows, write a tree at once, write what no node has, format, or allocate; and those for
// engines.
static fancy_result call_with_rows(int which, const tree *t, const char *pattern, size_t length, uint32_t flags, char *text) {
    size_t capacity = CAPACITY(length);
    if (which == 0) return print_rows(t, 0, 0, text, capacity);
    if (which == 1) return write_rows(t, 0, flags, text, capacity);
    if (which == 2) return fancy_tree(pattern, length, flags, NULL, 0, text, capacity, NULL, 0, NULL, 0, NULL);
    if (which == 3) return fancy_trivia(pattern, length, flags, (fancy_trivium *)(void *)text, capacity / sizeof(fancy_trivium), NULL);
    if (which == 6) return parse_and_free(pattern, length, flags);
    if (which == 7) return fancy_escape(pattern, length, flags, text, capacity);
    if (which == 8) return fancy_is_resolved(pattern, length, flags);
    if (which == 9) return fancy_class_ranges(pattern, length, flags, (fancy_range *)(void *)text, capacity / sizeof(fancy_range), NULL);
    if (which == 10) return last_ranges(t, flags, (fancy_range *)(void *)text, capacity / sizeof(fancy_range));
    if (which == 11) return facts_in(pattern, length, flags, text, capacity);
    return fancy_format(pattern, length, flags, which == 4 ? FANCY_STYLE_KEPT : FANCY_STYLE_VERBOSE, 80, text, capacity);
}

// Makes these calls with each request for memory refused in turn: then the status has to say so, and else the result to be the usual one.
// The engine, which reads classes, goes on if some of its requests are refused; then the result is the usual one too.
static bool are_rows_refused_memory(const char *pattern, size_t length, uint32_t flags) {
    tree t;
    take(&t, pattern, length, flags);
    char *text = untouched(CAPACITY(length)), *wanted = untouched(CAPACITY(length));
    bool is_right = true;
    for (int which = t.nodes ? 0 : 2; which < 12; which++) {
        memset(wanted, 0xA5, CAPACITY(length));
        fancy_result usual = call_with_rows(which, &t, pattern, length, flags, wanted);
        for (size_t n = 1; is_right; n++) {
            memset(text, 0xA5, CAPACITY(length));
            left_until_refusal = n;
            was_refused = false;
            size_t before = in_use;
            fancy_result got = call_with_rows(which, &t, pattern, length, flags, text);
            left_until_refusal = 0;
            bool has_none = was_refused && got.status == FANCY_STATUS_OUT_OF_MEMORY && is_untouched(text, CAPACITY(length));
            bool is_usual = is_same_result(got, usual) && memcmp(text, wanted, CAPACITY(length)) == 0;
            is_right = in_use == before && (has_none || (is_usual && (!was_refused || which > 8)));
            if (!was_refused) break;
            refused++;
        }
    }
    was_refused = false;
    free(text);
    free(wanted);
    release(&t);
    return is_right;
}

static bool is_line_right(char **fields, bool refuses) {
    uint32_t flags = 0;
    if (!read_flags(fields[0], &flags)) return strcmp(fields[2], "2") == 0;
    size_t length;
    char *pattern = decode(fields[1], &length);
    bool is_right = is_answered(pattern, length, flags, fields) && is_short_said(pattern, length, flags) &&
                    are_spans_right(pattern, length, flags) && are_rows_right(pattern, length, flags) &&
                    are_trivia_right(pattern, length, flags) && are_formatted_right(pattern, length, flags) &&
                    is_all_right(pattern, length, flags) && are_engine_calls_right(pattern, length, flags) && are_facts_right(pattern, length, flags) &&
                    (!refuses || are_rows_refused_memory(pattern, length, flags));
    for (size_t n = 1; refuses && is_right; n++) {
        left_until_refusal = n;
        was_refused = false;
        is_right = is_answered(pattern, length, flags, fields);
        if (!was_refused) break;
        refused++;
    }
    was_refused = false;
    free(pattern);
    return is_right;
}

// Whether the text that is written for the tree of a pattern is the recorded one, and what it is formatted to is right.
static bool is_written(char **fields) {
    uint32_t flags = 0;
    size_t length, wanted_size;
    if (!read_flags(fields[1], &flags)) return false;
    char *pattern = decode(fields[2], &length), *wanted = decode(fields[3], &wanted_size);
    char *text = malloc(wanted_size + 1);
    fancy_result got = fancy_to_pattern(pattern, length, flags, text, wanted_size);
    bool is_right = got.status == FANCY_STATUS_OK && got.size == wanted_size && memcmp(text, wanted, wanted_size) == 0 &&
                    are_formatted_right(pattern, length, flags);
    free(pattern);
    free(wanted);
    free(text);
    return is_right;
}

// Whether a call wrote the recorded ranges, or returned that there are none. Of an error this looks at the status and the kind.
static bool are_ranges(fancy_result got, const fancy_range *ranges, size_t count, const char *wanted, size_t wanted_size) {
    if (memchr(wanted, ':', wanted_size)) return got.status == FANCY_STATUS_REFUSED && got.kind == FANCY_ERROR_INVALID_CLASS;
    char *text;
    size_t size;
    FILE *out = open_memstream(&text, &size);
    if (got.status == FANCY_STATUS_NOT_ONE_CHARACTER) fputs("not one character", out);
    else if (got.status != FANCY_STATUS_OK) fprintf(out, "status %u", (unsigned)got.status);
    for (size_t i = 0; i < count; i++) fprintf(out, "%s%X-%X", i ? " " : "", (unsigned)ranges[i].first, (unsigned)ranges[i].last);
    fclose(out);
    bool is_same = size == wanted_size && memcmp(text, wanted, size) == 0;
    free(text);
    return is_same;
}

// Whether the node of a pattern, and its text if it is a class, match the recorded characters, or are refused.
static bool has_characters(char **fields) {
    uint32_t flags = 0;
    size_t length, wanted_size, count = 0;
    if (!read_flags(fields[1], &flags)) return false;
    char *pattern = decode(fields[2], &length), *wanted = decode(fields[3], &wanted_size);
    tree t;
    fancy_range ranges[64];
    bool is_right = take_at_once(&t, pattern, length, flags).status == FANCY_STATUS_OK;
    const fancy_node *node = t.nodes;
    fancy_result got = fancy_node_ranges(node, t.texts, t.info.texts_size, flags, ranges, 64, &count);
    is_right = is_right && are_ranges(got, ranges, count, wanted, wanted_size) && got.position == 0;
    if (node->kind == FANCY_NODE_DELEGATE) {
        flags = (flags & FANCY_FLAG_UNICODE) | (node->casei ? FANCY_FLAG_CASEI : 0);
        count = 0;
        got = fancy_class_ranges(t.texts + node->text, node->text_size, flags, ranges, 64, &count);
        // the position of an error is a digit
        is_right = is_right && are_ranges(got, ranges, count, wanted, wanted_size) &&
                   (got.status != FANCY_STATUS_REFUSED || got.position == (size_t)(wanted[0] - '0'));
    }
    release(&t);
    free(pattern);
    free(wanted);
    return is_right;
}

// Nested groups of this many levels, made by hand: what they are printed as has two bytes for each but the last.
static bool is_nest(size_t levels, uint32_t status) {
    fancy_node *nodes = calloc(levels, sizeof *nodes);
    for (size_t i = 0; i < levels; i++) nodes[i].kind = i + 1 < levels ? FANCY_NODE_GROUP : FANCY_NODE_EMPTY, nodes[i].end = levels;
    char text[2000];
    fancy_result got = fancy_print_nodes(nodes, levels, NULL, 0, 0, 0, text, sizeof text);
    bool is_right = got.status == status && got.size == (status == FANCY_STATUS_OK ? 2 * (levels - 1) : 0);
    free(nodes);
    return is_right;
}

// Rows that no pattern has: none, a name, a literal of two characters, a part that ends elsewhere, and deep ones.
static bool are_rows_by_hand_right(void) {
    char text[64];
    fancy_node nodes[] = {{.kind = FANCY_NODE_GROUP, .end = 2}, {.kind = FANCY_NODE_LITERAL, .end = 2, .text = 1, .text_size = 2}};
    fancy_name names[] = {{.text = 0, .text_size = 1, .group = 1}, {.text = 0, .text_size = 1, .group = 2}};
    fancy_result got = fancy_print_nodes(nodes, 2, "nab", 3, 0, 0, text, sizeof text);
    bool is_right = got.status == FANCY_STATUS_OK && got.size == 4 && memcmp(text, "(ab)", 4) == 0;
    got = fancy_to_pattern_nodes(nodes, 2, "nab", 3, 0, names, 2, NULL, 0, text, sizeof text);
    is_right = is_right && got.status == FANCY_STATUS_NO_PATTERN; // it is parsed as two literals
    nodes[1].text_size = 1;
    got = fancy_to_pattern_nodes(nodes, 2, "nab", 3, 0, names, 2, NULL, 0, text, sizeof text);
    is_right = is_right && got.status == FANCY_STATUS_OK && got.size == 7 && memcmp(text, "(?<n>a)", 7) == 0;
    names[0].text = 4; // there is no such text
    is_right = is_right && fancy_to_pattern_nodes(nodes, 2, "nab", 3, 0, names, 1, NULL, 0, text, 64).status == FANCY_STATUS_NO_TREE;
    nodes[1].end = 3;
    return is_right && fancy_print_nodes(nodes, 2, "nab", 3, 0, 0, text, sizeof text).status == FANCY_STATUS_NO_TREE &&
           fancy_print_nodes(nodes, 2, "nab", 3, 2, 0, text, sizeof text).status == FANCY_STATUS_NO_TREE &&
           fancy_print_nodes(NULL, 0, NULL, 0, 0, 0, NULL, 0).status == FANCY_STATUS_NO_TREE &&
           fancy_to_pattern_nodes(NULL, 0, NULL, 0, 0, NULL, 0, NULL, 0, NULL, 0).status == FANCY_STATUS_NO_TREE &&
           fancy_tree(NULL, 0, 0, NULL, 0, NULL, 0, NULL, 0, NULL, 0, NULL).status == FANCY_STATUS_BUFFER_TOO_SHORT &&
           // a null buffer has no capacity, whatever is said of it
           fancy_to_pattern("ab", 2, 0, NULL, 9).status == FANCY_STATUS_BUFFER_TOO_SHORT &&
           fancy_tree("ab", 2, 0, NULL, 9, NULL, 9, NULL, 9, NULL, 9, NULL).status == FANCY_STATUS_BUFFER_TOO_SHORT &&
           is_nest(832, FANCY_STATUS_OK) && is_nest(833, FANCY_STATUS_NO_TREE);
}

// Whether a call returned only a status.
static bool is_only(fancy_result got, uint32_t status) {
    return got.status == status && got.kind == FANCY_ERROR_NONE && got.position == 0 && got.size == 0;
}

static const char *const any_patterns[] = {"", "a|b", "(", "\xff"};

// Whether a number that no precedence has is refused, also if its last byte is one, whatever the pattern, the rows and the flags are.
static bool are_unknown_precedences_refused(void) {
    static const uint32_t unknown[] = {4, 255, 256, 257, 258, 65536, 1u << 24, UINT32_MAX};
    fancy_node empty = {.kind = FANCY_NODE_EMPTY, .end = 1};
    char text[64];
    memset(text, 0xA5, sizeof text);
    bool is_right = true;
    for (size_t i = 0; i < sizeof unknown / sizeof *unknown; i++) {
        for (int k = 0; k < 4; k++) {
            const char *pattern = any_patterns[k];
            uint32_t flags = k % 2 ? FANCY_FLAG_UNICODE : 1024;
            fancy_result got = fancy_print(pattern, strlen(pattern), flags, unknown[i], text, sizeof text);
            is_right = is_right && is_only(got, FANCY_STATUS_UNKNOWN_PRECEDENCE);
        }
        for (size_t rows = 0; rows < 2; rows++) {
            fancy_result got = fancy_print_nodes(&empty, rows, NULL, 0, 0, unknown[i], text, sizeof text);
            is_right = is_right && is_only(got, FANCY_STATUS_UNKNOWN_PRECEDENCE);
        }
    }
    return is_right && is_untouched(text, sizeof text);
}

// Whether what is needed is set as the header says where a buffer is too short: a size, or an info or a count and a size of 0.
static bool is_need_set(void) {
    fancy_info info = {0};
    size_t count = 0;
    fancy_result text = fancy_to_pattern("a|b", 3, 0, NULL, 0), tree = fancy_parse("a|b", 3, 0, NULL, 0, NULL, 0, NULL, 0, NULL, 0, &info);
    bool is_right = text.status == FANCY_STATUS_BUFFER_TOO_SHORT && text.size == 3;
    is_right = is_right && tree.status == FANCY_STATUS_BUFFER_TOO_SHORT && tree.size == 0 && info.node_count == 3;
    tree = fancy_tree("a|b|c", 5, 0, NULL, 0, NULL, 0, NULL, 0, NULL, 0, &info);
    is_right = is_right && tree.status == FANCY_STATUS_BUFFER_TOO_SHORT && tree.size == 0 && info.node_count == 4;
    fancy_result trivia = fancy_trivia("(?i)a(?#b)", 10, 0, NULL, 0, &count);
    is_right = is_right && trivia.status == FANCY_STATUS_BUFFER_TOO_SHORT && trivia.size == 0 && count == 2;
    fancy_result ranges = fancy_class_ranges("[a-cx-zA]", 9, 0, NULL, 0, &count);
    is_right = is_right && ranges.status == FANCY_STATUS_BUFFER_TOO_SHORT && ranges.size == 0 && count == 3;
    fancy_pattern_facts whole = {0, 0, false, false, false};
    fancy_result facts = fancy_facts("ab+", 3, 0, NULL, 0, NULL, 0, &whole);
    return is_right && facts.status == FANCY_STATUS_BUFFER_TOO_SHORT && facts.size == 0 && whole.node_count == 4 && whole.prefix_size == 2;
}

// All that a call may write.
typedef struct {
    fancy_node nodes[3];
    char texts[64];
    fancy_name names[3];
    size_t backrefs[3];
    fancy_info info;
    fancy_trivium trivia[3];
    fancy_range ranges[3];
    fancy_node_facts facts[3];
    fancy_pattern_facts whole;
    size_t count;
} written;

enum { CALLS = 15, CALLS_WITH_SPANS = 13 };

static fancy_result write_all(const char *pattern, size_t length, uint32_t flags, written *to) {
    fancy_buffers all = {to->nodes, 3, to->texts, sizeof to->texts, to->names, 3, to->backrefs, 3, to->trivia, 3, to->info, to->count};
    fancy_result got = fancy_parse_into(pattern, length, flags, &all);
    to->info = all.info;
    to->count = all.trivium_count;
    return got;
}

// Makes the call of a number, of those that take flags: those that leave spans out if a flag says so are last.
static fancy_result call_with_flags(int which, const char *pattern, uint32_t flags, written *to) {
    static const fancy_node empty = {.kind = FANCY_NODE_EMPTY, .end = 1};
    size_t length = strlen(pattern), size = sizeof to->texts;
    fancy_node literal = {.kind = FANCY_NODE_LITERAL, .end = 1, .text_size = length};
    switch (which) {
    case 0: return fancy_check(pattern, length, flags);
    case 1: return fancy_message(pattern, length, flags, to->texts, size);
    case 2: return fancy_print(pattern, length, flags, FANCY_PRECEDENCE_WHOLE, to->texts, size);
    case 3: return fancy_to_pattern(pattern, length, flags, to->texts, size);
    case 4: return fancy_format(pattern, length, flags, FANCY_STYLE_KEPT, 0, to->texts, size);
    case 5: return fancy_trivia(pattern, length, flags, to->trivia, 3, &to->count);
    // a row, or none, which is no tree
    case 6: return fancy_to_pattern_nodes(&empty, length % 2, NULL, 0, 0, NULL, 0, NULL, flags, to->texts, size);
    case 7: return write_all(pattern, length, flags, to);
    case 8: return fancy_escape(pattern, length, flags, to->texts, size);
    case 9: return fancy_is_resolved(pattern, length, flags);
    case 10: return fancy_class_ranges(pattern, length, flags, to->ranges, 3, &to->count);
    case 11: return fancy_node_ranges(&literal, pattern, length, flags, to->ranges, 3, &to->count);
    case 12: return fancy_facts(pattern, length, flags, to->facts, 3, to->texts, size, &to->whole);
    case 13: return fancy_parse(pattern, length, flags, to->nodes, 3, to->texts, size, to->names, 3, to->backrefs, 3, &to->info);
    default: return fancy_tree(pattern, length, flags, to->nodes, 3, to->texts, size, to->names, 3, to->backrefs, 3, &to->info);
    }
}

// Whether a call refuses flags, whatever the pattern is, and writes nothing.
static bool are_flags_refused(int which, uint32_t flags) {
    bool is_right = true;
    for (int i = 0; i < 4; i++) {
        written to;
        memset(&to, 0xA5, sizeof to);
        fancy_result got = call_with_flags(which, any_patterns[i], flags, &to);
        is_right = is_right && is_only(got, FANCY_STATUS_UNKNOWN_FLAG) && is_untouched(&to, sizeof to);
    }
    return is_right;
}

// Whether each call refuses each bit that is no flag, alone and beside flags; and takes all flags, of which one is only for two calls.
static bool are_unknown_flags_refused(void) {
    const uint32_t all = ((uint32_t)1 << strlen(flag_letters)) - 1;
    bool is_right = true;
    for (int which = 0; which < CALLS; which++) {
        for (uint32_t bit = all + 1; bit != 0; bit <<= 1) {
            bool has_spans = which >= CALLS_WITH_SPANS;
            if (has_spans && bit == FANCY_FLAG_WITHOUT_SPANS) continue;
            is_right = is_right && are_flags_refused(which, bit) && are_flags_refused(which, bit | all) &&
                       are_flags_refused(which, bit | FANCY_FLAG_UNICODE | (has_spans ? FANCY_FLAG_WITHOUT_SPANS : 0));
        }
        for (uint32_t flags = 0; flags <= all; flags++) {
            written to;
            is_right = is_right && call_with_flags(which, "a", flags, &to).status == FANCY_STATUS_OK;
        }
    }
    // a style that does not exist is refused first
    return is_right && fancy_format("a", 1, 1024, FANCY_STYLE_COMPACT + 1, 0, NULL, 0).status == FANCY_STATUS_UNKNOWN_STYLE;
}

// Whether the flag leaves the spans out, in both calls that write a tree.
static bool are_spans_left_out(void) {
    bool is_right = FANCY_WITHOUT_SPANS == FANCY_FLAG_WITHOUT_SPANS;
    for (int which = CALLS_WITH_SPANS; which < CALLS; which++) {
        for (int i = 0; i < 2; i++) {
            written to;
            fancy_result got = call_with_flags(which, "ab", FANCY_FLAG_UNICODE | (i ? FANCY_FLAG_WITHOUT_SPANS : 0), &to);
            is_right = is_right && got.status == FANCY_STATUS_OK && to.info.node_count == 3 && to.nodes[0].start == 0 &&
                       to.nodes[0].stop == (i ? 0 : 2) && to.nodes[2].start == (i ? 0 : 1) && to.nodes[2].stop == (i ? 0 : 2);
        }
    }
    return is_right;
}

// What hangs on no pattern: the version; and null pointers, each with a length of 0.
static bool is_rest_right(void) {
    char text[64];
    fancy_info info = {0};
    fancy_node node;
    bool is_right = fancy_version() == FANCY_VERSION && fancy_check(NULL, 0, 0).status == FANCY_STATUS_OK &&
                    fancy_message(NULL, 0, 0, NULL, 0).status == FANCY_STATUS_OK &&
                    fancy_print(NULL, 0, 0, 0, NULL, 0).status == FANCY_STATUS_OK &&
                    fancy_to_pattern(NULL, 0, 0, NULL, 0).status == FANCY_STATUS_OK &&
                    fancy_parse(NULL, 0, 0, NULL, 0, NULL, 0, NULL, 0, NULL, 0, NULL).status ==
                        FANCY_STATUS_BUFFER_TOO_SHORT &&
                    fancy_parse(NULL, 0, 0, &node, 1, NULL, 0, NULL, 0, NULL, 0, &info).status == FANCY_STATUS_OK &&
                    info.node_count == 1 && node.kind == FANCY_NODE_EMPTY && node.start == 0 && node.stop == 0 && node.end == 1;
    is_right = is_right && are_rows_by_hand_right() && are_trivia_by_hand_right() && are_formatted_by_hand_right() &&
               is_large_by_hand_right();
    is_right = is_right && are_unknown_precedences_refused() && is_need_set() && are_unknown_flags_refused() && are_spans_left_out();
    is_right = is_right && is_all_by_hand_right() && are_engine_calls_by_hand_right() && are_facts_by_hand_right() && are_old_names_right();
    for (uint32_t kind = 0; kind < 300; kind++) {
        fancy_result got = fancy_error_text(kind, text, sizeof text);
        is_right = is_right && got.size == strlen(fancy_kind_message(kind)) && memcmp(text, fancy_kind_message(kind), got.size) == 0;
        bool has_text = kind >= FANCY_ERROR_GENERAL_PARSE_ERROR && kind <= FANCY_ERROR_INVALID_GROUP_NAME_BACKREF;
        is_right = is_right && got.status == FANCY_STATUS_OK && (got.size > 0) == has_text && got.size <= 47 &&
                   is_text_short(NULL, 0, kind, write_kind);
    }
    return is_right;
}

int main(int count, char **arguments) {
    FILE *file = fopen(arguments[1], "r");
    char *line = NULL;
    size_t capacity = 0, same = 0, different = !is_rest_right();
    ssize_t size;
    if (different > 0) puts("different: without a pattern");
    while (file && (size = getline(&line, &capacity, file)) > 0) {
        char *fields[5];
        part(line, fields);
        if (!fields[3]) continue; // a tree that is printed, which C cannot make
        bool is_text = strcmp(fields[0], "text") == 0, is_node = strcmp(fields[0], "characters") == 0;
        if (is_text ? is_written(fields) : is_node ? has_characters(fields) : is_line_right(fields, count > 2)) same++;
        else printf("different: %s %s %s\n", fields[0], fields[1], fields[2]), different++;
    }
    free(line);
    if (file) fclose(file);
    printf("%s: %zu same, %zu different, %zu requests refused\n", arguments[1], same, different, refused);
    return !file || different > 0 || same == 0;
}
