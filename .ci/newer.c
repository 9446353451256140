/* A library with the symbols of libfancy that is newer than the header: its minor version is higher, and it returns numbers that the header does not
 * have. The pattern says what has the number: `error`, `status`, `node`, `assertion`, `look`, `verb`, `absent`, `target`, `trivium` or `flags`; any
 * other pattern is valid. `.ci/from-rust` links the crate in `rust/` with it, and `.ci/from-c` loads it from Python. */
#define FANCY_INLINE
#include "../include/fancy.h"

#include <string.h>

enum { NEW = 1000 };
static const char message[] = "A new kind: x";

static bool is(const char *pattern, size_t length, const char *word) {
    return length == strlen(word) && memcmp(pattern, word, length) == 0;
}

static fancy_result result(uint32_t status) {
    fancy_result it = {status, FANCY_ERROR_NONE, 0, 0};
    return it;
}

uint32_t fancy_version(void) { return FANCY_VERSION + 1000; }

fancy_result fancy_message_nonnull(const char *pattern, size_t length, uint32_t flags, char *buffer, size_t capacity) {
    (void)flags;
    if (is(pattern, length, "status")) return result(NEW);
    if (!is(pattern, length, "error")) return result(FANCY_STATUS_OK);
    fancy_result it = {FANCY_STATUS_BUFFER_TOO_SHORT, NEW, 2, sizeof message - 1};
    if (capacity < it.size) return it;
    memcpy(buffer, message, it.size);
    it.status = FANCY_STATUS_REFUSED;
    return it;
}

fancy_result fancy_check_nonnull(const char *pattern, size_t length, uint32_t flags) {
    char buffer[sizeof message];
    return fancy_message_nonnull(pattern, length, flags, buffer, sizeof buffer);
}

fancy_result fancy_error_text_nonnull(uint32_t kind, char *buffer, size_t capacity) {
    (void)kind, (void)buffer, (void)capacity;
    return result(FANCY_STATUS_OK);
}

/* The node that a pattern says, without children. */
static fancy_node node_of(const char *pattern, size_t length) {
    static const struct { const char *word; uint32_t kind, which; } rows[] = {
        {"node", NEW, 0}, {"assertion", FANCY_NODE_ASSERTION, NEW}, {"look", FANCY_NODE_LOOK_AROUND, NEW}, {"verb", FANCY_NODE_VERB, NEW},
        {"absent", FANCY_NODE_ABSENT, NEW}, {"target", FANCY_NODE_AST_NODE, NEW}};
    fancy_node node;
    memset(&node, 0, sizeof node);
    node.kind = FANCY_NODE_EMPTY;
    node.end = 1;
    for (size_t i = 0; i < sizeof rows / sizeof *rows; i++)
        if (is(pattern, length, rows[i].word)) node.kind = rows[i].kind, node.which = rows[i].which;
    return node;
}

fancy_result fancy_tree_nonnull(const char *pattern, size_t length, uint32_t flags, fancy_node *nodes, size_t node_capacity,
                                char *texts, size_t texts_capacity, fancy_name *names, size_t name_capacity, size_t *backrefs,
                                size_t backref_capacity, fancy_info *info) {
    (void)names, (void)name_capacity, (void)backrefs, (void)backref_capacity;
    fancy_result got = fancy_message_nonnull(pattern, length, flags, texts, texts_capacity);
    if (got.status != FANCY_STATUS_OK) return got;
    memset(info, 0, sizeof *info);
    info->node_count = 1;
    if (node_capacity == 0) return result(FANCY_STATUS_BUFFER_TOO_SHORT);
    nodes[0] = node_of(pattern, length);
    return got;
}

fancy_result fancy_parse_nonnull(const char *pattern, size_t length, uint32_t flags, fancy_node *nodes, size_t node_capacity,
                                 char *texts, size_t texts_capacity, fancy_name *names, size_t name_capacity,
                                 size_t *backrefs, size_t backref_capacity, fancy_info *info) {
    return fancy_tree_nonnull(pattern, length, flags, nodes, node_capacity, texts, texts_capacity, names, name_capacity, backrefs,
                              backref_capacity, info);
}

fancy_result fancy_parse_into_nonnull(const char *pattern, size_t length, uint32_t flags, fancy_node *nodes, size_t node_capacity,
                                      char *texts, size_t texts_capacity, fancy_name *names, size_t name_capacity,
                                      size_t *backrefs, size_t backref_capacity, fancy_trivium *trivia, size_t trivium_capacity,
                                      fancy_info *info, size_t *trivium_count) {
    (void)trivia, (void)trivium_capacity;
    *trivium_count = 0;
    return fancy_tree_nonnull(pattern, length, flags, nodes, node_capacity, texts, texts_capacity, names, name_capacity, backrefs,
                              backref_capacity, info);
}

fancy_result fancy_trivia_nonnull(const char *pattern, size_t length, uint32_t flags, fancy_trivium *trivia, size_t capacity,
                                  size_t *count) {
    bool is_kind = is(pattern, length, "trivium"), has_flags = is(pattern, length, "flags");
    fancy_trivium it = {0, 1, is_kind ? NEW : FANCY_TRIVIUM_INLINE_FLAGS, flags, has_flags ? (uint32_t)1 << 20 : flags};
    *count = is_kind || has_flags;
    if (*count > capacity) return result(FANCY_STATUS_BUFFER_TOO_SHORT);
    if (*count > 0) trivia[0] = it;
    return result(FANCY_STATUS_OK);
}

/* The calls that write a text write none, with the status that the pattern says. */
static fancy_result text(const char *pattern, size_t length) { return result(is(pattern, length, "status") ? NEW : FANCY_STATUS_OK); }

fancy_result fancy_print_nonnull(const char *pattern, size_t length, uint32_t flags, uint32_t precedence, char *buffer, size_t capacity) {
    (void)flags, (void)precedence, (void)buffer, (void)capacity;
    return text(pattern, length);
}

fancy_result fancy_to_pattern_nonnull(const char *pattern, size_t length, uint32_t flags, char *buffer, size_t capacity) {
    (void)flags, (void)buffer, (void)capacity;
    return text(pattern, length);
}

fancy_result fancy_format_nonnull(const char *pattern, size_t length, uint32_t flags, uint32_t style, size_t width, char *buffer,
                                  size_t capacity) {
    (void)flags, (void)style, (void)width, (void)buffer, (void)capacity;
    return text(pattern, length);
}

fancy_result fancy_print_nodes_nonnull(const fancy_node *nodes, size_t node_count, const char *texts, size_t texts_size,
                                       size_t index, uint32_t precedence, char *buffer, size_t capacity) {
    (void)nodes, (void)node_count, (void)texts, (void)texts_size, (void)index, (void)precedence, (void)buffer, (void)capacity;
    return result(NEW);
}

fancy_result fancy_to_pattern_nodes_nonnull(const fancy_node *nodes, size_t node_count, const char *texts, size_t texts_size,
                                            size_t index, const fancy_name *names, size_t name_count, const fancy_info *info,
                                            uint32_t flags, char *buffer, size_t capacity) {
    (void)nodes, (void)node_count, (void)texts, (void)texts_size, (void)index, (void)names, (void)name_count, (void)info;
    (void)flags, (void)buffer, (void)capacity;
    return result(NEW);
}

fancy_result fancy_is_resolved_nonnull(const char *pattern, size_t length, uint32_t flags) {
    (void)flags;
    return text(pattern, length);
}

size_t fancy_group_name_nonnull(const fancy_name *names, size_t name_count, size_t group) {
    (void)names, (void)group;
    return name_count;
}

fancy_result fancy_escape_nonnull(const char *words, size_t length, uint32_t flags, char *buffer, size_t capacity) {
    (void)flags, (void)buffer, (void)capacity;
    return text(words, length);
}

fancy_result fancy_class_ranges_nonnull(const char *words, size_t length, uint32_t flags, fancy_range *ranges, size_t capacity, size_t *count) {
    (void)flags, (void)ranges, (void)capacity;
    *count = 0;
    return text(words, length);
}

fancy_result fancy_node_ranges_nonnull(const fancy_node *node, const char *texts, size_t texts_size, uint32_t flags, fancy_range *ranges,
                                       size_t capacity, size_t *count) {
    (void)node, (void)texts, (void)texts_size, (void)flags, (void)ranges, (void)capacity, (void)count;
    return result(NEW);
}

fancy_result fancy_facts_nonnull(const char *pattern, size_t length, uint32_t flags, fancy_node_facts *nodes, size_t node_capacity,
                                 char *prefix, size_t prefix_capacity, fancy_pattern_facts *whole) {
    (void)flags, (void)nodes, (void)node_capacity, (void)prefix, (void)prefix_capacity;
    memset(whole, 0, sizeof *whole);
    return text(pattern, length);
}

fancy_result fancy_parse_id_nonnull(const char *words, size_t length) { return text(words, length); }

fancy_result fancy_parse_decimal_nonnull(const char *words, size_t length, size_t *value) {
    (void)value;
    return text(words, length);
}
