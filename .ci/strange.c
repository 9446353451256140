/* A library with the symbols of libfancy that returns what `fancy.h` rules out: wrong counts, kinds, ends, spans, sizes and bools, and texts that
 * are not UTF-8. It keeps to the capacities of the buffers, and writes as many items as it says, since no caller can see to that. `.ci/from-rust`
 * links the crate in `rust/` with it. The answers are drawn at random, always the same; it is for one thread. */
#include "../include/fancy.h"

#include <string.h>

static uint64_t state = 88172645463325252u;

static uint64_t draw(void) {
    state ^= state << 13;
    state ^= state >> 7;
    state ^= state << 17;
    return state;
}

static size_t below(size_t bound) { return (size_t)((draw() >> 11) % bound); }

static uint32_t flags_drawn(void) { return (uint32_t)below(512); }

/* A number that is small, near a size, or as large as there is. */
static size_t number(size_t size) {
    switch (below(6)) {
    case 0: return below(4);
    case 1: return size + below(3) - 1;
    case 2: return SIZE_MAX - below(2);
    case 3: return size * (1 + below(70));
    case 4: return (size_t)draw();
    default: return below(size + 1);
    }
}

static fancy_result result(uint32_t status, uint32_t kind, size_t position, size_t size) {
    fancy_result it = {status, kind, position, size};
    return it;
}

static fancy_result any_result(size_t size) {
    return result((uint32_t)below(FANCY_STATUS_NOT_ONE_CHARACTER + 1), (uint32_t)(below(20) ? below(20) : draw()), number(size), number(size));
}

static void write_noise(void *buffer, size_t size) {
    unsigned char *bytes = buffer;
    for (size_t i = 0; i < size; i++) bytes[i] = (unsigned char)draw();
}

/* Writes noise over the items that a call says it wrote. More than the capacity are none. */
static void write_items(void *buffer, size_t count, size_t capacity, size_t size) {
    if (count <= capacity) write_noise(buffer, count * size);
}

uint32_t fancy_version(void) { return below(200) ? FANCY_VERSION : (uint32_t)draw(); }

fancy_result fancy_check_nonnull(const char *pattern, size_t length, uint32_t flags) {
    (void)pattern, (void)flags;
    return below(2) ? result(FANCY_STATUS_OK, 0, 0, 0) : any_result(length);
}

/* A text: one that is right, one that is not UTF-8, or none. */
static fancy_result text(uint32_t status, size_t length, char *buffer, size_t capacity) {
    static const char words[] = "Invalid escape: \\y, General parsing error: \xc3\xa9";
    size_t size = below(sizeof words);
    if (below(4) == 0) {
        fancy_result it = any_result(length);
        write_items(buffer, it.size, capacity, 1);
        return it;
    }
    if (size > capacity) return result(FANCY_STATUS_BUFFER_TOO_SHORT, 0, 0, size);
    memcpy(buffer, words, size);
    return result(status, FANCY_ERROR_INVALID_ESCAPE, below(length + 2), size);
}

fancy_result fancy_message_nonnull(const char *pattern, size_t length, uint32_t flags, char *buffer, size_t capacity) {
    (void)pattern, (void)flags;
    return text(FANCY_STATUS_REFUSED, length, buffer, capacity);
}

fancy_result fancy_error_text_nonnull(uint32_t kind, char *buffer, size_t capacity) {
    (void)kind;
    return text(FANCY_STATUS_OK, 47, buffer, capacity);
}

fancy_result fancy_print_nonnull(const char *pattern, size_t length, uint32_t flags, uint32_t precedence, char *buffer,
                                 size_t capacity) {
    (void)pattern, (void)flags, (void)precedence;
    return text(FANCY_STATUS_OK, length, buffer, capacity);
}

fancy_result fancy_to_pattern_nonnull(const char *pattern, size_t length, uint32_t flags, char *buffer, size_t capacity) {
    (void)pattern, (void)flags;
    return text(FANCY_STATUS_OK, length, buffer, capacity);
}

fancy_result fancy_format_nonnull(const char *pattern, size_t length, uint32_t flags, uint32_t style, size_t width,
                                  char *buffer, size_t capacity) {
    (void)pattern, (void)flags, (void)style, (void)width;
    return text(below(8) ? FANCY_STATUS_OK : FANCY_STATUS_UNKNOWN_STYLE, length, buffer, capacity);
}

fancy_result fancy_print_nodes_nonnull(const fancy_node *nodes, size_t node_count, const char *texts, size_t texts_size,
                                       size_t index, uint32_t precedence, char *buffer, size_t capacity) {
    (void)nodes, (void)texts, (void)texts_size, (void)index, (void)precedence;
    return text(below(8) ? FANCY_STATUS_OK : FANCY_STATUS_NO_TREE, node_count, buffer, capacity);
}

fancy_result fancy_to_pattern_nodes_nonnull(const fancy_node *nodes, size_t node_count, const char *texts, size_t texts_size,
                                            size_t index, const fancy_name *names, size_t name_count, const fancy_info *info,
                                            uint32_t flags, char *buffer, size_t capacity) {
    (void)nodes, (void)texts, (void)texts_size, (void)index, (void)names, (void)name_count, (void)info, (void)flags;
    return text(below(8) ? FANCY_STATUS_OK : FANCY_STATUS_NO_PATTERN, node_count, buffer, capacity);
}

fancy_result fancy_is_resolved_nonnull(const char *pattern, size_t length, uint32_t flags) {
    (void)pattern, (void)flags;
    return below(2) ? result(below(2) ? FANCY_STATUS_OK : FANCY_STATUS_UNRESOLVED, 0, 0, 0) : any_result(length);
}

fancy_result fancy_escape_nonnull(const char *words, size_t length, uint32_t flags, char *buffer, size_t capacity) {
    (void)words, (void)flags;
    return text(FANCY_STATUS_OK, length, buffer, capacity);
}

/* Ranges that may be in order, of which one may be no range. */
static fancy_result ranges_of(size_t length, fancy_range *ranges, size_t capacity, size_t *count) {
    uint32_t next = 0;
    *count = below(8) ? below(capacity + 1) : number(capacity);
    for (size_t i = 0; i < capacity; i++) {
        fancy_range it = {next, next + (uint32_t)below(9)};
        ranges[i] = it;
        next = it.last + 2 + (uint32_t)below(9);
    }
    if (below(4) == 0) ranges[below(capacity)].first = (uint32_t)draw();
    if (below(4) == 0) ranges[below(capacity)].last = (uint32_t)number(0x110000);
    return below(2) ? result(FANCY_STATUS_OK, 0, 0, 0) : any_result(length);
}

fancy_result fancy_class_ranges_nonnull(const char *words, size_t length, uint32_t flags, fancy_range *ranges, size_t capacity,
                                        size_t *count) {
    (void)words, (void)flags;
    return ranges_of(length, ranges, capacity, count);
}

fancy_result fancy_node_ranges_nonnull(const fancy_node *node, const char *texts, size_t texts_size, uint32_t flags,
                                       fancy_range *ranges, size_t capacity, size_t *count) {
    (void)node, (void)texts, (void)flags;
    return ranges_of(texts_size, ranges, capacity, count);
}

/* Facts of any nodes, and a prefix that may be no text. */
fancy_result fancy_facts_nonnull(const char *pattern, size_t length, uint32_t flags, fancy_node_facts *nodes, size_t node_capacity,
                                 char *prefix, size_t prefix_capacity, fancy_pattern_facts *whole) {
    (void)pattern, (void)flags;
    write_noise(whole, sizeof *whole);
    write_noise(nodes, node_capacity * sizeof *nodes);
    memset(prefix, 'a', prefix_capacity);
    if (below(4) == 0) write_noise(prefix, prefix_capacity);
    whole->node_count = below(8) ? below(node_capacity + 1) : number(node_capacity);
    whole->prefix_size = below(8) ? below(prefix_capacity + 1) : number(prefix_capacity);
    if (below(8) == 0) return result(FANCY_STATUS_BUFFER_TOO_SHORT, 0, 0, 0);
    return below(4) ? result(FANCY_STATUS_OK, 0, 0, 0) : any_result(length);
}

fancy_result fancy_parse_id_nonnull(const char *words, size_t length) {
    (void)words;
    return below(2) ? result(FANCY_STATUS_OK, 0, 0, below(length + 1)) : any_result(length);
}

fancy_result fancy_parse_decimal_nonnull(const char *words, size_t length, size_t *value) {
    (void)words;
    *value = number(length);
    return below(2) ? result(FANCY_STATUS_OK, 0, 0, below(length + 1)) : any_result(length);
}

/* Any parts of the pattern, one of which may be none. */
fancy_result fancy_trivia_nonnull(const char *pattern, size_t length, uint32_t flags, fancy_trivium *trivia, size_t capacity,
                                  size_t *count) {
    (void)pattern, (void)flags;
    *count = below(8) ? below(capacity + 1) : number(capacity);
    for (size_t i = 0; i < capacity; i++) {
        size_t start = below(length + 1);
        fancy_trivium it = {start, start + below(length + 1 - start), 1 + (uint32_t)below(6), flags_drawn(), flags_drawn()};
        trivia[i] = it;
    }
    switch (below(8)) {
    case 0: trivia[0].kind = (uint32_t)number(6); break;
    case 1: trivia[0].start = number(length); break;
    case 2: trivia[0].stop = number(length); break;
    case 3: trivia[0].flags_before = (uint32_t)draw(); break;
    case 4: trivia[0].flags_after = (uint32_t)draw(); break;
    case 5: write_noise(trivia, below(capacity + 1) * sizeof *trivia); break;
    case 6: return any_result(length);
    }
    return result(FANCY_STATUS_OK, 0, 0, 0);
}

/* ---- trees */

static const unsigned char leaves[] = {1, 2, 3, 4, 5, 6, 12, 13, 14, 16, 17, 18, 20, 21, 24};
static const unsigned char parents[] = {FANCY_NODE_GROUP, FANCY_NODE_LOOK_AROUND, FANCY_NODE_REPEAT, FANCY_NODE_ATOMIC_GROUP,
                                        FANCY_NODE_DEFINE_GROUP};

typedef struct {
    fancy_node *nodes;
    size_t capacity, count, texts_size;
} tree;

/* Writes a node with descendants, and returns whether there was capacity for it. */
static bool grow(tree *t, size_t levels) {
    if (t->count == t->capacity) return false;
    size_t index = t->count++, children = 0;
    fancy_node *node = &t->nodes[index];
    memset(node, 0, sizeof *node);
    node->kind = leaves[below(sizeof leaves)];
    node->which = 1 + (uint32_t)below(3);
    node->text_size = t->texts_size < 2 ? 0 : 2;
    if (levels > 0 && below(4) > 0) {
        if (below(2)) node->kind = parents[below(sizeof parents)], children = 1;
        else node->kind = FANCY_NODE_CONCAT + (uint32_t)below(2), children = below(4);
        if (below(12) == 0) node->kind = FANCY_NODE_CONDITIONAL, children = 3;
        if (below(12) == 0) node->kind = FANCY_NODE_ABSENT, node->which = FANCY_ABSENT_EXPRESSION, children = 2;
    }
    for (size_t i = 0; i < children; i++)
        if (!grow(t, levels - 1)) return false;
    node->end = t->count;
    return true;
}

/* Groups in groups, as many as there is capacity for. */
static void grow_deep(tree *t) {
    for (t->count = 0; t->count < t->capacity; t->count++) {
        memset(&t->nodes[t->count], 0, sizeof *t->nodes);
        t->nodes[t->count].kind = t->count + 1 < t->capacity ? FANCY_NODE_GROUP : FANCY_NODE_EMPTY;
        t->nodes[t->count].end = t->capacity;
    }
}

static void spoil(fancy_node *node, size_t count) {
    switch (below(9)) {
    case 0: node->kind = (uint32_t)number(FANCY_NODE_AST_NODE); break;
    case 1: node->which = (uint32_t)number(FANCY_ASSERTION_NOT_WORD_BOUNDARY); break;
    case 2: node->end = number(count); break;
    case 3: node->text = number(64); break;
    case 4: node->text_size = number(64); break;
    case 5: node->start = number(8); break;
    case 6: node->stop = number(8); break;
    case 7: node->kind = 1 + (uint32_t)below(FANCY_NODE_AST_NODE); break;
    default: memset(&node->newline, (int)draw(), 6); break;
    }
}

fancy_result fancy_tree_nonnull(const char *pattern, size_t length, uint32_t flags, fancy_node *nodes, size_t node_capacity,
                                char *texts, size_t texts_capacity, fancy_name *names, size_t name_capacity, size_t *backrefs,
                                size_t backref_capacity, fancy_info *info) {
    (void)pattern, (void)flags;
    if (below(8) == 0) return text(FANCY_STATUS_REFUSED, length, texts, texts_capacity);
    tree t = {nodes, below(2 * length + 1) + 1, 0, below((texts_capacity < 6 * length ? texts_capacity : 6 * length) + 1)};
    if (t.capacity > node_capacity) t.capacity = node_capacity;
    size_t mode = below(16);
    memset(info, 0, sizeof *info);
    if (mode < 3) {
        write_noise(info, sizeof *info);
        info->node_count = number(2 * length + 1);
        info->texts_size = number(texts_capacity);
        info->name_count = number(name_capacity);
        info->backref_count = number(backref_capacity);
        write_items(nodes, info->node_count, node_capacity, sizeof *nodes);
        write_items(texts, info->texts_size, texts_capacity, 1);
        write_items(names, info->name_count, name_capacity, sizeof *names);
        write_items(backrefs, info->backref_count, backref_capacity, sizeof *backrefs);
        if (mode > 0) return result(mode == 1 ? FANCY_STATUS_BUFFER_TOO_SHORT : FANCY_STATUS_OK, 0, 0, 0);
        fancy_result it = any_result(length);
        write_items(texts, it.size, texts_capacity, 1);
        return it;
    }
    memset(texts, 0, t.texts_size);
    for (size_t i = 0; i + 1 < t.texts_size; i += 2) memcpy(texts + i, "\xc3\xa9", 2);
    if (mode == 3) t.capacity = node_capacity < 2 * length + 1 ? node_capacity : 2 * length + 1, grow_deep(&t);
    else while (t.count = 0, !grow(&t, 5)) continue;
    info->node_count = t.count;
    info->texts_size = t.texts_size;
    info->name_count = below(name_capacity < length ? name_capacity + 1 : length + 1);
    info->backref_count = below(backref_capacity < length ? backref_capacity + 1 : length + 1);
    for (size_t i = 0; i < info->name_count; i++) {
        fancy_name name = {0, t.texts_size < 2 ? 0 : 2, below(9)};
        names[i] = name;
    }
    for (size_t i = 0; i < info->backref_count; i++) backrefs[i] = number(9);
    info->total_groups = number(9);
    memset(&info->has_out_of_range_backref, (int)below(2), 5);
    switch (mode) {
    case 4: case 5: case 6: case 7: spoil(&nodes[below(t.count)], t.count); break;
    case 8: write_noise(texts, t.texts_size); break;
    case 9: if (info->name_count > 0) names[below(info->name_count)].text_size = number(4); break;
    case 10: memset(&info->has_out_of_range_backref, (int)draw(), 5); break;
    case 11: write_noise(nodes, below(node_capacity + 1) * sizeof *nodes); break;
    }
    return result(FANCY_STATUS_OK, 0, 0, 0);
}
