// What the calls do that take rows, or write a tree or a message in one call, compared with the other calls.

#define CAPACITY(length) (16 * (length) + 4096) // no text for a pattern of these tests is longer

// A tree of `fancy_tree`, in buffers as long as the header says that they have to be.
static fancy_result take_at_once(tree *t, const char *pattern, size_t length, uint32_t flags) {
    memset(t, 0, sizeof *t);
    t->nodes = calloc(FANCY_MAX_NODES(length), sizeof *t->nodes);
    t->texts = calloc(FANCY_MAX_TEXTS(length), 1);
    t->names = calloc(FANCY_MAX_NAMES(length), sizeof *t->names);
    t->backrefs = calloc(FANCY_MAX_BACKREFS(length), sizeof *t->backrefs);
    return fancy_tree(pattern, length, flags, t->nodes, FANCY_MAX_NODES(length), t->texts, FANCY_MAX_TEXTS(length), t->names,
                      FANCY_MAX_NAMES(length), t->backrefs, FANCY_MAX_BACKREFS(length), &t->info);
}

static bool is_same_info(const fancy_info *a, const fancy_info *b) {
    return a->node_count == b->node_count && a->texts_size == b->texts_size && a->name_count == b->name_count &&
           a->backref_count == b->backref_count && a->total_groups == b->total_groups &&
           a->has_out_of_range_backref == b->has_out_of_range_backref && a->out_of_range_backref == b->out_of_range_backref &&
           a->numeric_capture_group_references == b->numeric_capture_group_references &&
           a->contains_subroutines == b->contains_subroutines && a->self_recursive == b->self_recursive &&
           a->numbered_groups_ignored == b->numbered_groups_ignored;
}

// Whether two nodes are the same, but for their spans, the positions of calls, and where their texts and they themselves are.
static bool is_same_node(const tree *a, size_t i, const tree *b, size_t k) {
    const fancy_node *x = &a->nodes[i], *y = &b->nodes[k];
    bool is_group = x->kind == FANCY_NODE_GROUP;
    return x->kind == y->kind && x->which == y->which && x->end - i == y->end - k && x->text_size == y->text_size &&
           memcmp(a->texts + x->text, b->texts + y->text, x->text_size) == 0 && x->lo == y->lo && x->hi == y->hi &&
           (is_group || x->group == y->group) && x->level == y->level && x->newline == y->newline && x->crlf == y->crlf &&
           x->unicode == y->unicode && x->casei == y->casei && x->greedy == y->greedy && x->has_level == y->has_level;
}

// Whether the part of the first tree from an index on is the second tree.
static bool is_part(const tree *a, size_t index, const tree *b) {
    bool is_same = a->nodes[index].end - index == b->info.node_count;
    for (size_t k = 0; is_same && k < b->info.node_count; k++) is_same = is_same_node(a, index + k, b, k);
    return is_same;
}

// Whether two trees are the same, but for their spans.
static bool is_same_tree(const tree *a, const tree *b) {
    bool is_same = is_same_info(&a->info, &b->info) && is_part(a, 0, b) && memcmp(a->texts, b->texts, a->info.texts_size) == 0 &&
                   memcmp(a->names, b->names, a->info.name_count * sizeof *a->names) == 0 &&
                   memcmp(a->backrefs, b->backrefs, a->info.backref_count * sizeof *a->backrefs) == 0;
    for (size_t i = 0; is_same && i < a->info.node_count; i++)
        is_same = a->nodes[i].position == b->nodes[i].position && a->nodes[i].text == b->nodes[i].text;
    return is_same;
}

static bool has_no_spans(const tree *t) {
    bool has_none = true;
    for (size_t i = 0; i < t->info.node_count; i++) has_none = has_none && t->nodes[i].start == 0 && t->nodes[i].stop == 0;
    return has_none;
}

// Whether `fancy_tree` writes the tree that `fancy_parse` wrote, with its spans; and both write it without, if a flag says so.
static bool is_tree_at_once(const tree *t, const char *pattern, size_t length, uint32_t flags) {
    tree once, bare, parsed;
    bool is_right = take_at_once(&once, pattern, length, flags).status == FANCY_STATUS_OK;
    is_right = take_at_once(&bare, pattern, length, flags | FANCY_FLAG_WITHOUT_SPANS).status == FANCY_STATUS_OK && is_right;
    is_right = take(&parsed, pattern, length, flags | FANCY_FLAG_WITHOUT_SPANS).status == FANCY_STATUS_OK && is_right;
    is_right = is_right && is_same_tree(t, &once) && is_same_tree(t, &bare) && is_same_tree(t, &parsed) && has_no_spans(&bare) &&
               has_no_spans(&parsed);
    for (size_t i = 0; is_right && i < t->info.node_count; i++)
        is_right = once.nodes[i].start == t->nodes[i].start && once.nodes[i].stop == t->nodes[i].stop;
    release(&once);
    release(&bare);
    release(&parsed);
    return is_right;
}

// Whether `fancy_tree` writes the message that `fancy_message` writes, and says so if it is one byte too long.
static bool is_message_at_once(const char *pattern, size_t length, uint32_t flags) {
    char *wanted = malloc(CAPACITY(length)), *text = malloc(CAPACITY(length));
    fancy_info info;
    memset(&info, 0xA5, sizeof info);
    fancy_result told = fancy_message(pattern, length, flags, wanted, CAPACITY(length));
    fancy_result got = fancy_tree(pattern, length, flags, NULL, 0, text, FANCY_MAX_TEXTS(length), NULL, 0, NULL, 0, &info);
    const char *begun = fancy_kind_message(got.kind);
    bool is_right = told.status == got.status && told.kind == got.kind && told.position == got.position && told.size == got.size;
    if (told.status == FANCY_STATUS_REFUSED) {
        is_right = is_right && memcmp(wanted, text, got.size) == 0 && *begun != 0 && memcmp(begun, text, strlen(begun)) == 0;
        memset(text, 0xA5, CAPACITY(length));
        got = fancy_tree(pattern, length, flags, NULL, 0, text, told.size - 1, NULL, 0, NULL, 0, &info);
        is_right = is_right && got.status == FANCY_STATUS_BUFFER_TOO_SHORT && got.kind == told.kind &&
                   got.position == told.position && got.size == told.size;
        for (size_t i = 0; i < told.size; i++) is_right = is_right && (unsigned char)text[i] == 0xA5;
    }
    for (size_t i = 0; i < sizeof info; i++) is_right = is_right && ((unsigned char *)&info)[i] == 0xA5;
    free(wanted);
    free(text);
    return is_right;
}

static fancy_result print_rows(const tree *t, size_t index, uint32_t precedence, char *buffer, size_t capacity) {
    return fancy_print_nodes(t->nodes, t->info.node_count, t->texts, t->info.texts_size, index, precedence, buffer, capacity);
}

static fancy_result write_rows(const tree *t, size_t index, uint32_t flags, char *buffer, size_t capacity) {
    return fancy_to_pattern_nodes(t->nodes, t->info.node_count, t->texts, t->info.texts_size, index, t->names, t->info.name_count,
                                  &t->info, flags, buffer, capacity);
}

// Whether two calls had the same result, and wrote the same text.
static bool is_same_text(fancy_result a, const char *x, fancy_result b, const char *y) {
    return a.status == b.status && a.kind == b.kind && a.position == b.position && a.size == b.size &&
           (a.status != FANCY_STATUS_OK || memcmp(x, y, a.size) == 0);
}

// Whether all the rows give the texts that the pattern gives, also with a buffer that is one byte too short.
static bool is_whole_written(const tree *t, const char *pattern, size_t length, uint32_t flags) {
    size_t capacity = CAPACITY(length);
    char *x = malloc(capacity), *y = malloc(capacity);
    bool is_right = true;
    for (uint32_t precedence = 0; precedence <= FANCY_PRECEDENCE_OPERAND; precedence++) {
        fancy_result wanted = fancy_print(pattern, length, flags, precedence, x, capacity);
        is_right = is_right && is_same_text(print_rows(t, 0, precedence, y, capacity), y, wanted, x);
    }
    fancy_result wanted = fancy_to_pattern(pattern, length, flags, x, capacity);
    is_right = is_right && wanted.status == FANCY_STATUS_OK && is_same_text(write_rows(t, 0, flags, y, capacity), y, wanted, x);
    memset(y, 0xA5, capacity);
    fancy_result got = wanted.size == 0 ? wanted : write_rows(t, 0, flags, y, wanted.size - 1);
    is_right = is_right && got.size == wanted.size && (wanted.size == 0 || got.status == FANCY_STATUS_BUFFER_TOO_SHORT);
    for (size_t i = 0; i < wanted.size; i++) is_right = is_right && (unsigned char)y[i] == 0xA5;
    free(x);
    free(y);
    return is_right;
}

// Whether a part of a tree is written without names from its own rows alone: those before it are not set, which valgrind sees.
static bool is_part_alone(const tree *t, size_t index, size_t length, uint32_t flags) {
    size_t capacity = CAPACITY(length), end = t->nodes[index].end;
    fancy_node *rows = malloc(end * sizeof *rows);
    char *x = malloc(capacity), *y = malloc(capacity);
    memcpy(rows + index, t->nodes + index, (end - index) * sizeof *rows);
    fancy_result wanted = fancy_to_pattern_nodes(t->nodes, t->info.node_count, t->texts, t->info.texts_size, index, NULL, 0, &t->info, flags,
                                                 x, capacity);
    fancy_result got = fancy_to_pattern_nodes(rows, end, t->texts, t->info.texts_size, index, NULL, 0, &t->info, flags, y, capacity);
    bool is_right = is_same_text(got, y, wanted, x);
    free(rows);
    free(x);
    free(y);
    return is_right;
}

// Whether a part of a tree has the same text with the names of its own groups alone; also from its own rows alone, in which its first
// group has the number 1.
static bool is_part_named(const tree *t, size_t index, size_t length, uint32_t flags) {
    size_t capacity = CAPACITY(length), size = t->nodes[index].end - index, before = 0, groups = 0, count = 0;
    fancy_node *rows = malloc(size * sizeof *rows);
    fancy_name *names = malloc((t->info.name_count + 1) * sizeof *names);
    char *x = malloc(capacity), *y = malloc(capacity);
    for (size_t i = 0; i < index; i++) before += t->nodes[i].kind == FANCY_NODE_GROUP;
    for (size_t i = 0; i < size; i++) {
        rows[i] = t->nodes[index + i], rows[i].end -= index;
        groups += rows[i].kind == FANCY_NODE_GROUP;
    }
    for (size_t i = 0; i < t->info.name_count; i++)
        if (before < t->names[i].group && t->names[i].group <= before + groups) names[count++] = t->names[i];
    fancy_result wanted = write_rows(t, index, flags, x, capacity);
    fancy_result got = fancy_to_pattern_nodes(t->nodes, t->info.node_count, t->texts, t->info.texts_size, index, names, count, &t->info,
                                              flags, y, capacity);
    bool is_right = is_same_text(got, y, wanted, x);
    for (size_t i = 0; i < count; i++) names[i].group -= before;
    got = fancy_to_pattern_nodes(rows, size, t->texts, t->info.texts_size, 0, names, count, &t->info, flags, y, capacity);
    is_right = is_right && is_same_text(got, y, wanted, x);
    free(rows);
    free(names);
    free(x);
    free(y);
    return is_right;
}

// Whether the part of a tree from an index on has texts, of which that of a pattern is parsed as this part.
static bool is_part_written(const tree *t, size_t index, size_t length, uint32_t flags) {
    size_t capacity = CAPACITY(length);
    char *text = malloc(capacity);
    fancy_result got = print_rows(t, index, FANCY_PRECEDENCE_OPERAND, text, capacity);
    bool is_right = got.status == FANCY_STATUS_OK || got.status == FANCY_STATUS_NOT_PRINTABLE;
    got = write_rows(t, index, flags, text, capacity);
    if (got.status == FANCY_STATUS_OK) {
        tree again;
        is_right = is_right && take_at_once(&again, text, got.size, flags).status == FANCY_STATUS_OK && is_part(t, index, &again);
        release(&again);
    } else {
        is_right = is_right && got.status == FANCY_STATUS_NO_PATTERN;
    }
    free(text);
    return is_right;
}

// Whether rows of which one was changed are refused by both calls, and nothing is written.
static bool are_refused(const tree *t) {
    char text[64];
    memset(text, 0xA5, sizeof text);
    fancy_result printed = print_rows(t, 0, 0, text, sizeof text), written = write_rows(t, 0, 0, text, sizeof text);
    bool is_right = printed.status == FANCY_STATUS_NO_TREE && written.status == FANCY_STATUS_NO_TREE && printed.size == 0 &&
                    written.size == 0 && printed.kind == 0 && written.kind == 0 && printed.position == 0 && written.position == 0;
    for (size_t i = 0; i < sizeof text; i++) is_right = is_right && (unsigned char)text[i] == 0xA5;
    return is_right;
}

// Changes a number of a row, in ways after which the rows are no tree, and changes it back.
static bool is_damage_found(tree *t, size_t index) {
    fancy_node *node = &t->nodes[index], old = *node;
    size_t ends[] = {index, 0, t->info.node_count + 1, SIZE_MAX};
    bool is_right = true;
    for (int i = 0; i < 4; i++) node->end = ends[i], is_right = is_right && are_refused(t);
    *node = old;
    uint32_t none[] = {0, sizeof kinds / sizeof *kinds, UINT32_MAX};
    for (int i = 0; i < 3; i++) node->kind = none[i], is_right = is_right && are_refused(t);
    *node = old;
    if (old.which != 0) node->which = 99, is_right = is_right && are_refused(t), *node = old;
    if (old.text_size == 0) return is_right;
    size_t starts[] = {t->info.texts_size, SIZE_MAX};
    for (int i = 0; i < 2; i++) node->text = starts[i], is_right = is_right && are_refused(t);
    *node = old;
    node->text_size = SIZE_MAX - 1, is_right = is_right && are_refused(t), *node = old;
    return is_right;
}

// Whether the k-th group has the number k.
static bool are_groups_numbered(const tree *t) {
    size_t groups = 0;
    for (size_t i = 0; i < t->info.node_count; i++)
        if (t->nodes[i].kind == FANCY_NODE_GROUP && t->nodes[i].group != ++groups) return false;
    return groups == t->info.total_groups;
}

// All of this for a pattern.
static bool are_rows_right(const char *pattern, size_t length, uint32_t flags) {
    tree t;
    if (take(&t, pattern, length, flags).status != FANCY_STATUS_OK) {
        release(&t);
        return is_message_at_once(pattern, length, flags);
    }
    bool is_right = are_groups_numbered(&t) && is_tree_at_once(&t, pattern, length, flags) &&
                    is_whole_written(&t, pattern, length, flags) && t.info.node_count <= FANCY_MAX_NODES(length) &&
                    t.info.texts_size <= FANCY_MAX_TEXTS(length) && t.info.name_count <= FANCY_MAX_NAMES(length) &&
                    t.info.backref_count <= FANCY_MAX_BACKREFS(length);
    // of a long pattern some nodes
    size_t step = t.info.node_count / 64 + 1;
    for (size_t i = 0; is_right && i < t.info.node_count; i += step)
        is_right = is_part_written(&t, i, length, flags) && is_part_alone(&t, i, length, flags) &&
                   is_part_named(&t, i, length, flags) && is_damage_found(&t, i);
    release(&t);
    return is_right;
}
