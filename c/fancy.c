/* The functions that fancy.h has inline, as symbols of the library: for callers that have no use for a C header; those that
 * allocate; and old names of proved functions. */
#define FANCY_INLINE
#include "../include/fancy.h"

#include <stdlib.h>

fancy_result fancy_pattern_nonnull(const char *pattern, size_t length, uint32_t flags, char *buffer, size_t capacity) {
    return fancy_to_pattern_nonnull(pattern, length, flags, buffer, capacity);
}

fancy_result fancy_pattern_nodes_nonnull(const fancy_node *nodes, size_t node_count, const char *texts, size_t texts_size,
                                         size_t index, const fancy_name *names, size_t name_count, const fancy_info *info,
                                         uint32_t flags, char *buffer, size_t capacity) {
    return fancy_to_pattern_nodes_nonnull(nodes, node_count, texts, texts_size, index, names, name_count, info, flags, buffer,
                                          capacity);
}

/* Cuts items off the front of a block. */
static void *cut(char **block, size_t count, size_t size) {
    void *items = *block;
    *block += count * size;
    return items;
}

/* Makes buffers with these capacities, in one block of memory that begins with the nodes. The texts are last, since they need
 * no alignment. Returns false if there is no memory for it. */
static bool allocate(fancy_buffers *buffers, const fancy_info *capacities, size_t trivia) {
    size_t nodes = capacities->node_count, texts = capacities->texts_size, names = capacities->name_count;
    size_t backrefs = capacities->backref_count;
    char *block = malloc(nodes * sizeof(fancy_node) + names * sizeof(fancy_name) + backrefs * sizeof(size_t) +
                         trivia * sizeof(fancy_trivium) + texts);
    if (!block) return false;
    buffers->nodes = (fancy_node *)cut(&block, buffers->node_capacity = nodes, sizeof(fancy_node));
    buffers->names = (fancy_name *)cut(&block, buffers->name_capacity = names, sizeof(fancy_name));
    buffers->backrefs = (size_t *)cut(&block, buffers->backref_capacity = backrefs, sizeof(size_t));
    buffers->trivia = (fancy_trivium *)cut(&block, buffers->trivium_capacity = trivia, sizeof(fancy_trivium));
    buffers->texts = (char *)cut(&block, buffers->texts_capacity = texts, 1);
    return true;
}

void fancy_buffers_free(fancy_buffers *buffers) {
    static const fancy_buffers none;
    free(buffers->nodes);
    *buffers = none;
}

fancy_result fancy_parse_alloc(const char *pattern, size_t length, uint32_t flags, fancy_buffers *buffers) {
    static const fancy_buffers none;
    static const fancy_result no_memory = {FANCY_STATUS_OUT_OF_MEMORY, FANCY_ERROR_NONE, 0, 0};
    fancy_info sizes = none.info;
    *buffers = none;
    /* few patterns need more than this; no memory has a longer pattern, so the size of a block does not wrap */
    sizes.node_count = length + 1;
    sizes.texts_size = length + 64;
    sizes.name_count = sizes.backref_count = length / 8;
    if (length > SIZE_MAX / 512 || !allocate(buffers, &sizes, length / 8)) return no_memory;
    fancy_result got = fancy_parse_into(pattern, length, flags, buffers);
    if (got.status == FANCY_STATUS_BUFFER_TOO_SHORT) {
        size_t trivia = buffers->trivium_count;
        if (got.kind == FANCY_ERROR_NONE) sizes = buffers->info;
        else sizes.texts_size = got.size;
        fancy_buffers_free(buffers);
        if (!allocate(buffers, &sizes, trivia)) return no_memory;
        got = fancy_parse_into(pattern, length, flags, buffers);
    }
    if (got.status != FANCY_STATUS_OK && got.status != FANCY_STATUS_REFUSED) fancy_buffers_free(buffers);
    return got;
}
