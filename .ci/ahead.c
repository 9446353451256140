/* What a program may say before it includes the header, and with it: structs that are declared ahead, enums by their tags, and flags together. */
struct fancy_node;
struct fancy_name;
struct fancy_info;
struct fancy_result;
struct fancy_trivium;

static unsigned kind_of(const struct fancy_node *node);

#include <fancy.h>

static unsigned kind_of(const struct fancy_node *node) { return node->kind; }

int main(void) {
    const enum fancy_flag unicode = FANCY_FLAG_UNICODE;
    const enum fancy_node_kind concat = FANCY_NODE_CONCAT;
    struct fancy_node nodes[3];
    struct fancy_info info;
    char texts[FANCY_MAX_TEXTS(2)];
    struct fancy_result got = fancy_tree("ab", 2, unicode | FANCY_FLAG_WITHOUT_SPANS, nodes, 3, texts, sizeof texts, NULL, 0, NULL, 0, &info);
    if (got.status != FANCY_STATUS_OK || info.node_count != 3) return 1;
    return kind_of(nodes) != concat || nodes[0].stop != 0 || FANCY_WITHOUT_SPANS != FANCY_FLAG_WITHOUT_SPANS;
}
