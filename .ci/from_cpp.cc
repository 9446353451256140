// What C++ gets: an empty view's null pointer is a pattern, and an empty vector's are buffers; structs are declared before the header
// is included, enums have tags, and flags are combined.
struct fancy_node;
struct fancy_info;

static unsigned kind_of(const fancy_node *node);

#include <fancy.h>

#include <cstdio>
#include <string_view>
#include <vector>

static unsigned kind_of(const fancy_node *node) { return node->kind; }

static_assert(FANCY_WITHOUT_SPANS == FANCY_FLAG_WITHOUT_SPANS, "the old name has the same number");

// Whether a tree has no spans if it is asked for without.
static bool are_spans_left_out() {
    const enum fancy_flag unicode = FANCY_FLAG_UNICODE;
    fancy_node nodes[3];
    char texts[FANCY_MAX_TEXTS(2)];
    fancy_result got = fancy_parse("ab", 2, FANCY_FLAG_UNICODE | FANCY_FLAG_WITHOUT_SPANS, nodes, 3, texts, sizeof texts, nullptr, 0,
                                   nullptr, 0, nullptr);
    return got.status == FANCY_STATUS_OK && kind_of(nodes) == FANCY_NODE_CONCAT && nodes[0].stop == 0 &&
           fancy_check("ab", 2, unicode | FANCY_FLAG_WITHOUT_SPANS).status == FANCY_STATUS_UNKNOWN_FLAG;
}

int main() {
    if (!are_spans_left_out()) return 1;
    std::string_view none;
    std::vector<fancy_node> nodes;
    std::vector<char> texts;
    std::vector<fancy_name> names;
    std::vector<size_t> backrefs;
    fancy_info info;
    std::vector<fancy_trivium> trivia;
    size_t count = 1;
    if (fancy_trivia(none.data(), none.size(), 0, trivia.data(), trivia.size(), &count).status != FANCY_STATUS_OK || count != 0)
        return 1;
    if (fancy_check(none.data(), none.size(), FANCY_FLAG_UNICODE).status != FANCY_STATUS_OK) return 1;
    for (std::string_view pattern : {none, std::string_view("(?<n>a|b)\\k<n>")}) {
        for (int round = 0; round < 2; round++) {
            fancy_result got = fancy_parse(pattern.data(), pattern.size(), FANCY_FLAG_UNICODE, nodes.data(), nodes.size(),
                                           texts.data(), texts.size(), names.data(), names.size(), backrefs.data(),
                                           backrefs.size(), &info);
            if (got.status != (round ? FANCY_STATUS_OK : FANCY_STATUS_BUFFER_TOO_SHORT)) return 1;
            if (round) continue;
            nodes.resize(info.node_count);
            texts.resize(info.texts_size);
            names.resize(info.name_count);
            backrefs.resize(info.backref_count);
        }
        std::printf("%zu nodes\n", nodes.size());
        nodes.clear();
    }
    return fancy_version() != FANCY_VERSION;
}
