// What the calls do that write all that a pattern gives, compared with the calls that write a part of it.

static bool are_all_zero(const fancy_buffers *all) {
    const unsigned char *bytes = (const unsigned char *)all;
    for (size_t i = 0; i < sizeof *all; i++)
        if (bytes[i] != 0) return false;
    return true;
}

static bool is_same_result(fancy_result a, fancy_result b) {
    return a.status == b.status && a.kind == b.kind && a.position == b.position && a.size == b.size;
}

// Whether buffers hold a tree with its spans, and trivia.
static bool is_all_there(const fancy_buffers *all, const tree *t, const fancy_trivium *trivia, size_t count) {
    tree own = {all->nodes, all->texts, all->names, all->backrefs, all->info};
    bool is_right = is_same_tree(t, &own) && all->trivium_count == count;
    for (size_t i = 0; is_right && i < t->info.node_count; i++)
        is_right = own.nodes[i].start == t->nodes[i].start && own.nodes[i].stop == t->nodes[i].stop;
    for (size_t i = 0; is_right && i < count; i++) is_right = is_trivium(&all->trivia[i], &trivia[i]);
    return is_right;
}

// Whether a buffer that is one too short is said to be, and all five are left alone: which of them it is.
static bool is_all_short(const char *pattern, size_t length, uint32_t flags, const fancy_buffers *all, int which) {
    size_t capacities[] = {all->info.node_count, all->info.texts_size, all->info.name_count, all->info.backref_count, all->trivium_count};
    size_t sizes[] = {sizeof(fancy_node), 1, sizeof(fancy_name), sizeof(size_t), sizeof(fancy_trivium)};
    if (capacities[which] == 0) return true;
    capacities[which]--;
    unsigned char *buffers[5];
    for (int i = 0; i < 5; i++) buffers[i] = memset(malloc(capacities[i] * sizes[i] + 1), 0xA5, capacities[i] * sizes[i] + 1);
    fancy_buffers given;
    memset(&given, 0, sizeof given);
    given.nodes = (fancy_node *)(void *)buffers[0], given.node_capacity = capacities[0];
    given.texts = (char *)buffers[1], given.texts_capacity = capacities[1];
    given.names = (fancy_name *)(void *)buffers[2], given.name_capacity = capacities[2];
    given.backrefs = (size_t *)(void *)buffers[3], given.backref_capacity = capacities[3];
    given.trivia = (fancy_trivium *)(void *)buffers[4], given.trivium_capacity = capacities[4];
    fancy_result got = fancy_parse_into(pattern, length, flags, &given);
    bool is_right = got.status == FANCY_STATUS_BUFFER_TOO_SHORT && got.kind == FANCY_ERROR_NONE && got.size == 0 &&
                    is_same_info(&given.info, &all->info) && given.trivium_count == all->trivium_count;
    for (int i = 0; i < 5; i++) {
        for (size_t k = 0; k <= capacities[i] * sizes[i]; k++) is_right = is_right && buffers[i][k] == 0xA5;
        free(buffers[i]);
    }
    return is_right;
}

// Whether no buffers are enough for the message of an error, and the sizes of a tree are left alone then.
static bool is_no_message_taken(const char *pattern, size_t length, uint32_t flags, fancy_result wanted) {
    fancy_buffers none;
    memset(&none, 0, sizeof none);
    fancy_result got = fancy_parse_into(pattern, length, flags, &none);
    if (wanted.status == FANCY_STATUS_REFUSED) wanted.status = FANCY_STATUS_BUFFER_TOO_SHORT;
    return is_same_result(got, wanted) && are_all_zero(&none);
}

// All of this for a pattern, valid or not.
static bool is_all_right(const char *pattern, size_t length, uint32_t flags) {
    tree t;
    fancy_buffers all;
    size_t count = 0;
    fancy_trivium *trivia = malloc(FANCY_MAX_TRIVIA(length) * sizeof *trivia);
    fancy_result wanted = take_at_once(&t, pattern, length, flags);
    fancy_trivia(pattern, length, flags, trivia, FANCY_MAX_TRIVIA(length), &count);
    memset(&all, 0xA5, sizeof all);
    bool is_right = is_same_result(fancy_parse_alloc(pattern, length, flags, &all), wanted);
    if (wanted.status == FANCY_STATUS_OK) {
        is_right = is_right && is_all_there(&all, &t, trivia, count);
        for (int i = 0; is_right && i < 5; i++) is_right = is_all_short(pattern, length, flags, &all, i);
    } else {
        bool is_message = wanted.status == FANCY_STATUS_REFUSED && memcmp(all.texts, t.texts, wanted.size) == 0;
        is_right = is_right && (is_message || are_all_zero(&all)) && is_no_message_taken(pattern, length, flags, wanted);
    }
    fancy_buffers_free(&all);
    is_right = is_right && are_all_zero(&all);
    fancy_buffers_free(&all);
    release(&t);
    free(trivia);
    return is_right;
}

// A long name, with a message that has it; trees and trivia for which the usual sizes are too short; and refused flags.
static bool is_all_by_hand_right(void) {
    char pattern[3000] = "(?<";
    memset(pattern + 3, 'n', 1000);
    strcpy(pattern + 1003, ">a)\\k<");
    memset(pattern + 1009, 'n', 1000);
    strcpy(pattern + 2009, ">");
    bool is_right = is_all_right(pattern, strlen(pattern), FANCY_FLAG_UNICODE);
    strcpy(pattern + 2008, "m>");
    is_right = is_right && is_all_right(pattern, strlen(pattern), FANCY_FLAG_UNICODE);
    is_right = is_right && is_all_right("(?#)(?#)(?i)\\1\\2\\3", 18, FANCY_FLAG_UNICODE) && is_all_right("|||||||", 7, 0);
    fancy_buffers all;
    memset(&all, 0xA5, sizeof all);
    return is_right && fancy_parse_alloc("a", 1, 1u << 31, &all).status == FANCY_STATUS_UNKNOWN_FLAG && are_all_zero(&all);
}
