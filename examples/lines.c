/* Parses a pattern under flags, and writes what the program `fre` writes: lines FLAGS PATTERN. */
#include <fancy.h>
#include <stdio.h>
#include <stdlib.h>
#include <string.h>

/* A tree in buffers of just the sizes that it needs. */
typedef struct {
    fancy_node *nodes;
    char *texts;
    fancy_name *names;
    size_t *backrefs;
    fancy_info info;
} tree;

/* ---- names: made by tools/bindings from include/fancy.toml */
static const char *const kinds[] = {
    "", "Empty", "Any", "Assertion", "GeneralNewline", "Literal", "LiteralBytes", "Concat", "Alt", "Group", "LookAround",
    "Repeat", "Delegate", "Backref", "BackrefWithRelativeRecursionLevel", "AtomicGroup", "KeepOut",
    "ContinueFromPreviousMatchEnd", "BackrefExistsCondition", "Conditional", "SubroutineCall", "BacktrackingControlVerb",
    "Absent", "DefineGroup", "AstNode"};
static const char *const assertions[] = {
    "", "StartText", "EndText", "EndTextIgnoreTrailingNewlines", "StartLine", "StartLineOniguruma", "EndLine",
    "LeftWordBoundary", "LeftWordHalfBoundary", "RightWordBoundary", "RightWordHalfBoundary", "WordBoundary",
    "NotWordBoundary"};
static const char *const looks[] = {"", "LookAhead", "LookAheadNeg", "LookBehind", "LookBehindNeg"};
static const char *const verbs[] = {"", "Fail", "Accept", "Commit", "Skip", "Prune"};
static const char *const absents[] = {"", "Repeater", "Expression", "Stopper", "Clear"};
static const char flag_letters[] = "imsUxuRon";
/* ---- end of names */

/* The name with this number in a list; "unknown" for a number that only a later library has. */
#define NAME(names, number) ((number) < sizeof(names) / sizeof *(names) ? (names)[number] : "unknown")

static const char *boolean(bool is) { return is ? "true" : "false"; }

static void write_hex(FILE *out, const char *text, size_t size) {
    if (size == 0) fputc('-', out);
    for (size_t i = 0; i < size; i++) fprintf(out, "%02x", (unsigned char)text[i]);
}

static void write_call(FILE *out, const tree *t, const fancy_node *n) {
    fputs(" SubroutineCall ", out);
    if (n->which == FANCY_TARGET_BY_NUMBER) fprintf(out, "number:%zu", n->group);
    if (n->which == FANCY_TARGET_RELATIVE) fprintf(out, "relative:%td", n->level);
    if (n->which == FANCY_TARGET_BY_NAME) fputs("name:", out), write_hex(out, t->texts + n->text, n->text_size);
    fprintf(out, " %zu", n->position);
}

static void write_text(FILE *out, const tree *t, const fancy_node *n) {
    fputc(' ', out);
    write_hex(out, t->texts + n->text, n->text_size);
    if (n->kind != FANCY_NODE_LITERAL_BYTES) fprintf(out, " casei=%s", boolean(n->casei));
}

static void write_assertion(FILE *out, const fancy_node *n) {
    fprintf(out, " %s", NAME(assertions, n->which));
    if (n->which >= FANCY_ASSERTION_END_TEXT_IGNORE_TRAILING_NEWLINES && n->which <= FANCY_ASSERTION_END_LINE)
        fprintf(out, " crlf=%s", boolean(n->crlf));
}

static void write_fields(FILE *out, const tree *t, const fancy_node *n) {
    switch (n->kind) {
    case FANCY_NODE_ANY: fprintf(out, " newline=%s crlf=%s", boolean(n->newline), boolean(n->crlf)); break;
    case FANCY_NODE_ASSERTION: write_assertion(out, n); break;
    case FANCY_NODE_GENERAL_NEWLINE: fprintf(out, " unicode=%s", boolean(n->unicode)); break;
    case FANCY_NODE_LITERAL: case FANCY_NODE_LITERAL_BYTES: case FANCY_NODE_DELEGATE: write_text(out, t, n); break;
    case FANCY_NODE_LOOK_AROUND: fprintf(out, " %s", NAME(looks, n->which)); break;
    case FANCY_NODE_REPEAT: fprintf(out, " %zu %zu greedy=%s", n->lo, n->hi, boolean(n->greedy)); break;
    case FANCY_NODE_BACKREF: fprintf(out, " %zu casei=%s", n->group, boolean(n->casei)); break;
    case FANCY_NODE_BACKREF_AT_LEVEL: fprintf(out, " %zu %td casei=%s", n->group, n->level, boolean(n->casei)); break;
    case FANCY_NODE_BACKREF_EXISTS_CONDITION:
        fprintf(out, " %zu ", n->group);
        if (n->has_level) fprintf(out, "%td", n->level);
        else fputs("none", out);
        break;
    case FANCY_NODE_SUBROUTINE_CALL: fprintf(out, " %zu", n->group); break;
    case FANCY_NODE_VERB: fprintf(out, " %s", NAME(verbs, n->which)); break;
    case FANCY_NODE_ABSENT: fprintf(out, " %s", NAME(absents, n->which)); break;
    case FANCY_NODE_AST_NODE: write_call(out, t, n); break;
    }
}

/* The node at an index, and its descendants. */
static void write_node(FILE *out, const tree *t, size_t at, int level) {
    fprintf(out, "%*s%s", 2 * level, "", NAME(kinds, t->nodes[at].kind));
    write_fields(out, t, &t->nodes[at]);
    fputc('\n', out);
    for (size_t child = at + 1; child < t->nodes[at].end; child = t->nodes[child].end)
        write_node(out, t, child, level + 1);
}

static void write_names(FILE *out, const tree *t) {
    if (t->info.name_count == 0) fputc('-', out);
    for (size_t i = 0; i < t->info.name_count; i++) {
        const fancy_name *n = &t->names[i];
        if (i > 0 && n[-1].text == n->text) {
            fprintf(out, ",%zu", n->group);
            continue;
        }
        if (i > 0) fputc(';', out);
        write_hex(out, t->texts + n->text, n->text_size);
        fprintf(out, ":%zu", n->group);
    }
}

static void write_info(FILE *out, const tree *t) {
    const fancy_info *info = &t->info;
    fprintf(out, "marks groups=%zu backrefs=", info->total_groups);
    if (info->backref_count == 0) fputc('-', out);
    for (size_t i = 0; i < info->backref_count; i++) fprintf(out, "%s%zu", i > 0 ? "," : "", t->backrefs[i]);
    fputs(" named=", out);
    write_names(out, t);
    fprintf(out, " numeric=%s calls=%s self=%s", boolean(info->numeric_capture_group_references),
            boolean(info->contains_subroutines), boolean(info->self_recursive));
    fputs(" out_of_range=", out);
    if (info->has_out_of_range_backref) fprintf(out, "%zu", info->out_of_range_backref);
    else fputs("none", out);
    fprintf(out, " ignored=%s\n", boolean(info->numbered_groups_ignored));
}

/* Memory of a size, also of size 0. */
static void *allocate(size_t count, size_t size) { return malloc(count * size + 1); }

static void release(tree *t) {
    free(t->nodes);
    free(t->texts);
    free(t->names);
    free(t->backrefs);
}

/* Asks for the sizes that the tree needs, allocates them, and parses. Returns what fancy_parse returns. */
static fancy_result take(tree *t, const char *pattern, size_t length, uint32_t flags) {
    memset(t, 0, sizeof *t);
    fancy_result got = fancy_parse(pattern, length, flags, NULL, 0, NULL, 0, NULL, 0, NULL, 0, &t->info);
    if (got.status != FANCY_STATUS_BUFFER_TOO_SHORT) return got;
    t->nodes = allocate(t->info.node_count, sizeof *t->nodes);
    t->texts = allocate(t->info.texts_size, 1);
    t->names = allocate(t->info.name_count, sizeof *t->names);
    t->backrefs = allocate(t->info.backref_count, sizeof *t->backrefs);
    if (!t->nodes || !t->texts || !t->names || !t->backrefs) {
        got.status = FANCY_STATUS_OUT_OF_MEMORY;
        return got;
    }
    return fancy_parse(pattern, length, flags, t->nodes, t->info.node_count, t->texts, t->info.texts_size, t->names,
                       t->info.name_count, t->backrefs, t->info.backref_count, &t->info);
}

/* The text, with a buffer of just its size. */
static uint32_t write_printed(FILE *out, const char *pattern, size_t length, uint32_t flags) {
    fancy_result got = fancy_print(pattern, length, flags, FANCY_PRECEDENCE_WHOLE, NULL, 0);
    char *text = allocate(got.size, 1);
    if (text && got.status == FANCY_STATUS_BUFFER_TOO_SHORT)
        got = fancy_print(pattern, length, flags, FANCY_PRECEDENCE_WHOLE, text, got.size);
    if (!text) got.status = FANCY_STATUS_OUT_OF_MEMORY;
    if (got.status == FANCY_STATUS_NOT_PRINTABLE) fputs("text none\n", out);
    if (got.status == FANCY_STATUS_OK) fputs("text ", out), write_hex(out, text, got.size), fputc('\n', out);
    free(text);
    return got.status == FANCY_STATUS_NOT_PRINTABLE ? FANCY_STATUS_OK : got.status;
}

static uint32_t write_error(FILE *err, const char *pattern, size_t length, uint32_t flags) {
    fancy_result got = fancy_message(pattern, length, flags, NULL, 0);
    char *message = allocate(got.size, 1);
    if (message && got.status == FANCY_STATUS_BUFFER_TOO_SHORT)
        got = fancy_message(pattern, length, flags, message, got.size);
    if (!message) got.status = FANCY_STATUS_OUT_OF_MEMORY;
    if (got.status == FANCY_STATUS_REFUSED) {
        fprintf(err, "Parsing error at position %zu: ", got.position);
        fwrite(message, 1, got.size, err);
        fputc('\n', err);
    }
    free(message);
    return got.status;
}

/* Writes all that is known of a pattern, or its error, and returns FANCY_STATUS_OK, FANCY_STATUS_REFUSED or why there is
 * neither. */
static uint32_t write_pattern(FILE *out, FILE *err, const char *pattern, size_t length, uint32_t flags) {
    tree t;
    uint32_t status = take(&t, pattern, length, flags).status;
    if (status == FANCY_STATUS_OK) {
        write_node(out, &t, 0, 0);
        write_info(out, &t);
        status = write_printed(out, pattern, length, flags);
    } else if (status == FANCY_STATUS_REFUSED) {
        status = write_error(err, pattern, length, flags);
    }
    release(&t);
    return status;
}

/* The flags that an argument names: whether it names any. */
static bool read_flags(const char *letters, uint32_t *flags) {
    *flags = 0;
    if (strcmp(letters, "-") == 0) return true;
    for (const char *at = letters; *at; at++) {
        const char *letter = strchr(flag_letters, *at);
        if (!letter) return false;
        *flags |= (uint32_t)1 << (letter - flag_letters);
    }
    return *letters != 0;
}

#ifndef LINES_WITHOUT_MAIN
int main(int count, char **arguments) {
    uint32_t flags;
    if (count != 3 || !read_flags(arguments[1], &flags)) {
        fputs("usage: lines FLAGS PATTERN\n", stderr);
        return 2;
    }
    uint32_t status = write_pattern(stdout, stderr, arguments[2], strlen(arguments[2]), flags);
    if (status == FANCY_STATUS_NOT_UTF8) fputs("not UTF-8\n", stderr);
    return status == FANCY_STATUS_OK ? 0 : status == FANCY_STATUS_REFUSED ? 1 : 3;
}
#endif
