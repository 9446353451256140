/* Patterns of fancy-regex, parsed and printed by proved code.
 *
 * Each call parses a pattern anew, or builds a tree anew from its rows, keeps nothing, and owns nothing when it returns. It
 * writes to buffers of the caller, from their start and never past their end: either a whole text or tree, or nothing. Only
 * fancy_parse_alloc allocates them.
 * docs/c.md says how to build and link the library, what is proved, and what the caller has to guarantee.
 *
 * A pattern is UTF-8 and need not be NUL-terminated. Lengths, sizes, positions and the capacities of text buffers are in
 * bytes; the capacities for nodes, names and back references are counts of items. A pointer to what is read may be null if its
 * length is 0. A buffer may be null, and then has capacity 0. Texts that are written are not NUL-terminated. They are UTF-8,
 * except for that of a FANCY_NODE_LITERAL_BYTES, which is any bytes.
 *
 * The library is built for Linux on x86-64-v2 with glibc, and a size_t has 64 bits. The static library needs no other library
 * than that of C. Calls may run in several threads at once. None may be made from a signal handler, or in the forked child of
 * a process with threads. A call recurses as deep as a tree has levels, at most 832: 1 MB of stack was enough for each that
 * was tried.
 */
#ifndef FANCY_H
#define FANCY_H

#include <stdbool.h>
#include <stddef.h>
#include <stdint.h>

/* The version of this header. fancy_version returns that of the library. CHANGELOG.md says what a change of each number
 * means. */
/* ---- version: made by tools/bindings from fancy.toml */
#define FANCY_VERSION_MAJOR 2
#define FANCY_VERSION_MINOR 1
#define FANCY_VERSION_PATCH 0
/* ---- end of version */
#define FANCY_VERSION (FANCY_VERSION_MAJOR * 1000000 + FANCY_VERSION_MINOR * 1000 + FANCY_VERSION_PATCH)

#ifdef __cplusplus
extern "C" {
#endif

/* ---- numbers and structs: made by tools/bindings from fancy.toml */
/* Flags: bits, of which any may be set. A call refuses a bit that it does not take: it returns FANCY_STATUS_UNKNOWN_FLAG. */
enum fancy_flag {
    FANCY_FLAG_CASEI = 1,        /* case-insensitive */
    FANCY_FLAG_MULTI = 2,        /* ^ and $ match at line breaks too */
    FANCY_FLAG_DOTNL = 4,        /* . matches a line feed too */
    FANCY_FLAG_SWAP_GREED = 8,   /* quantifiers are lazy, and greedy with a ? after them */
    FANCY_FLAG_IGNORE_SPACE = 16, /* whitespace and comments from # to the end of a line are ignored */
    FANCY_FLAG_UNICODE = 32,     /* \p{alnum} and the like, \x80 to \xFF and \R are those of Unicode */
    FANCY_FLAG_CRLF = 64,        /* CR is a line terminator too, and CR LF a single one */
    FANCY_FLAG_ONIGURUMA_MODE = 128, /* the pattern is in Oniguruma's syntax */
    /* if some group has a name, groups without a name have no number */
    FANCY_FLAG_IGNORE_NUMBERED_GROUPS_WHEN_NAMED_GROUPS_EXIST = 256,
    FANCY_FLAG_WITHOUT_SPANS = 65536 /* of fancy_parse and fancy_tree, and faster: each start and stop is 0 */
};
#define FANCY_WITHOUT_SPANS FANCY_FLAG_WITHOUT_SPANS /* deprecated: the next major version does not have this name */

/* The status of a call. These numbers, and all those below, never change; a later minor version may return new ones. */
enum fancy_status {
    FANCY_STATUS_OK = 0,
    FANCY_STATUS_REFUSED = 1,             /* the pattern is invalid, or fancy-regex refuses the class: kind and position
                                             are set */
    FANCY_STATUS_NOT_UTF8 = 2,            /* position is the length of the valid UTF-8 prefix */
    FANCY_STATUS_OUT_OF_MEMORY = 3,       /* the pattern may be valid or not */
    FANCY_STATUS_BUFFER_TOO_SHORT = 4,    /* no buffer was written; what is needed is set: for a text the size, for a tree
                                             *info, for trivia and ranges *count, for facts *whole */
    FANCY_STATUS_NOT_PRINTABLE = 5,       /* of fancy_print and fancy_print_nodes: there is a tree, and it is not printable */
    FANCY_STATUS_NO_PATTERN = 6,          /* of fancy_to_pattern_nodes: what is written for the tree does not parse
                                             back as it */
    FANCY_STATUS_NO_TREE = 7,             /* of the calls that take rows: the rows are no tree */
    FANCY_STATUS_UNKNOWN_STYLE = 8,       /* of fancy_format: no style has this number */
    FANCY_STATUS_UNKNOWN_FLAG = 9,        /* a bit is set that is no flag, or none that the call takes */
    FANCY_STATUS_UNKNOWN_PRECEDENCE = 10, /* of fancy_print and fancy_print_nodes: no precedence has this number */
    FANCY_STATUS_UNRESOLVED = 11,         /* of fancy_is_resolved: a reference refers to a group that the pattern does
                                             not have */
    FANCY_STATUS_NOT_ONE_CHARACTER = 12   /* of fancy_class_ranges and fancy_node_ranges: it does not match exactly one
                                             character */
};

/* Kinds of errors. */
enum fancy_error_kind {
    FANCY_ERROR_NONE = 0,
    FANCY_ERROR_GENERAL_PARSE_ERROR = 1,
    FANCY_ERROR_UNCLOSED_OPEN_PAREN = 2,
    FANCY_ERROR_INVALID_REPEAT = 3,
    FANCY_ERROR_RECURSION_EXCEEDED = 4,
    FANCY_ERROR_TRAILING_BACKSLASH = 5,
    FANCY_ERROR_INVALID_ESCAPE = 6,
    FANCY_ERROR_UNCLOSED_UNICODE_NAME = 7,
    FANCY_ERROR_INVALID_HEX = 8,
    FANCY_ERROR_INVALID_CODEPOINT_VALUE = 9,
    FANCY_ERROR_INVALID_CLASS = 10,
    FANCY_ERROR_UNKNOWN_FLAG = 11,
    FANCY_ERROR_CHANGING_UNICODE_MODE_UNSUPPORTED = 12,
    FANCY_ERROR_INVALID_BACKREF = 13,
    FANCY_ERROR_TARGET_NOT_REPEATABLE = 14,
    FANCY_ERROR_INVALID_GROUP_NAME = 15,
    FANCY_ERROR_INVALID_GROUP_NAME_BACKREF = 16
};

/* Kinds of nodes. The comment of each lists the fields that it uses, besides kind, end, start and stop. */
enum fancy_node_kind {
    FANCY_NODE_EMPTY = 1,
    FANCY_NODE_ANY = 2,              /* newline, crlf */
    FANCY_NODE_ASSERTION = 3,        /* which: FANCY_ASSERTION_..; crlf */
    FANCY_NODE_GENERAL_NEWLINE = 4,  /* unicode */
    FANCY_NODE_LITERAL = 5,          /* text, text_size, casei */
    FANCY_NODE_LITERAL_BYTES = 6,    /* text, text_size */
    FANCY_NODE_CONCAT = 7,
    FANCY_NODE_ALT = 8,
    FANCY_NODE_GROUP = 9,            /* group */
    FANCY_NODE_LOOK_AROUND = 10,     /* which: FANCY_LOOK_.. */
    FANCY_NODE_REPEAT = 11,          /* lo, hi, greedy */
    FANCY_NODE_DELEGATE = 12,        /* a class, a class escape or a property, as its text: text, text_size, casei */
    FANCY_NODE_BACKREF = 13,         /* group, casei */
    FANCY_NODE_BACKREF_AT_LEVEL = 14, /* group, has_level, level, casei */
    FANCY_NODE_ATOMIC_GROUP = 15,
    FANCY_NODE_KEEP_OUT = 16,
    FANCY_NODE_CONTINUE_FROM_PREVIOUS_MATCH_END = 17,
    FANCY_NODE_BACKREF_EXISTS_CONDITION = 18, /* group, has_level, level */
    FANCY_NODE_CONDITIONAL = 19,     /* it has three children: the condition, the branch taken if it holds, and the other */
    FANCY_NODE_SUBROUTINE_CALL = 20, /* group; 0 is the whole pattern */
    FANCY_NODE_VERB = 21,            /* which: FANCY_VERB_.. */
    FANCY_NODE_ABSENT = 22,          /* which: FANCY_ABSENT_.. */
    FANCY_NODE_DEFINE_GROUP = 23,
    FANCY_NODE_AST_NODE = 24         /* an unresolved call: position; which: FANCY_TARGET_..; group, or text and text_size,
                                        or level */
};

enum fancy_assertion {
    FANCY_ASSERTION_START_TEXT = 1,
    FANCY_ASSERTION_END_TEXT = 2,
    FANCY_ASSERTION_END_TEXT_IGNORE_TRAILING_NEWLINES = 3, /* crlf */
    FANCY_ASSERTION_START_LINE = 4,                        /* crlf */
    FANCY_ASSERTION_START_LINE_ONIGURUMA = 5,              /* crlf */
    FANCY_ASSERTION_END_LINE = 6,                          /* crlf */
    FANCY_ASSERTION_LEFT_WORD_BOUNDARY = 7,
    FANCY_ASSERTION_LEFT_WORD_HALF_BOUNDARY = 8,
    FANCY_ASSERTION_RIGHT_WORD_BOUNDARY = 9,
    FANCY_ASSERTION_RIGHT_WORD_HALF_BOUNDARY = 10,
    FANCY_ASSERTION_WORD_BOUNDARY = 11,
    FANCY_ASSERTION_NOT_WORD_BOUNDARY = 12
};

enum fancy_look { FANCY_LOOK_AHEAD = 1, FANCY_LOOK_AHEAD_NEG = 2, FANCY_LOOK_BEHIND = 3, FANCY_LOOK_BEHIND_NEG = 4 };

enum fancy_verb {
    FANCY_VERB_FAIL = 1,
    FANCY_VERB_ACCEPT = 2,
    FANCY_VERB_COMMIT = 3,
    FANCY_VERB_SKIP = 4,
    FANCY_VERB_PRUNE = 5
};

enum fancy_absent {
    FANCY_ABSENT_REPEATER = 1,
    FANCY_ABSENT_EXPRESSION = 2,
    FANCY_ABSENT_STOPPER = 3,
    FANCY_ABSENT_CLEAR = 4
};

/* What an unresolved call names: a group by its number (group), by its name (text, text_size), or by a relative number
 * (level). */
enum fancy_target { FANCY_TARGET_BY_NUMBER = 1, FANCY_TARGET_BY_NAME = 2, FANCY_TARGET_RELATIVE = 3 };

/* Kinds of what no node of a tree has. */
enum fancy_trivium_kind {
    FANCY_TRIVIUM_COMMENT = 1,           /* (?#..) */
    FANCY_TRIVIUM_LINE_COMMENT = 2,      /* from # through its line feed, or through the end of the pattern */
    FANCY_TRIVIUM_INLINE_FLAGS = 3,      /* inline flags, as (?i): flags_before, flags_after */
    FANCY_TRIVIUM_OPENING = 4,           /* of a flag group, as (?: or (?i: : flags_before, flags_after */
    FANCY_TRIVIUM_CLOSING = 5,           /* the closing parenthesis of such a group */
    FANCY_TRIVIUM_DROPPED = 6,           /* what leaves nothing in the tree: counts or operators of a quantifier without effect
                                            in Oniguruma mode; of a conditional without branches, as (?(1)|), all but the
                                            condition */
    FANCY_TRIVIUM_INNER_COMMENT = 7,     /* a comment inside a token, as in ((?#c)a) or a{2(?#c)}; if the token is a row of this
                                            array, after that row and inside it */
    FANCY_TRIVIUM_INNER_LINE_COMMENT = 8 /* the same, from # through its line feed */
};

/* What a printed text is to be: a whole pattern or the inside of a group, a branch of an alternation, a part of a
 * concatenation, the operand of a quantifier. A call refuses other numbers: it returns FANCY_STATUS_UNKNOWN_PRECEDENCE. */
enum fancy_precedence {
    FANCY_PRECEDENCE_WHOLE = 0,
    FANCY_PRECEDENCE_BRANCH = 1,
    FANCY_PRECEDENCE_PIECE = 2,
    FANCY_PRECEDENCE_OPERAND = 3
};

/* How fancy_format lays out a pattern. */
enum fancy_style {
    FANCY_STYLE_KEPT = 0,    /* its lines stay, with their indentation */
    FANCY_STYLE_VERBOSE = 1, /* over several lines, unless it is one that fits; the pattern then begins with (?x) unless
                                FANCY_FLAG_IGNORE_SPACE is set */
    FANCY_STYLE_COMPACT = 2  /* in one line: ignored whitespace, (?x) at the beginning and empty comments go, and # one becomes
                                (?# one) */
};

/* What a call returns. */
typedef struct fancy_result fancy_result;
struct fancy_result {
    uint32_t status; /* FANCY_STATUS_.. */
    uint32_t kind;   /* FANCY_ERROR_.., FANCY_ERROR_NONE if no error is reported */
    size_t position; /* of the error, at most the length of the pattern + 1; or the length of the valid UTF-8 prefix; else 0 */
    size_t size;     /* of the text that was to be written, whether or not it fitted; else 0, also for a tree, trivia, ranges
                        and facts */
};

/* A node of a tree. What its kind does not use is 0 or false, and text is 0 if text_size is 0. */
typedef struct fancy_node fancy_node;
struct fancy_node {
    uint32_t kind;    /* FANCY_NODE_.. */
    uint32_t which;
    size_t end;       /* one past the index of its last descendant. Its first child, if it has one, is the next node, and each
                         further child is at the index that is the end of the child before */
    size_t text;      /* where its text begins in the buffer of texts */
    size_t text_size; /* the size of its text, in bytes */
    size_t lo;        /* the lower bound of a repetition */
    size_t hi;        /* the upper bound, SIZE_MAX for none */
    size_t group;     /* the number of a group: of the node, which is the k-th FANCY_NODE_GROUP if the number is k; or of the
                         group that it refers to */
    ptrdiff_t level;  /* a recursion level, relative to the current one; or the relative number of a group */
    size_t position;  /* of an unresolved call, as a byte offset */
    size_t start;     /* its span, the part of the pattern that it was parsed from: the offset of the first byte */
    size_t stop;      /* one past the offset of the last byte of its span: start <= stop <= the length of the pattern */
    bool newline;     /* it matches a line break too */
    bool crlf;        /* CR is a line terminator too, and CR LF a single one */
    bool unicode;     /* the line breaks of Unicode count too */
    bool casei;       /* case-insensitive */
    bool greedy;
    bool has_level;   /* the reference has a recursion level; a FANCY_NODE_BACKREF_AT_LEVEL always has one */
};

/* A name of a group, with its number. A name that several groups have is listed once for each. */
typedef struct fancy_name fancy_name;
struct fancy_name {
    size_t text;      /* where the name begins in the buffer of texts */
    size_t text_size; /* the size of the name, in bytes */
    size_t group;     /* the number of the group */
};

/* The sizes of a tree, and the group information of its pattern. */
typedef struct fancy_info fancy_info;
struct fancy_info {
    size_t node_count;                     /* at most FANCY_MAX_NODES */
    size_t texts_size;                     /* in bytes; at most FANCY_MAX_TEXTS */
    size_t name_count;                     /* at most FANCY_MAX_NAMES */
    size_t backref_count;                  /* at most FANCY_MAX_BACKREFS */
    size_t total_groups;                   /* the k-th FANCY_NODE_GROUP of the nodes has the number k */
    size_t out_of_range_backref;           /* the number of the first back reference above total_groups */
    bool has_out_of_range_backref;
    bool numeric_capture_group_references; /* the pattern has a back reference in digits, or a call by number */
    bool contains_subroutines;             /* the pattern has a subroutine call */
    bool self_recursive;                   /* the pattern calls itself by the number 0 */
    bool numbered_groups_ignored;          /* groups without a name have no number */
};

/* A part of a pattern that no node of its tree has. What its kind does not use is 0. */
typedef struct fancy_trivium fancy_trivium;
struct fancy_trivium {
    size_t start;          /* the offset of the first byte */
    size_t stop;           /* one past the offset of the last byte: start < stop <= the length of the pattern */
    uint32_t kind;         /* FANCY_TRIVIUM_.. */
    uint32_t flags_before; /* the flags that hold before inline flags, or around a flag group */
    uint32_t flags_after;  /* the flags that hold after inline flags, or in a flag group */
};

/* Characters whose codes follow one another. */
typedef struct fancy_range fancy_range;
struct fancy_range {
    uint32_t first; /* the code of the first */
    uint32_t last;  /* the code of the last */
};

/* What is known of the matches of a node. If nothing is, all is 0 or false. */
typedef struct fancy_node_facts fancy_node_facts;
struct fancy_node_facts {
    size_t min_length;         /* a match has at least so many characters, or more if it is SIZE_MAX */
    size_t max_length;         /* at most so many characters, SIZE_MAX for no limit */
    size_t min_bytes;          /* at least so many bytes of UTF-8, or more if it is SIZE_MAX */
    size_t max_bytes;          /* at most so many bytes, SIZE_MAX for no limit */
    bool is_known;             /* it is known what the node matches */
    bool can_be_empty;         /* min_length is 0; if not, no match is empty */
    bool is_constant_length;   /* all matches have min_length characters */
    bool is_anchored_at_start; /* an assertion says that each match starts where the text does */
    bool is_anchored_at_end;   /* an assertion says that each match ends where the text does */
};

/* What is known of the matches of a whole pattern. */
typedef struct fancy_pattern_facts fancy_pattern_facts;
struct fancy_pattern_facts {
    size_t node_count;    /* at most FANCY_MAX_NODES */
    size_t prefix_size;   /* of the text that each match begins with, in bytes; 0 if it is not known */
    bool has_prefix;      /* that text is known */
    bool is_prefix_whole; /* each match is that text, and no more */
    bool is_easy;         /* fancy-regex can hand the pattern to an engine that never backtracks: it has no reference,
                             look-around, atomic group or the like */
};
/* ---- end of numbers and structs */

/* Capacities that suffice for a pattern of this length in bytes, so that one call of fancy_parse or fancy_tree is enough. This
 * is proved for trees, whose texts have at most 6 * length bytes. FANCY_MAX_TEXTS also suffices for the message that fancy_tree
 * writes, which is tested. That FANCY_MAX_TRIVIA suffices for fancy_trivia is tested too: each trivium begins at a byte of its own.
 * FANCY_MAX_NAMES(0) is 0. */
#define FANCY_MAX_NODES(length) (2 * (size_t)(length) + 1)
#define FANCY_MAX_TEXTS(length) (6 * (size_t)(length) + 128)
#define FANCY_MAX_NAMES(length) ((size_t)(length))
#define FANCY_MAX_BACKREFS(length) (2 * (size_t)(length) + 1)
#define FANCY_MAX_TRIVIA(length) ((size_t)(length) + 1)

/* Buffers for all that a pattern gives, with their capacities; what fancy_parse_into and fancy_parse_alloc say of it is at the
 * end. A null pointer has capacity 0. */
typedef struct fancy_buffers fancy_buffers;
struct fancy_buffers {
    fancy_node *nodes;
    size_t node_capacity;
    char *texts;
    size_t texts_capacity;   /* in bytes */
    fancy_name *names;
    size_t name_capacity;
    size_t *backrefs;
    size_t backref_capacity;
    fancy_trivium *trivia;
    size_t trivium_capacity;
    fancy_info info;         /* the sizes of the first four, and the group information */
    size_t trivium_count;
};

/* ---- The proved functions. They take no null pointer. The functions below them do, and are the ones to call. */

fancy_result fancy_check_nonnull(const char *pattern, size_t length, uint32_t flags);
fancy_result fancy_message_nonnull(const char *pattern, size_t length, uint32_t flags, char *buffer, size_t capacity);
fancy_result fancy_error_text_nonnull(uint32_t kind, char *buffer, size_t capacity);
fancy_result fancy_parse_nonnull(const char *pattern, size_t length, uint32_t flags, fancy_node *nodes, size_t node_capacity,
                                 char *texts, size_t texts_capacity, fancy_name *names, size_t name_capacity,
                                 size_t *backrefs, size_t backref_capacity, fancy_info *info);
fancy_result fancy_print_nonnull(const char *pattern, size_t length, uint32_t flags, uint32_t precedence, char *buffer,
                                 size_t capacity);
fancy_result fancy_to_pattern_nonnull(const char *pattern, size_t length, uint32_t flags, char *buffer, size_t capacity);
fancy_result fancy_format_nonnull(const char *pattern, size_t length, uint32_t flags, uint32_t style, size_t width,
                                  char *buffer, size_t capacity);
fancy_result fancy_tree_nonnull(const char *pattern, size_t length, uint32_t flags, fancy_node *nodes, size_t node_capacity,
                                char *texts, size_t texts_capacity, fancy_name *names, size_t name_capacity, size_t *backrefs,
                                size_t backref_capacity, fancy_info *info);
fancy_result fancy_print_nodes_nonnull(const fancy_node *nodes, size_t node_count, const char *texts, size_t texts_size,
                                       size_t index, uint32_t precedence, char *buffer, size_t capacity);
fancy_result fancy_to_pattern_nodes_nonnull(const fancy_node *nodes, size_t node_count, const char *texts, size_t texts_size,
                                            size_t index, const fancy_name *names, size_t name_count, const fancy_info *info,
                                            uint32_t flags, char *buffer, size_t capacity);
fancy_result fancy_trivia_nonnull(const char *pattern, size_t length, uint32_t flags, fancy_trivium *trivia, size_t capacity,
                                  size_t *count);
fancy_result fancy_parse_into_nonnull(const char *pattern, size_t length, uint32_t flags, fancy_node *nodes,
                                      size_t node_capacity, char *texts, size_t texts_capacity, fancy_name *names,
                                      size_t name_capacity, size_t *backrefs, size_t backref_capacity, fancy_trivium *trivia,
                                      size_t trivium_capacity, fancy_info *info, size_t *trivium_count);
fancy_result fancy_is_resolved_nonnull(const char *pattern, size_t length, uint32_t flags);
size_t fancy_group_name_nonnull(const fancy_name *names, size_t name_count, size_t group);
fancy_result fancy_escape_nonnull(const char *text, size_t length, uint32_t flags, char *buffer, size_t capacity);
fancy_result fancy_class_ranges_nonnull(const char *text, size_t length, uint32_t flags, fancy_range *ranges, size_t capacity,
                                        size_t *count);
fancy_result fancy_node_ranges_nonnull(const fancy_node *node, const char *texts, size_t texts_size, uint32_t flags,
                                       fancy_range *ranges, size_t capacity, size_t *count);
fancy_result fancy_facts_nonnull(const char *pattern, size_t length, uint32_t flags, fancy_node_facts *nodes, size_t node_capacity,
                                 char *prefix, size_t prefix_capacity, fancy_pattern_facts *whole);
fancy_result fancy_parse_id_nonnull(const char *text, size_t length);
fancy_result fancy_parse_decimal_nonnull(const char *text, size_t length, size_t *value);

/* ---- The functions to call. They are inline, and libfancy has them as symbols too, for callers without this header. Each that
 * takes flags returns UNKNOWN_FLAG if a bit is set that it does not take, whatever the pattern or the rows are. A style or a
 * precedence that does not exist is refused before that. FANCY_INLINE is for the source of libfancy, which defines it as empty. */

#ifndef FANCY_INLINE
#define FANCY_INLINE static inline
#endif

/* Returns the version of the library, in the form of FANCY_VERSION. */
uint32_t fancy_version(void);

/* Checks whether a pattern is valid. Returns OK, REFUSED, NOT_UTF8, OUT_OF_MEMORY or UNKNOWN_FLAG. */
FANCY_INLINE fancy_result fancy_check(const char *pattern, size_t length, uint32_t flags) {
    return fancy_check_nonnull(pattern ? pattern : "", length, flags);
}

/* Checks whether a pattern is valid, and if not, writes the message of its error, without the position. Returns what
 * fancy_check returns, with the size of the message; or BUFFER_TOO_SHORT, with the kind, the position and that size.
 * Unless it returns REFUSED, nothing is written. */
FANCY_INLINE fancy_result fancy_message(const char *pattern, size_t length, uint32_t flags, char *buffer, size_t capacity) {
    char none;
    return fancy_message_nonnull(pattern ? pattern : "", length, flags, buffer ? buffer : &none, buffer ? capacity : 0);
}

/* Writes the message of a kind of error, without a pattern: at most 47 bytes, and none for a number that no kind has. The
 * messages of FANCY_ERROR_GENERAL_PARSE_ERROR, _INVALID_ESCAPE, _UNKNOWN_FLAG and _INVALID_GROUP_NAME_BACKREF end with a
 * text that depends on the pattern: of these it writes what comes before that text. Returns OK or BUFFER_TOO_SHORT,
 * each with the size of the message; or OUT_OF_MEMORY. */
FANCY_INLINE fancy_result fancy_error_text(uint32_t kind, char *buffer, size_t capacity) {
    char none;
    return fancy_error_text_nonnull(kind, buffer ? buffer : &none, buffer ? capacity : 0);
}

/* Parses a pattern, and sets *info if it returns OK or BUFFER_TOO_SHORT, unless info is null. The flag FANCY_FLAG_WITHOUT_SPANS
 * leaves the spans out. Returns OK if everything fits; then the buffers hold:
 *   nodes      the nodes in preorder: each is before its children, and these are in the order of the pattern;
 *   texts      the texts of the nodes, and after them the names of groups;
 *   names      the names in the order of their bytes, each with its group numbers in ascending order;
 *   backrefs   the group numbers of back references, up to total_groups, in ascending order, each once.
 * Returns BUFFER_TOO_SHORT if a buffer is too short: *info says how much is needed, and nothing else is written. Otherwise
 * it returns what fancy_check returns, and nothing is written. */
FANCY_INLINE fancy_result fancy_parse(const char *pattern, size_t length, uint32_t flags, fancy_node *nodes,
                                      size_t node_capacity, char *texts, size_t texts_capacity, fancy_name *names,
                                      size_t name_capacity, size_t *backrefs, size_t backref_capacity, fancy_info *info) {
    fancy_node no_node;
    char no_text;
    fancy_name no_name;
    size_t no_number;
    fancy_info no_info;
    return fancy_parse_nonnull(pattern ? pattern : "", length, flags, nodes ? nodes : &no_node, nodes ? node_capacity : 0,
                               texts ? texts : &no_text, texts ? texts_capacity : 0, names ? names : &no_name,
                               names ? name_capacity : 0, backrefs ? backrefs : &no_number, backrefs ? backref_capacity : 0,
                               info ? info : &no_info);
}

/* Prints the tree of a pattern: the text is parsed as the normal form of that tree. Returns OK or BUFFER_TOO_SHORT, each with
 * the size of the text; or NOT_PRINTABLE, since references, look-arounds, atomic groups, calls and the like have no text
 * here; or UNKNOWN_PRECEDENCE if no precedence has the number, whatever the pattern is. Otherwise it returns what fancy_check
 * returns. Unless it returns OK, nothing is written. Above FANCY_PRECEDENCE_WHOLE an alternation is put into a group, above
 * _BRANCH a concatenation too, and above _PIECE a repetition too. */
FANCY_INLINE fancy_result fancy_print(const char *pattern, size_t length, uint32_t flags, uint32_t precedence, char *buffer,
                                      size_t capacity) {
    char none;
    return fancy_print_nonnull(pattern ? pattern : "", length, flags, precedence, buffer ? buffer : &none,
                               buffer ? capacity : 0);
}

/* Writes a pattern that is parsed, under the same flags, as the same tree with the same groups and names. Comments, ignored
 * whitespace, and the choice among several ways to write the same node are lost. Returns OK or BUFFER_TOO_SHORT, each with
 * the size of the text. Otherwise it returns what fancy_check returns. Unless it returns OK, nothing is written. */
FANCY_INLINE fancy_result fancy_to_pattern(const char *pattern, size_t length, uint32_t flags, char *buffer, size_t capacity) {
    char none;
    return fancy_to_pattern_nonnull(pattern ? pattern : "", length, flags, buffer ? buffer : &none, buffer ? capacity : 0);
}

/* Formats a pattern, and keeps how it is written: escapes, classes, names, comments, and the flags that it sets. What
 * changes is what has a simpler form: quantifiers such as {0,1}, groups and flags that are not needed, and ignored
 * whitespace. The text is parsed, under the same flags, as the same tree with the same groups and names, and has the same
 * comments except (?#); under FANCY_STYLE_COMPACT, comments with the same text inside. A pattern that cannot be formatted so
 * is written as it is, and the status is OK too. The style is FANCY_STYLE_..; width says how many characters a line may have
 * under FANCY_STYLE_VERBOSE, and is not read under another style. Returns OK or BUFFER_TOO_SHORT, each with the size of the
 * text; or UNKNOWN_STYLE if no style has the number, whatever the pattern is. Otherwise it returns what fancy_check returns.
 * Unless it returns OK, nothing is written. */
FANCY_INLINE fancy_result fancy_format(const char *pattern, size_t length, uint32_t flags, uint32_t style, size_t width,
                                       char *buffer, size_t capacity) {
    char none;
    return fancy_format_nonnull(pattern ? pattern : "", length, flags, style, width, buffer ? buffer : &none,
                                buffer ? capacity : 0);
}

/* Parses a pattern as fancy_parse does, with one difference. If the pattern is invalid, the message of its error is written to
 * texts: returns REFUSED, with the kind, the position, and the size of the message; or BUFFER_TOO_SHORT with all of these, if
 * the message does not fit, and *info is unchanged. If it is the tree that does not fit, the kind is FANCY_ERROR_NONE, and
 * *info says how much is needed. */
FANCY_INLINE fancy_result fancy_tree(const char *pattern, size_t length, uint32_t flags, fancy_node *nodes,
                                     size_t node_capacity, char *texts, size_t texts_capacity, fancy_name *names,
                                     size_t name_capacity, size_t *backrefs, size_t backref_capacity, fancy_info *info) {
    fancy_node no_node;
    char no_text;
    fancy_name no_name;
    size_t no_number;
    fancy_info no_info;
    return fancy_tree_nonnull(pattern ? pattern : "", length, flags, nodes ? nodes : &no_node, nodes ? node_capacity : 0,
                              texts ? texts : &no_text, texts ? texts_capacity : 0, names ? names : &no_name,
                              names ? name_capacity : 0, backrefs ? backrefs : &no_number, backrefs ? backref_capacity : 0,
                              info ? info : &no_info);
}

/* Prints the tree of rows, as fancy_print prints the tree of a pattern. The rows are those from an index on: 0 for the whole
 * tree, the index of a node for its part of it. Nodes and texts are as fancy_parse or fancy_tree wrote them, or changed, or
 * made by hand: then each end has to be right, and each text in texts. Spans, the numbers of groups, and what the kind of a
 * node does not use are not read. Returns OK, BUFFER_TOO_SHORT, NOT_PRINTABLE or UNKNOWN_PRECEDENCE as fancy_print does;
 * NO_TREE if the rows are no tree, or one of more than 832 levels; or OUT_OF_MEMORY. Unless it returns OK, nothing is
 * written. */
FANCY_INLINE fancy_result fancy_print_nodes(const fancy_node *nodes, size_t node_count, const char *texts, size_t texts_size,
                                            size_t index, uint32_t precedence, char *buffer, size_t capacity) {
    static fancy_node no_node;
    char none;
    return fancy_print_nodes_nonnull(nodes ? nodes : &no_node, node_count, texts ? texts : "", texts_size, index,
                                     precedence, buffer ? buffer : &none, buffer ? capacity : 0);
}

/* Writes a pattern that is parsed, under the flags, as the tree of rows, with names for its groups. The rows are as
 * fancy_print_nodes takes them. The k-th FANCY_NODE_GROUP of all rows has the number k, by which names refers to it; names
 * of groups that are not in the tree are left out. References are written as they are: they keep their numbers, also in a
 * part of a tree whose groups have smaller numbers there. Of info, which may be null, only two fields are read:
 * numeric_capture_group_references and self_recursive say whether references, and calls of the whole pattern, are written by
 * numbers, as far as there is a choice. Returns OK, BUFFER_TOO_SHORT, NO_TREE or OUT_OF_MEMORY as fancy_print_nodes does;
 * UNKNOWN_FLAG; or NO_PATTERN if what is written for the tree does not parse back as this tree, which never happens to all the
 * rows of a pattern, under its flags, with its names and info. */
FANCY_INLINE fancy_result fancy_to_pattern_nodes(const fancy_node *nodes, size_t node_count, const char *texts,
                                                 size_t texts_size, size_t index, const fancy_name *names, size_t name_count,
                                                 const fancy_info *info, uint32_t flags, char *buffer, size_t capacity) {
    static fancy_node no_node;
    static fancy_name no_name;
    static fancy_info no_info;
    char none;
    return fancy_to_pattern_nodes_nonnull(nodes ? nodes : &no_node, node_count, texts ? texts : "", texts_size, index,
                                          names ? names : &no_name, name_count, info ? info : &no_info, flags,
                                          buffer ? buffer : &none, buffer ? capacity : 0);
}

/* Checks whether each reference of a pattern refers to a group that the pattern has, or to the whole pattern. Returns OK if so;
 * or UNRESOLVED, if a back reference, a condition or a call has a number above total_groups, or a call is a FANCY_NODE_AST_NODE.
 * Otherwise it returns what fancy_check returns. */
FANCY_INLINE fancy_result fancy_is_resolved(const char *pattern, size_t length, uint32_t flags) {
    return fancy_is_resolved_nonnull(pattern ? pattern : "", length, flags);
}

/* Returns the index in names of the name of a group; name_count if the group has no name. */
FANCY_INLINE size_t fancy_group_name(const fancy_name *names, size_t name_count, size_t group) {
    static fancy_name no_name;
    return fancy_group_name_nonnull(names ? names : &no_name, name_count, group);
}

/* Writes a pattern that matches a text: under the flags, which are those that hold where it is put, it is parsed as a
 * FANCY_NODE_LITERAL for each character. Each character is written the same whatever is beside it: one with a meaning of its own
 * after a backslash, one that cannot be seen as an escape with a letter or a code. Returns OK or BUFFER_TOO_SHORT, each with the
 * size of the pattern; NOT_UTF8, OUT_OF_MEMORY or UNKNOWN_FLAG. Unless it returns OK, nothing is written. */
FANCY_INLINE fancy_result fancy_escape(const char *text, size_t length, uint32_t flags, char *buffer, size_t capacity) {
    char none;
    return fancy_escape_nonnull(text ? text : "", length, flags, buffer ? buffer : &none, buffer ? capacity : 0);
}

/* Writes the characters that a class matches, as ranges in ascending order, with a gap between any two and without surrogates. The
 * text is that of a FANCY_NODE_DELEGATE, and read as fancy-regex reads it: under FANCY_FLAG_CASEI, for a node with casei, and under
 * FANCY_FLAG_UNICODE; other flags change nothing. Sets *count to the number of ranges if it returns OK or BUFFER_TOO_SHORT, unless
 * count is null. Returns OK if all of them fit; BUFFER_TOO_SHORT if they do not; REFUSED, with FANCY_ERROR_INVALID_CLASS and a
 * position in the text, if fancy-regex refuses the class, as [z-a]; NOT_ONE_CHARACTER if it reads the text as something else
 * than a class or a character, as [0-[a]b]; NOT_UTF8, OUT_OF_MEMORY or UNKNOWN_FLAG. Unless it returns OK, no range is written. */
FANCY_INLINE fancy_result fancy_class_ranges(const char *text, size_t length, uint32_t flags, fancy_range *ranges,
                                             size_t capacity, size_t *count) {
    fancy_range no_range;
    size_t no_count;
    return fancy_class_ranges_nonnull(text ? text : "", length, flags, ranges ? ranges : &no_range, ranges ? capacity : 0,
                                      count ? count : &no_count);
}

/* Does the same for a node, which is not null: a FANCY_NODE_DELEGATE, FANCY_NODE_LITERAL or FANCY_NODE_ANY, whose row and texts are
 * as fancy_parse or fancy_tree wrote them, or made by hand. The row has casei; of the flags only FANCY_FLAG_UNICODE changes
 * anything. Returns what fancy_class_ranges returns, with the position 0; NOT_ONE_CHARACTER for another kind too; and in place of
 * NOT_UTF8 it returns NO_TREE, also if the text of the node is not in texts. */
FANCY_INLINE fancy_result fancy_node_ranges(const fancy_node *node, const char *texts, size_t texts_size, uint32_t flags,
                                            fancy_range *ranges, size_t capacity, size_t *count) {
    fancy_range no_range;
    size_t no_count;
    return fancy_node_ranges_nonnull(node, texts ? texts : "", texts_size, flags, ranges ? ranges : &no_range,
                                     ranges ? capacity : 0, count ? count : &no_count);
}

/* Parses a pattern, and finds what is known of its matches, and of those of each node: how long they are, whether they lie at the
 * start or the end of the text, and what they begin with. Sets *whole if it returns OK or BUFFER_TOO_SHORT, unless whole is null.
 * Returns OK if everything fits; then nodes holds the facts of the nodes in the order of fancy_parse, and prefix the text that each
 * match of the pattern begins with: at most length bytes, which is tested. Returns BUFFER_TOO_SHORT if a buffer is too short, and
 * neither is written. Otherwise it returns what fancy_check returns. Nothing is known of a back reference, a condition, a call, an
 * atomic group, a possessive quantifier, an absent form, a verb, bytes, \R, \K, \G and what contains one of them. */
FANCY_INLINE fancy_result fancy_facts(const char *pattern, size_t length, uint32_t flags, fancy_node_facts *nodes,
                                      size_t node_capacity, char *prefix, size_t prefix_capacity, fancy_pattern_facts *whole) {
    fancy_node_facts no_node;
    char none;
    fancy_pattern_facts no_whole;
    return fancy_facts_nonnull(pattern ? pattern : "", length, flags, nodes ? nodes : &no_node, nodes ? node_capacity : 0,
                               prefix ? prefix : &none, prefix ? prefix_capacity : 0, whole ? whole : &no_whole);
}

/* Reads the id that a text begins with, as for a template of a replacement: all letters and numbers, in any script, and _ at the
 * front. Returns OK with the size of the id, or with 0 if the text begins with no id; or NOT_UTF8. */
FANCY_INLINE fancy_result fancy_parse_id(const char *text, size_t length) {
    return fancy_parse_id_nonnull(text ? text : "", length);
}

/* Reads the number that a text begins with: all ASCII digits at the front. Returns OK with their size, and sets *value, unless
 * value is null. The size is 0, and *value is not set, if there is no digit, or if the number is above SIZE_MAX. Or returns
 * NOT_UTF8. */
FANCY_INLINE fancy_result fancy_parse_decimal(const char *text, size_t length, size_t *value) {
    size_t no_value;
    return fancy_parse_decimal_nonnull(text ? text : "", length, value ? value : &no_value);
}

/* Parses a pattern, and sets *count to the number of its trivia, which are what no node of its tree has, if it returns OK
 * or BUFFER_TOO_SHORT, unless count is null: comments, inline flags, the parentheses of flag groups, (?:a) and (?i:a), and
 * what leaves nothing in the tree. A comment inside a token, such as one in the braces of a quantifier or after the
 * parenthesis of a group, is part of the token. Ignored whitespace is not listed. The parentheses of a group without a name
 * are listed if it has no number, since only groups with a name have one. Returns OK if all of them fit: then they are in
 * the buffer, in the order of the pattern. Returns BUFFER_TOO_SHORT if they do not. Otherwise it returns what fancy_check
 * returns: an invalid pattern has no trivia. Unless it returns OK, no trivium is written. */
FANCY_INLINE fancy_result fancy_trivia(const char *pattern, size_t length, uint32_t flags, fancy_trivium *trivia,
                                       size_t capacity, size_t *count) {
    fancy_trivium no_trivium;
    size_t no_count;
    return fancy_trivia_nonnull(pattern ? pattern : "", length, flags, trivia ? trivia : &no_trivium, trivia ? capacity : 0,
                                count ? count : &no_count);
}

/* Parses a pattern once, and writes all that it gives: what fancy_parse writes, with spans, and what fancy_trivia writes; or the
 * message of its error, as fancy_tree does. Sets info and trivium_count if it returns OK or BUFFER_TOO_SHORT, unless it is the
 * message that does not fit. Returns OK if everything fits. Returns BUFFER_TOO_SHORT if it does not: then no buffer is
 * written. Otherwise it returns what fancy_tree returns; FANCY_FLAG_WITHOUT_SPANS is not taken. If it returns REFUSED, only
 * texts is written: rows from before have lost their texts. */
FANCY_INLINE fancy_result fancy_parse_into(const char *pattern, size_t length, uint32_t flags, fancy_buffers *buffers) {
    fancy_node no_node;
    char no_text;
    fancy_name no_name;
    size_t no_number;
    fancy_trivium no_trivium;
    return fancy_parse_into_nonnull(
        pattern ? pattern : "", length, flags, buffers->nodes ? buffers->nodes : &no_node,
        buffers->nodes ? buffers->node_capacity : 0, buffers->texts ? buffers->texts : &no_text,
        buffers->texts ? buffers->texts_capacity : 0, buffers->names ? buffers->names : &no_name,
        buffers->names ? buffers->name_capacity : 0, buffers->backrefs ? buffers->backrefs : &no_number,
        buffers->backrefs ? buffers->backref_capacity : 0, buffers->trivia ? buffers->trivia : &no_trivium,
        buffers->trivia ? buffers->trivium_capacity : 0, &buffers->info, &buffers->trivium_count);
}

/* Does the same with buffers that it allocates by malloc, and sets *buffers, which is not read. It parses the pattern once, or
 * twice if a buffer of the usual size is too short. After OK the buffers hold what fancy_parse_into writes. After REFUSED texts
 * holds the message, and info and trivium_count are zero. Then fancy_buffers_free has to be called. After any other status,
 * which is never BUFFER_TOO_SHORT, *buffers is all zero. The buffers are in one block of memory: fancy_parse_into may write to
 * them again, but none of them can be passed to realloc or free. */
fancy_result fancy_parse_alloc(const char *pattern, size_t length, uint32_t flags, fancy_buffers *buffers);

/* Frees the buffers that fancy_parse_alloc allocated, but no others, and sets *buffers to zero. To call it again, or on zeros,
 * does nothing. */
void fancy_buffers_free(fancy_buffers *buffers);

/* Returns the message of a kind of error, ending with NUL, as a constant: what fancy_error_text writes. In the message of an
 * error, what follows it is the text that depends on the pattern. It is empty for a number that no kind has. */
FANCY_INLINE const char *fancy_kind_message(uint32_t kind) {
    switch (kind) {
/* ---- messages: made by tools/bindings from fancy.toml */
    case FANCY_ERROR_GENERAL_PARSE_ERROR: return "General parsing error: ";
    case FANCY_ERROR_UNCLOSED_OPEN_PAREN: return "Opening parenthesis without closing parenthesis";
    case FANCY_ERROR_INVALID_REPEAT: return "Invalid repeat syntax";
    case FANCY_ERROR_RECURSION_EXCEEDED: return "Pattern too deeply nested";
    case FANCY_ERROR_TRAILING_BACKSLASH: return "Backslash without following character";
    case FANCY_ERROR_INVALID_ESCAPE: return "Invalid escape: ";
    case FANCY_ERROR_UNCLOSED_UNICODE_NAME: return "Unicode escape not closed";
    case FANCY_ERROR_INVALID_HEX: return "Invalid hex escape";
    case FANCY_ERROR_INVALID_CODEPOINT_VALUE: return "Invalid codepoint for hex or unicode escape";
    case FANCY_ERROR_INVALID_CLASS: return "Invalid character class";
    case FANCY_ERROR_UNKNOWN_FLAG: return "Unknown group flag: ";
    case FANCY_ERROR_CHANGING_UNICODE_MODE_UNSUPPORTED: return "Changing Unicode mode inline is not supported";
    case FANCY_ERROR_INVALID_BACKREF: return "Invalid back reference";
    case FANCY_ERROR_TARGET_NOT_REPEATABLE: return "Target of repeat operator is invalid";
    case FANCY_ERROR_INVALID_GROUP_NAME: return "Could not parse group name";
    case FANCY_ERROR_INVALID_GROUP_NAME_BACKREF: return "Invalid group name in back reference: ";
/* ---- end of messages */
    default: return "";
    }
}

/* ---- Deprecated: the next major version does not have these names. Call fancy_to_pattern and fancy_to_pattern_nodes. */

#if !defined(FANCY_DEPRECATED) && defined(__GNUC__)
#define FANCY_DEPRECATED(call) __attribute__((deprecated("call " #call)))
#elif !defined(FANCY_DEPRECATED)
#define FANCY_DEPRECATED(call)
#endif

FANCY_DEPRECATED(fancy_to_pattern_nonnull)
fancy_result fancy_pattern_nonnull(const char *pattern, size_t length, uint32_t flags, char *buffer, size_t capacity);

FANCY_DEPRECATED(fancy_to_pattern_nodes_nonnull)
fancy_result fancy_pattern_nodes_nonnull(const fancy_node *nodes, size_t node_count, const char *texts, size_t texts_size,
                                         size_t index, const fancy_name *names, size_t name_count, const fancy_info *info,
                                         uint32_t flags, char *buffer, size_t capacity);

FANCY_DEPRECATED(fancy_to_pattern)
FANCY_INLINE fancy_result fancy_pattern(const char *pattern, size_t length, uint32_t flags, char *buffer, size_t capacity) {
    return fancy_to_pattern(pattern, length, flags, buffer, capacity);
}

FANCY_DEPRECATED(fancy_to_pattern_nodes)
FANCY_INLINE fancy_result fancy_pattern_nodes(const fancy_node *nodes, size_t node_count, const char *texts,
                                              size_t texts_size, size_t index, const fancy_name *names, size_t name_count,
                                              const fancy_info *info, uint32_t flags, char *buffer, size_t capacity) {
    return fancy_to_pattern_nodes(nodes, node_count, texts, texts_size, index, names, name_count, info, flags, buffer, capacity);
}

#ifdef __cplusplus
}
#endif

#endif
