// Random byte strings as patterns: `random_bytes SEED COUNT FILE` makes so many, parses each under random flags by every call,
// and writes on the file a line for each that is UTF-8, as a recorded answer: what `examples/lines.c` says of it, to be
// compared with `fre`. Of each other string it compares the status and the position with a check of its own. The same seed
// makes the same strings. The status is 1 where an answer is wrong.
#include "records.h"
#include "rows.h"
#include "trivia.h"
#include "format.h"
#include "all.h"
#include "engine.h"
#include "draw.h"
#include "facts.h"

static const char *const pieces[] = {
    "(", ")", "(?:", "(?i)", "(?<n>", "(?'n'", "(?P<m>", "(?>", "(?=", "(?!", "(?<=", "(?<!", "(?~", "(?~|", "(?(1)", "(?(<n>)",
    "(?(DEFINE)", "(?#", "(?x-i:", "[", "]", "[^", "&&", "[:alpha:]", "|", "*", "+", "?", "{2,3}", "{,4}", "{", "}", "^", "$", ".",
    "\\", "\\d", "\\b", "\\b{start}", "\\p{", "\\p{Greek}", "\\x{41}", "\\u0041", "\\1", "\\12", "\\k<n>", "\\k<-1>", "\\k<n+1>",
    "\\g<n>", "\\g<0>", "\\g<+1>", "(?&n)", "(?P=n)", "(*FAIL)", "(*X)", "\\K", "\\G", "\\R", "\\Q", "#", " ", "\n", "a", "b", "z",
    "0", "1", "n", "-", "<", ">", "'", "!", "=", ":", ",", "\xc3\xa9", "\xce\xb1", "\xe2\x82\xac", "\xf0\x9f\x98\x80"};

// Puts a string into the bytes, and returns its length: of any bytes, of ASCII, or of pieces of patterns, some of these with
// a byte changed.
static size_t make(unsigned char *bytes, size_t capacity) {
    size_t kind = below(4), parts = below(10), length = 0;
    for (size_t i = 0; i < parts; i++) {
        if (kind == 0) bytes[length++] = (unsigned char)below(256);
        else if (kind == 1) bytes[length++] = (unsigned char)below(128);
        else {
            const char *piece = pieces[below(sizeof pieces / sizeof *pieces)];
            size_t size = strlen(piece);
            if (length + size > capacity) break;
            memcpy(bytes + length, piece, size);
            length += size;
        }
    }
    if (kind == 3 && length > 0) bytes[below(length)] = (unsigned char)below(256);
    return length;
}

// How many bytes the character at the front has: 0 where there is none (table 3-7 of the Unicode standard).
static size_t character(const unsigned char *s, size_t left) {
    static const struct { unsigned char first, last, size, low, high; } rows[] = {
        {0x00, 0x7F, 1, 0, 0},       {0xC2, 0xDF, 2, 0x80, 0xBF}, {0xE0, 0xE0, 3, 0xA0, 0xBF}, {0xE1, 0xEC, 3, 0x80, 0xBF},
        {0xED, 0xED, 3, 0x80, 0x9F}, {0xEE, 0xEF, 3, 0x80, 0xBF}, {0xF0, 0xF0, 4, 0x90, 0xBF}, {0xF1, 0xF3, 4, 0x80, 0xBF},
        {0xF4, 0xF4, 4, 0x80, 0x8F}};
    for (size_t i = 0; i < sizeof rows / sizeof *rows; i++) {
        if (s[0] < rows[i].first || s[0] > rows[i].last) continue;
        if (rows[i].size > left) return 0;
        if (rows[i].size > 1 && (s[1] < rows[i].low || s[1] > rows[i].high)) return 0;
        for (size_t k = 2; k < rows[i].size; k++)
            if (s[k] < 0x80 || s[k] > 0xBF) return 0;
        return rows[i].size;
    }
    return 0;
}

static size_t valid_prefix(const unsigned char *s, size_t length) {
    size_t at = 0, size;
    while (at < length && (size = character(s + at, length - at)) > 0) at += size;
    return at;
}

static bool is_not_utf8(fancy_result got, size_t position) {
    return got.status == FANCY_STATUS_NOT_UTF8 && got.kind == FANCY_ERROR_NONE && got.position == position && got.size == 0;
}

// Whether each call says where the pattern stops to be UTF-8.
static bool is_refused_by_all(const char *pattern, size_t length, uint32_t flags, size_t position) {
    fancy_info info;
    fancy_buffers none;
    memset(&none, 0, sizeof none);
    return is_not_utf8(fancy_parse_into(pattern, length, flags, &none), position) && is_not_utf8(fancy_check(pattern, length, flags), position) &&
           is_not_utf8(fancy_message(pattern, length, flags, NULL, 0), position) &&
           is_not_utf8(fancy_parse(pattern, length, flags, NULL, 0, NULL, 0, NULL, 0, NULL, 0, &info), position) &&
           is_not_utf8(fancy_tree(pattern, length, flags, NULL, 0, NULL, 0, NULL, 0, NULL, 0, &info), position) &&
           is_not_utf8(fancy_trivia(pattern, length, flags, NULL, 0, NULL), position) &&
           is_not_utf8(fancy_format(pattern, length, flags, FANCY_STYLE_KEPT, 0, NULL, 0), position) &&
           is_not_utf8(fancy_print(pattern, length, flags, 0, NULL, 0), position) &&
           is_not_utf8(fancy_facts(pattern, length, flags, NULL, 0, NULL, 0, NULL), position) &&
           is_not_utf8(fancy_to_pattern(pattern, length, flags, NULL, 0), position) && are_engine_calls_right(pattern, length, flags);
}

// Whether the text that is written for the pattern's tree is written for its own tree too, under the same flags.
static bool is_written(const char *pattern, size_t length, uint32_t flags) {
    fancy_result size = fancy_to_pattern(pattern, length, flags, NULL, 0);
    if (size.status == FANCY_STATUS_REFUSED) return fancy_check(pattern, length, flags).status == FANCY_STATUS_REFUSED;
    char *text = malloc(size.size + 1), *again = malloc(size.size + 1);
    fancy_result once = fancy_to_pattern(pattern, length, flags, text, size.size);
    fancy_result twice = fancy_to_pattern(text, once.size, flags, again, once.size);
    bool is_right = once.status == FANCY_STATUS_OK && twice.status == FANCY_STATUS_OK && once.size == size.size &&
                    twice.size == size.size && memcmp(text, again, size.size) == 0;
    free(text);
    free(again);
    return is_right;
}

static void write_flags(FILE *file, uint32_t flags) {
    if (flags == 0) fputc('-', file);
    for (size_t i = 0; flag_letters[i]; i++)
        if (flags >> i & 1) fputc(flag_letters[i], file);
}

static void write_record(FILE *file, const char *pattern, size_t length, uint32_t flags) {
    answer now;
    FILE *out = open_memstream(&now.out, &now.out_size), *err = open_memstream(&now.err, &now.err_size);
    now.status = write_pattern(out, err, pattern, length, flags);
    fclose(out);
    fclose(err);
    write_flags(file, flags);
    fputc('\t', file);
    write_hex(file, pattern, length);
    fprintf(file, "\t%u\t", (unsigned)now.status);
    write_hex(file, now.out, now.out_size);
    fputc('\t', file);
    write_hex(file, now.err, now.err_size);
    fputc('\n', file);
    forget(&now);
}

int main(int argument_count, char **arguments) {
    if (argument_count != 4) return 2;
    seed(arguments[1]);
    size_t count = strtoull(arguments[2], NULL, 10), refused = 0, wrong = 0;
    FILE *file = fopen(arguments[3], "w");
    if (!file) return 2;
    for (size_t i = 0; i < count; i++) {
        unsigned char bytes[128];
        size_t length = make(bytes, sizeof bytes);
        uint32_t flags = (uint32_t)below((size_t)1 << strlen(flag_letters));
        // in memory of just its size, so that a read past the end is seen
        char *pattern = malloc(length ? length : 1);
        memcpy(pattern, bytes, length);
        size_t prefix = valid_prefix(bytes, length);
        bool is_right = true;
        if (prefix < length) refused++, is_right = is_refused_by_all(pattern, length, flags, prefix);
        else is_right = is_written(pattern, length, flags), write_record(file, pattern, length, flags);
        // of one of 16 strings, since a tree has many parts
        if (i % 16 == 0 && prefix == length)
            is_right = is_right && are_rows_right(pattern, length, flags) && are_trivia_right(pattern, length, flags) &&
                       are_formatted_right(pattern, length, flags) && is_all_right(pattern, length, flags) &&
                       are_engine_calls_right(pattern, length, flags) && are_facts_right(pattern, length, flags);
        free(pattern);
        if (is_right) continue;
        wrong++;
        printf("wrong: ");
        write_flags(stdout, flags);
        putchar(' ');
        write_hex(stdout, (const char *)bytes, length);
        putchar('\n');
    }
    fclose(file);
    printf("%zu strings, %zu of them not UTF-8: %zu wrong\n", count, refused, wrong);
    return wrong > 0;
}
