// Recorded answers, a line each: flags, a pattern, a status, and what `fre` writes on standard output and on standard error,
// in hexadecimal with tabs between.
#define LINES_WITHOUT_MAIN
#include "../examples/lines.c"

// Parts a line at its tabs, into at most five fields; those that it lacks are null.
static void part(char *line, char **fields) {
    line[strcspn(line, "\n")] = 0;
    for (int i = 0; i < 5; i++) fields[i] = line ? strsep(&line, "\t") : NULL;
}

static int nibble(char c) { return c <= '9' ? c - '0' : c - 'a' + 10; }

// The bytes of a field, in memory of just their size, so that a read past the end is seen.
static char *decode(const char *field, size_t *size) {
    *size = strcmp(field, "-") == 0 ? 0 : strlen(field) / 2;
    char *bytes = malloc(*size ? *size : 1);
    for (size_t i = 0; i < *size; i++) bytes[i] = (char)(nibble(field[2 * i]) * 16 + nibble(field[2 * i + 1]));
    return bytes;
}

// What `examples/lines.c` writes of a pattern, and the status.
typedef struct {
    uint32_t status;
    char *out, *err;
    size_t out_size, err_size;
} answer;

static void forget(answer *a) {
    free(a->out);
    free(a->err);
}

// Whether the answer is that of the fields.
static bool is_recorded(const answer *a, char **fields) {
    size_t out_size, err_size;
    char *out = decode(fields[3], &out_size), *err = decode(fields[4], &err_size);
    bool is_same = a->status == (uint32_t)atoi(fields[2]) && a->out_size == out_size && a->err_size == err_size &&
                   memcmp(a->out, out, out_size) == 0 && memcmp(a->err, err, err_size) == 0;
    free(out);
    free(err);
    return is_same;
}
