// Threads: `threads FILE COUNT` has so many threads answer each line of a file of recorded answers, all of them each line, on
// the same patterns, and compares what they write. The status is 1 where an answer is another than the recorded one.
#include "records.h"

#include <pthread.h>
#include <stdatomic.h>

typedef struct {
    char *fields[5], *pattern;
    size_t length;
    uint32_t flags;
} record;

static record *records;
static size_t count;
static atomic_size_t different;

static bool is_answered(const record *r) {
    answer now;
    FILE *out = open_memstream(&now.out, &now.out_size), *err = open_memstream(&now.err, &now.err_size);
    now.status = write_pattern(out, err, r->pattern, r->length, r->flags);
    fclose(out);
    fclose(err);
    bool is_right = is_recorded(&now, (char **)r->fields);
    forget(&now);
    return is_right;
}

static void *answer_all(void *first) {
    for (size_t i = 0; i < count; i++)
        if (!is_answered(&records[((size_t)first + i) % count])) different++;
    return NULL;
}

static void read_records(const char *name) {
    FILE *file = fopen(name, "r");
    char *line = NULL;
    size_t capacity = 0;
    while (file && getline(&line, &capacity, file) > 0) {
        record r = {0};
        char *kept = strdup(line);
        part(kept, r.fields);
        if (!r.fields[4] || !read_flags(r.fields[0], &r.flags)) {
            free(kept);
            continue;
        }
        r.pattern = decode(r.fields[1], &r.length);
        records = realloc(records, (count + 1) * sizeof r);
        records[count++] = r;
    }
    free(line);
    if (file) fclose(file);
}

int main(int argument_count, char **arguments) {
    pthread_t threads[64];
    size_t running = argument_count > 2 ? (size_t)atoi(arguments[2]) : 8;
    if (argument_count < 2 || running > 64) return 2;
    read_records(arguments[1]);
    // each begins elsewhere, so that different patterns are parsed at a time too
    for (size_t i = 0; i < running; i++) pthread_create(&threads[i], NULL, answer_all, (void *)(i * count / running));
    for (size_t i = 0; i < running; i++) pthread_join(threads[i], NULL);
    for (size_t i = 0; i < count; i++) free(records[i].pattern), free(records[i].fields[0]);
    free(records);
    printf("%zu threads, %zu lines each: %zu different\n", running, count, (size_t)different);
    return count == 0 || different > 0;
}
