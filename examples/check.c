/* Checks patterns, one per line of standard input, and reports each that is refused, as LINE:COLUMN: message. A column
 * counts bytes from 1. The exit status is 1 if one is refused, and 2 if out of memory. It needs POSIX, for getline. */
#define _POSIX_C_SOURCE 200809L

#include <fancy.h>
#include <stdio.h>
#include <stdlib.h>
#include <sys/types.h>

int main(void) {
    char *line = NULL;
    size_t line_capacity = 0, capacity = 256;
    char *message = malloc(capacity);
    int status = 0;
    ssize_t length;
    for (size_t number = 1; message && (length = getline(&line, &line_capacity, stdin)) >= 0; number++) {
        if (length > 0 && line[length - 1] == '\n') length--;
        fancy_result got = fancy_message(line, (size_t)length, FANCY_FLAG_UNICODE, message, capacity);
        if (got.status == FANCY_STATUS_BUFFER_TOO_SHORT) {
            free(message);
            message = malloc(capacity = got.size);
            if (!message) break;
            got = fancy_message(line, (size_t)length, FANCY_FLAG_UNICODE, message, capacity);
        }
        if (got.status == FANCY_STATUS_OK) continue;
        if (got.status == FANCY_STATUS_OUT_OF_MEMORY) return 2;
        status = 1;
        printf("%zu:%zu: ", number, got.position + 1);
        if (got.status == FANCY_STATUS_REFUSED) fwrite(message, 1, got.size, stdout);
        else fputs("not UTF-8", stdout);
        putchar('\n');
    }
    if (!message) return 2;
    free(message);
    free(line);
    return status;
}
