/* Does one thing with each pattern of a corpus, so that its cost can be counted: `count MODE FILE`, where a line of the file begins with
 * flags and a pattern in hexadecimal. `tools/speed c` builds and runs it. The buffers are kept. */
#include <fancy.h>
#include <stdio.h>
#include <stdlib.h>
#include <string.h>

enum { LONGEST = 100000 };

static const char letters[] = "imsUxuRon";
static fancy_node nodes[FANCY_MAX_NODES(LONGEST)];
static char texts[FANCY_MAX_TEXTS(LONGEST)];
static fancy_name names[FANCY_MAX_NAMES(LONGEST)];
static size_t backrefs[FANCY_MAX_BACKREFS(LONGEST)];
static char line[2 * LONGEST + 100], pattern[LONGEST];

static bool parse(const char *text, size_t length, uint32_t flags) {
    return fancy_parse(text, length, flags, nodes, FANCY_MAX_NODES(LONGEST), texts, FANCY_MAX_TEXTS(LONGEST), names,
                       FANCY_MAX_NAMES(LONGEST), backrefs, FANCY_MAX_BACKREFS(LONGEST), NULL).status == FANCY_STATUS_OK;
}

int main(int count, char **arguments) {
    FILE *lines = count == 3 ? fopen(arguments[2], "r") : NULL;
    if (!lines) return 2;
    const char *mode = arguments[1];
    size_t valid = 0;
    while (fgets(line, sizeof line, lines)) {
        uint32_t flags = 0;
        char *at = line;
        for (; *at && *at != '\t'; at++) {
            const char *letter = strchr(letters, *at);
            if (letter) flags |= (uint32_t)1 << (letter - letters);
        }
        size_t length = 0;
        for (unsigned byte; sscanf(at + 1 + 2 * length, "%2x", &byte) == 1; length++) pattern[length] = (char)byte;
        if (!strcmp(mode, "none")) valid += length > 0;
        else if (!strcmp(mode, "check")) valid += fancy_check(pattern, length, flags).status == FANCY_STATUS_OK;
        else if (!strcmp(mode, "rows")) valid += parse(pattern, length, flags);
        else if (!strcmp(mode, "rows-without-spans")) valid += parse(pattern, length, flags | FANCY_FLAG_WITHOUT_SPANS);
        else return 2;
    }
    printf("%zu\n", valid);
    return 0;
}
