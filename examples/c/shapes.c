/* Reads a sheet from standard input and writes the shapefiles of its roll with the proved library, BASE-traces.shp, BASE-traces.shx,
 * BASE-ends.shp and BASE-ends.shx, each with a line, or prints its refusal: what program `shapes` does.
 * From the repository's root:
 *   tools/build fissures_c
 *   cc -std=c99 -Ibindings examples/c/shapes.c target/staticlib/libfissures_c.a -o target/shapes-c
 *   target/shapes-c target/A < examples/A.sheet
 */
#include <inttypes.h>
#include <stdio.h>

#include "fissures.h"

typedef uint64_t writer(const uint8_t *sheet, size_t length, uint8_t *out, size_t room, uint64_t *second);

static const struct {
    const char *end_of_name;
    writer *write;
} files[] = {
    {"traces.shp", fissure_traces_shp},
    {"traces.shx", fissure_traces_shx},
    {"ends.shp", fissure_ends_shp},
    {"ends.shx", fissure_ends_shx},
};

static uint8_t sheet[FISSURE_ENOUGH];
static uint8_t out[FISSURE_LONGEST_TRACES_SHP]; /* no file is longer */

/* Writes the first bytes of `out` to a file and says so; whether that succeeded. */
static int store(const char *base, const char *end_of_name, size_t length) {
    char name[4096];
    if (snprintf(name, sizeof name, "%s-%s", base, end_of_name) >= (int)sizeof name) return 0;
    FILE *file = fopen(name, "wb");
    if (file == NULL) return 0;
    int stored = fwrite(out, 1, length, file) == length;
    if (fclose(file) != 0 || !stored) return 0;
    printf("%s %zu\n", name, length);
    return 1;
}

int main(int count, char **arguments) {
    uint64_t second; /* the length of a file, or the place of a refusal */
    if (count != 2) {
        fprintf(stderr, "usage: shapes-c BASE < SHEET\n");
        return 2;
    }
    size_t length = fread(sheet, 1, sizeof sheet, stdin);
    if (ferror(stdin)) {
        perror("shapes-c");
        return 1;
    }
    uint64_t refusal = fissure_check(sheet, length, &second);
    if (refusal != FISSURE_ACCEPTED) {
        printf("refused %" PRIu64 " %" PRIu64 "\n", refusal, second);
        return 0;
    }
    /* The sheet is accepted and there is room for any file: no call is refused from here on. */
    for (size_t i = 0; i < sizeof files / sizeof files[0]; i++) {
        files[i].write(sheet, length, out, sizeof out, &second);
        if (!store(arguments[1], files[i].end_of_name, second)) {
            fprintf(stderr, "shapes-c: %s-%s was not written\n", arguments[1], files[i].end_of_name);
            return 1;
        }
    }
    return 0;
}
