/* Steps through a sheet's roll with the proved library, two rows at a time, and prints for each row its track, how it ended, with the
 * partner's name and the side, and after each step how many tracks still run. The names stand in this program.
 * From the repository's root:
 *   tools/build fissures_c
 *   cc -std=c99 -Ibindings examples/c/desk.c target/staticlib/libfissures_c.a -o target/desk-c
 *   target/desk-c < examples/E.sheet
 */
#include <inttypes.h>
#include <stdio.h>

#include "fissures.h"

static uint8_t sheet[FISSURE_ENOUGH];

/* Name lists: id (2 bytes), length (1), the name. */
static const uint8_t track_names[] = "\1\0\5north\2\0\4east\3\0\5south";
static const uint8_t wall_names[] = "\1\0\4quay";

static const char *const endings[] = {"", "on the trace of", "meeting", "at wall", "at the edge"};
static const char *const sides[] = {"", ", from the left", ", from the right", ", along its line"};

/* The number that some bytes stand for, low byte first. */
static uint64_t number_at(const uint8_t *bytes, int width) {
    uint64_t number = 0;
    while (width-- > 0) number = number << 8 | bytes[width];
    return number;
}

static void print_row(const uint8_t *row) {
    uint64_t list, start, size;
    uint64_t kind = row[FISSURE_ROW_KIND], partner = number_at(row + FISSURE_ROW_PARTNER, 2);
    fissure_name(track_names, sizeof track_names - 1, wall_names, sizeof wall_names - 1, kind, partner, &list, &start, &size);
    const uint8_t *name = (list == FISSURE_TRACKS ? track_names : wall_names) + start;
    printf("track %" PRIu64 " ended %s", number_at(row + FISSURE_ROW_ID, 2), endings[kind]);
    if (kind < 4) printf(" %" PRIu64, partner);
    if (size > 0) printf(" (%.*s)", (int)size, (const char *)name);
    printf("%s\n", sides[row[FISSURE_ROW_SIDE]]);
}

int main(void) {
    uint64_t session[FISSURE_SESSION];
    uint64_t rows, left; /* what the calls give; on a refusal its place */
    uint8_t out[2 * FISSURE_ROW];
    size_t length = fread(sheet, 1, sizeof sheet, stdin);
    if (ferror(stdin)) {
        perror("desk-c");
        return 1;
    }
    uint64_t refusal = fissure_open(sheet, length, session, FISSURE_SESSION, &left);
    if (refusal != FISSURE_ACCEPTED) {
        printf("refused %" PRIu64 " %" PRIu64 "\n", refusal, left);
        return 0;
    }
    /* The sheet is accepted and there is room for two rows: no call is refused from here on. */
    do {
        fissure_advance(sheet, length, session, FISSURE_SESSION, 2, out, sizeof out, &rows);
        for (uint64_t i = 0; i < rows; i++) print_row(out + i * FISSURE_ROW);
        fissure_running(sheet, length, session, FISSURE_SESSION, &left);
        printf("%" PRIu64 " still running\n", left);
    } while (left > 0);
    return 0;
}
