/* Reads a sheet from standard input and prints its roll, or its refusal, with the proved library: what program `roll` prints.
 * From the repository's root:
 *   tools/build fissures_c
 *   cc -std=c99 -Ibindings examples/c/roll.c target/staticlib/libfissures_c.a -o target/roll-c
 *   target/roll-c < examples/A.sheet
 */
#include <inttypes.h>
#include <stdio.h>

#include "fissures.h"

static uint8_t sheet[FISSURE_ENOUGH];
static uint8_t roll[FISSURE_LONGEST_ROLL];

/* The number that some bytes stand for, low byte first. */
static uint64_t number_at(const uint8_t *bytes, int width) {
    uint64_t number = 0;
    while (width-- > 0) number = number << 8 | bytes[width];
    return number;
}

static void print_row(const uint8_t *row) {
    printf("%" PRIu64 " %d ", number_at(row + FISSURE_ROW_ID, 2), row[FISSURE_ROW_KIND]);
    printf("%" PRIu64 " ", number_at(row + FISSURE_ROW_PARTNER, 2));
    printf("%" PRIu64 "/%" PRIu64 " ", number_at(row + FISSURE_ROW_NUM, 8), number_at(row + FISSURE_ROW_DEN, 8));
    printf("%" PRIu64 " %" PRIu64 " ", number_at(row + FISSURE_ROW_X, 4), number_at(row + FISSURE_ROW_Y, 4));
    printf("%d\n", row[FISSURE_ROW_SIDE]);
}

int main(void) {
    uint64_t second; /* the number of rows, or the place of a refusal */
    uint64_t cells;
    size_t length = fread(sheet, 1, sizeof sheet, stdin);
    if (ferror(stdin)) {
        perror("roll-c");
        return 1;
    }
    uint64_t refusal = fissure_grid(sheet, length, 8, roll, sizeof roll, &second, &cells);
    if (refusal != FISSURE_ACCEPTED) {
        printf("refused %" PRIu64 " %" PRIu64 "\n", refusal, second);
        return 0;
    }
    printf("tracks %" PRIu64 " cells %" PRIu64 "\n", second, cells);
    for (uint64_t i = 0; i < second; i++) print_row(roll + i * FISSURE_ROW);
    return 0;
}
