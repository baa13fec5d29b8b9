/* Two builds of the proved library, "old" and "new", called in turns on the same sheets: for each sheet and call a line
 * sheet|call|microseconds of old|microseconds of new, each the least of many rounds. Both must give the same answers; where their rows
 * differ in width, the wider ones have further fields at their end, which are left out of this; and the coordinates of an end point may be
 * a 64th apart, since older builds round down (SHEETS 5.4). bench/turns links it. */
#define _GNU_SOURCE
#include <stdint.h>
#include <stdio.h>
#include <stdlib.h>
#include <string.h>
#include <time.h>

#define BUILD(of)                                                                                                                  \
    uint64_t of##fissure_check(const uint8_t *, size_t, uint64_t *);                                                               \
    uint64_t of##fissure_plain(const uint8_t *, size_t, uint8_t *, size_t, uint64_t *);                                            \
    uint64_t of##fissure_grid(const uint8_t *, size_t, uint64_t, uint8_t *, size_t, uint64_t *, uint64_t *);                       \
    uint64_t of##fissure_advance(const uint8_t *, size_t, uint64_t *, size_t, uint64_t, uint8_t *, size_t, uint64_t *);            \
    static struct answer of##call(int which, size_t room) {                                                                        \
        struct answer a = {0, 0, 0};                                                                                               \
        uint64_t session[1] = {1};                                                                                                 \
        switch (which) {                                                                                                           \
        case CHECK: a.refusal = of##fissure_check(sheet, length, &a.second); break;                                                \
        case STEP: a.refusal = of##fissure_advance(sheet, length, session, 1, 1, out, room, &a.second); break;                     \
        case PLAIN: a.refusal = of##fissure_plain(sheet, length, out, room, &a.second); break;                                     \
        default: a.refusal = of##fissure_grid(sheet, length, figures[which], out, room, &a.second, &a.cells);                      \
        }                                                                                                                          \
        return a;                                                                                                                  \
    }

enum { FIGURES = 6, CHECK = FIGURES, PLAIN, STEP, CALLS };
static const uint64_t figures[FIGURES] = {1, 2, 4, 8, 16, 32};
static const char *const names[CALLS] = {"g = 1", "g = 2", "g = 4", "g = 8", "g = 16", "g = 32", "reading", "plain run", "session step"};
static uint8_t sheet[8192], out[16384];
static size_t length;

/* The number stored in `second` is that of the rows written, or a refusal's place. */
struct answer {
    uint64_t refusal, second, cells;
};

BUILD(old_)
BUILD(new_)
static struct answer (*const calls[2])(int, size_t) = {old_call, new_call};

/* Bytes of a row: those that a run without room needs (SHEETS 3.9), by its rows. */
static size_t width(int side) {
    uint64_t rows = calls[side](PLAIN, sizeof out).second;
    return rows > 0 ? calls[side](PLAIN, 0).second / rows : 0;
}

/* Where a row has its end point, and where that ends (SHEETS 5.6). */
enum { X = 21, Y = 25, BEHIND_Y = 29 };

static int64_t in_64ths(const uint8_t *row, size_t at) {
    uint32_t value;
    memcpy(&value, row + at, sizeof value);
    return value;
}

static int near(const uint8_t *old, const uint8_t *new, size_t at) {
    int64_t apart = in_64ths(new, at) - in_64ths(old, at);
    return apart == 0 || apart == 1;
}

static int same_row(const uint8_t *old, const uint8_t *new, size_t width) {
    int behind = memcmp(old + BEHIND_Y, new + BEHIND_Y, width - BEHIND_Y);
    return memcmp(old, new, X) == 0 && near(old, new, X) && near(old, new, Y) && behind == 0;
}

/* The sheet is accepted, the answers are equal, and so are the rows as far as the narrower ones go. */
static int same(int which) {
    static uint8_t old_out[sizeof out];
    size_t old_width = width(0), new_width = width(1), common = old_width < new_width ? old_width : new_width;
    struct answer old = old_call(which, sizeof out);
    memcpy(old_out, out, sizeof out);
    memset(out, 255, sizeof out);
    struct answer new = new_call(which, sizeof out);
    if (old.refusal != 0 || new.refusal != 0 || old.second != new.second || old.cells != new.cells) return 0;
    for (size_t row = 0; which != CHECK && row < new.second; row++)
        if (!same_row(old_out + row * old_width, out + row * new_width, common)) return 0;
    return 1;
}

static double now(void) {
    struct timespec t;
    clock_gettime(CLOCK_MONOTONIC, &t);
    return t.tv_sec * 1e6 + t.tv_nsec * 1e-3;
}

/* A turn of at least about 10 microseconds: the clock takes some hundredths. */
static double turn(int side, int which, int times) {
    double begun = now();
    for (int i = 0; i < times; i++) calls[side](which, sizeof out);
    return (now() - begun) / times;
}

static void compare(const char *name, int which, double span) {
    double once = turn(1, which, 3), least[2] = {1e18, 1e18}, begun = now();
    int times = once < 10 ? (int)(10 / once) + 1 : 1;
    for (int round = 0; round < 30 || now() - begun < span; round++)
        for (int i = 0; i < 2; i++) {
            int side = (i + round) % 2;
            double time = turn(side, which, times);
            if (time < least[side]) least[side] = time;
        }
    printf("%s|%s|%.4f|%.4f\n", name, names[which], least[0], least[1]);
}

/* Milliseconds for each call, and the sheets. */
int main(int count, char **words) {
    for (int i = 2; i < count; i++) {
        FILE *file = fopen(words[i], "rb");
        if (!file) return perror(words[i]), 1;
        length = fread(sheet, 1, sizeof sheet, file);
        fclose(file);
        const char *slash = strrchr(words[i], '/'), *name = slash ? slash + 1 : words[i];
        for (int which = 0; which < CALLS; which++) {
            if (!same(which)) return fprintf(stderr, "%s, %s: answers differ\n", name, names[which]), 1;
            compare(name, which, atof(words[1]) * 1e3);
        }
    }
}
