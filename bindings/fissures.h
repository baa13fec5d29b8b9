/* Fissure sheets and rolls: the proved static library (target/staticlib/libfissures_c.a, built by `rt staticlib fissures_c`) for C.
 *
 * A slice of bytes or numbers is passed as a pointer and a length, in bytes or in numbers. No pointer may be null, not even where the
 * length is 0. What a call may write (`session`, `out`, `second`, `cells`, `list`, `start`, `size`) may overlap neither what it reads nor
 * one another. No function keeps a pointer. No call takes more than 256 KB of stack (measured on x86-64).
 *
 * Each function but fissure_name returns 0 when the call is accepted, else the number of the refusal (FISSURE_... below), and stores the
 * other number of its answer in `second` (docs/SHEETS.md, 3.1 and 11). With a refusal that is:
 *   for 1 and 4 to 10 the place of the command in the sheet's bytes, counted from 0;
 *   for 2 the place of the command that is cut short, or the length of the input where it ends with no command there;
 *   for 3 the first place after the end (the byte 00);
 *   for 12 the length needed of the slice that is too short, in bytes of `out` or in numbers of `session`;
 *   for 13 the figure; for 14 zero.
 * 11 is unused: no call returns it, since sheets with tips that face each other are accepted.
 * A refused call writes `second` and nothing else: `out`, `session` and `cells` stay as they came. An accepted call writes no byte past
 * those it gives.
 */
#ifndef FISSURES_H
#define FISSURES_H

#include <stddef.h>
#include <stdint.h>

#ifdef __cplusplus
extern "C" {
#endif

enum fissure_refusal {
    FISSURE_ACCEPTED = 0,
    FISSURE_UNKNOWN_COMMAND = 1,
    FISSURE_CUT_SHORT = 2,
    FISSURE_AFTER_END = 3,
    FISSURE_COORDINATE = 4,
    FISSURE_SPEED = 5,
    FISSURE_EQUAL_ENDS = 6,
    FISSURE_TOO_MANY = 7,
    FISSURE_ID_USED = 8,
    FISSURE_START_USED = 9,
    FISSURE_START_ON_WALL = 10,
    FISSURE_UNUSED_11 = 11, /* no call returns it */
    FISSURE_OUTPUT_TOO_SHORT = 12,
    FISSURE_GRID_FIGURE = 13,
    FISSURE_OUTSIDE_GRID = 14
};

/* Bytes of a row, and where its fields begin: id of 2 bytes, kind 1, partner 2, the time's numerator 8 and denominator 8, x and y in 64ths
 * 4 each, side 1; all little-endian (docs/SHEETS.md, 5.6). The time is one of the whole sheet, also where the track starts later than at
 * 0. x and y are the nearest 64ths, at an exact half the even ones, and at most 262080, which is 4095 units (5.4). */
#define FISSURE_ROW 30
#define FISSURE_ROW_ID 0
#define FISSURE_ROW_KIND 2
#define FISSURE_ROW_PARTNER 3
#define FISSURE_ROW_NUM 5
#define FISSURE_ROW_DEN 13
#define FISSURE_ROW_X 21
#define FISSURE_ROW_Y 25
#define FISSURE_ROW_SIDE 29
/* From which side the tip came to the line that ended it, seen in the direction of the track or wall that is named; a wall's is from a to b
 * (docs/SHEETS.md, 4.14). A tip that ends at the edge has no side. */
enum fissure_side { FISSURE_NO_SIDE = 0, FISSURE_LEFT = 1, FISSURE_RIGHT = 2, FISSURE_ALONG = 3 };
/* Room for the roll of any sheet: 256 rows. For the ids of any cell: 256 of 2 bytes. For the ordered form of any sheet: 256 tracks of
 * 11 bytes, 256 walls of 11 and the end. */
#define FISSURE_LONGEST_ROLL 7680
#define FISSURE_LONGEST_CELL 512
#define FISSURE_LONGEST_SHEET 5633
/* Room for each of the four shapefiles of any sheet: a header of 100 bytes, and for each of 256 rows 88 of a trace, 28 of an end, 8 of an
 * index (docs/SHEETS.md, 12). */
#define FISSURE_LONGEST_TRACES_SHP 22628
#define FISSURE_LONGEST_TRACES_SHX 2148
#define FISSURE_LONGEST_ENDS_SHP 7268
#define FISSURE_LONGEST_ENDS_SHX 2148
/* So many bytes of an input are enough to read: they decide its answer, however long it is (docs/SHEETS.md, 2.10). */
#define FISSURE_ENOUGH 5643

/* The verdict on a sheet's bytes; second: 0 if accepted. */
uint64_t fissure_check(const uint8_t *sheet, size_t length, uint64_t *second);

/* Writes the sheet's ordered form; second: its length. A track that starts at 0 is written by 01, also where the sheet lists it by 03. */
uint64_t fissure_order(const uint8_t *sheet, size_t length, uint8_t *out, size_t room, uint64_t *second);

/* Writes the sheet's roll, by the plain run; second: the number of rows. */
uint64_t fissure_plain(const uint8_t *sheet, size_t length, uint8_t *out, size_t room, uint64_t *second);

/* Writes the sheet's roll, by the grid run of a figure of 1, 2, 4, 8, 16 or 32; second: the number of rows; cells: the number of cells
 * entered. */
uint64_t fissure_grid(const uint8_t *sheet, size_t length, uint64_t figure, uint8_t *out, size_t room, uint64_t *second,
                      uint64_t *cells);

/* Writes the ids of the tracks with a point in one cell, 2 bytes each and each once; second: their number. They come by when their
 * traces enter the cell, those of one time by rising id, however the sheet is listed (docs/SHEETS.md, 6.4 and 6.10). */
uint64_t fissure_cells(const uint8_t *sheet, size_t length, uint64_t figure, uint64_t column, uint64_t row, uint8_t *out, size_t room,
                       uint64_t *second);

/* Each of the next four writes a shapefile of the sheet's roll; second: its length. A record stands for a row, in the roll's order, however
 * the sheet is listed (docs/SHEETS.md, 12). */

/* The traces: PolyLines, each from its track's start to its row's point, or a null shape where these are equal. */
uint64_t fissure_traces_shp(const uint8_t *sheet, size_t length, uint8_t *out, size_t room, uint64_t *second);

/* The index file of the traces. */
uint64_t fissure_traces_shx(const uint8_t *sheet, size_t length, uint8_t *out, size_t room, uint64_t *second);

/* The end points: Points, those of the rows. */
uint64_t fissure_ends_shp(const uint8_t *sheet, size_t length, uint8_t *out, size_t room, uint64_t *second);

/* The index file of the end points. */
uint64_t fissure_ends_shx(const uint8_t *sheet, size_t length, uint8_t *out, size_t room, uint64_t *second);

/* A session over a sheet is a slice of numbers that the caller keeps: the first FISSURE_SESSION of them are the session, today the number
 * of rows shown; numbers behind them stay as they are. More rows shown than the roll has count as all of them. A slice with fewer numbers
 * is refused 12, with FISSURE_SESSION in `second`, after the sheet's own refusals and before those of `out`. */
#define FISSURE_SESSION 1

/* Opens a session: no row shown; second: 0. */
uint64_t fissure_open(const uint8_t *sheet, size_t length, uint64_t *session, size_t numbers, uint64_t *second);

/* Writes the next n rows, or those left if fewer, and moves the session past them; second: the number of rows written. */
uint64_t fissure_advance(const uint8_t *sheet, size_t length, uint64_t *session, size_t numbers, uint64_t n, uint8_t *out, size_t room,
                         uint64_t *second);

/* Puts the session back: no row shown; second: 0. */
uint64_t fissure_reset(const uint8_t *sheet, size_t length, uint64_t *session, size_t numbers, uint64_t *second);

/* second: the number of tracks still running, those yet to open among them, that is of rows not yet shown. The session stays as it
 * came. */
uint64_t fissure_running(const uint8_t *sheet, size_t length, const uint64_t *session, size_t numbers, uint64_t *second);

/* The name of a row's partner, in name lists whose entries are an id of 2 bytes, a length of 1 and that many bytes. Kinds 1 and 2 are
 * looked up among the tracks, 3 among the walls. The name is the part of `list` (FISSURE_TRACKS or FISSURE_WALLS) that starts at `start`
 * and has `size` bytes. With any other kind, with a partner above 65535 or where no whole entry has the id, it is the empty part at the
 * start of the track list. Nothing is refused. */
void fissure_name(const uint8_t *tracks, size_t tracks_length, const uint8_t *walls, size_t walls_length, uint64_t kind, uint64_t partner,
                  uint64_t *list, uint64_t *start, uint64_t *size);

enum fissure_list { FISSURE_TRACKS = 1, FISSURE_WALLS = 2 };

#ifdef __cplusplus
}
#endif

#endif
