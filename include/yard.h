/* The calls of the yard's proved curve library, for C99 and C++. Link with libyard.a.
 *
 * What comes back. 0 or more is an answer, which each call describes. Below 0 is a refusal, as
 * -(number + 32 * place); yard_refusal and yard_place take the two apart. A place is a byte of the sheet, and 0
 * where a refusal has none. YARD_NOT_ENDED is neither, and comes from yard_parts_ask alone.
 *
 * Which refusal. Each call lists those that it knows, in order, and gives the first whose cause holds.
 *
 * Areas. An area is a pointer and how many numbers or bytes it holds. The number area `out`, of `room` numbers, is
 * written whole in every call that has one: the answer from its start and zeros behind it, or zeros alone after a
 * refusal. A sheet that a call may write keeps every byte where the call refuses.
 *
 * What a caller owes. No pointer is null, not even where a count is 0; int64_t areas are aligned as the compiler
 * aligns them; an area that a call writes overlaps no other area of that call; and each area has the size that it
 * is said to have. Nothing else is asked: numbers, bytes and counts may have any value.
 *
 * What the library needs. Of a C library it needs memset, on Linux memcpy too, and nothing else: the archives for bare
 * boards need memset alone. A call takes at most 2,500 bytes of stack and what memset takes. No call keeps anything:
 * the library has no data that is written to, so that calls may run at once, on threads or in an interrupt, wherever
 * no area that one of them writes is used by another. size_t has 64 bits.
 *
 * A curve is its points as numbers, x0, y0, x1, y1, ...: 8 numbers are a cubic, 12 a quintic, and any other count
 * is YARD_LENGTH before anything else is looked at. Coordinates go from -20,000 to 20,000. c, q, kappa and w are
 * those of D = kappa w^2 and |D|^2 = c q^2, D being the sum of the legs times their Bernstein functions, by powers
 * of t, lowest first. */
#ifndef YARD_H
#define YARD_H

#include <stddef.h>
#include <stdint.h>

#if SIZE_MAX != UINT64_MAX
#error "libyard.a is for processors with addresses of 64 bits"
#endif

#ifdef __cplusplus
extern "C" {
#endif

/* The refusals. */
enum {
    YARD_TOO_LONG = 1,       /* the sheet has more than 4,096 bytes */
    YARD_CUT = 2,            /* the sheet ends in the middle of a record */
    YARD_LEFTOVER = 3,       /* a byte behind the erased part is not FF; its place is that byte */
    YARD_KIND = 4,           /* the first record is not the header MN, or a later one is neither C3 nor C5 */
    YARD_LENGTH = 5,         /* a record's length is not its kind's; or a wrong count of numbers was passed */
    YARD_RANGE = 6,          /* a number is outside its range; or a state is not one that a call left */
    YARD_NUMBER = 7,         /* the sheet has no curve of that number; the first is 1 */
    YARD_STILL = 8,          /* all points are equal, or all w are zero */
    YARD_NOT_PH = 9,         /* the curve is not Pythagorean */
    YARD_NO_PREIMAGE = 10,   /* the curve is Pythagorean, but has no pre-image */
    YARD_ROOT = 11,          /* c is not a square */
    YARD_ROOM = 12,          /* the lent area, the sheet to start or its erased part is too short */
    YARD_THIRDS = 13,        /* 2 w1^2 + w0 w2 has a part that 3 does not divide */
    YARD_DEAD_END = 14,      /* the first or the last leg is zero */
    YARD_NO_MISSION = 15,    /* the sheet is all FF: it has not been started for a mission */
    YARD_OTHER_MISSION = 16, /* the sheet's header has another mission than the expected one */
    YARD_ENDED = 19          /* the sheet that comes in parts has ended */
};

/* The verdicts: the first number that yard_recognise writes. */
enum {
    YARD_VERDICT_STILL = 0, /* all points are equal */
    YARD_VERDICT_NO = 1,    /* not Pythagorean */
    YARD_VERDICT_PH = 2,    /* Pythagorean, without a pre-image */
    YARD_VERDICT_PRE = 3    /* Pythagorean, with a pre-image */
};

/* Sizes, in numbers or, of a sheet and a report, in bytes. */
enum {
    YARD_CUBIC_NUMBERS = 8,
    YARD_QUINTIC_NUMBERS = 12,
    YARD_CUBIC_PREIMAGE_NUMBERS = 4,
    YARD_QUINTIC_PREIMAGE_NUMBERS = 6,
    YARD_VERDICT_NUMBERS = 15,
    YARD_LENGTH_NUMBERS = 3,
    YARD_INFLECTION_NUMBERS = 5,
    YARD_CUBIC_OFFSET_NUMBERS = 18,
    YARD_QUINTIC_OFFSET_NUMBERS = 30,
    YARD_TRIPLE_NUMBERS = 6,
    YARD_JOIN_NUMBERS = 24,
    YARD_FOUND_NUMBERS = 2,
    YARD_ROOT_NUMBERS = 2,
    YARD_PARTS_NUMBERS = 13,
    YARD_HEADER_BYTES = 6,   /* the shortest sheet that can be started */
    YARD_SHEET_BYTES = 4096, /* the longest sheet */
    YARD_REPORT_BYTES = 5335 /* no report is longer */
};

/* What yard_parts_ask returns of a sheet that has not ended: no answer, and no refusal. */
#define YARD_NOT_ENDED INT64_MIN

/* The number of the refusal that a call returned, and 0 of an answer and of YARD_NOT_ENDED. */
static inline int yard_refusal(int64_t returned) {
    return returned < 0 ? (int)-(returned % 32) : 0;
}

/* The place of the refusal that a call returned, and 0 of an answer and of YARD_NOT_ENDED. */
static inline size_t yard_place(int64_t returned) {
    return yard_refusal(returned) != 0 ? (size_t)-(returned / 32) : 0;
}

/* What a curve is. out: the verdict, c, q0 to q4, kappa (real, imaginary), b0, b1 and b2 of w (real, imaginary);
 * what a verdict does not have, and a cubic's q3, q4 and b2, is 0. Returns 15.
 * Refuses: LENGTH, RANGE, ROOM (below 15). */
int64_t yard_recognise(const int64_t *p, size_t n, int64_t *out, size_t room);

/* The length of a curve with a pre-image, which is exactly sqrt(c) A / B. out: c, A, B. Returns 3.
 * Refuses: LENGTH, RANGE, STILL, NOT PH, NO PREIMAGE, ROOM (below 3). */
int64_t yard_length(const int64_t *p, size_t n, int64_t *out, size_t room);

/* Where a curve with a pre-image turns. out: the turning polynomial's coefficients t0, t1, t2, the count of
 * inflections inside the curve, and 1 where the polynomial is zero throughout (the curve is straight), else 0.
 * Returns 5.
 * Refuses: LENGTH, RANGE, STILL, NOT PH, NO PREIMAGE, ROOM (below 5). */
int64_t yard_inflections(const int64_t *p, size_t n, int64_t *out, size_t room);

/* The offset of a curve at distance h, from -20,000 to 20,000: a rational curve with control points (W, X, Y). out:
 * W0, X0, Y0, W1, ..., the Bernstein coefficients at degree 9 times 252, for a cubic at degree 5 times 10. Returns
 * 30, for a cubic 18.
 * Refuses: LENGTH, RANGE (a coordinate or h), STILL, NOT PH, NO PREIMAGE, ROOT, ROOM (below 30 or 18). */
int64_t yard_offset(const int64_t *p, size_t n, int64_t h, int64_t *out, size_t room);

/* The curve that begins at (x, y) and has the pre-image w: w0, w1 for a cubic (n = 4), and w2 too for a quintic
 * (n = 6), each real before imaginary, from -200 to 200. out: the coordinates. Returns 8, for a quintic 12.
 * Refuses: LENGTH (n), RANGE (x, y or w), STILL, THIRDS (a quintic), RANGE (a point of the curve), ROOM (below 8 or
 * 12). */
int64_t yard_build(int64_t x, int64_t y, const int64_t *w, size_t n, int64_t *out, size_t room);

/* The curves between two ends: all quintics with whole legs whose first leg is a, whose last leg is z, whose last
 * point lies T from the first, and whose leg polynomial is the square of a quadratic with complex coefficients, whole
 * or fractional. Parts of a and z go from -20,000 to 20,000, those of T from -40,000 to 40,000. A curve is three
 * pairs: w0 and w2, the first and the last Bernstein coefficient of that quadratic, and V, twice the middle one, which
 * may be a half. Its legs are w0^2, w0 V / 2, (V^2 + 2 w0 w2) / 6, V w2 / 2 and w2^2; where both parts of V are even,
 * yard_build makes it from w0, V / 2 and w2. out: six numbers a curve, w0, V, w2, real before imaginary, in ascending
 * order of w2 and then of V; of a triple and its negative, which are one curve, the one whose w0 has its first
 * non-zero part positive. Returns the count of curves, 0 to 4.
 * Refuses: RANGE, DEAD END, ROOM (below 24, however many there are). */
int64_t yard_joins(int64_t ax, int64_t ay, int64_t zx, int64_t zy, int64_t tx, int64_t ty, int64_t *out, size_t room);

/* Sheets. A sheet is all FF, or begins with its header: a record of kind MN, which holds the number of the mission that
 * the sheet is for, any from 0 to 65,535. Curves follow, counted from 1: the header is no curve. */

/* Checks a sheet whole. Returns the count of its curves.
 * Refuses: TOO LONG; then the first fault in sheet order, with its place: CUT, KIND, LENGTH, CUT, RANGE of a
 * record, or LEFTOVER. A first record that is no header is KIND, and so is a header further on. */
int64_t yard_check(const uint8_t *s, size_t len);

/* The curve of a number, counted from 1, on the sheet of the expected mission. out: its coordinates. Returns 8 or 12.
 * Refuses: as yard_check, OTHER MISSION, NUMBER, ROOM (below 8 or 12). A sheet that is all FF is no other mission's: it
 * has no curves, and that is NUMBER. */
int64_t yard_read(const uint8_t *s, size_t len, uint16_t mission, uint64_t number, int64_t *out, size_t room);

/* The record of a curve, counted from 1, on the sheet of the expected mission. out: the place of its first byte, and
 * how many bytes it has. Returns 2.
 * Refuses: as yard_read, but ROOM below 2. */
int64_t yard_find(const uint8_t *s, size_t len, uint16_t mission, uint64_t number, int64_t *out, size_t room);

/* Makes every byte of a sheet FF. It has no mission then. Returns 0.
 * Refuses: TOO LONG. */
int64_t yard_erase(uint8_t *s, size_t len);

/* Starts a sheet for a mission: writes the header, and makes every byte behind it FF, whatever stood there. Returns 0.
 * Refuses: TOO LONG, ROOM (below 6 bytes). */
int64_t yard_start(uint8_t *s, size_t len, uint16_t mission);

/* Writes a curve at the first erased place of a sheet, and changes no other byte. Returns 0.
 * Refuses: LENGTH (n), as yard_check, NO MISSION, RANGE, ROOM (the erased part is shorter than the record). RANGE of a
 * coordinate has place 0. */
int64_t yard_append(uint8_t *s, size_t len, const int64_t *p, size_t n);

/* The report of a sheet: the area `text` holds it from its start and zeros behind it. Its first line tells the mission
 * and the count of curves, `mission 7 sheet 4`, and `mission none sheet 0` of a sheet that is all FF. Of a faulty sheet
 * the report is the line `refused NUMBER at PLACE`. Returns how many bytes the text has, without the zeros.
 * Refuses: ROOM (below that; 5,335 is always enough), and then the area is all zero. */
int64_t yard_report(const uint8_t *s, size_t len, uint8_t *text, size_t room);

/* The square root of any number: the greatest whole root r with r^2 <= n, and what is left over. out: r and the rest,
 * with r^2 + rest = n and rest <= 2 r. A number is a square where the rest is 0. Returns 2.
 * Refuses: ROOM (below 2). */
int64_t yard_root(uint64_t n, int64_t *out, size_t room);

/* The check of a sheet that comes in parts, as over a cable: start, feed each part as it arrives, end.
 *
 *     int64_t state[YARD_PARTS_NUMBERS];
 *     yard_parts_start(state, YARD_PARTS_NUMBERS);
 *     while ((len = from_cable(part)) >= 0) yard_parts_feed(state, YARD_PARTS_NUMBERS, part, (size_t)len);
 *     int64_t curves = yard_parts_end(state, YARD_PARTS_NUMBERS);
 *
 * from_cable stands for your own reading: how many bytes have arrived in `part`, perhaps none, and below 0 after the
 * last. `curves` is then what yard_check returns of the whole sheet, a refusal included.
 *
 * The state is all that is kept: the first 13 numbers of an area of `room` numbers. Those behind are left as they are.
 * It holds no pointer, so it may be copied, and two sheets may come at once, each with its own state. Let these calls
 * alone write it: numbers that they cannot have left are RANGE, with place 0. ROOM, that RANGE and ENDED change
 * nothing. Nobody needs to look into a state, but this is what stands there:
 *
 *     0         0 while parts may follow, 1 once the sheet has ended
 *     1         how many bytes came; 4,097 where they are more than 4,096, and then all numbers behind are 0
 *     2         the mission, once the header has come whole and is sound; else 0
 *     3, 4      how many sound curves stand at the start, before any fault, and the place where the sound records end:
 *               6 behind a header alone, 0 where there is none
 *     5         how many bytes FF stand from that place on, up to the first other one
 *     6 to 12   the first 52 bytes from that place on, eight to a number as a little-endian int64_t; 0 for bytes that
 *               have not come, and for the last four of number 12 */

/* Begins a sheet of which nothing has come, whatever the area held. Returns 0.
 * Refuses: ROOM (below 13). */
int64_t yard_parts_start(int64_t *state, size_t room);

/* Takes the next part of the sheet, of any size, also none. Tells no fault of the sheet: that waits for the end.
 * Returns 0.
 * Refuses: ROOM (below 13), RANGE (the state), ENDED (an empty part too). */
int64_t yard_parts_feed(int64_t *state, size_t room, const uint8_t *part, size_t len);

/* Ends the sheet, whether it has a fault or not. Returns the count of its curves. Ending once more returns the same and
 * changes nothing.
 * Refuses: ROOM (below 13), RANGE (the state), as yard_check of all bytes that were fed. */
int64_t yard_parts_end(int64_t *state, size_t room);

/* What yard_parts_end returned, and YARD_NOT_ENDED where the sheet has not ended. Changes nothing.
 * Refuses: as yard_parts_end. */
int64_t yard_parts_ask(const int64_t *state, size_t room);

#ifdef __cplusplus
}
#endif

#endif
