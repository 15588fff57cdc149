/* What a rover asks before it drives: is the sheet that of its own mission, how long is a curve of it, and what is the
 * curve's offset at a distance?
 *
 *     gcc examples/rover.c $(pkg-config --cflags --libs yard) -o target/rover
 *     target/rover samples/mission.sheet 7 3 100
 *
 * The words are a sheet's file, the number of the rover's mission, that of a curve, and a distance. `./yard install`
 * makes the library. Status 0 is an answer, 1 a refusal, 2 a mistake in the words or the file. */
#include <errno.h>
#include <inttypes.h>
#include <stdio.h>
#include <stdlib.h>
#include <string.h>

#include "yard.h"

/* Each refusal by its number: its name, and what it means to whoever made the sheet or asked. */
static const char *const meaning[][2] = {
    {"", ""},
    {"TOO LONG", "the sheet has more than 4,096 bytes"},
    {"CUT", "the sheet ends in the middle of a record"},
    {"LEFTOVER", "a byte behind the erased part is not FF"},
    {"KIND", "the sheet does not begin with its mission, or a later record is no curve"},
    {"LENGTH", "a record's length is not the one of its kind"},
    {"RANGE", "a coordinate or the distance is beyond 20,000"},
    {"NUMBER", "the sheet has no curve of that number"},
    {"STILL", "all points of the curve are the same"},
    {"NOT PH", "the curve is not Pythagorean, so it has no exact length"},
    {"NO PREIMAGE", "the curve is Pythagorean, but has no pre-image to measure it by"},
    {"ROOT", "the offset needs the root of c, and c is no square"},
    {"ROOM", "the lent area is too short"},
    {"THIRDS", "the middle leg is not whole"},
    {"DEAD END", "the first or the last leg is zero"},
    {"NO MISSION", "the sheet is erased, and not yet started for a mission"},
    {"OTHER MISSION", "the sheet is sound, but it is another mission's"},
    {"", ""}, /* 17 and 18 are nobody's yet */
    {"", ""},
    {"ENDED", "the sheet that comes in parts has ended"},
    {"FULL", "the box has 1,000 sheets already"},
};

/* Goes on with an answer, and ends with what a refusal means. */
static int64_t answered(const char *what, int64_t returned) {
    int number = yard_refusal(returned);
    if (number == 0)
        return returned;
    printf("%s: refused %d, %s: %s", what, number, meaning[number][0], meaning[number][1]);
    if (strcmp(what, "sheet") == 0)
        printf(", at byte %zu", yard_place(returned));
    printf("\n");
    exit(1);
}

static void mistake(const char *what, const char *why) {
    fprintf(stderr, "rover: %s: %s\n", what, why);
    exit(2);
}

static int64_t whole_number(const char *word) {
    char *end;
    errno = 0;
    long long number = strtoll(word, &end, 10);
    if (errno != 0 || end == word || *end != '\0')
        mistake(word, "not a whole number, or too far from 0");
    return number;
}

static uint16_t mission_number(const char *word) {
    int64_t number = whole_number(word);
    if (number < 0 || number > UINT16_MAX)
        mistake(word, "not a mission, which is a number from 0 to 65535");
    return (uint16_t)number;
}

/* A sheet that is too long shows by one byte too many. */
static size_t read_sheet(const char *name, uint8_t sheet[YARD_SHEET_BYTES + 1]) {
    FILE *file = fopen(name, "rb");
    if (file == NULL)
        mistake(name, strerror(errno));
    size_t len = fread(sheet, 1, YARD_SHEET_BYTES + 1, file);
    if (ferror(file))
        mistake(name, "cannot be read");
    fclose(file);
    return len;
}

static void print_curve(const int64_t *p, size_t n) {
    printf(n == YARD_CUBIC_NUMBERS ? "cubic:" : "quintic:");
    for (size_t k = 0; k < n; k += 2)
        printf(" (%" PRId64 ", %" PRId64 ")", p[k], p[k + 1]);
    printf("\n");
}

/* sqrt(c) A / B cut down to whole thousandths. Five legs within the range are shorter than 282,843, and B is at most
 * 12, so that what is under the root stays below 2^64. */
static int64_t thousandths(int64_t c, int64_t a, int64_t b) {
    int64_t out[YARD_ROOT_NUMBERS];
    yard_root((uint64_t)c * (uint64_t)a * (uint64_t)a * 1000000, out, YARD_ROOT_NUMBERS);
    return out[0] / b;
}

static void print_length(const int64_t *p, size_t n) {
    int64_t out[YARD_LENGTH_NUMBERS];
    answered("length", yard_length(p, n, out, YARD_LENGTH_NUMBERS));
    int64_t about = thousandths(out[0], out[1], out[2]);
    printf("length: sqrt(%" PRId64 ") * %" PRId64 " / %" PRId64 ", about %" PRId64 ".%03" PRId64 "\n", out[0], out[1],
           out[2], about / 1000, about % 1000);
}

/* Control points with their weights. A point whose weight is zero lies nowhere. */
static void print_offset(const int64_t *p, size_t n, int64_t h) {
    int64_t out[YARD_QUINTIC_OFFSET_NUMBERS];
    int64_t count = answered("offset", yard_offset(p, n, h, out, YARD_QUINTIC_OFFSET_NUMBERS));
    printf("offset at %" PRId64 ":\n", h);
    for (const int64_t *point = out; point < out + count; point += 3) {
        printf("  W %" PRId64 ", X %" PRId64 ", Y %" PRId64, point[0], point[1], point[2]);
        if (point[0] != 0)
            printf(": (%.3f, %.3f)", (double)point[1] / (double)point[0], (double)point[2] / (double)point[0]);
        printf("\n");
    }
}

int main(int count, char **words) {
    if (count != 5)
        mistake("words", "a sheet's file, the mission's number, a curve's number and a distance");
    uint8_t sheet[YARD_SHEET_BYTES + 1];
    int64_t p[YARD_QUINTIC_NUMBERS];
    size_t len = read_sheet(words[1], sheet);
    uint16_t mission = mission_number(words[2]);
    int64_t number = whole_number(words[3]);
    int64_t h = whole_number(words[4]);
    answered("sheet", yard_check(sheet, len));
    size_t n = (size_t)answered("curve", yard_read(sheet, len, mission, (uint64_t)number, p, YARD_QUINTIC_NUMBERS));
    print_curve(p, n);
    print_length(p, n);
    print_offset(p, n, h);
    return 0;
}
