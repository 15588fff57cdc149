/* Answers calls with the library, for the comparison with the second program (reference/src/compare).
 *
 *     library            answer the calls of the standard input on the standard output, until it ends
 *     library plant N    the same with a fault: one number of answer N, counted from 1, is one too large
 *
 * A call is words of 64 bits, little-endian: the function, six single numbers, and then four areas: numbers to read, a
 * sheet or a part of one, a number area to write, which may be a state, and a text area to write. An area is its count
 * and what it holds before the call. An answer is the word that came back and the four areas after the call, each
 * between its guards, so that a write outside an area shows. */
#include <stdint.h>
#include <stdio.h>
#include <stdlib.h>
#include <string.h>

#include "yard.h"

#define GUARD 0xA5
#define GUARDS 32 /* bytes before and behind an area */
#define MOST_BYTES 8192

/* An area as large as any that is sent, at the front of which int64_t is aligned. */
struct area {
    int64_t room[(MOST_BYTES + 2 * GUARDS) / 8];
    size_t each, count;
};

static void fail(const char *why) {
    fprintf(stderr, "library: %s\n", why);
    exit(2);
}

static void take(void *words, size_t bytes) {
    if (fread(words, 1, bytes, stdin) != bytes)
        fail("the input ends within a call");
}

static void *start(struct area *area) {
    return (uint8_t *)area->room + GUARDS;
}

static void take_area(struct area *area, size_t each) {
    uint64_t count;
    take(&count, sizeof count);
    if (count > MOST_BYTES / each)
        fail("an area is too large");
    area->each = each;
    area->count = count;
    memset(area->room, GUARD, each * count + 2 * GUARDS);
    take(start(area), each * count);
}

static void give(const void *words, size_t bytes) {
    if (fwrite(words, 1, bytes, stdout) != bytes)
        fail("the output was closed");
}

static void give_area(const struct area *area) {
    give(area->room, area->each * area->count + 2 * GUARDS);
}

/* The calls of a sheet that comes in parts. */
static int64_t answer_parts(int64_t function, const uint8_t *part, size_t len, int64_t *state, size_t room) {
    switch (function) {
    case 14:
        return yard_parts_start(state, room);
    case 15:
        return yard_parts_feed(state, room, part, len);
    case 16:
        return yard_parts_end(state, room);
    case 17:
        return yard_parts_ask(state, room);
    }
    fail("no such function");
    return 0;
}

static int64_t answer(int64_t function, const int64_t x[6], struct area areas[4]) {
    const int64_t *p = start(&areas[0]);
    uint8_t *s = start(&areas[1]);
    int64_t *out = start(&areas[2]);
    uint8_t *text = start(&areas[3]);
    size_t n = areas[0].count, len = areas[1].count, room = areas[2].count, text_room = areas[3].count;
    switch (function) {
    case 1:
        return yard_recognise(p, n, out, room);
    case 2:
        return yard_length(p, n, out, room);
    case 3:
        return yard_inflections(p, n, out, room);
    case 4:
        return yard_offset(p, n, x[0], out, room);
    case 5:
        return yard_build(x[0], x[1], p, n, out, room);
    case 6:
        return yard_joins(x[0], x[1], x[2], x[3], x[4], x[5], out, room);
    case 7:
        return yard_check(s, len);
    case 8:
        return yard_read(s, len, (uint16_t)x[0], (uint64_t)x[1], out, room);
    case 9:
        return yard_find(s, len, (uint16_t)x[0], (uint64_t)x[1], out, room);
    case 10:
        return yard_erase(s, len);
    case 11:
        return yard_append(s, len, p, n);
    case 12:
        return yard_report(s, len, text, text_room);
    case 13:
        return yard_root((uint64_t)x[0], out, room);
    case 18:
        return yard_start(s, len, (uint16_t)x[0]);
    }
    return answer_parts(function, s, len, out, room);
}

/* The fault stands in the last number of the area, or, where it has none, in what came back. */
static void plant(int64_t *returned, struct area *out) {
    int64_t *numbers = start(out);
    if (out->count > 0)
        numbers[out->count - 1] += 1;
    else
        *returned += 1;
}

int main(int count, char **words) {
    static const size_t each[4] = {8, 1, 8, 1};
    static struct area areas[4];
    unsigned long planted = 0;
    if (count == 3 && strcmp(words[1], "plant") == 0)
        planted = strtoul(words[2], NULL, 10);
    else if (count != 1)
        fail("no words, or `plant N`");
    int64_t function;
    for (unsigned long call = 1; fread(&function, 1, sizeof function, stdin) == sizeof function; call++) {
        int64_t numbers[6];
        take(numbers, sizeof numbers);
        for (int k = 0; k < 4; k++)
            take_area(&areas[k], each[k]);
        int64_t returned = answer(function, numbers, areas);
        if (call == planted)
            plant(&returned, &areas[2]);
        give(&returned, sizeof returned);
        for (int k = 0; k < 4; k++)
            give_area(&areas[k]);
    }
    return fflush(stdout) == 0 ? 0 : 2;
}
