/* The benchmark's program: inputs for PARI/GP, times in interleaved rounds, and single passes to count. */
#define _POSIX_C_SOURCE 200809L
#include "bench.h"

#include <inttypes.h>
#include <stdio.h>
#include <stdlib.h>
#include <string.h>
#include <time.h>

enum { MOST_ROUNDS = 1001, MOST_ROWS = 50 };

/* The processor's time in nanoseconds, not the wall's: a long pass is interrupted more often than a short one. */
static double now(void) {
    struct timespec t;
    clock_gettime(CLOCK_PROCESS_CPUTIME_ID, &t);
    return (double)t.tv_sec * 1e9 + (double)t.tv_nsec;
}

/* Nanoseconds a call: passes are repeated until the clock is fine enough for them, after one to warm up. */
static double time_of(const struct row *row) {
    size_t passes = 0;
    row->pass(row);
    double start = now(), spent;
    do {
        row->pass(row);
        passes++;
        spent = now() - start;
    } while (spent < 2e5);
    return spent / (double)(passes * calls_of(row));
}

/* PARI's own time, in nanoseconds a curve: the command prints it. */
static double time_of_command(const char *command) {
    double ns = 0;
    FILE *said = popen(command, "r");
    if (!said || fscanf(said, "%lf", &ns) != 1 || pclose(said) != 0) {
        fprintf(stderr, "bench: no time from: %s\n", command);
        exit(1);
    }
    return ns;
}

static int by_size(const void *a, const void *b) {
    double x = *(const double *)a, y = *(const double *)b;
    return (x > y) - (x < y);
}

static double median(double *x, size_t count) {
    qsort(x, count, sizeof *x, by_size);
    return x[count / 2];
}

/* A line: job, who, ns a call, times the library's time. */
static void print_medians(const struct row *row, const double *ns, const double *library, size_t rounds) {
    static double times[MOST_ROUNDS], ratios[MOST_ROUNDS];
    for (size_t r = 0; r < rounds; r++) {
        times[r] = ns[r];
        ratios[r] = ns[r] / library[r];
    }
    double ratio = median(ratios, rounds);
    printf("%s|%s|%.1f|%.3f\n", row->job, row->who, median(times, rounds), ratio);
}

/* All rows in each round, so that what disturbs the machine disturbs all alike. The command is PARI's. */
static void time_all(size_t rounds, const char *command) {
    static double ns[MOST_ROWS + 1][MOST_ROUNDS];
    const struct row pari = {"recognise", "PARI", NULL, NULL, curves, ANY};
    for (size_t r = 0; r < rounds; r++) {
        for (size_t k = 0; k < row_count; k++)
            ns[k][r] = time_of(&rows[k]);
        if (command)
            ns[row_count][r] = time_of_command(command);
    }
    size_t library = 0;
    for (size_t k = 0; k < row_count; k++) {
        if (strcmp(rows[k].who, "library") == 0)
            library = k;
        print_medians(&rows[k], ns[k], ns[library], rounds);
        int last = k + 1 == row_count || strcmp(rows[k].job, rows[k + 1].job) != 0;
        if (command && last && strcmp(rows[k].job, pari.job) == 0)
            print_medians(&pari, ns[row_count], ns[library], rounds);
    }
}

/* The curves as PARI/GP reads them, a vector a line. */
static void print_curves(void) {
    for (size_t k = 0; k < CURVES; k++)
        for (size_t j = 0; j < curves[k].count; j++)
            printf("%s%" PRId64 "%s", j ? "," : "[", curves[k].p[j], j + 1 < curves[k].count ? "" : "]\n");
}

/* The library's answers, fifteen numbers a line. */
static void print_answers(void) {
    int64_t out[YARD_VERDICT_NUMBERS];
    for (size_t k = 0; k < CURVES; k++) {
        yard_recognise(curves[k].p, curves[k].count, out, YARD_VERDICT_NUMBERS);
        for (size_t j = 0; j < YARD_VERDICT_NUMBERS; j++)
            printf("%" PRId64 "%s", out[j], j + 1 < YARD_VERDICT_NUMBERS ? " " : "\n");
    }
}

/* One pass, for a counter of instructions; prints how many calls it made. */
static int count_one(const char *job, const char *who) {
    for (size_t k = 0; k < row_count; k++)
        if (strcmp(rows[k].job, job) == 0 && strcmp(rows[k].who, who) == 0) {
            pass_counted(&rows[k]);
            printf("%zu\n", calls_of(&rows[k]));
            return 0;
        }
    return 2;
}

int main(int count, char **words) {
    draw_inputs();
    const char *word = count > 1 ? words[1] : "";
    size_t rounds = count > 2 ? strtoul(words[2], NULL, 10) : 0;
    if (strcmp(word, "curves") == 0)
        print_curves();
    else if (strcmp(word, "answers") == 0)
        print_answers();
    else if (strcmp(word, "agree") == 0)
        return !all_agree();
    else if (strcmp(word, "time") == 0 && rounds >= 1 && rounds <= MOST_ROUNDS && row_count <= MOST_ROWS)
        time_all(rounds, count > 3 ? words[3] : NULL);
    else if (strcmp(word, "count") == 0 && count == 4)
        return count_one(words[2], words[3]);
    else
        return fprintf(stderr, "usage: bench curves | answers | agree | time ROUNDS [COMMAND] | count JOB WHO\n"), 2;
    return 0;
}
