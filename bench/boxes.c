/* The reports of a box of sheets, by whole programs: writes the sheets, and times the programs in turn.
 *
 *     boxes write FOLDER                                    a thousand full sheets
 *     boxes time ROUNDS LIBRARY PLAIN FILE...               a line for each program: job, who, ns a sheet, times the library's time */
#define _DEFAULT_SOURCE
#include "bench.h"

#include <fcntl.h>
#include <stdio.h>
#include <stdlib.h>
#include <string.h>
#include <sys/resource.h>
#include <sys/wait.h>
#include <unistd.h>

enum { BOX = 1000, MOST_ROUNDS = 1001 };

static int fail(const char *why) {
    perror(why);
    exit(1);
}

static void write_sheets(const char *folder) {
    char name[4096];
    for (int k = 0; k < BOX; k++) {
        snprintf(name, sizeof name, "%s/%04d.sheet", folder, k + 1);
        FILE *file = fopen(name, "wb");
        if (!file || fwrite(sheets[k % SHEETS], 1, YARD_SHEET_BYTES, file) != YARD_SHEET_BYTES || fclose(file) != 0)
            fail(name);
    }
}

static double seconds(struct timeval t) {
    return (double)t.tv_sec + (double)t.tv_usec * 1e-6;
}

/* The processor's time of a program on these files, its own and the system's for it, in nanoseconds a file. */
static double time_of(char *program, char **files, size_t count) {
    pid_t child = fork();
    if (child == 0) {
        int nowhere = open("/dev/null", O_WRONLY);
        if (nowhere < 0 || dup2(nowhere, STDOUT_FILENO) < 0)
            fail("/dev/null");
        files[-1] = program; /* in the child's own copy of the words */
        execv(program, files - 1);
        fail(program);
    }
    int status = 0;
    struct rusage used;
    if (child < 0 || wait4(child, &status, 0, &used) != child || status != 0)
        fail(program);
    return (seconds(used.ru_utime) + seconds(used.ru_stime)) * 1e9 / (double)count;
}

static int by_size(const void *a, const void *b) {
    double x = *(const double *)a, y = *(const double *)b;
    return (x > y) - (x < y);
}

static double median(double *x, size_t count) {
    qsort(x, count, sizeof *x, by_size);
    return x[count / 2];
}

static void time_both(size_t rounds, char **words, size_t count) {
    static double library[MOST_ROUNDS], plain[MOST_ROUNDS], ratio[MOST_ROUNDS];
    for (size_t r = 0; r < rounds; r++) {
        char *programs[] = {words[0], words[1]};
        library[r] = time_of(programs[0], words + 2, count);
        plain[r] = time_of(programs[1], words + 2, count);
        ratio[r] = plain[r] / library[r];
    }
    printf("box|library|%.1f|1.000\n", median(library, rounds));
    printf("box|plain|%.1f|%.3f\n", median(plain, rounds), median(ratio, rounds));
}

int main(int count, char **words) {
    if (count == 3 && strcmp(words[1], "write") == 0) {
        draw_inputs();
        write_sheets(words[2]);
        return 0;
    }
    size_t rounds = count > 5 ? strtoul(words[2], NULL, 10) : 0;
    if (rounds == 0 || rounds > MOST_ROUNDS || strcmp(words[1], "time") != 0) {
        fprintf(stderr, "usage: boxes write FOLDER | boxes time ROUNDS LIBRARY PLAIN FILE...\n");
        return 2;
    }
    time_both(rounds, words + 3, (size_t)count - 5);
    return 0;
}
