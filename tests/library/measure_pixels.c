/* Measures how long the library needs for a picture in each format, and compares it with plain C (tests/library/plain_pixels.c)
   compiled by two compilers with -O3. It makes each picture in the three ways in turn, in many rounds, and prints the minimum and
   the median time. The bytes of the pictures must be equal.

   gcc -O3 -DPLAIN=plain_by_gcc -Iinclude -c tests/library/plain_pixels.c -o by_gcc.o
   clang -O3 -DPLAIN=plain_by_clang -Iinclude -c tests/library/plain_pixels.c -o by_clang.o
   cc -O2 -Iinclude tests/library/measure_pixels.c by_gcc.o by_clang.o lib/libribjasper.a -o measure_pixels && ./measure_pixels

   With the argument `runs` and a number it repeats all measurements. For each line it then prints the median time of the library,
   and the minimum, median and maximum ratio to each compiler, once for the minimum times and once for the median times. With `once`
   and the number of a line it makes this picture a hundred times in each of the three ways, for a tool that counts instructions. */
#include "plain_pixels.h"

#include <stdio.h>
#include <stdlib.h>
#include <string.h>
#include <time.h>

#define ROUNDS 101
#define INNER 8
#define MAKERS 3
#define LINES 18
#define MAX_RUNS 100

static struct plain plain;
static uint8_t made[MAKERS][259200];

static double now(void)
{
    struct timespec at;
    clock_gettime(CLOCK_MONOTONIC, &at);
    return (double)at.tv_sec * 1e6 + (double)at.tv_nsec / 1e3;
}

static int by_value(const void *one, const void *other)
{
    double a = *(const double *)one, b = *(const double *)other;
    return (a > b) - (a < b);
}

struct spread {
    double min, median, max;
};

/* The spread of some times; sorts them. */
static struct spread spread_of(double *times, int count)
{
    struct spread spread;
    qsort(times, (size_t)count, sizeof *times, by_value);
    spread.min = times[0];
    spread.median = times[count / 2];
    spread.max = times[count - 1];
    return spread;
}

static ribjasper_player player = RIBJASPER_CLOSED;

enum { PIXELS, PICTURE, SCREEN };

struct line {
    const char *name;
    int which;
    uint32_t format;
    int x, y, width, height;
};

static const struct line lines[LINES] = {
    { "screen", SCREEN, RIBJASPER_INDEXED, 0, 0, 300, 216 },
    { "picture", PICTURE, RIBJASPER_RGB, 0, 0, 300, 216 },
    { "pixels, indexed", PIXELS, RIBJASPER_INDEXED, 0, 0, 300, 216 },
    { "pixels, RGB", PIXELS, RIBJASPER_RGB, 0, 0, 300, 216 },
    { "pixels, RGBA", PIXELS, RIBJASPER_RGBA, 0, 0, 300, 216 },
    { "pixels, BGRA", PIXELS, RIBJASPER_BGRA, 0, 0, 300, 216 },
    { "pixels, RGBA, levels", PIXELS, RIBJASPER_RGBA_LEVELS, 0, 0, 300, 216 },
    { "pixels, BGRA, levels", PIXELS, RIBJASPER_BGRA_LEVELS, 0, 0, 300, 216 },
    { "pixels, RGB565", PIXELS, RIBJASPER_RGB565, 0, 0, 300, 216 },
    { "half, RGBA", PIXELS, RIBJASPER_RGBA, 75, 50, 150, 108 },
    { "a row of tiles, RGBA", PIXELS, RIBJASPER_RGBA, 6, 96, 288, 12 },
    { "a tile, indexed", PIXELS, RIBJASPER_INDEXED, 150, 96, 6, 12 },
    { "a tile, RGB", PIXELS, RIBJASPER_RGB, 150, 96, 6, 12 },
    { "a tile, RGBA", PIXELS, RIBJASPER_RGBA, 150, 96, 6, 12 },
    { "a tile, BGRA", PIXELS, RIBJASPER_BGRA, 150, 96, 6, 12 },
    { "a tile, RGBA, levels", PIXELS, RIBJASPER_RGBA_LEVELS, 150, 96, 6, 12 },
    { "a tile, BGRA, levels", PIXELS, RIBJASPER_BGRA_LEVELS, 150, 96, 6, 12 },
    { "a tile, RGB565", PIXELS, RIBJASPER_RGB565, 150, 96, 6, 12 },
};

static uint32_t stride_of(const struct line *line)
{
    static const uint32_t sizes[] = { 1, 3, 4, 4, 4, 4, 2 };
    return sizes[line->format] * (uint32_t)line->width;
}

static void call_library(const struct line *line)
{
    int32_t answer;
    if (line->which == PICTURE)
        answer = ribjasper_player_picture(&player, made[0]);
    else if (line->which == SCREEN)
        answer = ribjasper_player_screen(&player, made[0]);
    else
        answer = ribjasper_player_pixels(&player, line->format, (uint32_t)line->x, (uint32_t)line->y, (uint32_t)line->width,
                                         (uint32_t)line->height, made[0], sizeof made[0], stride_of(line));
    if (answer != RIBJASPER_DONE)
        exit(1);
}

/* Makes the picture of a line with the library (0), with gcc's code (1) or with clang's (2). */
static void make(const struct line *line, int maker)
{
    if (maker == 0)
        call_library(line);
    else
        (maker == 1 ? plain_by_gcc : plain_by_clang)(&plain, line->format, line->x, line->y, line->width, line->height, made[maker],
                                                     stride_of(line));
    __asm__ volatile("" : : : "memory");
}

/* Measures all three ways for a line, in turn. */
static void measure(const struct line *line, struct spread spreads[MAKERS])
{
    static double times[MAKERS][ROUNDS];
    size_t bytes = stride_of(line) * (size_t)line->height;
    int inner = INNER * (64800 / (line->width * line->height) < 64 ? 64800 / (line->width * line->height) : 64);
    int round, maker, n;
    for (round = 0; round < ROUNDS; round++)
        for (maker = 0; maker < MAKERS; maker++) {
            double start = now();
            for (n = 0; n < inner; n++)
                make(line, maker);
            times[maker][round] = (now() - start) / inner;
        }
    if (memcmp(made[0], made[1], bytes) != 0 || memcmp(made[0], made[2], bytes) != 0) {
        fprintf(stderr, "measure_pixels: the bytes of %s differ\n", line->name);
        exit(1);
    }
    for (maker = 0; maker < MAKERS; maker++)
        spreads[maker] = spread_of(times[maker], ROUNDS);
}

static void compare(const struct line *line)
{
    struct spread by[MAKERS];
    int maker;
    measure(line, by);
    printf("%-22s %7.2f us (min %.2f)", line->name, by[0].median, by[0].min);
    for (maker = 1; maker < MAKERS; maker++)
        printf(", by %s %7.2f us: %.2f (min %.2f)", maker == 1 ? "gcc" : "clang", by[maker].median,
               by[0].median / by[maker].median, by[0].min / by[maker].min);
    printf("\n");
}

static void print_spread(double *ratios, int runs)
{
    struct spread spread = spread_of(ratios, runs);
    printf("  %.2f %.2f %.2f", spread.min, spread.median, spread.max);
}

static void compare_runs(int runs)
{
    static double ours[LINES][MAX_RUNS], minimum[LINES][MAKERS][MAX_RUNS], median[LINES][MAKERS][MAX_RUNS];
    int run, n, maker;
    for (run = 0; run < runs; run++)
        for (n = 0; n < LINES; n++) {
            struct spread by[MAKERS];
            measure(&lines[n], by);
            ours[n][run] = by[0].median;
            for (maker = 1; maker < MAKERS; maker++) {
                minimum[n][maker][run] = by[0].min / by[maker].min;
                median[n][maker][run] = by[0].median / by[maker].median;
            }
        }
    printf("%d runs; the minimum, median and maximum of each ratio\n%-22s %10s  %-16s%-16s%-16s%-16s\n", runs, "", "ours, us",
           "gcc, min", "gcc, median", "clang, min", "clang, median");
    for (n = 0; n < LINES; n++) {
        printf("%-22s %10.2f", lines[n].name, spread_of(ours[n], runs).median);
        for (maker = 1; maker < MAKERS; maker++) {
            print_spread(minimum[n][maker], runs);
            print_spread(median[n][maker], runs);
        }
        printf("\n");
    }
}

int main(int count, char **words)
{
    uint8_t pack[24];
    uint32_t n, seed = 7;
    if (ribjasper_player_open(&player) != RIBJASPER_DONE)
        return 1;
    for (n = 0; n < 4000; n++) {
        int i;
        for (i = 0; i < 24; i++) {
            seed = seed * 1664525u + 1013904223u;
            pack[i] = (uint8_t)(seed >> 24);
        }
        pack[0] = 9;
        pack[1] = n < 3 ? (uint8_t)(28 + n + (n > 0)) : 6;
        pack[6] %= 18;
        pack[7] %= 50;
        if (ribjasper_player_draw(&player, pack) != RIBJASPER_DONE)
            return 1;
    }
    if (ribjasper_player_screen(&player, made[0]) != 0 || ribjasper_player_border(&player, &plain.border) != 0 ||
        ribjasper_player_colours(&player, plain.colours) != 0 || ribjasper_player_levels(&player, plain.levels) != 0)
        return 1;
    for (n = 0; n < RIBJASPER_PIXELS; n++)
        plain.memory[n / 300][n % 300] = made[0][n];
    if (count == 3 && strcmp(words[1], "once") == 0) {
        for (n = 0; n < 300; n++)
            make(&lines[atoi(words[2])], (int)(n % MAKERS));
    } else if (count == 3 && strcmp(words[1], "runs") == 0 && atoi(words[2]) > 0 && atoi(words[2]) <= MAX_RUNS) {
        compare_runs(atoi(words[2]));
    } else {
        for (n = 0; n < LINES; n++)
            compare(&lines[n]);
    }
    ribjasper_player_close(&player);
    return 0;
}
