/* Measures how long the library needs for a block or a pack, with one call for each and with one call for all. It reads the
   blocks of a raw stream and the packs of a .cdg file. In many rounds, it feeds or draws all of them in each way in turn. For each
   way it prints the minimum and the median time. Both ways must show the same screen.

   cc -O2 -Iinclude tests/library/measure_feeding.c lib/libribjasper.a -o measure_feeding
   ./measure_feeding stream.raw packs.cdg

   `./measure_feeding stream.raw packs.cdg once WAY` does one round in one way (feed, feed_all, draw, draw_all or none),
   for a tool that counts instructions. */
#include "ribjasper.h"

#include <stdio.h>
#include <stdlib.h>
#include <string.h>
#include <time.h>

#define ROUNDS 31
#define WAYS 4

static uint8_t *blocks, *packs;
static size_t block_count, pack_count;
static ribjasper_player player;

static double now(void)
{
    struct timespec at;
    clock_gettime(CLOCK_MONOTONIC, &at);
    return (double)at.tv_sec * 1e9 + (double)at.tv_nsec;
}

static void fail(const char *why)
{
    fprintf(stderr, "measure_feeding: %s\n", why);
    exit(1);
}

static uint8_t *read_units(const char *name, size_t unit, size_t *count)
{
    FILE *file = fopen(name, "rb");
    uint8_t *bytes;
    long size;
    if (file == NULL || fseek(file, 0, SEEK_END) != 0 || (size = ftell(file)) < 0 || fseek(file, 0, SEEK_SET) != 0)
        fail(name);
    *count = (size_t)size / unit;
    bytes = malloc(*count * unit + 1);
    if (bytes == NULL || fread(bytes, unit, *count, file) != *count)
        fail(name);
    fclose(file);
    return bytes;
}

static void feed(void)
{
    size_t n;
    for (n = 0; n < block_count; n++)
        if (ribjasper_player_feed(&player, blocks + RIBJASPER_BLOCK * n) != RIBJASPER_DONE)
            fail("feed");
}

static void feed_all(void)
{
    ribjasper_change change;
    if (ribjasper_player_feed_all(&player, blocks, block_count, &change) != RIBJASPER_DONE)
        fail("feed_all");
}

static void draw(void)
{
    size_t n;
    for (n = 0; n < pack_count; n++)
        if (ribjasper_player_draw(&player, packs + RIBJASPER_PACK * n) != RIBJASPER_DONE)
            fail("draw");
}

static void draw_all(void)
{
    ribjasper_change change;
    if (ribjasper_player_draw_all(&player, packs, pack_count, &change) != RIBJASPER_DONE)
        fail("draw_all");
}

static const struct way {
    const char *name;
    void (*run)(void);
} ways[WAYS] = { { "feed", feed }, { "feed_all", feed_all }, { "draw", draw }, { "draw_all", draw_all } };

static int by_value(const void *one, const void *other)
{
    double a = *(const double *)one, b = *(const double *)other;
    return (a > b) - (a < b);
}

int main(int count, char **words)
{
    static double times[WAYS][ROUNDS];
    static uint8_t screens[WAYS][RIBJASPER_PIXELS];
    int round, way;
    if (count < 3 || ribjasper_player_open(&player) != RIBJASPER_DONE)
        return 2;
    blocks = read_units(words[1], RIBJASPER_BLOCK, &block_count);
    packs = read_units(words[2], RIBJASPER_PACK, &pack_count);
    if (count == 5 && strcmp(words[3], "once") == 0) {
        for (way = 0; way < WAYS; way++)
            if (strcmp(words[4], ways[way].name) == 0)
                ways[way].run();
        ribjasper_player_close(&player);
        return 0;
    }
    for (round = 0; round < ROUNDS; round++)
        for (way = 0; way < WAYS; way++) {
            double start;
            if (ribjasper_player_begin(&player, RIBJASPER_RAW, 0) != RIBJASPER_DONE)
                fail("begin");
            start = now();
            ways[way].run();
            times[way][round] = (now() - start) / (double)(way < 2 ? block_count : pack_count);
            if (ribjasper_player_screen(&player, screens[way]) != RIBJASPER_DONE)
                fail("screen");
        }
    if (memcmp(screens[0], screens[1], RIBJASPER_PIXELS) != 0 || memcmp(screens[2], screens[3], RIBJASPER_PIXELS) != 0)
        fail("the two ways show different screens");
    for (way = 0; way < WAYS; way++) {
        qsort(times[way], ROUNDS, sizeof times[way][0], by_value);
        printf("%-9s %8.1f ns (median %.1f)", ways[way].name, times[way][0], times[way][ROUNDS / 2]);
        if (way % 2 == 1)
            printf(", %.2f of one call each (median %.2f)", times[way][0] / times[way - 1][0],
                   times[way][ROUNDS / 2] / times[way - 1][ROUNDS / 2]);
        printf("\n");
    }
    ribjasper_player_close(&player);
    return 0;
}
