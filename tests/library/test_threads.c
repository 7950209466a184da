/* Reads one player in eight threads at the same time, with every call that takes a const player. Each thread must get the same
   data as a single thread. tests/library/test_threads.sh also runs this program under tools that detect if one thread writes
   data that another one reads. */
#include "ribjasper.h"

#include <pthread.h>
#include <stdio.h>
#include <stdlib.h>
#include <string.h>

#define THREADS 8
#define PIECE 40000

/* All data that the calls return about a player. */
typedef struct view {
    uint8_t pixels[RIBJASPER_PIXELS], picture[RIBJASPER_PICTURE], piece[PIECE], shown[PIECE];
    uint8_t file[RIBJASPER_CHECKPOINT], levels[RIBJASPER_COLOURS], border, across, down, pixel;
    uint16_t colours[RIBJASPER_COLOURS], colour;
    ribjasper_counts counts;
} view;

static ribjasper_player player = RIBJASPER_CLOSED_STATIC;
static view expected;
static int rounds = 100;

/* Makes every call, and returns the number of calls that failed. */
static int read_player(view *it, ribjasper_player *other)
{
    int failed = 0;
    failed += ribjasper_player_screen(&player, it->pixels) != RIBJASPER_DONE;
    failed += ribjasper_player_picture(&player, it->picture) != RIBJASPER_DONE;
    failed += ribjasper_player_rect(&player, 3, 5, 200, 100, it->piece, PIECE, 250) != RIBJASPER_DONE;
    failed += ribjasper_player_pixels(&player, RIBJASPER_RGBA, 7, 9, 60, 40, it->shown, PIECE, 256) != RIBJASPER_DONE;
    failed += ribjasper_player_save(&player, it->file) != RIBJASPER_DONE;
    failed += ribjasper_player_levels(&player, it->levels) != RIBJASPER_DONE;
    failed += ribjasper_player_border(&player, &it->border) != RIBJASPER_DONE;
    failed += ribjasper_player_offsets(&player, &it->across, &it->down) != RIBJASPER_DONE;
    failed += ribjasper_player_pixel(&player, 150, 100, &it->pixel) != RIBJASPER_DONE;
    failed += ribjasper_player_colours(&player, it->colours) != RIBJASPER_DONE;
    failed += ribjasper_player_colour(&player, 5, &it->colour) != RIBJASPER_DONE;
    failed += ribjasper_player_counts(&player, &it->counts) != RIBJASPER_DONE;
    failed += ribjasper_player_copy(&player, other) != RIBJASPER_DONE;
    return failed;
}

static void *read_repeatedly(void *wrong)
{
    view *it = calloc(1, sizeof *it);
    ribjasper_player other = RIBJASPER_CLOSED;
    uint8_t *pixels = malloc(RIBJASPER_PIXELS);
    int n;
    if (it == NULL || pixels == NULL || ribjasper_player_open(&other) != RIBJASPER_DONE) {
        *(int *)wrong = 1;
        return NULL;
    }
    for (n = 0; n < rounds; n++) {
        *(int *)wrong += read_player(it, &other) != 0;
        *(int *)wrong += memcmp(it, &expected, sizeof expected) != 0;
        *(int *)wrong += ribjasper_player_screen(&other, pixels) != RIBJASPER_DONE;
        *(int *)wrong += memcmp(pixels, expected.pixels, RIBJASPER_PIXELS) != 0;
    }
    ribjasper_player_close(&other);
    free(pixels);
    free(it);
    return NULL;
}

int main(int count, char **words)
{
    pthread_t threads[THREADS];
    int wrong[THREADS] = { 0 }, k, all = 0;
    uint8_t block[RIBJASPER_BLOCK], pack[RIBJASPER_PACK];
    ribjasper_player other = RIBJASPER_CLOSED;
    uint32_t seed = 11;
    if (count > 1)
        rounds = atoi(words[1]);
    if (ribjasper_player_open(&player) != RIBJASPER_DONE || ribjasper_player_open(&other) != RIBJASPER_DONE)
        return 1;
    for (k = 0; k < 600; k++) {
        int i;
        for (i = 0; i < RIBJASPER_BLOCK; i++) {
            seed = seed * 1664525u + 1013904223u;
            block[i] = (uint8_t)(seed >> 24);
        }
        memcpy(pack, block, sizeof pack);
        pack[0] = 9;
        pack[1] = k < 4 ? (uint8_t)(28 + k + (k > 0)) : 6;
        pack[6] %= 18;
        pack[7] %= 50;
        if (ribjasper_player_feed(&player, block) != RIBJASPER_DONE || ribjasper_player_draw(&player, pack) != RIBJASPER_DONE)
            return 1;
    }
    if (read_player(&expected, &other) != 0)
        return 1;
    for (k = 0; k < THREADS; k++)
        if (pthread_create(&threads[k], NULL, read_repeatedly, &wrong[k]) != 0)
            return 1;
    for (k = 0; k < THREADS; k++)
        all += pthread_join(threads[k], NULL) != 0 || wrong[k] != 0;
    ribjasper_player_close(&other);
    ribjasper_player_close(&player);
    if (all != 0)
        printf("test_threads: %d of %d threads got other data\n", all, THREADS);
    return all != 0;
}
