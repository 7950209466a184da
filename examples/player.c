/* A small player that uses the library.

   player BLOCKS.. <stream   feeds a raw stream block by block, and after each of these numbers of blocks (ascending)
                             writes the screen to the file BLOCKS.ppm
   player -p PACKS.. <file   draws a .cdg file pack by pack, in the same way
   player <stream            feeds a raw stream, and after each second writes the screen to the file SECONDS.ppm
   player -m <stream         feeds the stream again and again, and prints the speed of the player, and the time for reading
                             the screen */
#include "ribjasper.h"

#include <stdio.h>
#include <stdlib.h>
#include <string.h>
#include <time.h>
#ifdef _WIN32
#include <fcntl.h>
#include <io.h>
#endif

#define MEASURED 1000000L
#define READS 2000
#define BLOCKS_A_SECOND 75
#define PACK 24

static int write_screen(const ribjasper_player *player, long number)
{
    static uint8_t picture[RIBJASPER_PICTURE];
    char name[64];
    FILE *file;
    int written;
    snprintf(name, sizeof name, "%ld.ppm", number);
    if (ribjasper_player_picture(player, picture) != RIBJASPER_DONE)
        return 1;
    file = fopen(name, "wb");
    if (file == NULL) {
        fprintf(stderr, "player: %s cannot be written\n", name);
        return 1;
    }
    fprintf(file, "P6\n%d %d\n255\n", RIBJASPER_WIDTH, RIBJASPER_HEIGHT);
    written = fwrite(picture, 1, sizeof picture, file) == sizeof picture;
    return fclose(file) != 0 || !written;
}

/* Feeds the next block or draws the next pack of the input. Returns 1, 0 at the end of the input, or -1 on failure. */
static int step(ribjasper_player *player, int packs)
{
    uint8_t unit[RIBJASPER_BLOCK];
    size_t size = packs ? PACK : RIBJASPER_BLOCK;
    int32_t status;
    if (fread(unit, 1, size, stdin) != size)
        return 0;
    status = packs ? ribjasper_player_draw(player, unit) : ribjasper_player_feed(player, unit);
    return status == RIBJASPER_DONE ? 1 : -1;
}

static int show(ribjasper_player *player, int packs, int count, char **moments)
{
    long done = 0;
    int i;
    for (i = 0; i < count; i++) {
        long moment = atol(moments[i]);
        while (done < moment && step(player, packs) == 1)
            done++;
        if (done != moment) {
            fprintf(stderr, "player: there is no %s %ld\n", packs ? "pack" : "block", moment);
            return 1;
        }
        if (write_screen(player, moment) != 0)
            return 1;
    }
    return 0;
}

static int show_each_second(ribjasper_player *player)
{
    long fed = 0;
    int status;
    while ((status = step(player, 0)) == 1) {
        fed++;
        if (fed % BLOCKS_A_SECOND == 0 && write_screen(player, fed / BLOCKS_A_SECOND) != 0)
            return 1;
    }
    return status != 0;
}

static double seconds_since(clock_t start)
{
    return (double)(clock() - start) / CLOCKS_PER_SEC;
}

/* Makes a picture with a simple loop: three bytes for each pixel, from a table of sixteen colours. */
static void simple_picture(const uint8_t *pixels, const uint16_t *colours, uint8_t *picture)
{
    uint8_t table[RIBJASPER_COLOURS][3];
    long i;
    for (i = 0; i < RIBJASPER_COLOURS; i++) {
        table[i][0] = (uint8_t)(17 * (colours[i] / 256));
        table[i][1] = (uint8_t)(17 * (colours[i] / 16 % 16));
        table[i][2] = (uint8_t)(17 * (colours[i] % 16));
    }
    for (i = 0; i < RIBJASPER_PIXELS; i++)
        memcpy(picture + 3 * i, table[pixels[i]], 3);
}

/* Reads the screen READS times, as a picture and as colour numbers, and makes a picture of these with the simple loop. */
static int measure_reads(const ribjasper_player *player)
{
    static uint8_t picture[RIBJASPER_PICTURE], simple[RIBJASPER_PICTURE], pixels[RIBJASPER_PIXELS];
    uint16_t colours[RIBJASPER_COLOURS];
    double pictures = 0, screens = 0, loops = 0;
    long reads;
    if (ribjasper_player_colours(player, colours) != RIBJASPER_DONE)
        return 1;
    for (reads = 0; reads < READS; reads++) {
        clock_t start = clock();
        if (ribjasper_player_picture(player, picture) != RIBJASPER_DONE)
            return 1;
        pictures += seconds_since(start);
        start = clock();
        if (ribjasper_player_screen(player, pixels) != RIBJASPER_DONE)
            return 1;
        screens += seconds_since(start);
        start = clock();
        simple_picture(pixels, colours, simple);
        loops += seconds_since(start);
        if (memcmp(picture, simple, sizeof picture) != 0) {
            fprintf(stderr, "player: the picture differs from that of the simple loop\n");
            return 1;
        }
    }
    printf("a picture in %.1f microseconds (a simple loop needs %.1f), a screen in %.1f\n", 1e6 * pictures / READS,
           1e6 * loops / READS, 1e6 * screens / READS);
    return 0;
}

static int measure(ribjasper_player *player)
{
    static uint8_t stream[4096][RIBJASPER_BLOCK];
    size_t blocks = fread(stream, RIBJASPER_BLOCK, 4096, stdin);
    clock_t start;
    double seconds;
    long fed;
    if (blocks == 0) {
        fprintf(stderr, "player: the input has no block\n");
        return 1;
    }
    if (ribjasper_player_begin(player, RIBJASPER_RAW, 0) != RIBJASPER_DONE)
        return 1;
    start = clock();
    for (fed = 0; fed < MEASURED; fed++)
        if (ribjasper_player_feed(player, stream[(size_t)fed % blocks]) != RIBJASPER_DONE)
            return 1;
    seconds = seconds_since(start);
    printf("%ld blocks in %.2f seconds: %.0f times real time\n", MEASURED, seconds,
           (double)MEASURED / BLOCKS_A_SECOND / seconds);
    return measure_reads(player);
}

int main(int argc, char **argv)
{
    ribjasper_player player = RIBJASPER_CLOSED;
    int status;
#ifdef _WIN32
    _setmode(0, _O_BINARY); /* standard input is binary */
#endif
    if (ribjasper_player_open(&player) != RIBJASPER_DONE) {
        fprintf(stderr, "player: out of memory\n");
        return 1;
    }
    if (argc < 2)
        status = show_each_second(&player);
    else if (strcmp(argv[1], "-m") == 0)
        status = measure(&player);
    else if (strcmp(argv[1], "-p") == 0)
        status = show(&player, 1, argc - 2, argv + 2);
    else
        status = show(&player, 0, argc - 1, argv + 1);
    ribjasper_player_close(&player);
    return status;
}
