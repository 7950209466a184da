/* Feeds a raw stream from standard input, and writes the screen after BLOCKS blocks to standard output, as a pixmap: player BLOCKS.
   player -m prints the times of feeding a block and of making a picture. */
#include "ribjasper_c.h"

#include <stdio.h>
#include <stdlib.h>
#include <string.h>
#include <time.h>
#ifdef _WIN32
#include <fcntl.h>
#include <io.h>
#endif

static uint8_t picture[RIBJASPER_C_PICTURE], stream[4096][RIBJASPER_C_BLOCK];

static int measure(ribjasper_c *player)
{
    size_t blocks = fread(stream, RIBJASPER_C_BLOCK, 4096, stdin);
    clock_t start = clock();
    double feeding, drawing;
    long k;
    if (blocks == 0)
        return 1;
    for (k = 0; k < 400000; k++)
        ribjasper_c_feed(player, stream[(size_t)k % blocks]);
    feeding = (double)(clock() - start) / CLOCKS_PER_SEC;
    start = clock();
    for (k = 0; k < 2000; k++)
        ribjasper_c_picture(player, picture);
    drawing = (double)(clock() - start) / CLOCKS_PER_SEC;
    printf("a block in %.2f microseconds, a picture in %.1f\n", 1e6 * feeding / 400000, 1e6 * drawing / 2000);
    return 0;
}

int main(int argc, char **argv)
{
    ribjasper_c *player = ribjasper_c_open();
    long left = argc > 1 ? atol(argv[1]) : 0;
    int is_measured = argc > 1 && strcmp(argv[1], "-m") == 0, status = 0;
    size_t k;
    if (player == NULL)
        return 1;
#ifdef _WIN32
    _setmode(0, _O_BINARY);
    _setmode(1, _O_BINARY);
#endif
    if (is_measured) {
        status = measure(player);
    } else {
        for (; left > 0 && fread(stream, RIBJASPER_C_BLOCK, 1, stdin) == 1; left--)
            ribjasper_c_feed(player, stream[0]);
        ribjasper_c_picture(player, picture);
        printf("P6\n%d %d\n255\n", RIBJASPER_C_WIDTH, RIBJASPER_C_HEIGHT);
        for (k = 0; k < RIBJASPER_C_PICTURE; k += 4)
            fwrite(picture + k, 1, 3, stdout);
        status = left != 0 || fflush(stdout) != 0;
    }
    ribjasper_c_close(player);
    return status;
}
