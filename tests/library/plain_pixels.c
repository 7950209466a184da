/* Makes a picture in plain C. tests/library/measure_pixels.c compares the library with this function. Each compiler compiles it
   with -O3, under the name in PLAIN. */
#include "plain_pixels.h"

#include <string.h>

static int max(int one, int other) { return one > other ? one : other; }
static int min(int one, int other) { return one < other ? one : other; }

/* Writes `width` pixels of row y of the screen, from column x on. The rows at the top and the bottom are border; the other rows have
   border at both sides. */
static void plain_row(const struct plain *player, int x, int y, int width, uint8_t *row)
{
    int left = max(x, 6), right = min(x + width, 294);
    if (y < 12 || y >= 204 || left >= right) {
        memset(row, player->border, (size_t)width);
        return;
    }
    memset(row, player->border, (size_t)(left - x));
    memcpy(row + left - x, player->memory[y + player->v] + left + player->h, (size_t)(right - left));
    memset(row + right - x, player->border, (size_t)(x + width - right));
}

static void plain_table(const struct plain *player, uint32_t format, uint32_t table[16])
{
    int k;
    for (k = 0; k < 16; k++) {
        uint32_t red = 17u * (player->colours[k] >> 8), green = 17u * (player->colours[k] >> 4 & 15),
                 blue = 17u * (player->colours[k] & 15);
        uint32_t opacity = format == RIBJASPER_RGBA_LEVELS || format == RIBJASPER_BGRA_LEVELS
                               ? 255u - (4u * player->levels[k] + player->levels[k] / 16u) : 255u;
        if (format == RIBJASPER_BGRA || format == RIBJASPER_BGRA_LEVELS)
            table[k] = blue | green << 8 | red << 16 | opacity << 24;
        else if (format == RIBJASPER_RGB565)
            table[k] = (red & 0xf8) << 8 | (green & 0xfc) << 3 | blue >> 3;
        else
            table[k] = red | green << 8 | blue << 16 | opacity << 24;
    }
}

void PLAIN(const struct plain *restrict player, uint32_t format, int x, int y, int width, int height, uint8_t *restrict out,
           size_t stride)
{
    uint32_t table[16];
    uint8_t row[300];
    int i, j;
    if (format != RIBJASPER_INDEXED)
        plain_table(player, format, table);
    for (j = 0; j < height; j++) {
        uint8_t *restrict to = out + stride * (size_t)j;
        plain_row(player, x, y + j, width, format == RIBJASPER_INDEXED ? to : row);
        switch (format) {
        case RIBJASPER_INDEXED:
            break;
        case RIBJASPER_RGB:
            for (i = 0; i < width - 1; i++)
                memcpy(to + 3 * i, &table[row[i]], 4);
            memcpy(to + 3 * i, &table[row[i]], 3);
            break;
        case RIBJASPER_RGB565:
            for (i = 0; i < width; i++) {
                uint16_t two = (uint16_t)table[row[i]];
                memcpy(to + 2 * i, &two, 2);
            }
            break;
        default:
            for (i = 0; i < width; i++)
                memcpy(to + 4 * i, &table[row[i]], 4);
        }
    }
}
