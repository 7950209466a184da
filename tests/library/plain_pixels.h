/* The data of a player in plain C, and the function that makes its picture, as compiled by gcc and by clang. */
#ifndef PLAIN_PIXELS_H
#define PLAIN_PIXELS_H

#include "ribjasper.h"

struct plain {
    uint8_t memory[216][300];
    uint8_t border, h, v;
    uint16_t colours[16];
    uint8_t levels[16];
};

typedef void plain_pixels(const struct plain *restrict player, uint32_t format, int x, int y, int width, int height,
                          uint8_t *restrict out, size_t stride);

extern plain_pixels plain_by_gcc, plain_by_clang;

#endif
