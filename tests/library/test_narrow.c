/* Tests that the library ignores the unused bits of numbers. If a number is narrower than a register or its place on the stack,
   the calling conventions of Windows and of 64-bit ARM leave the other bits undefined. So each call with numbers of 8 or 32 bits
   is made through a type that passes 64 bits, once with zeros and once with ones above the number. The results must be equal. */
#include "ribjasper.h"

#include <stdio.h>
#include <string.h>

#define CHECK(condition) check((condition) ? 1 : 0, #condition, __LINE__)

#define DIRTY 0xffffffff00000000u
#define DIRTY_BYTE 0xffffffffffffff00u

/* The calls under other names, whose types pass 64 bits if the header passes 8 or 32. */
#define WIDE(result, name, parameters) extern result wide_##name parameters __asm__("ribjasper_" #name)

WIDE(int32_t, player_begin, (ribjasper_player *, uint64_t, uint64_t));
WIDE(int32_t, player_colour, (const ribjasper_player *, uint64_t, uint16_t *));
WIDE(int32_t, player_pixel, (const ribjasper_player *, uint64_t, uint64_t, uint8_t *));
WIDE(int32_t, player_pixels, (const ribjasper_player *, uint64_t, uint64_t, uint64_t, uint64_t, uint64_t, uint8_t *, size_t,
                              uint64_t));
WIDE(int32_t, pack_change, (const uint8_t *, uint64_t, uint64_t, ribjasper_change *));
WIDE(int32_t, convert, (const uint8_t *, size_t, uint64_t, uint64_t, uint8_t *, size_t, ribjasper_converted *));
WIDE(uint32_t, blocks_after, (uint64_t));
WIDE(uint64_t, time_of_packs, (uint64_t));

static uint8_t stream[200][RIBJASPER_BLOCK], packs[2][200 * RIBJASPER_BLOCK], out[2][RIBJASPER_PIXELS * 4];

static int failed;

static void check(int condition, const char *text, int line)
{
    if (!condition) {
        printf("test_narrow: line %d: %s\n", line, text);
        failed = 1;
    }
}

int main(void)
{
    ribjasper_player player = RIBJASPER_CLOSED;
    ribjasper_change changes[2];
    ribjasper_converted converted[2];
    uint16_t colours[2];
    uint8_t pixel[2], pack[RIBJASPER_PACK] = {9, 6, 1, 2, 3, 4, 5, 6, 7, 8, 9, 10, 11, 12, 13, 14, 15, 16};
    uint32_t seed = 1, k, i;
    CHECK(ribjasper_player_open(&player) == RIBJASPER_DONE);
    for (k = 0; k < 200; k++)
        for (i = 0; i < RIBJASPER_BLOCK; i++)
            stream[k][i] = (uint8_t)((seed = 1103515245u * seed + 12345u) >> 24);
    CHECK(wide_player_begin(&player, DIRTY | RIBJASPER_PACKS, DIRTY | 3) == RIBJASPER_DONE);
    for (k = 0; k < 200; k++) {
        memcpy(pack + 4, stream[k], 20);
        pack[0] = 9;
        pack[1] = (uint8_t)(k % 2 == 0 ? 6 : 30 + k % 3 / 2);
        CHECK(ribjasper_player_draw(&player, pack) == RIBJASPER_DONE);
    }
    for (k = 0; k < RIBJASPER_COLOURS; k++) {
        CHECK(wide_player_colour(&player, k, &colours[0]) == RIBJASPER_DONE);
        CHECK(wide_player_colour(&player, DIRTY_BYTE | k, &colours[1]) == RIBJASPER_DONE);
        CHECK(colours[0] == colours[1]);
    }
    for (k = 0; k < 200; k++) {
        uint64_t x = 3 * k % RIBJASPER_WIDTH, y = 7 * k % RIBJASPER_HEIGHT;
        CHECK(wide_player_pixel(&player, x, y, &pixel[0]) == RIBJASPER_DONE);
        CHECK(wide_player_pixel(&player, DIRTY | x, DIRTY | y, &pixel[1]) == RIBJASPER_DONE);
        CHECK(pixel[0] == pixel[1]);
        memcpy(pack + 4, stream[k], 20);
        CHECK(wide_pack_change(pack, k % 6, k % 12, &changes[0]) ==
              wide_pack_change(pack, DIRTY_BYTE | k % 6, DIRTY_BYTE | k % 12, &changes[1]));
        CHECK(memcmp(&changes[0], &changes[1], 16) == 0);
    }
    for (k = 0; k < 5; k++) {
        CHECK(wide_player_pixels(&player, k, 5, 6, 100, 90, out[0], sizeof out[0], 1200) ==
              RIBJASPER_DONE);
        CHECK(wide_player_pixels(&player, DIRTY | k, DIRTY | 5, DIRTY | 6, DIRTY | 100,
              DIRTY | 90, out[1], sizeof out[1], DIRTY | 1200) == RIBJASPER_DONE);
        CHECK(memcmp(out[0], out[1], sizeof out[0]) == 0);
    }
    for (k = 0; k < 2; k++) {
        uint64_t above = k == 0 ? 0 : DIRTY;
        CHECK(wide_convert(&stream[0][0], sizeof stream, above | RIBJASPER_RAW, above | 5,
              packs[k], sizeof packs[k], &converted[k]) == RIBJASPER_ANSWER_DAMAGED);
    }
    CHECK(memcmp(packs[0], packs[1], sizeof packs[0]) == 0 && converted[0].bad == converted[1].bad && converted[0].bad > 700);
    for (k = 0; k < 1000; k += 37) {
        CHECK(wide_blocks_after(DIRTY | k) == ribjasper_blocks_after(k));
        CHECK(wide_time_of_packs(DIRTY | k) == ribjasper_time_of_packs(k));
    }
    ribjasper_player_close(&player);
    if (failed == 0)
        printf("test_narrow: the unused bits of numbers are not read\n");
    return failed;
}
