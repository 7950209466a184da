/* Tests pixels in each format, reported changes, many blocks and packs in one call, counts, and a player that is copied to itself.
   The expected results come from plain C and from docs/FORMATS.md.

   test_pixels [STREAM]   also feeds a raw stream, in one call and block by block */
#include "ribjasper.h"

#include "testing.h"

static uint32_t seed = 1;

static uint32_t random_below(uint32_t below)
{
    seed = seed * 1664525u + 1013904223u;
    return (uint32_t)((uint64_t)(seed >> 8) * below >> 24);
}

/* Mostly a graphics pack; its two parities do not affect the drawing. */
static void random_pack(uint8_t pack[24])
{
    static const uint8_t codes[] = { 1, 2, 6, 6, 6, 6, 38, 38, 38, 38, 20, 24, 28, 30, 31, 3 };
    int i;
    for (i = 0; i < 24; i++)
        pack[i] = (uint8_t)random_below(256);
    pack[0] = random_below(20) == 0 ? (uint8_t)random_below(256) : 9;
    pack[1] = codes[random_below(sizeof codes)];
    if (random_below(3) > 0) {
        pack[6] = (uint8_t)random_below(18);
        pack[7] = (uint8_t)random_below(50);
    }
}

static void begin_pack(uint8_t pack[24], uint8_t code)
{
    memset(pack, 0, 24);
    pack[0] = 9;
    pack[1] = code;
}

static const uint32_t sizes[] = { 1, 3, 4, 4, 4, 4, 2 };

/* The bytes of a pixel, from docs/FORMATS.md. */
static void plain_pixel(uint32_t format, uint8_t number, uint16_t colour, uint8_t level, uint8_t bytes[4])
{
    uint8_t red = (uint8_t)((colour >> 8) * 0x11), green = (uint8_t)((colour >> 4 & 15) * 0x11),
            blue = (uint8_t)((colour & 15) * 0x11), opacity = (uint8_t)(~(level << 2 | level >> 4) & 0xff);
    uint16_t packed = (uint16_t)((red & 0xf8) << 8 | (green & 0xfc) << 3 | blue >> 3);
    int swapped = format == RIBJASPER_BGRA || format == RIBJASPER_BGRA_LEVELS;
    bytes[0] = swapped ? blue : red;
    bytes[1] = green;
    bytes[2] = swapped ? red : blue;
    bytes[3] = format == RIBJASPER_RGBA_LEVELS || format == RIBJASPER_BGRA_LEVELS ? opacity : 255;
    if (format == RIBJASPER_INDEXED)
        bytes[0] = number;
    if (format == RIBJASPER_RGB565) {
        bytes[0] = (uint8_t)(packed & 255);
        bytes[1] = (uint8_t)(packed >> 8);
    }
}

#define ROOM 300000
static uint8_t out[ROOM], expected[ROOM], before[RIBJASPER_PIXELS], after[RIBJASPER_PIXELS];

/* Checks each byte of a part of the screen in one format, and that no other byte changes. */
static void check_part(const ribjasper_player *player, uint32_t format, uint32_t x, uint32_t y, uint32_t width,
                       uint32_t height, uint32_t gap, size_t spare)
{
    uint16_t colours[16];
    uint8_t levels[16];
    uint32_t i, j, stride = sizes[format] * width + gap;
    size_t room = height == 0 ? 0 : (size_t)stride * (height - 1) + sizes[format] * width;
    if (room + spare > ROOM)
        return;
    CHECK(ribjasper_player_colours(player, colours) == 0 && ribjasper_player_levels(player, levels) == 0);
    CHECK(ribjasper_player_screen(player, before) == 0);
    memset(out, 0xa5, sizeof out);
    memset(expected, 0xa5, sizeof expected);
    for (j = 0; j < height; j++)
        for (i = 0; i < width; i++) {
            uint8_t number = before[300 * (y + j) + x + i], bytes[4];
            plain_pixel(format, number, colours[number], levels[number], bytes);
            memcpy(expected + (size_t)stride * j + sizes[format] * i, bytes, sizes[format]);
        }
    CHECK(ribjasper_player_pixels(player, format, x, y, width, height, out, room + spare, stride) == RIBJASPER_DONE);
    CHECK(memcmp(out, expected, sizeof out) == 0);
    /* A buffer that is one byte too small, and overlapping rows, are refused, and nothing is written. */
    memset(out, 0xa5, sizeof out);
    memset(expected, 0xa5, sizeof expected);
    if (height > 0 && width > 0) {
        CHECK(ribjasper_player_pixels(player, format, x, y, width, height, out, room - 1, stride) == RIBJASPER_REFUSED);
        CHECK(ribjasper_player_pixels(player, format, x, y, width, height, out, ROOM, sizes[format] * width - 1) ==
              RIBJASPER_REFUSED);
    }
    CHECK(memcmp(out, expected, sizeof out) == 0);
}

static void pixels(void)
{
    static const uint32_t huge[] = { 301, 0x7fffffffu, 0x80000000u, 0xfffffffeu, 0xffffffffu };
    ribjasper_player player = RIBJASPER_CLOSED;
    uint8_t pack[24];
    uint32_t format, n;
    CHECK(ribjasper_player_pixels(&player, 0, 0, 0, 0, 0, NULL, 0, 0) == RIBJASPER_REFUSED);
    if (ribjasper_player_open(&player) != RIBJASPER_DONE)
        return;
    /* Colour 1 is 0xF80 with level 63: orange, and transparent. */
    begin_pack(pack, 30);
    pack[6] = 0x3e;
    pack[7] = 0x00;
    CHECK(ribjasper_player_draw(&player, pack) == 0);
    begin_pack(pack, 28);
    pack[5] = 63;
    CHECK(ribjasper_player_draw(&player, pack) == 0);
    begin_pack(pack, 1);
    pack[4] = 1;
    CHECK(ribjasper_player_draw(&player, pack) == 0);
    CHECK(ribjasper_player_pixels(&player, RIBJASPER_BGRA_LEVELS, 6, 12, 1, 1, out, 4, 4) == 0);
    CHECK(out[0] == 0 && out[1] == 0x88 && out[2] == 0xff && out[3] == 0);
    CHECK(ribjasper_player_pixels(&player, RIBJASPER_RGB565, 6, 12, 1, 1, out, 2, 2) == 0);
    CHECK(out[0] == 0x40 && out[1] == 0xfc);
    CHECK(ribjasper_player_pixels(&player, RIBJASPER_RGBA_LEVELS, 0, 0, 1, 1, out, 4, 4) == 0);
    CHECK(out[0] == 0 && out[1] == 0 && out[2] == 0 && out[3] == 255);
    for (n = 0; n < 4000; n++) {
        random_pack(pack);
        CHECK(ribjasper_player_draw(&player, pack) == 0);
    }
    for (format = 0; format < 7; format++) {
        check_part(&player, format, 0, 0, 300, 216, 0, 0);
        check_part(&player, format, 0, 0, 300, 216, 8, 100);
        check_part(&player, format, 299, 215, 1, 1, 0, 1);
        check_part(&player, format, 300, 216, 0, 0, 0, 0);
        check_part(&player, format, 5, 7, 0, 9, 3, 0);
        check_part(&player, format, 5, 7, 9, 0, 3, 0);
        /* Narrow and high parts, each one pixel larger, in the window and beyond it. */
        for (n = 1; n < 20; n++) {
            check_part(&player, format, 100, 12, n, 192, n % 3, 0);
            check_part(&player, format, 290 - n, 0, n, 216, n % 5, 7);
        }
        CHECK(ribjasper_player_pixels(&player, format, 0, 0, 0, 0, NULL, 0, 0) == RIBJASPER_DONE);
    }
    for (n = 0; n < 700; n++) {
        uint32_t x = random_below(301), y = random_below(217);
        random_pack(pack);
        CHECK(ribjasper_player_draw(&player, pack) == 0);
        check_part(&player, n % 7, x, y, random_below(301 - x), random_below(217 - y), random_below(20), random_below(30));
    }
    CHECK(ribjasper_player_pixels(&player, 7, 0, 0, 1, 1, out, 4, 4) == RIBJASPER_REFUSED);
    for (n = 0; n < 5; n++) {
        CHECK(ribjasper_player_pixels(&player, 7 + huge[n] % 1000, 0, 0, 1, 1, out, 4, 4) == RIBJASPER_REFUSED);
        CHECK(ribjasper_player_pixels(&player, huge[n], 0, 0, 1, 1, out, 4, 4) == RIBJASPER_REFUSED);
        CHECK(ribjasper_player_pixels(&player, 2, huge[n], 0, 1, 1, out, 4, 4) == RIBJASPER_REFUSED);
        CHECK(ribjasper_player_pixels(&player, 2, 0, huge[n], 1, 1, out, 4, 4) == RIBJASPER_REFUSED);
        CHECK(ribjasper_player_pixels(&player, 2, 1, 0, huge[n], 1, out, 4, 0xffffffffu) == RIBJASPER_REFUSED);
        CHECK(ribjasper_player_pixels(&player, 2, 0, 1, 1, huge[n], out, 4, 4) == RIBJASPER_REFUSED);
        CHECK(ribjasper_player_pixels(&player, 2, 0, 0, 1, 2, out, 8, 0xffffffffu) == RIBJASPER_REFUSED);
    }
    CHECK(ribjasper_player_pixels(&player, 2, 0, 0, 1, 1, out, 4, 0xffffffffu) == RIBJASPER_DONE);
    ribjasper_player_close(&player);
    CHECK(held == 0);
}

static int within(const ribjasper_change *change, uint32_t x, uint32_t y)
{
    return change->left <= x && x < change->right && change->top <= y && y < change->bottom;
}

/* Whether no pixel outside of the reported change differs. */
static int contains_all_changes(const ribjasper_change *change)
{
    uint32_t n;
    for (n = 0; n < RIBJASPER_PIXELS; n++)
        if (before[n] != after[n] && !within(change, n % 300, n / 300))
            return 0;
    return 1;
}

static int max(int a, int b)
{
    return a > b ? a : b;
}

static int min(int a, int b)
{
    return a < b ? a : b;
}

/* The change of a pack, from the header. */
static ribjasper_change change_of(int32_t touched, int across, int down)
{
    ribjasper_change change = { 300, 216, 0, 0, 0, 0 };
    int left = 0, top = 0, right = 0, bottom = 0;
    if (touched < 900) {
        int row = touched / 50, column = touched % 50;
        left = max(6, 6 * column - across);
        right = min(294, 6 * column + 6 - across);
        top = max(12, 12 * row - down);
        bottom = min(204, 12 * row + 12 - down);
    } else if (touched == RIBJASPER_TOUCHES_ALL) {
        left = 6, top = 12, right = 294, bottom = 204;
    } else if (touched == RIBJASPER_TOUCHES_BORDER) {
        right = 300, bottom = 216;
    }
    if (left < right && top < bottom) {
        change.left = (uint32_t)left, change.top = (uint32_t)top;
        change.right = (uint32_t)right, change.bottom = (uint32_t)bottom;
    }
    change.colours = touched == RIBJASPER_TOUCHES_COLOURS;
    change.levels = touched == RIBJASPER_TOUCHES_LEVELS;
    return change;
}

static void add_change(ribjasper_change *all, const ribjasper_change *one)
{
    if (one->left < all->left)
        all->left = one->left;
    if (one->top < all->top)
        all->top = one->top;
    if (one->right > all->right)
        all->right = one->right;
    if (one->bottom > all->bottom)
        all->bottom = one->bottom;
    all->colours |= one->colours;
    all->levels |= one->levels;
}

static int is_change(const ribjasper_change *one, const ribjasper_change *other)
{
    return one->left == other->left && one->top == other->top && one->right == other->right &&
           one->bottom == other->bottom && one->colours == other->colours && one->levels == other->levels;
}

/* Draws packs one by one and many in one call. The reported change must be that of the header, and no other pixel may change. */
static void changes(void)
{
    static uint8_t packs[24 * 40];
    ribjasper_player one = RIBJASPER_CLOSED, all = RIBJASPER_CLOSED;
    ribjasper_change change, result;
    uint32_t round, n;
    memset(&change, 9, sizeof change);
    result = change;
    CHECK(ribjasper_player_draw_all(&one, packs, 1, &change) == RIBJASPER_REFUSED);
    CHECK(ribjasper_player_feed_all(&one, packs, 1, &change) == RIBJASPER_REFUSED && is_change(&change, &result));
    if (ribjasper_player_open(&one) != RIBJASPER_DONE || ribjasper_player_open(&all) != RIBJASPER_DONE)
        return;
    CHECK(ribjasper_pack_change(packs, 6, 0, &change) == RIBJASPER_REFUSED);
    CHECK(ribjasper_pack_change(packs, 0, 12, &change) == RIBJASPER_REFUSED);
    CHECK(ribjasper_pack_change(packs, 255, 255, &change) == RIBJASPER_REFUSED && is_change(&change, &result));
    for (round = 0; round < 1500; round++) {
        uint32_t count = random_below(40);
        ribjasper_change sum = { 300, 216, 0, 0, 0, 0 };
        uint16_t colours[16], other[16];
        for (n = 0; n < count; n++) {
            uint8_t *pack = packs + 24 * n, across, down;
            random_pack(pack);
            CHECK(ribjasper_player_offsets(&one, &across, &down) == 0);
            CHECK(ribjasper_pack_change(pack, across, down, &change) == RIBJASPER_DONE);
            result = change_of(ribjasper_pack_touches(pack), across, down);
            CHECK(is_change(&change, &result));
            add_change(&sum, &result);
            CHECK(ribjasper_player_draw(&one, pack) == 0);
        }
        CHECK(ribjasper_player_screen(&all, before) == 0 && ribjasper_player_colours(&all, colours) == 0);
        CHECK(ribjasper_player_draw_all(&all, packs, count, &change) == RIBJASPER_DONE);
        CHECK(is_change(&change, &sum));
        CHECK(ribjasper_player_screen(&all, after) == 0 && contains_all_changes(&change));
        CHECK(ribjasper_player_colours(&all, other) == 0);
        CHECK(change.colours || memcmp(colours, other, sizeof colours) == 0);
        CHECK(ribjasper_player_screen(&one, before) == 0 && memcmp(before, after, sizeof before) == 0);
    }
    CHECK(ribjasper_player_draw_all(&all, NULL, 0, &change) == RIBJASPER_DONE && change.left == 300 && change.right == 0);
    CHECK(ribjasper_player_feed_all(&all, NULL, 0, &change) == RIBJASPER_DONE && change.top == 216);
    ribjasper_player_close(&one);
    ribjasper_player_close(&all);
    CHECK(held == 0);
}

/* Feeds a stream with noise in some blocks. In one call, it must show the same as block by block. */
static void blocks(uint8_t *stream, size_t count)
{
    ribjasper_player one = RIBJASPER_CLOSED, all = RIBJASPER_CLOSED;
    ribjasper_change change;
    ribjasper_counts counts, other;
    size_t at = 0, n, bad = 0;
    for (n = 0; n < count * 20; n++)
        stream[random_below((uint32_t)(96 * count))] ^= (uint8_t)(1 + random_below(63));
    if (ribjasper_player_open(&one) != RIBJASPER_DONE || ribjasper_player_open(&all) != RIBJASPER_DONE)
        return;
    CHECK(ribjasper_player_begin(&one, RIBJASPER_RAW, 30) == 0 && ribjasper_player_begin(&all, RIBJASPER_RAW, 30) == 0);
    while (at < count) {
        size_t piece = random_below(25);
        if (piece > count - at)
            piece = count - at;
        CHECK(ribjasper_player_screen(&all, before) == 0);
        CHECK(ribjasper_player_feed_all(&all, stream + 96 * at, piece, &change) == RIBJASPER_DONE);
        CHECK(ribjasper_player_screen(&all, after) == 0 && contains_all_changes(&change));
        for (n = at; n < at + piece; n++) {
            ribjasper_pack packs[4];
            int32_t count_of_packs = ribjasper_player_take(&one, stream + 96 * n, packs);
            CHECK(count_of_packs >= 0);
            while (count_of_packs-- > 0)
                bad += packs[count_of_packs].wrong < 0;
        }
        CHECK(ribjasper_player_screen(&one, before) == 0 && memcmp(before, after, sizeof before) == 0);
        at += piece;
    }
    CHECK(ribjasper_player_counts(&one, &counts) == 0 && ribjasper_player_counts(&all, &other) == 0);
    CHECK(counts.blocks == count && counts.lead_in == 30 && counts.form == RIBJASPER_RAW);
    CHECK(counts.words == 4 * (count - 30) - 7 && counts.bad == bad && bad > 0);
    CHECK(other.blocks == counts.blocks && other.words == counts.words && other.bad == counts.bad);
    ribjasper_player_close(&one);
    ribjasper_player_close(&all);
    CHECK(held == 0);
}

/* From a checkpoint on, packs and blocks in one call have the same effect as one by one. */
static void from_a_checkpoint(uint8_t *stream, size_t count)
{
    static uint8_t file[RIBJASPER_CHECKPOINT], at_once[RIBJASPER_CHECKPOINT], in_turn[RIBJASPER_CHECKPOINT];
    ribjasper_player one = RIBJASPER_CLOSED, all = RIBJASPER_CLOSED;
    ribjasper_change change;
    uint8_t pack[24];
    uint32_t byte;
    size_t n;
    if (ribjasper_player_open(&one) != RIBJASPER_DONE || ribjasper_player_open(&all) != RIBJASPER_DONE)
        return;
    for (n = 0; n < count; n++)
        CHECK(ribjasper_player_feed(&one, stream + 96 * n) == RIBJASPER_DONE);
    CHECK(ribjasper_player_save(&one, file) == RIBJASPER_DONE);
    CHECK(ribjasper_player_load(&one, file, &byte) == RIBJASPER_DONE);
    CHECK(ribjasper_player_load(&all, file, &byte) == RIBJASPER_DONE);
    begin_pack(pack, 1);
    pack[4] = 5;
    CHECK(ribjasper_player_draw(&one, pack) == RIBJASPER_DONE);
    CHECK(ribjasper_player_draw_all(&all, pack, 1, &change) == RIBJASPER_DONE);
    for (n = 0; n < count; n++)
        CHECK(ribjasper_player_feed(&one, stream + 96 * n) == RIBJASPER_DONE);
    CHECK(ribjasper_player_feed_all(&all, stream, count, &change) == RIBJASPER_DONE);
    CHECK(ribjasper_player_save(&one, in_turn) == RIBJASPER_DONE && ribjasper_player_save(&all, at_once) == RIBJASPER_DONE);
    CHECK(memcmp(in_turn, at_once, sizeof in_turn) == 0);
    ribjasper_player_close(&one);
    ribjasper_player_close(&all);
    CHECK(held == 0);
}

static void counted(void)
{
    static const uint8_t block[96] = { 0 };
    ribjasper_player player = RIBJASPER_CLOSED;
    ribjasper_counts counts, kept;
    int n;
    memset(&counts, 9, sizeof counts);
    kept = counts;
    CHECK(ribjasper_player_counts(&player, &counts) == RIBJASPER_REFUSED && memcmp(&counts, &kept, sizeof counts) == 0);
    if (ribjasper_player_open(&player) != RIBJASPER_DONE)
        return;
    CHECK(ribjasper_player_begin(&player, RIBJASPER_PACKS, 2) == 0);
    for (n = 0; n < 5; n++)
        CHECK(ribjasper_player_feed(&player, block) == 0);
    CHECK(ribjasper_player_counts(&player, &counts) == 0);
    CHECK(counts.words == 12 && counts.form == RIBJASPER_PACKS && counts.lead_in == 2 && counts.blocks == 5 && counts.bad == 0);
    ribjasper_player_close(&player);
}

/* A player that is copied to itself is unchanged, and a player works after its struct was moved. */
static void one_player_twice(void)
{
    ribjasper_player player = RIBJASPER_CLOSED, moved;
    uint8_t pack[24];
    CHECK(ribjasper_player_copy(&player, &player) == RIBJASPER_REFUSED && !player.is_open);
    if (ribjasper_player_open(&player) != RIBJASPER_DONE)
        return;
    begin_pack(pack, 1);
    pack[4] = 5;
    CHECK(ribjasper_player_draw(&player, pack) == 0);
    CHECK(ribjasper_player_copy(&player, &player) == RIBJASPER_REFUSED);
    CHECK(player.is_open && ribjasper_player_pixel(&player, 150, 100, out) == 0 && out[0] == 5);
    memcpy(&moved, &player, sizeof player);
    memset(&player, 0, sizeof player);
    pack[4] = 6;
    CHECK(ribjasper_player_draw(&moved, pack) == 0);
    CHECK(ribjasper_player_pixel(&moved, 150, 100, out) == 0 && out[0] == 6);
    ribjasper_player_close(&moved);
    player = RIBJASPER_CLOSED_PLAYER;
    CHECK(!player.is_open && held == 0);
}

int main(int argc, char **argv)
{
    static uint8_t stream[96 * 4000];
    pixels();
    changes();
    counted();
    one_player_twice();
    if (argc > 1) {
        FILE *file = fopen(argv[1], "rb");
        size_t count = file == NULL ? 0 : fread(stream, 96, 4000, file);
        CHECK(count > 100);
        blocks(stream, count);
        from_a_checkpoint(stream, 400);
        if (file != NULL)
            fclose(file);
    }
    if (!failed)
        printf("test_pixels: pixels, changes, counts and players that are copied to themselves are correct\n");
    return failed;
}
