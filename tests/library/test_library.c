/* Tests each call of the library, with values from docs/FORMATS.md and from the standards that it cites, and the refusals of each
   call. Linked with a heap that counts (testing.h). */
#include "ribjasper.h"

#include "testing.h"

/* Whether all of these bytes have this value. */
static int all_are(const uint8_t *bytes, size_t count, uint8_t value)
{
    while (count > 0)
        if (bytes[--count] != value)
            return 0;
    return 1;
}

static void single_calls(void)
{
    static const uint8_t preset[24] = { 9, 1, 0x3c, 0x34, 0, 0, 0, 0, 0, 0, 0, 0, 0, 0, 0, 0, 0, 0, 0, 0, 13, 7, 42, 32 };
    static const uint8_t text[18] = { 0x80, 0, 0, 0, 'D', 'e', 'm', 'o', 0, 'O', 'n', 'e', 0, 0, 0, 0, 0x51, 0xd3 };
    uint8_t word[24], out[24], torn[18];
    uint8_t block[96] = { 0xc0 }, planar[96], back[96];
    memcpy(word, preset, 24);
    CHECK(ribjasper_correct(word, out) == 0 && memcmp(out, preset, 24) == 0);
    word[3] = 1;
    CHECK(ribjasper_correct(word, out) == 1 && memcmp(out, preset, 24) == 0);
    word[20] = 63;
    CHECK(ribjasper_correct(word, out) == 2 && memcmp(out, preset, 24) == 0);
    /* A codeword with three equal changes is near no codeword. */
    memset(word, 0, 24);
    word[0] = word[8] = word[16] = 1;
    memset(out, 7, 24);
    CHECK(ribjasper_correct(word, out) == -1 && all_are(out, 24, 7));

    memcpy(torn, text, 18);
    torn[4] = 'd';
    CHECK(ribjasper_text_pack_matches(text) == 1);
    CHECK(ribjasper_text_pack_matches(torn) == 0);

    ribjasper_block_to_planar(block, planar);
    CHECK(planar[0] == 0x80 && planar[12] == 0x80 && all_are(planar + 1, 11, 0) && all_are(planar + 13, 83, 0));
    ribjasper_block_from_planar(planar, back);
    CHECK(memcmp(back, block, 96) == 0);
}

static void q_frames(void)
{
    static const uint8_t other[12] = { 0, 0, 0, 0, 0, 0, 0, 0, 0, 0, 0xff, 0xff };
    static const uint8_t zeros[12] = { 0 };
    static const uint8_t pause[12] = { 1, 1, 0, 0, 2, 0, 0, 0, 0, 0, 0xf0, 0xd9 };
    static const uint8_t field[12] = { 1, 0x1a, 1, 0, 0, 0, 0, 0, 0, 0, 0x6b, 0x0f };
    static const uint8_t start[12] = { 1, 1, 1, 0, 0, 0, 0, 0, 2, 0, 0x5a, 0x28 };
    ribjasper_q_frame frame, kept;
    uint8_t bytes[12], bit = 200;
    memset(&frame, 0, sizeof frame);
    CHECK(ribjasper_q_decode(other, &frame, &bit) == RIBJASPER_DONE && bit == 200);
    CHECK(frame.kind == RIBJASPER_Q_OTHER && frame.control == 0 && frame.mode == 0 && all_are(frame.text, 13, 0));
    CHECK(ribjasper_q_encode(&frame, bytes) == RIBJASPER_DONE && memcmp(bytes, other, 12) == 0);
    CHECK(ribjasper_q_decode(pause, &frame, &bit) == RIBJASPER_DONE && bit == 200);
    CHECK(frame.kind == RIBJASPER_Q_PROGRAM && frame.control == 0 && frame.track == 1 && frame.index == 0);
    CHECK(frame.time == 150 && frame.absolute == 0);
    CHECK(ribjasper_q_encode(&frame, bytes) == RIBJASPER_DONE && memcmp(bytes, pause, 12) == 0);
    memset(&frame, 0, sizeof frame);
    memcpy(&kept, &frame, sizeof frame);
    CHECK(ribjasper_q_decode(zeros, &frame, &bit) == RIBJASPER_BAD_CHECK && bit == 200);
    CHECK(ribjasper_q_decode(field, &frame, &bit) == RIBJASPER_BAD_FIELD && bit == 8);
    CHECK(memcmp(&kept, &frame, sizeof frame) == 0);
    /* Block 150 of a disc with one track: its music begins. */
    frame.track = 1;
    frame.index = 1;
    frame.absolute = 150;
    CHECK(ribjasper_q_encode(&frame, bytes) == RIBJASPER_DONE && memcmp(bytes, start, 12) == 0);
    frame.time = 450000;
    CHECK(ribjasper_q_encode(&frame, bytes) == RIBJASPER_REFUSED && memcmp(bytes, start, 12) == 0);
    frame.time = 0;
    frame.kind = 8;
    CHECK(ribjasper_q_encode(&frame, bytes) == RIBJASPER_REFUSED && memcmp(bytes, start, 12) == 0);
    /* A catalogue number and a code are read as they were written. */
    frame.kind = RIBJASPER_Q_CATALOGUE;
    memcpy(frame.text, "1234567890123", 13);
    CHECK(ribjasper_q_encode(&frame, bytes) == RIBJASPER_DONE && bytes[0] == 2 && bytes[1] == 0x12 && bytes[7] == 0x30);
    CHECK(ribjasper_q_decode(bytes, &frame, &bit) == RIBJASPER_DONE && memcmp(frame.text, "1234567890123", 13) == 0);
    frame.kind = RIBJASPER_Q_ISRC;
    CHECK(ribjasper_q_encode(&frame, bytes) == RIBJASPER_REFUSED);
    memcpy(frame.text, "D1A1B9912345", 12);
    CHECK(ribjasper_q_encode(&frame, bytes) == RIBJASPER_REFUSED);
    memcpy(frame.text, "DEA1B9912345", 12);
    CHECK(ribjasper_q_encode(&frame, bytes) == RIBJASPER_DONE && bytes[0] == 3);
    CHECK(ribjasper_q_decode(bytes, &frame, &bit) == RIBJASPER_DONE && frame.kind == RIBJASPER_Q_ISRC);
    CHECK(memcmp(frame.text, "DEA1B9912345", 13) == 0);
}

/* The entries of the table of contents, from their bytes: CONTROL and ADR, TNO, POINT, the running time, ZERO, and the
   value of POINT. */
static void entries(void)
{
    static const struct {
        uint32_t kind, absolute;
        uint8_t track, disc, bytes[10];
    } cases[] = {
        { RIBJASPER_Q_TRACK, 150, 5, 0, { 0x41, 0, 0x05, 0, 1, 2, 0, 0, 2, 0 } },
        { RIBJASPER_Q_FIRST, 0, 3, 0x20, { 0x41, 0, 0xa0, 0, 1, 2, 0, 0x03, 0x20, 0 } },
        { RIBJASPER_Q_LAST, 0, 12, 0, { 0x41, 0, 0xa1, 0, 1, 2, 0, 0x12, 0, 0 } },
        { RIBJASPER_Q_LEAD_OUT, 56606, 0, 0, { 0x41, 0, 0xa2, 0, 1, 2, 0, 0x12, 0x34, 0x56 } },
    };
    for (size_t i = 0; i < sizeof cases / sizeof *cases; i++) {
        ribjasper_q_frame frame, read;
        uint8_t bytes[12], bit = 200;
        memset(&frame, 0, sizeof frame);
        memset(&read, 0, sizeof read);
        frame.kind = cases[i].kind;
        frame.time = 77;
        frame.absolute = cases[i].absolute;
        frame.control = 4;
        frame.track = cases[i].track;
        frame.disc = cases[i].disc;
        CHECK(ribjasper_q_encode(&frame, bytes) == RIBJASPER_DONE && memcmp(bytes, cases[i].bytes, 10) == 0);
        CHECK(ribjasper_q_decode(bytes, &read, &bit) == RIBJASPER_DONE && bit == 200);
        CHECK(read.kind == frame.kind && read.time == 77 && read.absolute == frame.absolute && read.control == 4);
        CHECK(read.track == frame.track && read.disc == frame.disc);
    }
}

static void whole_streams(void)
{
    static uint8_t stream[2 * 2448], packs[192];
    ribjasper_converted result = { 9, 9, 9 };
    long number;
    CHECK(ribjasper_convert(stream, 0, RIBJASPER_RAW, 0, packs, 0, &result) == RIBJASPER_CONVERTED && result.bytes == 0);
    CHECK(ribjasper_convert(stream, 96, RIBJASPER_RAW, 0, packs, 0, &result) == RIBJASPER_CONVERTED && result.bytes == 0);
    memset(packs, 7, sizeof packs);
    CHECK(ribjasper_convert(stream, 192, RIBJASPER_RAW, 0, packs, 24, &result) == RIBJASPER_CONVERTED);
    CHECK(result.bytes == 24 && result.blocks == 2 && result.bad == 0 && all_are(packs, 24, 0) && all_are(packs + 24, 168, 7));
    /* The first pack with two and with three wrong symbols. */
    stream[50] = stream[100] = 1;
    memset(packs, 7, sizeof packs);
    CHECK(ribjasper_convert(stream, 192, RIBJASPER_RAW, 0, packs, 192, &result) == RIBJASPER_CONVERTED && result.bad == 0);
    CHECK(all_are(packs, 24, 0) && all_are(packs + 24, 168, 7));
    stream[150] = 1;
    memset(packs, 7, sizeof packs);
    CHECK(ribjasper_convert(stream, 192, RIBJASPER_RAW, 0, packs, 192, &result) == RIBJASPER_DAMAGED && result.bad == 1);
    CHECK(result.bytes == 24 && result.blocks == 2 && all_are(packs, 24, 0));
    memset(stream, 0, sizeof stream);
    CHECK(ribjasper_convert(stream, 192, RIBJASPER_RAW, 1, packs, 0, &result) == RIBJASPER_CONVERTED && result.blocks == 1);
    CHECK(ribjasper_convert(stream, 192, RIBJASPER_PACKS, 0, packs, 192, &result) == RIBJASPER_CONVERTED);
    CHECK(result.bytes == 192);
    CHECK(ribjasper_convert(stream, 4896, RIBJASPER_SECTORS, 0, packs, 24, &result) == RIBJASPER_CONVERTED);
    CHECK(result.bytes == 24);
    /* A refused call writes nothing. */
    memset(packs, 7, sizeof packs);
    CHECK(ribjasper_convert(stream, 100, RIBJASPER_RAW, 0, packs, 192, &result) == RIBJASPER_TORN);
    CHECK(ribjasper_convert(stream, 192, RIBJASPER_RAW, 0, packs, 23, &result) == RIBJASPER_NO_ROOM);
    CHECK(ribjasper_convert(stream, 192, 3, 0, packs, 192, &result) == RIBJASPER_USAGE);
    CHECK(ribjasper_convert(stream, 192, RIBJASPER_RAW, 450001, packs, 192, &result) == RIBJASPER_USAGE);
    CHECK(all_are(packs, 192, 7) && result.bytes == 24);
    /* It allocates no memory. */
    refused = requests;
    number = requests;
    CHECK(ribjasper_convert(stream, 192, RIBJASPER_RAW, 0, packs, 192, &result) == RIBJASPER_CONVERTED);
    refused = -1;
    CHECK(requests == number && held == 0 && all_are(packs, 24, 0));
}

/* A stream of any length except that of whole units is torn, in each form; each buffer that is too small is refused. */
static void edges_of_streams(void)
{
    static uint8_t stream[3 * 2448], packs[400];
    static const uint32_t sizes[3] = { 96, 96, 2448 };
    static const size_t texts[3] = { 120, 288, 120 };
    ribjasper_converted result = { 9, 9, 9 };
    uint32_t form;
    size_t length, room;
    memset(packs, 7, sizeof packs);
    for (form = 0; form < 3; form++) {
        for (length = 0; length <= 3 * sizes[form]; length++)
            if (length % sizes[form] != 0)
                CHECK(ribjasper_convert(stream, length, form, 0, packs, sizeof packs, &result) == RIBJASPER_TORN);
        for (room = 0; room < texts[form]; room++)
            CHECK(ribjasper_convert(stream, 3 * sizes[form], form, 0, packs, room, &result) == RIBJASPER_NO_ROOM);
        CHECK(ribjasper_convert(stream, 3 * sizes[form] - 1, form, 0, packs, 0, &result) == RIBJASPER_TORN);
        CHECK(ribjasper_convert(stream, 3 * sizes[form] - 1, form, 450001, packs, 0, &result) == RIBJASPER_USAGE);
    }
    CHECK(all_are(packs, sizeof packs, 7) && result.bytes == 9 && result.blocks == 9 && result.bad == 9);
    for (form = 0; form < 3; form++) {
        memset(packs, 7, sizeof packs);
        CHECK(ribjasper_convert(stream, 3 * sizes[form], form, 0, packs, texts[form], &result) == RIBJASPER_CONVERTED);
        CHECK(result.bytes == texts[form] && result.blocks == 3 && result.bad == 0);
        CHECK(all_are(packs, texts[form], 0) && all_are(packs + texts[form], sizeof packs - texts[form], 7));
    }
}

static void draw_instruction(ribjasper_player *player, uint8_t code, const uint8_t content[16])
{
    uint8_t pack[24] = { 9, 0 };
    pack[1] = code;
    memcpy(pack + 4, content, 16);
    CHECK(ribjasper_player_draw(player, pack) == RIBJASPER_DONE);
}

static void drawn_packs(void)
{
    static const uint8_t seven[16] = { 7, 7, 16, 48 }, five[16] = { 5, 5, 17, 49 }, scroll[16] = { 0, 0x15, 0x1b };
    static const uint8_t border[16] = { 3 }, levels[16] = { 0, 1, 2, 3, 63 };
    static const uint8_t colours[16] = { 0x3c, 0, 0x03, 0x30, 0, 0x0f };
    static uint8_t pixels[RIBJASPER_PIXELS], picture[RIBJASPER_PICTURE];
    ribjasper_player player = RIBJASPER_CLOSED, second = RIBJASPER_CLOSED;
    uint16_t table[16], colour;
    uint8_t seen[16], across, down, pixel;
    long x, y, wrong = 0;
    CHECK(ribjasper_player_open(&player) == RIBJASPER_DONE && ribjasper_player_open(&second) == RIBJASPER_DONE);
    CHECK(ribjasper_player_picture(&player, picture) == RIBJASPER_DONE && all_are(picture, sizeof picture, 0));
    /* Two tiles in the lower corner, moved by one tile and by the greatest offsets. */
    draw_instruction(&player, 6, seven);
    draw_instruction(&player, 6, five);
    draw_instruction(&player, 24, scroll);
    CHECK(ribjasper_player_offsets(&player, &across, &down) == RIBJASPER_DONE && across == 5 && down == 11);
    CHECK(ribjasper_player_screen(&player, pixels) == RIBJASPER_DONE);
    for (y = 0; y < RIBJASPER_HEIGHT; y++)
        for (x = 0; x < RIBJASPER_WIDTH; x++)
            wrong += pixels[300 * y + x] != (x >= 289 && x <= 293 && y >= 193 && y <= 203 ? 7 : 0);
    CHECK(wrong == 0);
    CHECK(ribjasper_player_pixel(&player, 289, 193, &pixel) == RIBJASPER_DONE && pixel == 7);
    CHECK(ribjasper_player_pixel(&player, 300, 0, &pixel) == RIBJASPER_REFUSED && pixel == 7);
    CHECK(ribjasper_player_pixel(&player, 0, 216, &pixel) == RIBJASPER_REFUSED && pixel == 7);
    draw_instruction(&player, 2, border);
    draw_instruction(&player, 28, levels);
    draw_instruction(&player, 30, colours);
    CHECK(ribjasper_player_border(&player, &pixel) == RIBJASPER_DONE && pixel == 3);
    CHECK(ribjasper_player_levels(&player, seen) == RIBJASPER_DONE && memcmp(seen, levels, 16) == 0);
    CHECK(ribjasper_player_colours(&player, table) == RIBJASPER_DONE);
    CHECK(table[0] == 0xf00 && table[1] == 0x0f0 && table[2] == 0x00f && table[3] == 0);
    CHECK(ribjasper_player_colour(&player, 1, &colour) == RIBJASPER_DONE && colour == 0x0f0);
    CHECK(ribjasper_player_colour(&player, 16, &colour) == RIBJASPER_REFUSED && colour == 0x0f0);
    CHECK(ribjasper_player_picture(&player, picture) == RIBJASPER_DONE);
    CHECK(all_are(picture, 3, 0) && picture[3 * (300 * 12 + 6)] == 255 && picture[3 * (300 * 12 + 6) + 1] == 0);
    /* The other player has its own screen. */
    CHECK(ribjasper_player_picture(&second, picture) == RIBJASPER_DONE && all_are(picture, sizeof picture, 0));
    CHECK(ribjasper_player_begin(&player, RIBJASPER_RAW, 0) == RIBJASPER_DONE);
    CHECK(ribjasper_player_screen(&player, pixels) == RIBJASPER_DONE && all_are(pixels, sizeof pixels, 0));
    ribjasper_player_close(&player);
    ribjasper_player_close(&second);
    CHECK(held == 0);
}

/* The tiles that packs touch: each instruction once. */
static void touched_parts(void)
{
    uint8_t pack[24] = { 9 };
    CHECK(ribjasper_pack_touches(pack) == RIBJASPER_TOUCHES_NOTHING);
    pack[1] = 6;
    CHECK(ribjasper_pack_touches(pack) == 0);
    pack[6] = 0x20 + 17;
    pack[7] = 49;
    CHECK(ribjasper_pack_touches(pack) == 899);
    pack[1] = 38;
    pack[7] = 50;
    CHECK(ribjasper_pack_touches(pack) == RIBJASPER_TOUCHES_NOTHING);
    pack[6] = 18;
    pack[7] = 0;
    CHECK(ribjasper_pack_touches(pack) == RIBJASPER_TOUCHES_NOTHING);
    pack[6] = 3;
    CHECK(ribjasper_pack_touches(pack) == 150);
    pack[1] = 1;
    CHECK(ribjasper_pack_touches(pack) == RIBJASPER_TOUCHES_ALL);
    pack[1] = 20;
    CHECK(ribjasper_pack_touches(pack) == RIBJASPER_TOUCHES_ALL);
    pack[1] = 24 + 0x80;
    CHECK(ribjasper_pack_touches(pack) == RIBJASPER_TOUCHES_ALL);
    pack[1] = 2;
    CHECK(ribjasper_pack_touches(pack) == RIBJASPER_TOUCHES_BORDER);
    pack[1] = 30;
    CHECK(ribjasper_pack_touches(pack) == RIBJASPER_TOUCHES_COLOURS);
    pack[1] = 31;
    CHECK(ribjasper_pack_touches(pack) == RIBJASPER_TOUCHES_COLOURS);
    pack[1] = 28;
    CHECK(ribjasper_pack_touches(pack) == RIBJASPER_TOUCHES_LEVELS);
    pack[0] = 8;
    CHECK(ribjasper_pack_touches(pack) == RIBJASPER_TOUCHES_NOTHING);
}

/* A part of the screen equals the same part of the whole screen, and each buffer that is too small is refused. */
static void rectangles(void)
{
    static const uint8_t tile[16] = { 1, 2, 3, 4, 0x2a, 0x15, 0x3f, 1, 2, 4, 8, 0x10, 0x20, 7, 0, 0x33 };
    static uint8_t pixels[RIBJASPER_PIXELS], part[RIBJASPER_PIXELS];
    ribjasper_player player = RIBJASPER_CLOSED;
    size_t room;
    long i, j, wrong = 0;
    CHECK(ribjasper_player_open(&player) == RIBJASPER_DONE);
    draw_instruction(&player, 6, tile);
    CHECK(ribjasper_player_screen(&player, pixels) == RIBJASPER_DONE);
    memset(part, 7, sizeof part);
    for (room = 0; room < 20 * 10 + 9; room++)
        CHECK(ribjasper_player_rect(&player, 22, 34, 9, 11, part, room, 20) == RIBJASPER_REFUSED);
    CHECK(ribjasper_player_rect(&player, 292, 34, 9, 11, part, 1000, 20) == RIBJASPER_REFUSED);
    CHECK(ribjasper_player_rect(&player, 22, 206, 9, 11, part, 1000, 20) == RIBJASPER_REFUSED);
    CHECK(ribjasper_player_rect(&player, 22, 34, 9, 11, part, 1000, 8) == RIBJASPER_REFUSED);
    CHECK(ribjasper_player_rect(&player, 0xffffffff, 34, 9, 11, part, 1000, 20) == RIBJASPER_REFUSED);
    CHECK(all_are(part, sizeof part, 7));
    CHECK(ribjasper_player_rect(&player, 22, 34, 9, 11, part, 209, 20) == RIBJASPER_DONE);
    for (j = 0; j < 11; j++)
        for (i = 0; i < 20; i++)
            wrong += part[20 * j + i] != (i < 9 ? pixels[300 * (34 + j) + 22 + i] : 7);
    CHECK(wrong == 0 && pixels[300 * 36 + 24] == 2 && part[20 * 2 + 2] == 2);
    CHECK(ribjasper_player_rect(&player, 300, 216, 0, 0, part, 0, 0) == RIBJASPER_DONE);
    CHECK(ribjasper_player_rect(&player, 0, 0, 300, 216, part, RIBJASPER_PIXELS, 300) == RIBJASPER_DONE);
    CHECK(memcmp(part, pixels, sizeof part) == 0);
    CHECK(ribjasper_player_rect(&player, 0, 30, 300, 100, part, 300 * 100, 300) == RIBJASPER_DONE);
    CHECK(memcmp(part, pixels + 300 * 30, 300 * 100) == 0 && memcmp(part, pixels, 300 * 100) != 0);
    ribjasper_player_close(&player);
    CHECK(ribjasper_player_rect(&player, 0, 0, 1, 1, part, 1, 1) == RIBJASPER_REFUSED && held == 0);
}

/* A player draws as long as it is fed, even after more blocks than a program can have. Packs that are drawn in between do not
   change the stream. */
static void long_streams(void)
{
    static const uint8_t five[24] = { 9, 1, 0, 0, 5 };
    static const uint8_t preset[96] = { 9, 1, 0x3c, 0x34, 0, 0, 0, 0, 0, 0, 0, 0, 0, 0, 0, 0, 0, 0, 0, 0, 13, 7, 42, 32 };
    static const uint8_t idle[96] = { 0 };
    uint8_t pixel = 0;
    ribjasper_player player = RIBJASPER_CLOSED;
    ribjasper_pack packs[4];
    long fed;
    CHECK(ribjasper_player_open(&player) == RIBJASPER_DONE);
    CHECK(ribjasper_player_begin(&player, RIBJASPER_RAW, 450001) == RIBJASPER_REFUSED);
    CHECK(ribjasper_player_begin(&player, RIBJASPER_PACKS, 450000) == RIBJASPER_DONE);
    CHECK(ribjasper_player_draw(&player, five) == RIBJASPER_DONE);
    for (fed = 0; fed < 450000; fed++)
        if (ribjasper_player_feed(&player, preset) != RIBJASPER_DONE)
            break;
    CHECK(fed == 450000);
    CHECK(ribjasper_player_pixel(&player, 6, 12, &pixel) == RIBJASPER_DONE && pixel == 5);
    for (fed = 0; fed < 1000000; fed++)
        if (ribjasper_player_feed(&player, idle) != RIBJASPER_DONE)
            break;
    CHECK(fed == 1000000);
    CHECK(ribjasper_player_pixel(&player, 6, 12, &pixel) == RIBJASPER_DONE && pixel == 5);
    CHECK(ribjasper_player_take(&player, preset, packs) == 4 && packs[0].wrong == 0 && packs[3].wrong == 0);
    CHECK(ribjasper_player_pixel(&player, 6, 12, &pixel) == RIBJASPER_DONE && pixel == 0);
    CHECK(ribjasper_player_draw(&player, five) == RIBJASPER_DONE);
    CHECK(ribjasper_player_pixel(&player, 6, 12, &pixel) == RIBJASPER_DONE && pixel == 5);
    /* Opening it again keeps its memory, and begins a new stream. */
    fed = requests;
    refused = requests;
    CHECK(ribjasper_player_open(&player) == RIBJASPER_DONE && requests == fed && held == 1);
    refused = -1;
    CHECK(ribjasper_player_pixel(&player, 6, 12, &pixel) == RIBJASPER_DONE && pixel == 0);
    ribjasper_player_close(&player);
    CHECK(held == 0);
}

/* A restored player and a copied player show the same as the original from there on, and complete the same words. */
static void saved_players(void)
{
    static const uint8_t five[16] = { 5 };
    static uint8_t file[RIBJASPER_CHECKPOINT], again[RIBJASPER_CHECKPOINT];
    static uint8_t one[RIBJASPER_PIXELS], other[RIBJASPER_PIXELS];
    uint8_t first[96] = { 0 }, second[96] = { 0 };
    ribjasper_player player = RIBJASPER_CLOSED, back = RIBJASPER_CLOSED;
    ribjasper_pack packs[4];
    uint32_t byte = 7;
    long number;
    first[50] = second[4] = second[54] = 1;
    memset(file, 7, sizeof file);
    CHECK(ribjasper_player_save(&player, file) == RIBJASPER_REFUSED && all_are(file, sizeof file, 7));
    CHECK(ribjasper_player_load(&player, file, &byte) == RIBJASPER_REFUSED && byte == 7);
    CHECK(ribjasper_player_open(&player) == RIBJASPER_DONE);
    CHECK(ribjasper_player_copy(&player, &back) == RIBJASPER_REFUSED);
    CHECK(ribjasper_player_copy(&back, &player) == RIBJASPER_REFUSED);
    CHECK(ribjasper_player_open(&back) == RIBJASPER_DONE);
    /* One block of the lead-in was fed, and one of the program, which begins a word. */
    CHECK(ribjasper_player_begin(&player, RIBJASPER_RAW, 1) == RIBJASPER_DONE);
    CHECK(ribjasper_player_feed(&player, second) == RIBJASPER_DONE);
    CHECK(ribjasper_player_feed(&player, first) == RIBJASPER_DONE);
    draw_instruction(&player, 1, five);
    number = requests;
    CHECK(ribjasper_player_save(&player, file) == RIBJASPER_DONE && requests == number + 1 && held == 2);
    CHECK(memcmp(file, "CDGSAVE1", 8) == 0 && all_are(file + 8, 7, 0) && file[15] == 1 && file[19] == 1);
    CHECK(all_are(file + 20, 124, 0) && file[24 + 168 - 46] == 1 && file[192] == 5);
    CHECK(ribjasper_player_take(&player, second, packs) == 1 && packs[0].wrong == -1);
    CHECK(ribjasper_player_save(&player, again) == RIBJASPER_DONE && again[19] == 2 && again[23] == 1);
    /* Another player and the player itself are restored, and the next block completes the same word. */
    CHECK(ribjasper_player_load(&back, file, &byte) == RIBJASPER_DONE && byte == 7 && held == 2);
    CHECK(ribjasper_player_screen(&player, one) == RIBJASPER_DONE);
    CHECK(ribjasper_player_screen(&back, other) == RIBJASPER_DONE);
    CHECK(memcmp(one, other, sizeof one) == 0 && one[300 * 12 + 6] == 5);
    memset(packs, 0, sizeof packs);
    CHECK(ribjasper_player_take(&back, second, packs) == 1 && packs[0].wrong == -1 && packs[0].symbols[4] == 1);
    CHECK(ribjasper_player_save(&back, file) == RIBJASPER_DONE && memcmp(file, again, sizeof file) == 0);
    /* A copy completes the same words, and does not change with the original. */
    CHECK(ribjasper_player_begin(&back, RIBJASPER_RAW, 0) == RIBJASPER_DONE);
    CHECK(ribjasper_player_feed(&back, first) == RIBJASPER_DONE);
    number = requests;
    CHECK(ribjasper_player_copy(&back, &player) == RIBJASPER_DONE && requests == number);
    CHECK(ribjasper_player_begin(&back, RIBJASPER_PACKS, 0) == RIBJASPER_DONE);
    CHECK(ribjasper_player_pixel(&player, 6, 12, other) == RIBJASPER_DONE && other[0] == 0);
    CHECK(ribjasper_player_take(&player, second, packs) == 1 && packs[0].wrong == -1);
    /* An invalid file is refused with its first wrong byte, and a player of packs at once, before any memory is allocated. */
    number = refused = requests;
    CHECK(ribjasper_player_save(&back, again) == RIBJASPER_REFUSED);
    file[200] = 16;
    CHECK(ribjasper_player_load(&back, file, &byte) == RIBJASPER_NO_CHECKPOINT && byte == 200);
    file[8] = 1;
    CHECK(ribjasper_player_load(&back, file, &byte) == RIBJASPER_NO_CHECKPOINT && byte == 8);
    CHECK(requests == number);
    CHECK(ribjasper_player_take(&back, second, packs) == 4);
    refused = requests;
    CHECK(ribjasper_player_load(&back, again, &byte) == RIBJASPER_NO_MEMORY && byte == 8);
    refused = requests;
    CHECK(ribjasper_player_save(&player, file) == RIBJASPER_NO_MEMORY && file[200] == 16);
    refused = -1;
    ribjasper_player_close(&player);
    ribjasper_player_close(&back);
    CHECK(held == 0);
}

/* Offsets and levels are restored from a checkpoint, and copied. A player that begins a new stream saves nothing of the
   previous one. */
static void saved_settings(void)
{
    static const uint8_t scroll[16] = { 0, 0x15, 0x1b };
    static const uint8_t levels[16] = { 0, 1, 2, 3, 4, 5, 6, 7, 8, 9, 10, 11, 12, 13, 62, 63 };
    static uint8_t file[RIBJASPER_CHECKPOINT];
    ribjasper_player player = RIBJASPER_CLOSED, loaded = RIBJASPER_CLOSED, copied = RIBJASPER_CLOSED;
    uint8_t block[96], seen[16], across = 0, down = 0;
    uint32_t byte = 7;
    memset(block, 1, sizeof block);
    CHECK(ribjasper_player_open(&player) == RIBJASPER_DONE && ribjasper_player_open(&loaded) == RIBJASPER_DONE);
    CHECK(ribjasper_player_open(&copied) == RIBJASPER_DONE);
    draw_instruction(&player, 24, scroll);
    draw_instruction(&player, 28, levels);
    CHECK(ribjasper_player_save(&player, file) == RIBJASPER_DONE);
    CHECK(ribjasper_player_load(&loaded, file, &byte) == RIBJASPER_DONE && byte == 7);
    CHECK(ribjasper_player_copy(&player, &copied) == RIBJASPER_DONE);
    CHECK(ribjasper_player_offsets(&loaded, &across, &down) == RIBJASPER_DONE && across == 5 && down == 11);
    CHECK(ribjasper_player_levels(&loaded, seen) == RIBJASPER_DONE && memcmp(seen, levels, 16) == 0);
    CHECK(ribjasper_player_offsets(&copied, &across, &down) == RIBJASPER_DONE && across == 5 && down == 11);
    CHECK(ribjasper_player_levels(&copied, seen) == RIBJASPER_DONE && memcmp(seen, levels, 16) == 0);
    CHECK(ribjasper_player_feed(&player, block) == RIBJASPER_DONE);
    CHECK(ribjasper_player_begin(&player, RIBJASPER_RAW, 0) == RIBJASPER_DONE);
    CHECK(ribjasper_player_save(&player, file) == RIBJASPER_DONE && all_are(file + 8, 184, 0));
    ribjasper_player_close(&player);
    ribjasper_player_close(&loaded);
    ribjasper_player_close(&copied);
    CHECK(held == 0);
}

/* A raw stream of 1,000,000 blocks is saved, and a longer one is refused before any memory is allocated. */
static void long_players(void)
{
    static const uint8_t block[96] = { 0 };
    static uint8_t file[RIBJASPER_CHECKPOINT];
    ribjasper_player player = RIBJASPER_CLOSED;
    long fed;
    CHECK(ribjasper_player_open(&player) == RIBJASPER_DONE);
    CHECK(ribjasper_player_begin(&player, RIBJASPER_RAW, 450000) == RIBJASPER_DONE);
    for (fed = 0; fed < 1000000; fed++)
        if (ribjasper_player_feed(&player, block) != RIBJASPER_DONE)
            break;
    CHECK(fed == 1000000);
    refused = requests;
    CHECK(ribjasper_player_save(&player, file) == RIBJASPER_NO_MEMORY);
    refused = -1;
    CHECK(ribjasper_player_save(&player, file) == RIBJASPER_DONE && memcmp(file, "CDGSAVE1", 8) == 0);
    CHECK(ribjasper_player_feed(&player, block) == RIBJASPER_DONE);
    memset(file, 7, sizeof file);
    fed = refused = requests;
    CHECK(ribjasper_player_save(&player, file) == RIBJASPER_REFUSED && requests == fed);
    CHECK(all_are(file, sizeof file, 7));
    refused = -1;
    ribjasper_player_close(&player);
    CHECK(held == 0);
}

static void taken_blocks(void)
{
    uint8_t first[96] = { 0 }, second[96] = { 0 };
    ribjasper_pack packs[4];
    ribjasper_player player = RIBJASPER_CLOSED;
    CHECK(ribjasper_player_open(&player) == RIBJASPER_DONE);
    first[50] = second[4] = 1;
    CHECK(ribjasper_player_take(&player, first, packs) == 0);
    memset(packs, 7, sizeof packs);
    CHECK(ribjasper_player_take(&player, second, packs) == 1 && packs[0].wrong == 2 && all_are(packs[0].symbols, 24, 0));
    CHECK(all_are((const uint8_t *)(packs + 1), 3 * sizeof *packs, 7));
    CHECK(ribjasper_player_take(&player, second, packs) == 4);
    /* After a reset, no symbol of those blocks remains. */
    CHECK(ribjasper_player_begin(&player, RIBJASPER_RAW, 0) == RIBJASPER_DONE);
    CHECK(ribjasper_player_take(&player, first, packs) == 0);
    second[54] = 1;
    CHECK(ribjasper_player_take(&player, second, packs) == 1 && packs[0].wrong == -1);
    CHECK(packs[0].symbols[4] == 1 && packs[0].symbols[5] == 1 && packs[0].symbols[6] == 1 && packs[0].symbols[7] == 0);
    CHECK(ribjasper_player_begin(&player, RIBJASPER_PACKS, 1) == RIBJASPER_DONE);
    memset(second, 0, 96);
    second[24] = 1;
    CHECK(ribjasper_player_take(&player, second, packs) == 0);
    CHECK(ribjasper_player_take(&player, second, packs) == 4 && packs[0].wrong == 0 && packs[1].wrong == 1);
    CHECK(ribjasper_player_begin(&player, 2, 0) == RIBJASPER_REFUSED);
    CHECK(ribjasper_player_feed(&player, first) == RIBJASPER_DONE);
    ribjasper_player_close(&player);
    ribjasper_player_close(&player);
    CHECK(held == 0);
}

/* A closed player refuses every call, and nothing is written. If `open` gets no memory, the player remains closed. */
static void closed_players(void)
{
    static uint8_t bytes[RIBJASPER_PICTURE];
    ribjasper_player player;
    ribjasper_pack packs[4];
    uint16_t table[16] = { 9 };
    long number;
    /* Memory of zeros is a closed player. */
    memset(&player, 0, sizeof player);
    memset(bytes, 7, sizeof bytes);
    memset(packs, 7, sizeof packs);
    CHECK(ribjasper_player_begin(&player, RIBJASPER_RAW, 0) == RIBJASPER_REFUSED);
    CHECK(ribjasper_player_feed(&player, bytes) == RIBJASPER_REFUSED);
    CHECK(ribjasper_player_draw(&player, bytes) == RIBJASPER_REFUSED);
    CHECK(ribjasper_player_take(&player, bytes, packs) == RIBJASPER_REFUSED && packs[0].symbols[0] == 7);
    CHECK(ribjasper_player_pixel(&player, 0, 0, bytes) == RIBJASPER_REFUSED);
    CHECK(ribjasper_player_screen(&player, bytes) == RIBJASPER_REFUSED);
    CHECK(ribjasper_player_picture(&player, bytes) == RIBJASPER_REFUSED);
    CHECK(ribjasper_player_levels(&player, bytes) == RIBJASPER_REFUSED);
    CHECK(ribjasper_player_border(&player, bytes) == RIBJASPER_REFUSED);
    CHECK(ribjasper_player_offsets(&player, bytes, bytes + 1) == RIBJASPER_REFUSED);
    CHECK(ribjasper_player_colour(&player, 0, table) == RIBJASPER_REFUSED);
    CHECK(ribjasper_player_colours(&player, table) == RIBJASPER_REFUSED);
    CHECK(all_are(bytes, sizeof bytes, 7) && table[0] == 9);
    for (number = 0; number < 100; number++) {
        refused = requests + number;
        if (ribjasper_player_open(&player) == RIBJASPER_DONE)
            break;
        CHECK(held == 0 && ribjasper_player_screen(&player, bytes) == RIBJASPER_REFUSED);
    }
    CHECK(number > 0 && number < 100);
    number = requests;
    CHECK(ribjasper_player_feed(&player, bytes) == RIBJASPER_DONE && requests == number);
    refused = -1;
    ribjasper_player_close(&player);
    CHECK(held == 0);
}

int main(void)
{
    single_calls();
    q_frames();
    entries();
    whole_streams();
    edges_of_streams();
    drawn_packs();
    taken_blocks();
    saved_players();
    saved_settings();
    long_players();
    touched_parts();
    rectangles();
    long_streams();
    closed_players();
    if (!failed)
        printf("test_library: each call has its expected result\n");
    return failed;
}
