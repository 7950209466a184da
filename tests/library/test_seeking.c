/* Tests seeking. With any marks, a player that seeks must get the state of one that was fed, or drew, all units from the start. A
   refused call must leave the player and the marks unchanged. Also tests the conversions of many planar blocks. */
#include "ribjasper.h"
#include "testing.h"

#define BLOCKS 700
#define PACKS 900
#define MARKS 12

static uint8_t stream[RIBJASPER_BLOCK * BLOCKS], packs[RIBJASPER_PACK * PACKS];
static ribjasper_mark marks[MARKS], kept[MARKS];
static uint32_t seed = 3;

static uint32_t next(uint32_t below)
{
    seed = seed * 1664525u + 1013904223u;
    return (uint32_t)(((uint64_t)seed * below) >> 32);
}

static void make_packs(void)
{
    size_t n, i;
    for (n = 0; n < PACKS; n++) {
        uint8_t *pack = packs + RIBJASPER_PACK * n;
        for (i = 0; i < RIBJASPER_PACK; i++)
            pack[i] = (uint8_t)next(256);
        pack[0] = next(8) == 0 ? (uint8_t)next(256) : (uint8_t)(9 + 64 * next(4));
        pack[1] = next(20) == 0 ? (uint8_t)(20 + next(12)) : (uint8_t)(next(2) == 0 ? 6 : 38);
        pack[6] %= 18;
        pack[7] %= 50;
    }
}

/* A stream whose blocks are idle or noise, at random. */
static void make_stream(void)
{
    size_t n, i;
    for (n = 0; n < BLOCKS; n++) {
        uint32_t kind = next(4);
        for (i = 0; i < RIBJASPER_BLOCK; i++)
            stream[RIBJASPER_BLOCK * n + i] = kind < 2 ? (uint8_t)(64 * next(4)) : (uint8_t)next(256);
    }
}

/* Whether two players have the same screen and counts. */
static int same(const ribjasper_player *one, const ribjasper_player *other)
{
    static uint8_t a[RIBJASPER_PICTURE], b[RIBJASPER_PICTURE];
    ribjasper_counts counts, others;
    uint8_t levels[RIBJASPER_COLOURS], more[RIBJASPER_COLOURS];
    memset(&counts, 0, sizeof counts);
    memset(&others, 0, sizeof others);
    CHECK(ribjasper_player_picture(one, a) == RIBJASPER_DONE && ribjasper_player_picture(other, b) == RIBJASPER_DONE);
    CHECK(ribjasper_player_levels(one, levels) == RIBJASPER_DONE && ribjasper_player_levels(other, more) == RIBJASPER_DONE);
    CHECK(ribjasper_player_counts(one, &counts) == RIBJASPER_DONE && ribjasper_player_counts(other, &others) == RIBJASPER_DONE);
    return memcmp(a, b, sizeof a) == 0 && memcmp(levels, more, sizeof levels) == 0 && memcmp(&counts, &others, sizeof counts) == 0;
}

/* Whether two players also have the same state after three more blocks. */
static int continue_equally(ribjasper_player *one, ribjasper_player *other)
{
    uint8_t block[RIBJASPER_BLOCK];
    size_t n, i;
    for (n = 0; n < 3; n++) {
        for (i = 0; i < RIBJASPER_BLOCK; i++)
            block[i] = (uint8_t)next(256);
        CHECK(ribjasper_player_feed(one, block) == RIBJASPER_DONE && ribjasper_player_feed(other, block) == RIBJASPER_DONE);
    }
    return same(one, other);
}

static void blocks_sought(uint32_t form, uint32_t lead_in, uint32_t every, size_t room)
{
    ribjasper_player one = RIBJASPER_CLOSED, other = RIBJASPER_CLOSED;
    int round;
    size_t n;
    memset(marks, 0, sizeof marks);
    CHECK(ribjasper_player_open(&one) == RIBJASPER_DONE && ribjasper_player_open(&other) == RIBJASPER_DONE);
    for (round = 0; round < 25; round++) {
        size_t to = next(10) == 0 ? (next(2) == 0 ? 0 : BLOCKS) : next(BLOCKS + 1);
        CHECK(ribjasper_player_seek(&one, form, lead_in, stream, BLOCKS, to, marks, room, every) == RIBJASPER_DONE);
        CHECK(ribjasper_player_begin(&other, form, lead_in) == RIBJASPER_DONE);
        for (n = 0; n < to; n++)
            CHECK(ribjasper_player_feed(&other, stream + RIBJASPER_BLOCK * n) == RIBJASPER_DONE);
        CHECK(same(&one, &other));
        CHECK(continue_equally(&one, &other));
        for (n = 0; n < MARKS; n++)
            CHECK(marks[n].place == 0 || (n < room && marks[n].place == (uint64_t)every * (n + 1)));
        for (n = 0; n < room; n++)
            CHECK((uint64_t)every * (n + 1) > to || marks[n].place != 0);
    }
    ribjasper_player_close(&one);
    ribjasper_player_close(&other);
}

static void packs_sought(uint32_t every, size_t room)
{
    ribjasper_player one = RIBJASPER_CLOSED, other = RIBJASPER_CLOSED;
    ribjasper_change change;
    int round;
    memset(marks, 0, sizeof marks);
    CHECK(ribjasper_player_open(&one) == RIBJASPER_DONE && ribjasper_player_open(&other) == RIBJASPER_DONE);
    for (round = 0; round < 25; round++) {
        size_t to = next(PACKS + 1), n;
        CHECK(ribjasper_player_seek_packs(&one, packs, PACKS, to, marks, room, every) == RIBJASPER_DONE);
        CHECK(ribjasper_player_begin(&other, RIBJASPER_RAW, 0) == RIBJASPER_DONE);
        for (n = 0; n < to; n++)
            CHECK(ribjasper_player_draw(&other, packs + RIBJASPER_PACK * n) == RIBJASPER_DONE);
        CHECK(same(&one, &other) && continue_equally(&one, &other));
        CHECK(ribjasper_player_begin(&other, RIBJASPER_RAW, 0) == RIBJASPER_DONE);
        CHECK(ribjasper_player_draw_all(&other, packs, to, &change) == RIBJASPER_DONE);
        CHECK(ribjasper_player_seek_packs(&one, packs, PACKS, to, marks, room, every) == RIBJASPER_DONE && same(&one, &other));
    }
    ribjasper_player_close(&one);
    ribjasper_player_close(&other);
}

/* A refused call leaves the player and the marks unchanged. */
static void refused_calls(void)
{
    ribjasper_player one = RIBJASPER_CLOSED, other = RIBJASPER_CLOSED;
    memset(marks, 0, sizeof marks);
    CHECK(ribjasper_player_seek(&one, RIBJASPER_RAW, 0, stream, BLOCKS, 5, marks, MARKS, 10) == RIBJASPER_REFUSED);
    CHECK(ribjasper_player_seek_packs(&one, packs, PACKS, 5, marks, MARKS, 10) == RIBJASPER_REFUSED);
    CHECK(ribjasper_player_open(&one) == RIBJASPER_DONE && ribjasper_player_open(&other) == RIBJASPER_DONE);
    CHECK(ribjasper_player_seek(&one, RIBJASPER_RAW, 3, stream, BLOCKS, 333, marks, MARKS, 50) == RIBJASPER_DONE);
    CHECK(ribjasper_player_copy(&one, &other) == RIBJASPER_DONE);
    memcpy(kept, marks, sizeof marks);
    CHECK(ribjasper_player_seek(&one, RIBJASPER_SECTORS, 3, stream, BLOCKS, 5, marks, MARKS, 50) == RIBJASPER_REFUSED);
    CHECK(ribjasper_player_seek(&one, 0xFFFFFFFFu, 3, stream, BLOCKS, 5, marks, MARKS, 50) == RIBJASPER_REFUSED);
    CHECK(ribjasper_player_seek(&one, RIBJASPER_RAW, RIBJASPER_MOST_LEAD_IN + 1, stream, BLOCKS, 5, marks, MARKS, 50) == RIBJASPER_REFUSED);
    CHECK(ribjasper_player_seek(&one, RIBJASPER_RAW, 3, stream, BLOCKS, BLOCKS + 1, marks, MARKS, 50) == RIBJASPER_REFUSED);
    CHECK(ribjasper_player_seek(&one, RIBJASPER_RAW, 3, stream, BLOCKS, UINT64_MAX, marks, MARKS, 50) == RIBJASPER_REFUSED);
    CHECK(ribjasper_player_seek(&one, RIBJASPER_RAW, 3, stream, BLOCKS, 5, marks, MARKS, 0) == RIBJASPER_REFUSED);
    CHECK(ribjasper_player_seek_packs(&one, packs, PACKS, PACKS + 1, marks, MARKS, 50) == RIBJASPER_REFUSED);
    CHECK(ribjasper_player_seek_packs(&one, packs, PACKS, UINT64_MAX, marks, MARKS, 50) == RIBJASPER_REFUSED);
    CHECK(ribjasper_player_seek_packs(&one, packs, PACKS, 5, marks, MARKS, 0) == RIBJASPER_REFUSED);
    CHECK(memcmp(kept, marks, sizeof marks) == 0 && same(&one, &other) && continue_equally(&one, &other));
    /* An empty stream, no marks, and marks that are farther apart than the stream is long. */
    CHECK(ribjasper_player_seek(&one, RIBJASPER_RAW, 3, NULL, 0, 0, NULL, 0, 1) == RIBJASPER_DONE);
    CHECK(ribjasper_player_begin(&other, RIBJASPER_RAW, 3) == RIBJASPER_DONE && same(&one, &other));
    CHECK(ribjasper_player_seek_packs(&one, NULL, 0, 0, NULL, 0, 0xFFFFFFFFu) == RIBJASPER_DONE);
    CHECK(ribjasper_player_begin(&other, RIBJASPER_RAW, 0) == RIBJASPER_DONE && same(&one, &other));
    blocks_sought(RIBJASPER_RAW, 0, 0xFFFFFFFFu, MARKS);
    ribjasper_player_close(&one);
    ribjasper_player_close(&other);
}

/* Converts many planar blocks in one call, and compares the result with one call for each. */
static void planar_blocks(void)
{
    static uint8_t planar[RIBJASPER_BLOCK * BLOCKS], back[RIBJASPER_BLOCK * BLOCKS];
    uint8_t one[RIBJASPER_BLOCK];
    size_t n, room;
    for (room = 0; room <= 5; room += 5) {
        memset(planar, 0xEE, sizeof planar);
        ribjasper_blocks_to_planar(stream, 3, planar, room);
        for (n = 0; n < sizeof planar; n++)
            CHECK(n < RIBJASPER_BLOCK * (room < 3 ? room : 3) || planar[n] == 0xEE);
    }
    ribjasper_blocks_to_planar(stream, BLOCKS, planar, BLOCKS);
    for (n = 0; n < BLOCKS; n++) {
        ribjasper_block_to_planar(stream + RIBJASPER_BLOCK * n, one);
        CHECK(memcmp(one, planar + RIBJASPER_BLOCK * n, sizeof one) == 0);
    }
    memset(back, 0xEE, sizeof back);
    ribjasper_blocks_from_planar(planar, BLOCKS, back, 2);
    CHECK(memcmp(back, stream, 2 * RIBJASPER_BLOCK) == 0 && back[2 * RIBJASPER_BLOCK] == 0xEE);
    ribjasper_blocks_from_planar(planar, BLOCKS, back, BLOCKS);
    CHECK(memcmp(back, stream, sizeof back) == 0);
    ribjasper_blocks_from_planar(NULL, 0, NULL, 0);
    ribjasper_blocks_to_planar(NULL, 0, NULL, 0);
}

int main(void)
{
    long before;
    CHECK(sizeof(ribjasper_mark) == 65088);
    make_packs();
    make_stream();
    blocks_sought(RIBJASPER_RAW, 0, 100, 6);
    blocks_sought(RIBJASPER_RAW, 30, 1, MARKS);
    blocks_sought(RIBJASPER_RAW, 699, 77, 9);
    blocks_sought(RIBJASPER_RAW, 450000, 60, MARKS);
    blocks_sought(RIBJASPER_PACKS, 0, 64, MARKS);
    blocks_sought(RIBJASPER_PACKS, 5, 350, 2);
    blocks_sought(RIBJASPER_RAW, 2, 50, 0);
    packs_sought(75, MARKS);
    packs_sought(1, 7);
    packs_sought(899, 1);
    packs_sought(300, 0);
    refused_calls();
    planar_blocks();
    before = requests;
    {
        ribjasper_player player = RIBJASPER_CLOSED;
        CHECK(ribjasper_player_open(&player) == RIBJASPER_DONE);
        CHECK(ribjasper_player_seek(&player, RIBJASPER_RAW, 0, stream, BLOCKS, BLOCKS, marks, 0, 7) == RIBJASPER_DONE);
        CHECK(requests == before + 1);
        ribjasper_player_close(&player);
    }
    CHECK(held == 0);
    if (!failed)
        puts("test_seeking: players that seek have the state of players that were fed from the start");
    return failed;
}
