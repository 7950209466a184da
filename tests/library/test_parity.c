/* Tests the calls that count and write the parity of packs. The codewords were computed by another program
   (tests/peers/reckon_rows.py). ribjasper_packs_seal must restore a parity that was removed, so that a player of packs draws them. */
#include "ribjasper.h"
#include "testing.h"

#define PACKS 500

/* Symbols 0, 1 and 4 to 19, and the whole codeword with them. */
static const uint8_t known[][2][RIBJASPER_PACK] = {
    { { 9, 2, 0, 0, 23, 44, 47, 39, 16, 43, 29, 48, 18, 3, 28, 58, 1, 57, 8, 37, 0, 0, 0, 0 },
      { 9, 2, 57, 50, 23, 44, 47, 39, 16, 43, 29, 48, 18, 3, 28, 58, 1, 57, 8, 37, 30, 63, 53, 19 } },
    { { 9, 2, 0, 0, 40, 2, 53, 32, 34, 44, 47, 28, 47, 62, 31, 44, 63, 23, 38, 52, 0, 0, 0, 0 },
      { 9, 2, 57, 50, 40, 2, 53, 32, 34, 44, 47, 28, 47, 62, 31, 44, 63, 23, 38, 52, 32, 26, 57, 25 } },
    { { 9, 28, 0, 0, 19, 58, 27, 5, 7, 42, 53, 7, 48, 9, 18, 38, 7, 56, 62, 5, 0, 0, 0, 0 },
      { 9, 28, 27, 14, 19, 58, 27, 5, 7, 42, 53, 7, 48, 9, 18, 38, 7, 56, 62, 5, 25, 46, 6, 16 } },
    { { 9, 38, 0, 0, 62, 50, 29, 15, 63, 10, 33, 58, 42, 61, 7, 10, 38, 39, 46, 30, 0, 0, 0, 0 },
      { 9, 38, 22, 57, 62, 50, 29, 15, 63, 10, 33, 58, 42, 61, 7, 10, 38, 39, 46, 30, 22, 36, 37, 12 } },
    { { 9, 20, 0, 0, 34, 18, 12, 53, 1, 6, 63, 26, 2, 40, 25, 27, 15, 41, 56, 30, 0, 0, 0, 0 },
      { 9, 20, 3, 30, 34, 18, 12, 53, 1, 6, 63, 26, 2, 40, 25, 27, 15, 41, 56, 30, 48, 32, 9, 26 } },
    { { 9, 28, 0, 0, 25, 0, 63, 19, 48, 13, 42, 38, 61, 22, 35, 3, 61, 21, 52, 49, 0, 0, 0, 0 },
      { 9, 28, 27, 14, 25, 0, 63, 19, 48, 13, 42, 38, 61, 22, 35, 3, 61, 21, 52, 49, 14, 16, 16, 44 } },
};

#define KNOWN (sizeof known / sizeof known[0])

static uint32_t seed = 11;

static uint32_t next(uint32_t below)
{
    seed = seed * 1664525u + 1013904223u;
    return (uint32_t)(((uint64_t)seed * below) >> 32);
}

static int counts_are(const uint8_t *packs, size_t count, uint64_t idle, uint64_t valid, uint64_t invalid)
{
    ribjasper_parity parity;
    memset(&parity, 0xA5, sizeof parity);
    ribjasper_packs_parity(packs, count, &parity);
    return parity.idle == idle && parity.valid == valid && parity.invalid == invalid;
}

static void test_known(void)
{
    size_t n, i;
    for (n = 0; n < KNOWN; n++) {
        uint8_t pack[RIBJASPER_PACK], word[RIBJASPER_PACK];
        memcpy(pack, known[n][0], sizeof pack);
        CHECK(counts_are(pack, 1, 0, 0, 1));
        ribjasper_packs_seal(pack, 1);
        CHECK(memcmp(pack, known[n][1], sizeof pack) == 0);
        CHECK(counts_are(pack, 1, 0, 1, 0));
        CHECK(ribjasper_correct(pack, word) == 0);
        /* Each wrong symbol makes the parity invalid; upper bits do not count, and sealing removes them. */
        for (i = 0; i < RIBJASPER_PACK; i++) {
            pack[i] ^= (uint8_t)(1 + next(63));
            CHECK(counts_are(pack, 1, 0, 0, 1));
            pack[i] = (uint8_t)(known[n][1][i] + 64 * next(4));
            CHECK(counts_are(pack, 1, 0, 1, 0));
        }
        ribjasper_packs_seal(pack, 1);
        CHECK(memcmp(pack, known[n][1], sizeof pack) == 0);
    }
}

/* Packs of every kind without parity: idle ones, tiles, noise. Their parity symbols are noise too. */
static void test_many(void)
{
    static uint8_t bare[RIBJASPER_PACK * PACKS], sealed[RIBJASPER_PACK * PACKS + 1];
    size_t n, i, idle = 0;
    for (n = 0; n < PACKS; n++) {
        uint8_t *pack = bare + RIBJASPER_PACK * n;
        uint32_t kind = next(4);
        idle += kind == 0;
        for (i = 0; i < RIBJASPER_PACK; i++)
            pack[i] = kind == 0 ? (uint8_t)(64 * next(4)) : (uint8_t)next(256);
        if (kind != 0)
            pack[0] = (uint8_t)(kind == 1 ? 9 + 64 * next(4) : 1 + next(63));
        if (kind == 1)
            pack[1] = next(2) == 0 ? 6 : 38;
    }
    memcpy(sealed, bare, sizeof bare);
    sealed[sizeof bare] = 0x5A;
    ribjasper_packs_seal(sealed, PACKS);
    CHECK(sealed[sizeof bare] == 0x5A);
    CHECK(counts_are(sealed, PACKS, idle, PACKS - idle, 0));
    for (n = 0; n < PACKS; n++)
        for (i = 0; i < RIBJASPER_PACK; i++)
            if (i < 2 || (i >= 4 && i < 20))
                CHECK(sealed[RIBJASPER_PACK * n + i] == bare[RIBJASPER_PACK * n + i] % 64);
}

/* Blocks of packs without parity draw nothing; sealed, they draw what ribjasper_player_draw_all draws. */
static void test_player(void)
{
    static uint8_t packs[RIBJASPER_PACK * PACKS], expected[RIBJASPER_PICTURE], shown[RIBJASPER_PICTURE], black[RIBJASPER_PICTURE];
    ribjasper_player player = RIBJASPER_CLOSED;
    ribjasper_change change;
    ribjasper_counts counts;
    size_t n, i;
    for (n = 0; n < PACKS; n++) {
        uint8_t *pack = packs + RIBJASPER_PACK * n;
        for (i = 0; i < RIBJASPER_PACK; i++)
            pack[i] = (uint8_t)next(64);
        pack[0] = 9;
        pack[1] = (uint8_t)(n % 50 == 0 ? 30 + next(2) : next(2) == 0 ? 6 : 38);
        pack[2] = pack[3] = pack[20] = pack[21] = pack[22] = pack[23] = 0;
    }
    CHECK(counts_are(packs, PACKS, 0, 0, PACKS));
    CHECK(ribjasper_player_open(&player) == RIBJASPER_DONE);
    CHECK(ribjasper_player_picture(&player, black) == RIBJASPER_DONE);
    CHECK(ribjasper_player_draw_all(&player, packs, PACKS, &change) == RIBJASPER_DONE);
    CHECK(ribjasper_player_picture(&player, expected) == RIBJASPER_DONE && memcmp(expected, black, sizeof black) != 0);
    CHECK(ribjasper_player_begin(&player, RIBJASPER_PACKS, 0) == RIBJASPER_DONE);
    CHECK(ribjasper_player_feed_all(&player, packs, PACKS / 4, &change) == RIBJASPER_DONE);
    CHECK(ribjasper_player_picture(&player, shown) == RIBJASPER_DONE && memcmp(shown, black, sizeof black) == 0);
    CHECK(ribjasper_player_counts(&player, &counts) == RIBJASPER_DONE && counts.bad == PACKS);
    ribjasper_packs_seal(packs, PACKS);
    CHECK(ribjasper_player_begin(&player, RIBJASPER_PACKS, 0) == RIBJASPER_DONE);
    CHECK(ribjasper_player_feed_all(&player, packs, PACKS / 4, &change) == RIBJASPER_DONE);
    CHECK(ribjasper_player_picture(&player, shown) == RIBJASPER_DONE && memcmp(shown, expected, sizeof expected) == 0);
    CHECK(ribjasper_player_counts(&player, &counts) == RIBJASPER_DONE && counts.bad == 0);
    ribjasper_player_close(&player);
}

int main(void)
{
    CHECK(counts_are(NULL, 0, 0, 0, 0));
    ribjasper_packs_seal(NULL, 0);
    test_known();
    test_many();
    test_player();
    CHECK(held == 0);
    if (!failed)
        printf("test_parity: %d packs were counted and sealed\n", 3 * PACKS);
    return failed;
}
