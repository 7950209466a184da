/* Tests the calls that mend readings, on streams of a few blocks that are made here. The places of the symbols of a word and the
   codeword, a memory preset, come from docs/FORMATS.md. */
#include "ribjasper.h"

#include <stdio.h>
#include <string.h>

#define CHECK(condition) check((condition) ? 1 : 0, #condition, __LINE__)

enum { BLOCKS = 4, BYTES = 96 * BLOCKS, WORDS = 4 * BLOCKS - 7, ROOM = 24 * WORDS };

static int failed;

static const uint8_t preset[24] = { 9, 1, 0x3c, 0x34, 0, 0, 0, 0, 0, 0, 0, 0, 0, 0, 0, 0, 0, 0, 0, 0, 13, 7, 42, 32 };
/* Codewords of extended graphics, and of a mode and item that no disc uses. */
static const uint8_t extended[24] = { 10, 1, 53, 62, 0, 0, 0, 0, 0, 0, 0, 0, 0, 0, 0, 0, 0, 0, 0, 0, 60, 14, 32, 18 };
static const uint8_t unused[24] = { 5, 1, 24, 28, 0, 0, 0, 0, 0, 0, 0, 0, 0, 0, 0, 0, 0, 0, 0, 0, 12, 35, 2, 45 };

static void check(int condition, const char *text, int line)
{
    if (!condition) {
        printf("test_mend: line %d: %s\n", line, text);
        failed = 1;
    }
}

/* The place of symbol i of word n: the positions 1 and 18, 2 and 5, 3 and 23 are exchanged, and the symbol at a position is
   sent as many slots later as the remainder of the position modulo 8. */
static size_t place(size_t n, size_t i)
{
    static const uint8_t to[24] = { 0, 18, 5, 23, 4, 2, 6, 7, 8, 9, 10, 11, 12, 13, 14, 15, 16, 17, 1, 19, 20, 21, 22, 3 };
    return 24 * (n + to[i] % 8) + to[i];
}

static void put_word(uint8_t *stream, size_t n, const uint8_t word[24])
{
    for (size_t i = 0; i < 24; i++) {
        uint8_t *byte = stream + place(n, i);
        *byte = (uint8_t)((*byte & 0xc0) | word[i]);
    }
}

/* Blocks with a good Q frame each (ten bytes of zeros and their check); word 1 is a preset. */
static void make_stream(uint8_t *stream)
{
    memset(stream, 0, BYTES);
    for (size_t block = 0; block < BLOCKS; block++)
        memset(stream + 96 * block + 80, 0x40, 16);
    put_word(stream, 1, preset);
}

static int all_are(const uint8_t *bytes, size_t count, uint8_t value)
{
    while (count > 0)
        if (bytes[--count] != value)
            return 0;
    return 1;
}

static int has_counts(const ribjasper_mended *result, uint32_t both, uint32_t first, uint32_t second, uint32_t agreed, uint32_t none)
{
    return result->bytes == ROOM && result->blocks == BLOCKS && result->both == both && result->of_first == first
        && result->of_second == second && result->agreed == agreed && result->none == none;
}

/* Word 1 is this pack and all others are zeros; nothing is written behind them. */
static int are_packs(const uint8_t *packs, const uint8_t word[24])
{
    return all_are(packs, 24, 0) && memcmp(packs + 24, word, 24) == 0 && all_are(packs + 48, ROOM - 48, 0)
        && all_are(packs + ROOM, 5, 7);
}

static int32_t mend(const uint8_t *first, const uint8_t *second, uint8_t *packs, ribjasper_mended *result)
{
    memset(packs, 7, ROOM + 5);
    memset(result, 7, sizeof *result);
    return ribjasper_mend(first, BYTES, second, BYTES, 0, packs, ROOM + 5, result);
}

static void readings(void)
{
    static const uint8_t zeros[24] = { 0 };
    uint8_t one[BYTES], other[BYTES], word[24], packs[ROOM + 5], near[24];
    ribjasper_mended result;
    make_stream(one);
    make_stream(other);
    CHECK(mend(one, other, packs, &result) == RIBJASPER_CONVERTED && has_counts(&result, 9, 0, 0, 0, 0));
    CHECK(are_packs(packs, preset));
    CHECK(mend(one, one, packs, &result) == RIBJASPER_CONVERTED && has_counts(&result, 9, 0, 0, 0, 0));

    /* Two wrong symbols in each reading, at different places: the same codeword is near both. */
    memcpy(word, preset, 24);
    word[0] ^= 5;
    word[1] ^= 9;
    put_word(one, 1, word);
    memcpy(word, preset, 24);
    word[4] ^= 5;
    word[22] ^= 9;
    put_word(other, 1, word);
    CHECK(mend(one, other, packs, &result) == RIBJASPER_CONVERTED && has_counts(&result, 9, 0, 0, 0, 0));
    CHECK(are_packs(packs, preset));

    /* Only one reading has the codeword; word 1 of the other one is noise. */
    make_stream(one);
    for (size_t i = 0; i < 24; i++)
        word[i] = (uint8_t)(3 * i + 11) & 0x3f;
    CHECK(ribjasper_correct(word, near) == -1);
    put_word(other, 1, word);
    CHECK(mend(one, other, packs, &result) == RIBJASPER_CONVERTED && has_counts(&result, 8, 1, 0, 0, 0));
    CHECK(are_packs(packs, preset));
    CHECK(mend(other, one, packs, &result) == RIBJASPER_CONVERTED && has_counts(&result, 8, 0, 1, 0, 0));
    CHECK(are_packs(packs, preset));
    /* Neither reading has the codeword. */
    CHECK(mend(other, other, packs, &result) == RIBJASPER_DAMAGED && has_counts(&result, 8, 0, 0, 0, 1));
    CHECK(are_packs(packs, zeros));

    /* The same three symbols are wrong in both readings, with different values. The differences show which symbols are wrong. */
    memcpy(word, preset, 24);
    word[5] ^= 1;
    word[11] ^= 1;
    word[17] ^= 1;
    CHECK(ribjasper_correct(word, near) == -1);
    put_word(one, 1, word);
    word[5] ^= 2;
    word[11] ^= 2;
    word[17] ^= 2;
    CHECK(ribjasper_correct(word, near) == -1);
    put_word(other, 1, word);
    CHECK(mend(one, other, packs, &result) == RIBJASPER_CONVERTED && has_counts(&result, 8, 0, 0, 1, 0));
    CHECK(are_packs(packs, preset));
}

static void empty_blocks(void)
{
    static const uint8_t zeros[24] = { 0 };
    uint8_t one[BYTES], other[BYTES], word[24], packs[ROOM + 5];
    ribjasper_mended result;
    make_stream(one);
    /* Unread blocks have no codeword, although zeros are one. */
    memset(other, 0, BYTES);
    CHECK(mend(one, other, packs, &result) == RIBJASPER_CONVERTED && has_counts(&result, 0, 9, 0, 0, 0));
    CHECK(are_packs(packs, preset));
    CHECK(mend(other, one, packs, &result) == RIBJASPER_CONVERTED && has_counts(&result, 0, 0, 9, 0, 0));
    CHECK(are_packs(packs, preset));
    CHECK(mend(other, other, packs, &result) == RIBJASPER_DAMAGED && has_counts(&result, 0, 0, 0, 0, 9));
    CHECK(are_packs(packs, zeros));
    /* The first two blocks were not read: the third has so few symbols of word 1 that zeros are near. That reading misses
       graphics there, and is quiet at all words, so none of its idle packs counts. */
    make_stream(other);
    memset(other, 0, 2 * 96);
    CHECK(mend(one, other, packs, &result) == RIBJASPER_CONVERTED && has_counts(&result, 0, 9, 0, 0, 0));
    CHECK(are_packs(packs, preset));
    CHECK(mend(other, one, packs, &result) == RIBJASPER_CONVERTED && has_counts(&result, 0, 0, 9, 0, 0));
    CHECK(are_packs(packs, preset));
    /* The same if the graphics pack has two wrong symbols. */
    memcpy(word, preset, 24);
    word[0] ^= 5;
    word[1] ^= 9;
    put_word(one, 1, word);
    CHECK(mend(one, other, packs, &result) == RIBJASPER_CONVERTED && has_counts(&result, 0, 9, 0, 0, 0));
    CHECK(are_packs(packs, preset));
    /* Two symbols of a pack of extended graphics are wrong: it does not show that the other reading misses graphics. An idle
       pack with unread blocks is still the last choice. */
    memcpy(word, extended, 24);
    word[4] ^= 5;
    word[5] ^= 9;
    put_word(one, 1, word);
    CHECK(mend(one, other, packs, &result) == RIBJASPER_CONVERTED && has_counts(&result, 7, 2, 0, 0, 0));
    CHECK(are_packs(packs, extended));
    CHECK(mend(other, one, packs, &result) == RIBJASPER_CONVERTED && has_counts(&result, 7, 0, 2, 0, 0));
    CHECK(are_packs(packs, extended));
    make_stream(one);
    /* A reading without channels R to W: its symbols are idle, and its frames are good. */
    memset(other, 0, BYTES);
    for (size_t block = 0; block < BLOCKS; block++)
        memset(other + 96 * block + 80, 0x40, 16);
    CHECK(mend(one, other, packs, &result) == RIBJASPER_CONVERTED && has_counts(&result, 0, 9, 0, 0, 0));
    CHECK(are_packs(packs, preset));
    CHECK(mend(other, one, packs, &result) == RIBJASPER_CONVERTED && has_counts(&result, 0, 0, 9, 0, 0));
    CHECK(are_packs(packs, preset));
    CHECK(mend(other, other, packs, &result) == RIBJASPER_CONVERTED && has_counts(&result, 9, 0, 0, 0, 0));
    CHECK(are_packs(packs, zeros));
    /* The same with frames whose check is wrong: a block with a bit in any channel was read. */
    for (size_t block = 0; block < BLOCKS; block++)
        memset(other + 96 * block + 80, 0, 15);
    CHECK(mend(other, other, packs, &result) == RIBJASPER_CONVERTED && has_counts(&result, 9, 0, 0, 0, 0));
}

/* A codeword with a wrong symbol, whose mode and item no disc uses, does not count if another reading is quiet. */
static void doubtful_codewords(void)
{
    static const uint8_t zeros[24] = { 0 };
    uint8_t one[BYTES], other[BYTES], word[24], packs[ROOM + 5];
    ribjasper_mended result;
    make_stream(one);
    make_stream(other);
    memcpy(word, unused, 24);
    word[4] ^= 5;
    put_word(one, 1, word);
    put_word(other, 1, zeros);
    CHECK(mend(one, other, packs, &result) == RIBJASPER_CONVERTED && has_counts(&result, 8, 0, 1, 0, 0));
    CHECK(are_packs(packs, zeros));
    CHECK(mend(other, one, packs, &result) == RIBJASPER_CONVERTED && has_counts(&result, 8, 1, 0, 0, 0));
    CHECK(are_packs(packs, zeros));
    /* It counts if both readings have it. */
    CHECK(mend(one, one, packs, &result) == RIBJASPER_CONVERTED && has_counts(&result, 9, 0, 0, 0, 0));
    CHECK(are_packs(packs, unused));
    /* If the other reading is unread there, it does not count, and there is no other codeword. */
    memset(other, 0, BYTES);
    CHECK(mend(one, other, packs, &result) == RIBJASPER_DAMAGED && has_counts(&result, 0, 8, 0, 0, 1));
    CHECK(are_packs(packs, zeros));
    /* Without wrong symbols, it shows that the idle reading misses graphics. */
    make_stream(other);
    put_word(other, 1, zeros);
    put_word(one, 1, unused);
    CHECK(mend(one, other, packs, &result) == RIBJASPER_CONVERTED && has_counts(&result, 0, 9, 0, 0, 0));
    CHECK(are_packs(packs, unused));
}

/* Two readings have different error-free codewords for word 1. */
static void reports(void)
{
    static uint8_t all[3 * BYTES], blocks[BYTES];
    uint8_t packs[ROOM + 5], sources[WORDS];
    ribjasper_mend_reported report;
    make_stream(all);
    make_stream(all + BYTES);
    put_word(all + BYTES, 1, extended);
    memset(&report, 7, sizeof report);
    CHECK(ribjasper_mend_report(all, 2 * BYTES, 2, 0, packs, ROOM, sources, WORDS, &report) == RIBJASPER_DAMAGED);
    CHECK(report.counts.none == 1 && report.counts.of_reading[0] == 8 && sources[1] == RIBJASPER_NO_READING);
    CHECK(report.lost[0] == 1 && report.lost[1] == 1);
    for (size_t r = 2; r < RIBJASPER_READINGS; r++)
        CHECK(report.lost[r] == 0 && report.counts.of_reading[r] == 0 && report.counts.dropped[r] == 0);
    memset(&report, 7, sizeof report);
    CHECK(ribjasper_mend_stream_report(all, 2 * BYTES, 2, 0, blocks, BYTES, sources, WORDS, &report) == RIBJASPER_DAMAGED);
    CHECK(report.counts.bytes == BYTES && report.counts.none == 1 && report.lost[0] == 1 && report.lost[1] == 1);
    /* A third reading decides; and one without graphics loses nothing, because its codewords do not count. */
    make_stream(all + 2 * BYTES);
    CHECK(ribjasper_mend_report(all, 3 * BYTES, 3, 0, packs, ROOM, sources, WORDS, &report) == RIBJASPER_CONVERTED);
    CHECK(report.lost[0] == 0 && report.lost[1] == 1 && report.lost[2] == 0 && memcmp(packs + 24, preset, 24) == 0);
    for (size_t k = 0; k < BYTES; k++)
        all[BYTES + k] &= 0xc0;
    CHECK(ribjasper_mend_report(all, 3 * BYTES, 3, 0, packs, ROOM, NULL, 0, &report) == RIBJASPER_CONVERTED);
    CHECK(report.lost[0] == 0 && report.lost[1] == 0 && report.lost[2] == 0 && report.counts.dropped[1] == WORDS);
    memset(&report, 7, sizeof report);
    CHECK(ribjasper_mend_report(all, 3 * BYTES, 0, 0, packs, ROOM, NULL, 0, &report) == RIBJASPER_USAGE);
    CHECK(ribjasper_mend_stream_report(all, 3 * BYTES, 3, 0, blocks, BYTES - 1, sources, WORDS, &report) == RIBJASPER_NO_ROOM);
    CHECK(all_are((const uint8_t *)&report, sizeof report, 7));
}

static void refusals(void)
{
    uint8_t one[BYTES], packs[ROOM + 5], kept[ROOM + 5];
    ribjasper_mended result, before;
    make_stream(one);
    memset(packs, 7, sizeof packs);
    memcpy(kept, packs, sizeof packs);
    memset(&result, 7, sizeof result);
    memcpy(&before, &result, sizeof result);
    CHECK(ribjasper_mend(one, BYTES, one, BYTES, 450001, packs, ROOM, &result) == RIBJASPER_USAGE);
    CHECK(ribjasper_mend(one, 95, one, BYTES, 450001, packs, 0, &result) == RIBJASPER_USAGE);
    CHECK(ribjasper_mend(one, BYTES, one, BYTES - 96, 0, packs, ROOM, &result) == RIBJASPER_TORN);
    CHECK(ribjasper_mend(one, BYTES - 96, one, BYTES, 0, packs, 0, &result) == RIBJASPER_TORN);
    for (size_t rest = 1; rest < 96; rest++)
        CHECK(ribjasper_mend(one, 96 + rest, one, 96 + rest, 0, packs, ROOM, &result) == RIBJASPER_TORN);
    for (size_t room = 0; room < ROOM; room++)
        CHECK(ribjasper_mend(one, BYTES, one, BYTES, 0, packs, room, &result) == RIBJASPER_NO_ROOM);
    CHECK(memcmp(packs, kept, sizeof packs) == 0 && memcmp(&result, &before, sizeof result) == 0);
    /* A program of one block or none has no words. */
    CHECK(ribjasper_mend(one, BYTES, one, BYTES, 3, packs, 0, &result) == RIBJASPER_CONVERTED);
    CHECK(result.bytes == 0 && result.blocks == 1 && result.both == 0 && result.none == 0);
    CHECK(ribjasper_mend(one, BYTES, one, BYTES, 450000, packs, 0, &result) == RIBJASPER_CONVERTED && result.blocks == 0);
    CHECK(ribjasper_mend(one, 0, one, 0, 0, packs, 0, &result) == RIBJASPER_CONVERTED && result.bytes == 0);
    CHECK(memcmp(packs, kept, sizeof packs) == 0);
    /* A lead-in is skipped: word 0 of the program is then word 4 of the stream. */
    put_word(one, 4, preset);
    CHECK(ribjasper_mend(one, BYTES, one, BYTES, 1, packs, 120, &result) == RIBJASPER_CONVERTED);
    CHECK(result.bytes == 120 && result.blocks == 3 && result.both == 5 && memcmp(packs, preset, 24) == 0);
    CHECK(memcmp(packs + 120, kept + 120, sizeof packs - 120) == 0);
}

static int tallies_are(const ribjasper_mended_readings *result, const uint32_t *of_reading, const uint32_t *dropped,
                       uint32_t count, uint32_t agreed, uint32_t none)
{
    for (uint32_t r = 0; r < RIBJASPER_READINGS; r++)
        if (result->of_reading[r] != (r < count ? of_reading[r] : 0) || result->dropped[r] != (r < count ? dropped[r] : 0))
            return 0;
    return result->bytes == ROOM && result->blocks == BLOCKS && result->agreed == agreed && result->none == none && result->reserved == 0;
}

/* Three readings and more, one behind another. */
static void many_readings(void)
{
    static uint8_t all[255 * BYTES];
    static const uint32_t of_last[] = { 0, 0, 9 }, none_of[] = { 0, 0, 0 }, left_out[] = { 9, 9, 0 };
    static const uint32_t of_first[] = { 9, 0, 0 }, of_both[] = { 8, 1, 0 };
    uint8_t packs[ROOM + 5], sources[WORDS + 3], word[24];
    ribjasper_mended_readings result;
    /* Two readings without channels R to W, and then an undamaged one, which is the result. */
    for (size_t r = 0; r < 3; r++) {
        make_stream(all + r * BYTES);
        for (size_t k = 0; r < 2 && k < BYTES; k++)
            all[r * BYTES + k] &= 0xc0;
    }
    memset(packs, 7, sizeof packs);
    memset(sources, 7, sizeof sources);
    CHECK(ribjasper_mend_readings(all, 3 * BYTES, 3, 0, packs, sizeof packs, sources, sizeof sources, &result) == RIBJASPER_CONVERTED);
    CHECK(are_packs(packs, preset) && all_are(sources, WORDS, 2) && all_are(sources + WORDS, 3, 7));
    CHECK(tallies_are(&result, of_last, left_out, 3, 0, 0));
    /* Without room for sources, which may be null. */
    memset(packs, 7, sizeof packs);
    CHECK(ribjasper_mend_readings(all, 3 * BYTES, 3, 0, packs, sizeof packs, NULL, 0, &result) == RIBJASPER_CONVERTED);
    CHECK(are_packs(packs, preset) && tallies_are(&result, of_last, left_out, 3, 0, 0));
    /* A single reading is corrected. */
    memset(packs, 7, sizeof packs);
    CHECK(ribjasper_mend_readings(all + 2 * BYTES, BYTES, 1, 0, packs, sizeof packs, sources, WORDS, &result) == RIBJASPER_CONVERTED);
    CHECK(are_packs(packs, preset) && all_are(sources, WORDS, 0) && tallies_are(&result, of_first, none_of, 1, 0, 0));
    /* Of three readings, the one with the fewest wrong symbols is the source: two, one and none are wrong. */
    for (size_t r = 0; r < 3; r++) {
        make_stream(all + r * BYTES);
        memcpy(word, preset, 24);
        for (size_t k = r; k < 2; k++)
            word[5 + k] ^= 1;
        put_word(all + r * BYTES, 1, word);
    }
    CHECK(ribjasper_mend_readings(all, 2 * BYTES, 2, 0, packs, ROOM, sources, WORDS, &result) == RIBJASPER_CONVERTED);
    CHECK(sources[0] == 0 && sources[1] == 1 && all_are(sources + 2, WORDS - 2, 0) && tallies_are(&result, of_both, none_of, 2, 0, 0));
    CHECK(ribjasper_mend_readings(all, 3 * BYTES, 3, 0, packs, ROOM, sources, WORDS, &result) == RIBJASPER_CONVERTED);
    CHECK(sources[0] == 0 && sources[1] == 2 && memcmp(packs + 24, preset, 24) == 0);
    /* Neither reading has a codeword for word 1, but the two agree on one. */
    for (size_t r = 0; r < 2; r++) {
        memcpy(word, preset, 24);
        for (size_t k = 5; k < 20; k += 6)
            word[k] ^= r == 0 ? 1 : 3;
        put_word(all + r * BYTES, 1, word);
    }
    CHECK(ribjasper_mend_readings(all, 2 * BYTES, 2, 0, packs, ROOM, sources, WORDS, &result) == RIBJASPER_CONVERTED);
    CHECK(sources[1] == RIBJASPER_AGREED && memcmp(packs + 24, preset, 24) == 0 && result.agreed == 1 && result.none == 0);
    CHECK(ribjasper_mend_readings(all, BYTES, 1, 0, packs, ROOM, sources, WORDS, &result) == RIBJASPER_DAMAGED);
    CHECK(sources[1] == RIBJASPER_NO_READING && all_are(packs, ROOM, 0) && result.agreed == 0 && result.none == 1);
    /* The greatest number of readings that have different sources: all except the last have no channels R to W. */
    for (size_t r = 0; r < 255; r++) {
        make_stream(all + r * BYTES);
        for (size_t k = 0; r < 253 && k < BYTES; k++)
            all[r * BYTES + k] &= 0xc0;
    }
    CHECK(ribjasper_mend_readings(all, 254 * BYTES, 254, 0, packs, ROOM, sources, WORDS, &result) == RIBJASPER_CONVERTED);
    CHECK(all_are(sources, WORDS, 253) && result.of_reading[253] == WORDS && result.dropped[0] == WORDS && result.dropped[253] == 0);
}

static void refusals_of_many(void)
{
    uint8_t all[2 * BYTES], packs[ROOM], kept[ROOM], sources[WORDS];
    ribjasper_mended_readings result, before;
    make_stream(all);
    make_stream(all + BYTES);
    memset(packs, 7, sizeof packs);
    memcpy(kept, packs, sizeof packs);
    memset(sources, 7, sizeof sources);
    memset(&result, 7, sizeof result);
    memcpy(&before, &result, sizeof result);
    CHECK(ribjasper_mend_readings(all, 2 * BYTES, 2, 450001, packs, ROOM, sources, WORDS, &result) == RIBJASPER_USAGE);
    CHECK(ribjasper_mend_readings(all, 2 * BYTES, 0, 0, packs, ROOM, sources, WORDS, &result) == RIBJASPER_USAGE);
    CHECK(ribjasper_mend_readings(all, 2 * BYTES, 255, 0, packs, ROOM, sources, WORDS, &result) == RIBJASPER_USAGE);
    CHECK(ribjasper_mend_readings(all, 2 * BYTES, UINT32_MAX, 0, packs, ROOM, sources, WORDS, &result) == RIBJASPER_USAGE);
    for (size_t rest = 1; rest < 192; rest++)
        CHECK(ribjasper_mend_readings(all, 192 + rest, 2, 0, packs, ROOM, sources, WORDS, &result) == RIBJASPER_TORN);
    CHECK(ribjasper_mend_readings(all, 96 * 7, 3, 0, packs, ROOM, sources, WORDS, &result) == RIBJASPER_TORN);
    for (size_t room = 0; room < ROOM; room++)
        CHECK(ribjasper_mend_readings(all, 2 * BYTES, 2, 0, packs, room, sources, WORDS, &result) == RIBJASPER_NO_ROOM);
    for (size_t words = 1; words < WORDS; words++)
        CHECK(ribjasper_mend_readings(all, 2 * BYTES, 2, 0, packs, ROOM, sources, words, &result) == RIBJASPER_NO_ROOM);
    CHECK(memcmp(packs, kept, sizeof packs) == 0 && all_are(sources, WORDS, 7) && memcmp(&result, &before, sizeof result) == 0);
    /* A program of one block or none has no words. */
    CHECK(ribjasper_mend_readings(all, 2 * BYTES, 2, 3, packs, 0, NULL, 0, &result) == RIBJASPER_CONVERTED);
    CHECK(result.bytes == 0 && result.blocks == 1 && result.none == 0 && result.of_reading[0] == 0);
    CHECK(ribjasper_mend_readings(all, 0, 2, 0, packs, 0, NULL, 0, &result) == RIBJASPER_CONVERTED && result.blocks == 0);
    /* A lead-in is skipped in each reading. */
    put_word(all, 4, preset);
    put_word(all + BYTES, 4, preset);
    CHECK(ribjasper_mend_readings(all, 2 * BYTES, 2, 1, packs, 120, sources, 5, &result) == RIBJASPER_CONVERTED);
    CHECK(result.bytes == 120 && result.blocks == 3 && memcmp(packs, preset, 24) == 0);
}

/* The output of mend_stream: the stream and the sources, each between EDGE bytes that must not change. */
enum { EDGE = 5 };
static uint8_t mended[BYTES + 2 * EDGE], named_sources[WORDS + 2 * EDGE];

static int32_t mend_stream(const uint8_t *all, uint32_t count, uint32_t lead_in, size_t words, ribjasper_mended_readings *result)
{
    memset(mended, 7, sizeof mended);
    memset(named_sources, 7, sizeof named_sources);
    memset(result, 7, sizeof *result);
    return ribjasper_mend_stream(all, count * BYTES, count, lead_in, mended + EDGE, BYTES, named_sources + EDGE, words, result);
}

static int outside_is_unchanged(size_t words)
{
    return all_are(mended, EDGE, 7) && all_are(mended + EDGE + BYTES, EDGE, 7) && all_are(named_sources, EDGE, 7)
        && all_are(named_sources + EDGE + words, sizeof named_sources - EDGE - words, 7);
}

/* The symbol in a byte of the output, and its P and Q bits. */
static int symbol_at(size_t byte) { return mended[EDGE + byte] & 0x3f; }
static int channels_at(size_t byte) { return mended[EDGE + byte] & 0xc0; }

/* Whether a byte belongs to a complete word. */
static int is_of_word(size_t byte)
{
    for (size_t n = 0; n < WORDS; n++)
        for (size_t i = 0; i < 24; i++)
            if (place(n, i) == byte)
                return 1;
    return 0;
}

static void streams(void)
{
    static uint8_t all[3 * BYTES];
    uint8_t word[24], packs[ROOM], bare[BYTES];
    ribjasper_mended_readings result;
    ribjasper_converted converted;
    size_t k;
    /* The result for one reading with two wrong symbols in a word is this reading, corrected. */
    make_stream(bare);
    make_stream(all);
    memcpy(word, preset, 24);
    word[0] ^= 1;
    word[23] ^= 63;
    put_word(all, 1, word);
    CHECK(mend_stream(all, 1, 0, WORDS, &result) == RIBJASPER_CONVERTED && outside_is_unchanged(WORDS));
    CHECK(memcmp(mended + EDGE, bare, BYTES) == 0 && all_are(named_sources + EDGE, WORDS, 0));
    CHECK(result.bytes == BYTES && result.blocks == BLOCKS && result.of_reading[0] == WORDS && result.none == 0);
    /* Channels P and Q come from the only reading with a good Q frame: the third. */
    make_stream(all);
    make_stream(all + BYTES);
    make_stream(all + 2 * BYTES);
    for (k = 0; k < 96; k++) {
        all[96 + k] ^= k % 3 == 0 ? 0x80 : 0x40;
        all[BYTES + 96 + k] ^= k % 2 == 0 ? 0x40 : 0;
        all[2 * BYTES + 96 + k] |= 0x80;
    }
    CHECK(mend_stream(all, 3, 0, WORDS, &result) == RIBJASPER_CONVERTED && outside_is_unchanged(WORDS));
    for (k = 0; k < BYTES; k++)
        CHECK(channels_at(k) == ((k / 96 == 1 ? all[2 * BYTES + k] : bare[k]) & 0xc0) && symbol_at(k) == (bare[k] & 0x3f));
    /* If no frame is good, they come from a reading that was read: the second, whose symbols are not all 0. */
    make_stream(all);
    make_stream(all + BYTES);
    memset(all + 96 * 3, 0, 96);
    for (k = 0; k < 96; k++)
        all[BYTES + 96 * 3 + k] = (uint8_t)(0x80 | (k == 71 ? 9 : 0));
    CHECK(mend_stream(all, 2, 0, WORDS, &result) == RIBJASPER_CONVERTED && outside_is_unchanged(WORDS));
    for (k = 96 * 3; k < BYTES; k++)
        CHECK(channels_at(k) == 0x80);
    /* A block with only P bits was read. */
    memset(all + BYTES + 96 * 3, 0, 96);
    memset(all + 96 * 3, 0x80, 96);
    CHECK(mend_stream(all, 2, 0, WORDS, &result) == RIBJASPER_CONVERTED);
    for (k = 96 * 3; k < BYTES; k++)
        CHECK(channels_at(k) == 0x80 && symbol_at(k) == 0);
    /* Symbols that belong to no complete word come from a reading that was read there: the greater of two different ones. */
    make_stream(all);
    make_stream(all + BYTES);
    for (k = 0; k < BYTES; k++)
        if (!is_of_word(k)) {
            all[k] |= 21;
            all[BYTES + k] |= 42;
        }
    memset(all, 0, 96);
    CHECK(mend_stream(all, 2, 0, WORDS, &result) == RIBJASPER_CONVERTED && outside_is_unchanged(WORDS));
    for (k = 0; k < BYTES; k++)
        CHECK(symbol_at(k) == (is_of_word(k) ? bare[k] & 0x3f : 42));
    /* Both readings lost a word at different places: the symbols of each block come from the reading with the greater ones, and
       the stream has no codeword there. All other words are unchanged. */
    make_stream(all);
    make_stream(all + BYTES);
    for (k = 0; k < 24; k++)
        word[k] = (uint8_t)(k % 5 == 0 ? preset[k] ^ 1 : preset[k]);
    put_word(all, 1, word);
    for (k = 0; k < 24; k++)
        word[k] = (uint8_t)(k % 4 == 1 ? preset[k] ^ 3 : preset[k]);
    put_word(all + BYTES, 1, word);
    for (k = 0; k < BYTES; k += 96)
        memcpy(bare + k, memcmp(all + k, all + BYTES + k, 96) > 0 ? all + k : all + BYTES + k, 96);
    CHECK(memcmp(bare, all, BYTES) != 0 && memcmp(bare, all + BYTES, BYTES) != 0);
    CHECK(mend_stream(all, 2, 0, WORDS, &result) == RIBJASPER_DAMAGED && outside_is_unchanged(WORDS));
    CHECK(named_sources[EDGE + 1] == RIBJASPER_NO_READING && result.none == 1 && memcmp(mended + EDGE, bare, BYTES) == 0);
    CHECK(ribjasper_convert(mended + EDGE, BYTES, RIBJASPER_RAW, 0, packs, ROOM, &converted) == RIBJASPER_DAMAGED && converted.bad == 1);
    /* The lead-in comes from the reading that was read there; word 0 of the program is word 4 of the stream. */
    make_stream(all);
    make_stream(all + BYTES);
    memcpy(word, preset, 24);
    word[7] ^= 1;
    put_word(all, 4, word);
    put_word(all + BYTES, 4, preset);
    memset(all, 0, 96);
    memset(all + BYTES, 0x2a, 96);
    CHECK(mend_stream(all, 2, 1, WORDS - 4, &result) == RIBJASPER_CONVERTED && outside_is_unchanged(WORDS - 4));
    CHECK(result.bytes == BYTES && result.blocks == 3 && named_sources[EDGE] == 1 && all_are(mended + EDGE, 96, 0x2a));
    CHECK(ribjasper_convert(mended + EDGE, BYTES, RIBJASPER_RAW, 1, packs, ROOM, &converted) == RIBJASPER_CONVERTED);
    CHECK(converted.bytes == ROOM - 96 && memcmp(packs, preset, 24) == 0 && memcmp(mended + EDGE + 96, all + BYTES + 96, BYTES - 96) == 0);
    /* A program of one block or none has no words: each block comes from a reading that was read there. */
    for (uint32_t lead_in = 3; lead_in < 6; lead_in++) {
        memset(mended, 7, sizeof mended);
        CHECK(ribjasper_mend_stream(all, 2 * BYTES, 2, lead_in, mended + EDGE, BYTES, NULL, 0, &result) == RIBJASPER_CONVERTED);
        CHECK(result.blocks == (lead_in == 3 ? 1 : 0) && result.bytes == BYTES && result.none == 0);
        CHECK(all_are(mended + EDGE, 96, 0x2a) && memcmp(mended + EDGE + 96, all + 96, BYTES - 96) == 0);
        CHECK(all_are(mended, EDGE, 7) && all_are(mended + EDGE + BYTES, EDGE, 7));
    }
}

/* Mends five readings in each of their 120 orders; the stream must be the same. The first three have every word. The first and the third
   agree on the other symbols. The last two have noise in channels R to W and the greatest other symbols. */
static void streams_in_each_order(void)
{
    enum { COUNT = 5 };
    static uint8_t each[COUNT][BYTES], all[COUNT * BYTES];
    uint8_t right[BYTES];
    ribjasper_mended_readings result;
    int orders = 0;
    for (size_t r = 0; r < COUNT; r++) {
        static const uint8_t others[COUNT] = { 21, 42, 21, 63, 63 };
        make_stream(each[r]);
        for (size_t k = 0; k < BYTES; k++)
            if (!is_of_word(k))
                each[r][k] |= others[r];
            else if (r > 2)
                each[r][k] ^= (uint8_t)(1 + (k * 7) % 60);
    }
    memcpy(right, each[0], BYTES);
    /* Block 1: all Q frames are good, and one reading has other P bits. */
    for (size_t k = 96; k < 192; k++)
        each[0][k] |= 0x80;
    /* Block 2: two Q frames are good, and their P bits differ: the greater ones are chosen. */
    each[0][192] |= 0x80;
    right[192] |= 0x80;
    for (size_t r = 2; r < COUNT; r++)
        each[r][200] ^= 0x40;
    /* Block 3: only one reading was read, and its Q channel has no good frame. */
    for (size_t r = 0; r < COUNT; r++)
        if (r != 2)
            memset(each[r] + 288, 0, 96);
    for (size_t k = 288; k < BYTES; k++) {
        each[2][k] = (uint8_t)(0x80 | (each[2][k] & 0x3f));
        right[k] = (uint8_t)(0x80 | (right[k] & 0x3f));
    }
    for (size_t code = 0; code < 3125; code++) {
        size_t digits[COUNT], rest = code, seen = 0;
        for (size_t place = 0; place < COUNT; place++, rest /= COUNT) {
            digits[place] = rest % COUNT;
            seen |= (size_t)1 << digits[place];
        }
        if (seen != 31)
            continue;
        for (size_t place = 0; place < COUNT; place++)
            memcpy(all + place * BYTES, each[digits[place]], BYTES);
        CHECK(mend_stream(all, COUNT, 0, WORDS, &result) == RIBJASPER_CONVERTED && outside_is_unchanged(WORDS));
        CHECK(memcmp(mended + EDGE, right, BYTES) == 0);
        orders++;
    }
    CHECK(orders == 120);
}

/* For each word in turn, another reading is undamaged; for streams of each length up to LONG blocks, with each lead-in. */
static void streams_of_all_lengths(void)
{
    enum { LONG = 9 };
    static uint8_t all[3 * 96 * LONG], right[96 * LONG], got[96 * LONG + 1], sources[4 * LONG + 1];
    ribjasper_mended_readings result;
    for (size_t blocks = 0; blocks <= LONG; blocks++)
        for (uint32_t lead_in = 0; lead_in <= blocks + 1; lead_in++) {
            size_t size = 96 * blocks, rest = blocks > lead_in ? blocks - lead_in : 0;
            size_t words = rest > 1 ? 4 * rest - 7 : 0;
            memset(right, 0, sizeof right);
            for (size_t block = 0; block < blocks; block++)
                memset(right + 96 * block + 80, 0x40, 16);
            for (size_t n = 0; n < words; n++)
                put_word(right + 96 * lead_in, n, preset);
            for (size_t r = 0; r < 3; r++) {
                memcpy(all + r * size, right, size);
                for (size_t n = 0; n < words; n++)
                    if (n % 3 != r)
                        for (size_t i = 0; i < 24; i++)
                            all[r * size + 96 * lead_in + place(n, i)] ^= (uint8_t)(1 + (n + i) % 60);
            }
            memset(got, 7, sizeof got);
            memset(sources, 7, sizeof sources);
            CHECK(ribjasper_mend_stream(all, 3 * size, 3, lead_in, got, size, sources, words, &result) == RIBJASPER_CONVERTED);
            CHECK(memcmp(got, right, size) == 0 && got[size] == 7 && sources[words] == 7 && result.bytes == size);
            for (size_t n = 0; n < words; n++)
                CHECK(sources[n] == n % 3);
        }
}

static void refusals_of_streams(void)
{
    uint8_t all[2 * BYTES], blocks[BYTES], kept[BYTES], sources[WORDS];
    ribjasper_mended_readings result, before;
    make_stream(all);
    make_stream(all + BYTES);
    memset(blocks, 7, sizeof blocks);
    memcpy(kept, blocks, sizeof blocks);
    memset(sources, 7, sizeof sources);
    memset(&result, 7, sizeof result);
    memcpy(&before, &result, sizeof result);
    CHECK(ribjasper_mend_stream(all, 2 * BYTES, 2, 450001, blocks, BYTES, sources, WORDS, &result) == RIBJASPER_USAGE);
    CHECK(ribjasper_mend_stream(all, 2 * BYTES, 0, 0, blocks, BYTES, sources, WORDS, &result) == RIBJASPER_USAGE);
    CHECK(ribjasper_mend_stream(all, 2 * BYTES, 255, 0, blocks, BYTES, sources, WORDS, &result) == RIBJASPER_USAGE);
    CHECK(ribjasper_mend_stream(all, 95, UINT32_MAX, 450001, blocks, 0, NULL, 0, &result) == RIBJASPER_USAGE);
    for (size_t rest = 1; rest < 192; rest++)
        CHECK(ribjasper_mend_stream(all, 192 + rest, 2, 0, blocks, BYTES, sources, WORDS, &result) == RIBJASPER_TORN);
    CHECK(ribjasper_mend_stream(all, 96 * 7, 3, 0, blocks, 0, NULL, 0, &result) == RIBJASPER_TORN);
    for (size_t room = 0; room < BYTES; room++)
        CHECK(ribjasper_mend_stream(all, 2 * BYTES, 2, 0, blocks, room, sources, WORDS, &result) == RIBJASPER_NO_ROOM);
    for (size_t words = 0; words < WORDS; words++)
        CHECK(ribjasper_mend_stream(all, 2 * BYTES, 2, 0, blocks, BYTES, sources, words, &result) == RIBJASPER_NO_ROOM);
    CHECK(ribjasper_mend_stream(all, 2 * BYTES, 2, 0, blocks, BYTES, NULL, 0, &result) == RIBJASPER_NO_ROOM);
    CHECK(memcmp(blocks, kept, sizeof blocks) == 0 && all_are(sources, WORDS, 7) && memcmp(&result, &before, sizeof result) == 0);
    CHECK(ribjasper_mend_stream(all, 0, 2, 0, blocks, 0, NULL, 0, &result) == RIBJASPER_CONVERTED);
    CHECK(result.bytes == 0 && result.blocks == 0 && result.none == 0 && memcmp(blocks, kept, sizeof blocks) == 0);
}

int main(void)
{
    CHECK(sizeof(ribjasper_mended) == 32);
    CHECK(sizeof(ribjasper_mended_readings) == 2056);
    CHECK(sizeof(ribjasper_mend_reported) == 3072);
    readings();
    empty_blocks();
    doubtful_codewords();
    reports();
    refusals();
    many_readings();
    refusals_of_many();
    streams();
    streams_in_each_order();
    streams_of_all_lengths();
    refusals_of_streams();
    if (!failed)
        printf("test_mend: each list of readings has its expected result\n");
    return failed;
}
