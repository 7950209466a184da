/* Tests the calls that describe a stream and its lead-in, and the tally of a stream that is fed. The streams are made here, and the
   expected values come from docs/FORMATS.md. With four arguments (a stream, the number of its lead-in blocks, the output of `check`
   and that of `text`), the sums of the rows, a tally and the lines are also compared with the program. Linked with a heap that
   counts (testing.h). */
#include "ribjasper.h"

#include <stddef.h>

#include "testing.h"

enum { BLOCKS = 4, BYTES = 96 * BLOCKS };

static int all_are(const void *bytes, size_t count, uint8_t value)
{
    const uint8_t *at = (const uint8_t *)bytes;
    while (count > 0)
        if (at[--count] != value)
            return 0;
    return 1;
}

static int counts_are(const ribjasper_row *row, int clean, int one, int two, int bad)
{
    return row->clean == clean && row->one == one && row->two == two && row->bad == bad;
}

static int frame_is(const ribjasper_row *row, int q, int track, int index, uint32_t absolute)
{
    return row->q == q && row->track == track && row->index == index && row->absolute == absolute;
}

/* The bits of a frame in the Q channel of a block. */
static void put_frame(uint8_t *block, const uint8_t frame[12])
{
    for (int i = 0; i < 96; i++)
        block[i] = (uint8_t)((block[i] & 0xbf) | ((frame[i / 8] >> (7 - i % 8) & 1) << 6));
}

/* The symbols of a word at their places: the positions 1 and 18, 2 and 5, 3 and 23 are exchanged, and the symbol at a
   position is sent as many slots later as the remainder of the position modulo 8. */
static void put_word(uint8_t *program, size_t n, const uint8_t word[24])
{
    static const uint8_t to[24] = { 0, 18, 5, 23, 4, 2, 6, 7, 8, 9, 10, 11, 12, 13, 14, 15, 16, 17, 1, 19, 20, 21, 22, 3 };
    for (size_t i = 0; i < 24; i++) {
        uint8_t *byte = program + 24 * (n + to[i] % 8) + to[i];
        *byte = (uint8_t)((*byte & 0xc0) | word[i]);
    }
}

static void blocks_of_zeros(void)
{
    static uint8_t stream[BYTES + 96];
    ribjasper_row rows[BLOCKS + 1];
    ribjasper_surveyed result = { 7, 7 };
    CHECK(ribjasper_survey(stream, 0, RIBJASPER_RAW, 0, rows, 0, &result) == RIBJASPER_CONVERTED);
    CHECK(result.blocks == 0 && result.rest == 0);
    /* Word 4 b - 7 is the first that ends with block b; a torn stream has a rest. */
    for (size_t rest = 0; rest < 96; rest++) {
        memset(rows, 9, sizeof rows);
        CHECK(ribjasper_survey(stream, BYTES + rest, RIBJASPER_RAW, 0, rows, BLOCKS + 1, &result) == RIBJASPER_CONVERTED);
        CHECK(result.blocks == BLOCKS && result.rest == rest);
        CHECK(counts_are(rows, 0, 0, 0, 0) && counts_are(rows + 1, 1, 0, 0, 0));
        CHECK(counts_are(rows + 2, 4, 0, 0, 0) && counts_are(rows + 3, 4, 0, 0, 0));
        for (int b = 0; b < BLOCKS; b++)
            CHECK(frame_is(rows + b, RIBJASPER_Q_BAD_CHECK, 0, 0, RIBJASPER_NO_TIME) && rows[b].empty == 1);
        CHECK(all_are(rows + BLOCKS, sizeof *rows, 9));
    }
    /* Blocks of the lead-in end no word. */
    CHECK(ribjasper_survey(stream, BYTES, RIBJASPER_RAW, 2, rows, BLOCKS, &result) == RIBJASPER_CONVERTED);
    CHECK(counts_are(rows, 0, 0, 0, 0) && counts_are(rows + 1, 0, 0, 0, 0) && counts_are(rows + 2, 0, 0, 0, 0));
    CHECK(counts_are(rows + 3, 1, 0, 0, 0));
    CHECK(ribjasper_survey(stream, BYTES, RIBJASPER_RAW, 450000, rows, BLOCKS, &result) == RIBJASPER_CONVERTED);
    CHECK(counts_are(rows + 3, 0, 0, 0, 0));
    /* Packs have no frames. */
    stream[0] = 0x80;
    CHECK(ribjasper_survey(stream, BYTES, RIBJASPER_PACKS, 1, rows, BLOCKS, &result) == RIBJASPER_CONVERTED);
    CHECK(counts_are(rows, 0, 0, 0, 0) && counts_are(rows + 1, 4, 0, 0, 0) && counts_are(rows + 3, 4, 0, 0, 0));
    CHECK(frame_is(rows, RIBJASPER_Q_NONE, 0, 0, RIBJASPER_NO_TIME) && rows[0].empty == 0 && rows[1].empty == 1);
}

static void refused_surveys(void)
{
    static uint8_t stream[BYTES];
    const size_t longest = 96 * (size_t)1000000;
    ribjasper_row rows[BLOCKS];
    ribjasper_surveyed result;
    uint8_t *zeros = (uint8_t *)calloc(longest + 96, 1);
    memset(rows, 9, sizeof rows);
    memset(&result, 9, sizeof result);
    CHECK(ribjasper_survey(stream, BYTES, 3, 0, rows, BLOCKS, &result) == RIBJASPER_USAGE);
    CHECK(ribjasper_survey(stream, BYTES, 0xffffffff, 0, rows, BLOCKS, &result) == RIBJASPER_USAGE);
    CHECK(ribjasper_survey(stream, BYTES, RIBJASPER_RAW, 450001, rows, BLOCKS, &result) == RIBJASPER_USAGE);
    for (size_t room = 0; room < BLOCKS; room++)
        CHECK(ribjasper_survey(stream, BYTES, RIBJASPER_RAW, 0, rows, room, &result) == RIBJASPER_NO_ROOM);
    if (zeros) {
        CHECK(ribjasper_survey(zeros, longest + 96, RIBJASPER_RAW, 0, rows, BLOCKS, &result) == RIBJASPER_TORN);
        CHECK(ribjasper_survey(zeros, longest + 95, RIBJASPER_RAW, 0, rows, BLOCKS, &result) == RIBJASPER_NO_ROOM);
    }
    free(zeros);
    CHECK(all_are(rows, sizeof rows, 9) && all_are(&result, sizeof result, 9));
}

/* A word of the program with some wrong symbols, in each form that is interleaved. */
static void words_and_frames(void)
{
    static const uint8_t preset[24] = { 9, 1, 0x3c, 0x34, 0, 0, 0, 0, 0, 0, 0, 0, 0, 0, 0, 0, 0, 0, 0, 0, 13, 7, 42, 32 };
    static const uint8_t field[12] = { 1, 0x1a, 1, 0, 0, 0, 0, 0, 0, 0, 0x6b, 0x0f };
    static const uint8_t other[12] = { 0, 0, 0, 0, 0, 0, 0, 0, 0, 0, 0xff, 0xff };
    static uint8_t stream[BYTES], sectors[2448 * BLOCKS];
    ribjasper_q_frame frame;
    ribjasper_row rows[BLOCKS], again[BLOCKS];
    ribjasper_surveyed result;
    uint8_t bytes[12], word[24];
    memset(&frame, 0, sizeof frame);
    frame.track = 42;
    frame.index = 3;
    frame.absolute = 449999;
    CHECK(ribjasper_q_encode(&frame, bytes) == RIBJASPER_DONE);
    put_frame(stream, bytes);
    put_frame(stream + 96, field);
    put_frame(stream + 192, other);
    frame.kind = RIBJASPER_Q_TRACK;
    CHECK(ribjasper_q_encode(&frame, bytes) == RIBJASPER_DONE);
    put_frame(stream + 288, bytes);
    memcpy(word, preset, 24);
    for (int wrong = 0; wrong < 4; wrong++) {
        if (wrong > 0)
            word[6 * wrong] ^= 1;
        put_word(stream, 1, word);
        CHECK(ribjasper_survey(stream, BYTES, RIBJASPER_RAW, 0, rows, BLOCKS, &result) == RIBJASPER_CONVERTED);
        /* Word 1 ends with block 2, together with three idle words. */
        CHECK(counts_are(rows + 2, wrong == 0 ? 4 : 3, wrong == 1, wrong == 2, wrong == 3));
        CHECK(counts_are(rows, 0, 0, 0, 0) && counts_are(rows + 1, 1, 0, 0, 0) && counts_are(rows + 3, 4, 0, 0, 0));
        CHECK(frame_is(rows, RIBJASPER_Q_PROGRAM, 42, 3, 449999));
        CHECK(frame_is(rows + 1, RIBJASPER_Q_BAD_FIELD, 0, 0, RIBJASPER_NO_TIME));
        CHECK(frame_is(rows + 2, RIBJASPER_Q_OTHER, 0, 0, RIBJASPER_NO_TIME));
        CHECK(frame_is(rows + 3, RIBJASPER_Q_TRACK, 42, 0, RIBJASPER_NO_TIME));
        CHECK(rows[0].empty == 0 && rows[3].empty == 0);
        for (size_t b = 0; b < BLOCKS; b++) {
            memset(sectors + 2448 * b, 0x5a, 2352);
            memcpy(sectors + 2448 * b + 2352, stream + 96 * b, 96);
        }
        CHECK(ribjasper_survey(sectors, sizeof sectors, RIBJASPER_SECTORS, 0, again, BLOCKS, &result) == RIBJASPER_CONVERTED);
        CHECK(result.blocks == BLOCKS && result.rest == 0 && memcmp(rows, again, sizeof rows) == 0);
    }
}

/* A text pack with its check, which the library computes. */
static void seal(uint8_t pack[18])
{
    for (unsigned sum = 0; sum < 65536 && ribjasper_text_pack_matches(pack) == 0; sum++) {
        pack[16] = (uint8_t)(sum >> 8);
        pack[17] = (uint8_t)sum;
    }
}

/* Writes a pack into a quarter of a block, six bits into each symbol. */
static void put_pack(uint8_t *block, size_t quarter, const uint8_t pack[18])
{
    for (size_t i = 0; i < 24; i++) {
        unsigned symbol = 0;
        for (size_t bit = 6 * i; bit < 6 * i + 6; bit++)
            symbol = symbol << 1 | (pack[bit / 8] >> (7 - bit % 8) & 1);
        block[24 * quarter + i] = (uint8_t)((block[24 * quarter + i] & 0xc0) | symbol);
    }
}

/* The title of an album and that of its only track, in pack 0, and the three size packs. */
static void make_lead_in(uint8_t block[96], uint8_t packs[4][18])
{
    static const uint8_t title[18] = { 0x80, 0, 0, 0, 'D', 'e', 'm', 'o', 0, 'O', 'n', 'e', 0, 0, 0, 0, 0x51, 0xd3 };
    memset(packs, 0, 4 * 18);
    memcpy(packs[0], title, 18);
    for (uint8_t k = 1; k < 4; k++) {
        packs[k][0] = 0x8f;
        packs[k][1] = (uint8_t)(k - 1);
        packs[k][2] = k;
    }
    packs[1][5] = packs[1][6] = 1; /* the first and the last track */
    packs[1][8] = 1;               /* one pack of titles */
    packs[2][4 + 7] = 3;           /* and three with sizes */
    packs[2][4 + 8] = 3;           /* the last number */
    for (size_t k = 0; k < 4; k++) {
        seal(packs[k]);
        put_pack(block, k, packs[k]);
    }
}

/* Refused texts write no line and allocate no memory, so they are reported even if malloc fails. */
static void refuses_texts(const uint8_t stream[288], int32_t why, uint32_t seq, uint32_t byte)
{
    uint8_t out[200];
    ribjasper_listed result = { 9, 9, 9 };
    const long before = requests;
    memset(out, 9, sizeof out);
    refused = requests;
    CHECK(ribjasper_texts(stream, 288, RIBJASPER_RAW, 1, out, sizeof out, &result) == why);
    refused = -1;
    CHECK(requests == before && all_are(out, sizeof out, 9));
    CHECK(result.bytes == 0 && result.seq == seq && result.byte == byte);
}

static void lead_ins(void)
{
    static const char lines[] = "title 00 Demo\ntitle 01 One\npacks good 4 bad 0 other 0\n";
    static const char none[] = "packs good 0 bad 4 other 0\n";
    const size_t size = sizeof lines - 1;
    static uint8_t stream[96 * 3], sector[2448];
    uint8_t packs[4][18], read[72], out[200], torn[18];
    ribjasper_listed result = { 9, 9, 9 };
    CHECK(ribjasper_texts(stream, 192, RIBJASPER_RAW, 1, out, sizeof none - 1, &result) == RIBJASPER_CONVERTED);
    CHECK(result.bytes == sizeof none - 1 && result.seq == 0 && result.byte == 0 && memcmp(out, none, sizeof none - 1) == 0);
    memset(stream, 0xc0, 96);
    make_lead_in(stream, packs);
    ribjasper_block_text_packs(stream, read);
    CHECK(memcmp(read, packs, 72) == 0);
    memset(out, 9, sizeof out);
    CHECK(ribjasper_texts(stream, sizeof stream, RIBJASPER_RAW, 1, out, sizeof out, &result) == RIBJASPER_CONVERTED);
    CHECK(result.bytes == size && memcmp(out, lines, size) == 0 && all_are(out + size, sizeof out - size, 9));
    memcpy(sector + 2352, stream, 96);
    CHECK(ribjasper_texts(sector, 2448, RIBJASPER_SECTORS, 7, out, size, &result) == RIBJASPER_CONVERTED && result.bytes == size);

    /* A refused call writes no line, and only a fault of the texts. */
    memset(out, 9, sizeof out);
    memset(&result, 9, sizeof result);
    CHECK(ribjasper_texts(stream, 288, RIBJASPER_PACKS, 1, out, sizeof out, &result) == RIBJASPER_USAGE);
    CHECK(ribjasper_texts(stream, 288, 3, 1, out, sizeof out, &result) == RIBJASPER_USAGE);
    CHECK(ribjasper_texts(stream, 288, RIBJASPER_RAW, 450001, out, sizeof out, &result) == RIBJASPER_USAGE);
    for (size_t length = 193; length < 288; length++)
        CHECK(ribjasper_texts(stream, length, RIBJASPER_RAW, 1, out, sizeof out, &result) == RIBJASPER_TORN);
    for (size_t room = 0; room < size; room++)
        CHECK(ribjasper_texts(stream, 288, RIBJASPER_RAW, 1, out, room, &result) == RIBJASPER_NO_ROOM);
    CHECK(all_are(&result, sizeof result, 9));
    for (refused = 0; refused < 1000; refused++) {
        const long before = held;
        int32_t answer;
        requests = 0;
        answer = ribjasper_texts(stream, 288, RIBJASPER_RAW, 1, out, 0, &result);
        CHECK(held == before);
        if (answer == RIBJASPER_NO_ROOM)
            break;
        CHECK(answer == RIBJASPER_NO_MEMORY);
    }
    CHECK(refused > 2 && refused < 1000 && all_are(out, sizeof out, 9) && all_are(&result, sizeof result, 9));
    refused = -1;

    memcpy(torn, packs[0], 18);
    torn[4] = 'd';
    put_pack(stream, 0, torn);
    refuses_texts(stream, RIBJASPER_TEXT_MISSING, 0, 0);
    put_pack(stream, 0, packs[0]);
    put_pack(stream, 3, torn);
    refuses_texts(stream, RIBJASPER_TEXT_NO_SIZE, 0, 0);
    put_pack(stream, 3, packs[3]);
    packs[1][6] = 100;
    seal(packs[1]);
    put_pack(stream, 1, packs[1]);
    refuses_texts(stream, RIBJASPER_TEXT_MALFORMED, 1, 6);
}

/* The longest lines of a lead-in: all packs except the three size packs have the kind with the longest name, the string of the
   album has no byte that is printed unchanged, and the string of each of the 99 tracks is a tab, which means the previous
   string. */
static void longest_texts(void)
{
    enum { PACKS = 256, TEXT = 12 * (PACKS - 3), STRING = TEXT - 1 - 2 * 99 };
    static const char counts[] = "packs good 256 bad 0 other 0\n";
    static uint8_t stream[96 * PACKS / 4] = { 0 }, text[12 * PACKS] = { 0 };
    static uint8_t out[RIBJASPER_MOST_TEXTS] = { 0 }, lines[RIBJASPER_MOST_TEXTS] = { 0 };
    ribjasper_listed result = { 9, 9, 9 };
    size_t size = 0;
    memset(text, 0x81, STRING);
    for (size_t track = 1; track <= 99; track++)
        text[STRING - 1 + 2 * track] = '\t';
    text[TEXT + 1] = 1;             /* the first track */
    text[TEXT + 2] = 99;            /* and the last */
    text[TEXT + 12 + 8] = PACKS - 1; /* the last number */
    for (size_t n = 0; n < PACKS; n++) {
        uint8_t pack[18] = { 0 };
        pack[0] = n < PACKS - 3 ? 0x82 : 0x8f;
        pack[1] = (uint8_t)(n < PACKS - 3 ? 0 : n - (PACKS - 3));
        pack[2] = (uint8_t)n;
        memcpy(pack + 4, text + 12 * n, 12);
        seal(pack);
        put_pack(stream + 96 * (n / 4), n % 4, pack);
    }
    for (int track = 0; track <= 99; track++) {
        size += (size_t)sprintf((char *)lines + size, "songwriter %02d ", track);
        for (size_t i = 0; i < STRING; i++)
            size += (size_t)sprintf((char *)lines + size, "\\81");
        lines[size++] = '\n';
    }
    memcpy(lines + size, counts, sizeof counts - 1);
    size += sizeof counts - 1;
    CHECK(ribjasper_texts(stream, sizeof stream, RIBJASPER_RAW, PACKS / 4, out, size - 1, &result) == RIBJASPER_NO_ROOM);
    CHECK(ribjasper_texts(stream, sizeof stream, RIBJASPER_RAW, PACKS / 4, out, sizeof out, &result) == RIBJASPER_CONVERTED);
    CHECK(result.bytes == size && memcmp(out, lines, size) == 0 && all_are(out + size, sizeof out - size, 0));
}

/* All bytes of a file. */
static uint8_t *read_file(const char *name, size_t *length)
{
    FILE *file = fopen(name, "rb");
    uint8_t *bytes = (uint8_t *)malloc(1 << 26);
    *length = file && bytes ? fread(bytes, 1, 1 << 26, file) : 0;
    if (file)
        fclose(file);
    return bytes;
}

/* Feeds a player block by block, and compares its tally with the output of `check`. */
static void tally_as_the_program_says(const uint8_t *stream, size_t blocks, uint32_t lead_in, const char *expected)
{
    ribjasper_player player = RIBJASPER_CLOSED;
    ribjasper_tally tally, kept;
    ribjasper_q_frame frame;
    char lines[200];
    const char *at;
    size_t b, last = 0;
    uint8_t planar[96], bit;
    memset(&tally, 0, sizeof tally);
    memset(&frame, 0, sizeof frame);
    kept = tally;
    CHECK(ribjasper_player_feed_counted(&player, stream, &tally) == RIBJASPER_REFUSED);
    CHECK(memcmp(&tally, &kept, sizeof tally) == 0);
    if (ribjasper_player_open(&player) != RIBJASPER_DONE)
        return;
    CHECK(ribjasper_player_begin(&player, RIBJASPER_RAW, lead_in) == RIBJASPER_DONE);
    for (b = 0; b < blocks; b++) {
        requests = 0;
        CHECK(ribjasper_player_feed_counted(&player, stream + 96 * b, &tally) == RIBJASPER_DONE && requests == 0);
        ribjasper_block_to_planar(stream + 96 * b, planar);
        if (ribjasper_q_decode(planar + 12, &frame, &bit) == RIBJASPER_DONE)
            last = b + 1;
        CHECK(tally.blocks == b + 1 && tally.frame_block == last);
        CHECK(memcmp(&tally.frame, &frame, offsetof(ribjasper_q_frame, text) + 13) == 0);
    }
    sprintf(lines, "clean %lu\none %lu\ntwo %lu\nbad %lu\n", (unsigned long)tally.clean, (unsigned long)tally.one,
            (unsigned long)tally.two, (unsigned long)tally.bad);
    at = strstr(expected, lines);
    sprintf(lines, "q-good %lu\nq-bad %lu\n", (unsigned long)tally.frames, (unsigned long)tally.bad_frames);
    CHECK(last > 0 && at != NULL && strstr(at, lines) != NULL);
    ribjasper_player_close(&player);
}

/* The limits of a tally: blocks of packs have no frames, a lead-in has no packs, and a count saturates. */
static void tallies(void)
{
    static const uint8_t nothing[96] = { 0 };
    const uint64_t most = UINT64_MAX;
    const long before = held;
    ribjasper_player player = RIBJASPER_CLOSED;
    ribjasper_tally tally;
    uint8_t noise[96];
    int b;
    memset(&tally, 0, sizeof tally);
    for (b = 0; b < 96; b++)
        noise[b] = (uint8_t)(b * b * 37 + 11 * b);
    if (ribjasper_player_open(&player) != RIBJASPER_DONE)
        return;
    CHECK(ribjasper_player_begin(&player, RIBJASPER_PACKS, 2) == RIBJASPER_DONE);
    for (b = 0; b < 5; b++)
        CHECK(ribjasper_player_feed_counted(&player, b == 3 ? noise : nothing, &tally) == RIBJASPER_DONE);
    CHECK(tally.blocks == 5 && tally.clean == 8 && tally.one == 0 && tally.two == 0 && tally.bad == 4);
    CHECK(tally.frames == 0 && tally.bad_frames == 0 && tally.frame_block == 0);
    CHECK(ribjasper_player_begin(&player, RIBJASPER_RAW, 1) == RIBJASPER_DONE);
    memset(&tally, 0, sizeof tally);
    for (b = 0; b < 4; b++)
        CHECK(ribjasper_player_feed_counted(&player, nothing, &tally) == RIBJASPER_DONE);
    CHECK(tally.blocks == 4 && tally.clean == 5 && tally.bad == 0 && tally.frames == 0 && tally.bad_frames == 4);
    tally.blocks = tally.clean = most - 1;
    tally.bad_frames = most;
    for (b = 0; b < 2; b++) {
        CHECK(ribjasper_player_feed_counted(&player, nothing, &tally) == RIBJASPER_DONE);
        CHECK(tally.blocks == most && tally.clean == most && tally.bad_frames == most && tally.one == 0);
    }
    ribjasper_player_close(&player);
    CHECK(held == before);
}

/* Compares the sums of the rows with the output of `check`, and the lines with the output of `text`. */
static void as_the_program_says(const char *stream_name, uint32_t lead_in, const char *check_name, const char *text_name)
{
    size_t length, check_length, text_length;
    uint8_t *stream = read_file(stream_name, &length);
    uint8_t *expected = read_file(check_name, &check_length), *text = read_file(text_name, &text_length);
    ribjasper_row *rows = (ribjasper_row *)malloc((length / 96 + 1) * sizeof *rows);
    uint8_t *out = (uint8_t *)malloc(text_length + 1);
    ribjasper_surveyed result = { 0, 0 };
    ribjasper_listed listed = { 0, 0, 0 };
    unsigned long sums[6] = { 0, 0, 0, 0, 0, 0 };
    char lines[200];
    const char *at;
    CHECK(ribjasper_survey(stream, length, RIBJASPER_RAW, lead_in, rows, length / 96, &result) == RIBJASPER_CONVERTED);
    for (uint32_t b = 0; b < result.blocks; b++) {
        sums[0] += rows[b].clean;
        sums[1] += rows[b].one;
        sums[2] += rows[b].two;
        sums[3] += rows[b].bad;
        sums[4] += rows[b].q <= RIBJASPER_Q_OTHER;
        sums[5] += rows[b].q > RIBJASPER_Q_OTHER;
    }
    expected[check_length] = 0;
    sprintf(lines, "clean %lu\none %lu\ntwo %lu\nbad %lu\n", sums[0], sums[1], sums[2], sums[3]);
    at = strstr((const char *)expected, lines);
    CHECK(result.blocks > 0 && at != NULL);
    sprintf(lines, "q-good %lu\nq-bad %lu\n", sums[4], sums[5]);
    CHECK(at != NULL && strstr(at, lines) != NULL);
    CHECK(ribjasper_texts(stream, length, RIBJASPER_RAW, lead_in, out, text_length, &listed) == RIBJASPER_CONVERTED);
    CHECK(listed.bytes == text_length && memcmp(out, text, text_length) == 0);
    tally_as_the_program_says(stream, length / 96, lead_in, (const char *)expected);
    free(stream);
    free(expected);
    free(text);
    free(rows);
    free(out);
}

int main(int count, char **words)
{
    blocks_of_zeros();
    refused_surveys();
    words_and_frames();
    lead_ins();
    longest_texts();
    tallies();
    if (count == 5)
        as_the_program_says(words[1], (uint32_t)strtoul(words[2], NULL, 10), words[3], words[4]);
    if (!failed)
        printf("test_desk_calls: the rows of blocks, tallies and lines of lead-ins are correct\n");
    return failed;
}
