/* Tests the calls that read cue sheets, with values from docs/FORMATS.md, and some small calls: the weight of tiles, times, and
   the texts of answers. Linked with a heap that counts (testing.h). */
#include "ribjasper.h"

#include "testing.h"

#define ROWS 9900

static ribjasper_sheet_row rows[ROWS], kept[ROWS];

static const char sheet[] =
    "CATALOG 1234567890123\n"
    "TITLE \"The album\"\n"
    "FILE \"a.wav\" WAVE\n"
    "  TRACK 03 AUDIO\n"
    "    PERFORMER Someone\n"
    "    FLAGS DCP PRE\n"
    "    ISRC gbabc1234567\n"
    "    PREGAP 00:02:00\n"
    "    INDEX 01 00:00:00\n"
    "    INDEX 02 00:01:10\n"
    "    POSTGAP 00:00:05\n"
    "  TRACK 04 AUDIO\n"
    "    TITLE \"\"\n"
    "    INDEX 00 01:00:00\n"
    "    INDEX 01 01:02:03\n";

static const uint8_t *bytes_of(const char *text)
{
    return (const uint8_t *)text;
}

static int is_row(const ribjasper_sheet_row *row, uint8_t track, uint8_t index, uint32_t time, uint32_t pregap,
                  uint32_t postgap, uint8_t control, const char *isrc)
{
    static const uint8_t none[12] = { 0 };
    return row->track == track && row->index == index && row->time == time && row->pregap == pregap &&
           row->postgap == postgap && row->control == control && row->has_isrc == (isrc != NULL) &&
           memcmp(row->isrc, isrc != NULL ? bytes_of(isrc) : none, 12) == 0;
}

static void what_a_sheet_says(void)
{
    size_t length = strlen(sheet);
    ribjasper_sheet_result result;
    memset(rows, 7, sizeof rows);
    memcpy(kept, rows, sizeof rows);
    CHECK(ribjasper_sheet(bytes_of(sheet), length, rows, ROWS, &result) == RIBJASPER_CONVERTED);
    CHECK(result.rows == 4 && result.tracks == 2 && result.line == 0 && result.why == 0);
    CHECK(result.has_catalogue == 1 && memcmp(result.catalogue, "1234567890123", 13) == 0);
    CHECK(is_row(rows, 3, 1, 0, 150, 5, 3, "GBABC1234567"));
    CHECK(is_row(rows + 1, 3, 2, 85, 150, 5, 3, "GBABC1234567"));
    CHECK(is_row(rows + 2, 4, 0, 4500, 0, 0, 0, NULL));
    CHECK(is_row(rows + 3, 4, 1, 4653, 0, 0, 0, NULL));
    CHECK(memcmp(rows + 4, kept + 4, sizeof rows - 4 * sizeof *rows) == 0);
    CHECK(held == 0);

    /* A buffer that is just large enough, and one that is one row too small. */
    CHECK(ribjasper_sheet(bytes_of(sheet), length, rows, 4, &result) == RIBJASPER_CONVERTED);
    memcpy(kept, rows, sizeof rows);
    memset(&result, 9, sizeof result);
    CHECK(ribjasper_sheet(bytes_of(sheet), length, rows + 1, 3, &result) == RIBJASPER_NO_ROOM);
    CHECK(result.rows == 4 && result.tracks == 2 && result.has_catalogue == 1 && result.line == 0 && result.why == 0);
    CHECK(ribjasper_sheet(bytes_of(sheet), length, NULL, 0, &result) == RIBJASPER_NO_ROOM && result.rows == 4);
    CHECK(memcmp(rows, kept, sizeof rows) == 0);
    CHECK(held == 0);
}

static void texts_of_a_sheet(void)
{
    static const char *expected[3][3] = { { "The album", "", "" }, { "", "Someone", "" }, { "", "", "" } };
    size_t length = strlen(sheet);
    uint8_t out[16];
    uint32_t bytes, kind, place;
    for (kind = 0; kind < 3; kind++)
        for (place = 0; place < 3; place++) {
            size_t size = strlen(expected[kind][place]);
            memset(out, 7, sizeof out);
            bytes = 99;
            CHECK(ribjasper_sheet_text(bytes_of(sheet), length, kind, place, out, sizeof out, &bytes) == 0);
            CHECK(bytes == size && memcmp(out, expected[kind][place], size) == 0 && out[size] == 7);
            CHECK(ribjasper_sheet_text(bytes_of(sheet), length, kind, place, out, size, &bytes) == 0);
        }
    memset(out, 7, sizeof out);
    bytes = 99;
    CHECK(ribjasper_sheet_text(bytes_of(sheet), length, RIBJASPER_TITLE, 0, out, 8, &bytes) == RIBJASPER_NO_ROOM);
    CHECK(bytes == 9 && out[0] == 7);
    bytes = 99;
    CHECK(ribjasper_sheet_text(bytes_of(sheet), length, 3, 0, out, 16, &bytes) == RIBJASPER_USAGE && bytes == 99);
    CHECK(ribjasper_sheet_text(bytes_of(sheet), length, 0, 3, out, 16, &bytes) == RIBJASPER_USAGE && bytes == 99);
    CHECK(ribjasper_sheet_text(bytes_of(sheet), length - 40, 0, 0, out, 16, &bytes) == RIBJASPER_TORN && bytes == 99);
    /* An unknown kind is refused before the sheet is read, for any sheet and any buffer. */
    CHECK(ribjasper_sheet_text(bytes_of(sheet), length - 40, 3, 0, out, 16, &bytes) == RIBJASPER_USAGE && bytes == 99);
    CHECK(ribjasper_sheet_text(bytes_of(sheet), length, 3, 0, out, 0, &bytes) == RIBJASPER_USAGE && bytes == 99);
    CHECK(out[0] == 7 && held == 0);
    CHECK(ribjasper_sheet_text(bytes_of(sheet), length, RIBJASPER_TITLE, 1, NULL, 0, &bytes) == 0 && bytes == 0);
}

/* Each reason why a sheet is refused, with its line. */
static void refused_sheets(void)
{
    static const struct {
        const char *text;
        uint32_t line;
        uint32_t why;
    } cases[] = {
        { "FILE a WAVE\nSPIN 3\n", 2, 1 },
        { "FILE a WAVE\nFILE b WAVE\n", 2, 2 },
        { "TRACK 01 AUDIO\n", 1, 3 },
        { "FILE a WAVE\nTRACK 1 AUDIO\n", 2, 4 },
        { "TITLE a\nTITLE b\n", 2, 5 },
        { "FILE a WAVE\nTRACK 01 AUDIO\nTRACK 02 AUDIO\n", 3, 6 },
        { "FILE a WAVE\nTRACK 01 MODE1/2352\n", 2, 7 },
        { "FILE a WAVE\nTRACK 01 AUDIO\nINDEX 01 00:00:00\nTRACK 03 AUDIO\n", 4, 8 },
        { "FILE a WAVE\nTRACK 01 AUDIO\nINDEX 02 00:00:00\n", 3, 9 },
        { "FILE a WAVE\nTRACK 01 AUDIO\nINDEX 00 00:00:02\nINDEX 01 00:00:01\n", 4, 10 },
        { "", 1, 11 },
        { "FILE a WAVE\n", 2, 12 },
    };
    uint8_t out[16];
    uint32_t bytes;
    size_t i;
    memset(rows, 7, sizeof rows);
    memcpy(kept, rows, sizeof rows);
    for (i = 0; i < sizeof cases / sizeof *cases; i++) {
        ribjasper_sheet_result result;
        memset(&result, 9, sizeof result);
        CHECK(ribjasper_sheet(bytes_of(cases[i].text), strlen(cases[i].text), rows, ROWS, &result) == RIBJASPER_TORN);
        CHECK(result.line == cases[i].line && result.why == cases[i].why);
        CHECK(result.rows == 0 && result.tracks == 0 && result.has_catalogue == 0 && result.catalogue[0] == 0);
        CHECK(memcmp(rows, kept, sizeof rows) == 0);
        /* The same if malloc fails. */
        memset(&result, 9, sizeof result);
        refused = requests;
        CHECK(ribjasper_sheet(bytes_of(cases[i].text), strlen(cases[i].text), rows, ROWS, &result) == RIBJASPER_TORN);
        CHECK(result.line == cases[i].line && result.why == cases[i].why);
        refused = requests;
        CHECK(ribjasper_sheet_text(bytes_of(cases[i].text), strlen(cases[i].text), 0, 0, out, 16, &bytes) == RIBJASPER_TORN);
        refused = -1;
    }
    {
        ribjasper_sheet_result result;
        CHECK(ribjasper_sheet(NULL, 0, NULL, 0, &result) == RIBJASPER_TORN && result.line == 1 && result.why == 11);
    }
    CHECK(held == 0);
}

/* The largest sheet: 99 tracks with a hundred index lines each. */
static void largest_sheet(void)
{
    static char text[300000];
    size_t length = (size_t)sprintf(text, "FILE a WAVE\n");
    ribjasper_sheet_result result;
    int track, index;
    for (track = 1; track < 100; track++) {
        length += (size_t)sprintf(text + length, "TRACK %02d AUDIO\n", track);
        for (index = 0; index < 100; index++) {
            int time = 45 * (100 * track + index);
            length += (size_t)sprintf(text + length, "INDEX %02d %02d:%02d:%02d\n", index, time / 4500,
                                      time / 75 % 60, time % 75);
        }
    }
    CHECK(ribjasper_sheet(bytes_of(text), length, rows, ROWS, &result) == RIBJASPER_CONVERTED);
    CHECK(result.rows == RIBJASPER_MOST_SHEET_ROWS && result.tracks == 99);
    for (track = 1; track < 100; track++)
        for (index = 0; index < 100; index++)
            if (!is_row(rows + 100 * (track - 1) + index, (uint8_t)track, (uint8_t)index,
                        (uint32_t)(45 * (100 * track + index)), 0, 0, 0, NULL)) {
                CHECK(0);
                return;
            }
    CHECK(ribjasper_sheet(bytes_of(text), length, rows, ROWS - 1, &result) == RIBJASPER_NO_ROOM && result.rows == ROWS);
    CHECK(held == 0);
}

/* Each request for memory is refused once: nothing is written, and everything is freed. */
static void refused_memory(void)
{
    size_t length = strlen(sheet);
    ribjasper_sheet_result result, before;
    uint8_t out[16];
    uint32_t bytes = 99;
    int32_t answer = RIBJASPER_NO_MEMORY;
    long n;
    memset(rows, 7, sizeof rows);
    memcpy(kept, rows, sizeof rows);
    memset(&result, 9, sizeof result);
    before = result;
    memset(out, 7, sizeof out);
    for (n = 0; answer == RIBJASPER_NO_MEMORY; n++) {
        CHECK(memcmp(rows, kept, sizeof rows) == 0 && memcmp(&result, &before, sizeof result) == 0);
        requests = 0;
        refused = n;
        answer = ribjasper_sheet(bytes_of(sheet), length, rows, ROWS, &result);
        CHECK(held == 0);
    }
    CHECK(answer == RIBJASPER_CONVERTED && n > 3);
    answer = RIBJASPER_NO_MEMORY;
    for (n = 0; answer == RIBJASPER_NO_MEMORY; n++) {
        CHECK(bytes == 99 && out[0] == 7);
        requests = 0;
        refused = n;
        answer = ribjasper_sheet_text(bytes_of(sheet), length, RIBJASPER_TITLE, 0, out, sizeof out, &bytes);
        CHECK(held == 0);
    }
    CHECK(answer == RIBJASPER_CONVERTED && bytes == 9);
    refused = -1;
}

/* A text that is too long is refused before it is read. */
static void too_long(void)
{
    size_t length = (size_t)RIBJASPER_MOST_TEXT + 1;
    uint8_t *text = (uint8_t *)malloc(length);
    ribjasper_sheet_result result;
    uint8_t out[1];
    uint32_t bytes;
    if (text == NULL)
        return;
    memset(text, '\n', length);
    memset(&result, 9, sizeof result);
    CHECK(ribjasper_sheet(text, length, rows, ROWS, &result) == RIBJASPER_USAGE && result.rows == 0x09090909);
    CHECK(ribjasper_sheet_text(text, length, 0, 0, out, 1, &bytes) == RIBJASPER_USAGE);
    CHECK(ribjasper_sheet(text, length - 1, rows, ROWS, &result) == RIBJASPER_TORN && result.why == 11);
    free(text);
}

static void weights(void)
{
    /* A set of colours needs as many packs as the differences of its numbers have independent ones. */
    static const struct {
        uint8_t colours[5];
        int32_t packs;
    } sets[] = { { { 5, 5, 5, 5, 5 }, 1 }, { { 0, 15, 0, 15, 0 }, 1 }, { { 0, 1, 2, 2, 2 }, 2 }, { { 0, 1, 2, 3, 3 }, 2 },
                 { { 0, 1, 2, 4, 4 }, 3 }, { { 0, 1, 2, 4, 7 }, 3 }, { { 0, 1, 2, 4, 8 }, 4 } };
    uint8_t pixels[72];
    size_t i, k;
    for (i = 0; i < sizeof sets / sizeof *sets; i++) {
        for (k = 0; k < 72; k++)
            pixels[k] = sets[i].colours[k % 5];
        CHECK(ribjasper_tile_weight(pixels) == sets[i].packs);
    }
    for (k = 0; k < 72; k++)
        pixels[k] = (uint8_t)(k % 16);
    CHECK(ribjasper_tile_weight(pixels) == 4);
    pixels[71] = 16;
    CHECK(ribjasper_tile_weight(pixels) == -1);
    pixels[71] = 255;
    CHECK(ribjasper_tile_weight(pixels) == -1);
}

static void times(void)
{
    uint32_t n;
    CHECK(ribjasper_blocks_after(0) == 0 && ribjasper_blocks_after(999) == 74 && ribjasper_blocks_after(1000) == 75);
    CHECK(ribjasper_packs_after(1000) == 300 && ribjasper_packs_after(3) == 0 && ribjasper_packs_after(4) == 1);
    CHECK(ribjasper_blocks_after(0xFFFFFFFFu) == 322122547u && ribjasper_packs_after(0xFFFFFFFFu) == 1288490188u);
    CHECK(ribjasper_time_of_blocks(75) == 1000 && ribjasper_time_of_blocks(1) == 14 && ribjasper_time_of_packs(1) == 4);
    CHECK(ribjasper_time_of_packs(0) == 0 && ribjasper_time_of_packs(0xFFFFFFFFu) == 14316557650u);
    for (n = 0; n < 100000; n++) {
        uint32_t blocks = (uint32_t)ribjasper_time_of_blocks(n), packs = (uint32_t)ribjasper_time_of_packs(n);
        if (ribjasper_blocks_after(blocks) != n || ribjasper_packs_after(packs) != n ||
            (n > 0 && (ribjasper_blocks_after(blocks - 1) != n - 1 || ribjasper_packs_after(packs - 1) != n - 1))) {
            CHECK(0);
            return;
        }
    }
}

static void answers(void)
{
    char text[RIBJASPER_ANSWER_TEXT], none[RIBJASPER_ANSWER_TEXT];
    int32_t answer;
    ribjasper_answer_text(99, none);
    CHECK(strcmp(none, "no answer of this library") == 0);
    ribjasper_answer_text(RIBJASPER_ANSWER_DONE, text);
    CHECK(strcmp(text, "done") == 0);
    for (answer = -1; answer <= 10; answer++) {
        int i, end;
        memset(text, 'x', sizeof text);
        ribjasper_answer_text(answer, text);
        for (end = 0; end < RIBJASPER_ANSWER_TEXT && text[end] != 0; end++)
            CHECK(text[end] >= ' ' && text[end] <= '~');
        CHECK(end > 0 && end < RIBJASPER_ANSWER_TEXT);
        for (i = end; i < RIBJASPER_ANSWER_TEXT; i++)
            CHECK(text[i] == 0);
        CHECK((strcmp(text, none) == 0) == (answer == 5));
    }
    ribjasper_answer_text(INT32_MIN, text);
    CHECK(strcmp(text, none) == 0);
    ribjasper_answer_text(INT32_MAX, text);
    CHECK(strcmp(text, none) == 0);
}

int main(void)
{
    what_a_sheet_says();
    texts_of_a_sheet();
    refused_sheets();
    largest_sheet();
    refused_memory();
    too_long();
    weights();
    times();
    answers();
    if (!failed)
        printf("test_sheets: the rows, texts and refusals of cue sheets, weights, times and answers are correct\n");
    return failed;
}
