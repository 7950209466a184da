/* Measures how much stack each call of the library uses, and prints the maximum. Every call runs on its own painted stack. It may
   use at most LIMIT bytes of it; a call that mends may use LIMIT_MENDING bytes. malloc and free of the C library use this stack
   too. The argument is an authored stream with texts, whose first 200 blocks are the lead-in. */
#define _GNU_SOURCE
#include "ribjasper.h"

#include <stdio.h>
#include <stdlib.h>
#include <string.h>
#include <ucontext.h>

enum { LIMIT = 16384, LIMIT_MENDING = 81920, ROOM = 262144, PAINT = 0xa5, BLOCKS = 200 };

static unsigned char stack[ROOM] __attribute__((aligned(16)));
static ucontext_t outside, inside;
static void (*call)(void);

static ribjasper_player player = RIBJASPER_CLOSED, other = RIBJASPER_CLOSED;
static uint8_t stream[BLOCKS * RIBJASPER_BLOCK], worn[BLOCKS * RIBJASPER_BLOCK], idle[BLOCKS * RIBJASPER_BLOCK];
static uint8_t lead_in[BLOCKS * RIBJASPER_BLOCK];
static uint8_t packs[BLOCKS * RIBJASPER_BLOCK], pixels[RIBJASPER_PICTURE], file[RIBJASPER_CHECKPOINT];
static ribjasper_row rows[BLOCKS];
static ribjasper_plan_row plan[16];
static ribjasper_sheet_row sheet_rows[4];
static ribjasper_mended_readings mended;
static ribjasper_change change;
static ribjasper_tally tally;
static char answer_text[RIBJASPER_ANSWER_TEXT];
static int32_t answer;

static const char sheet[] = "TITLE \"Demo\"\nFILE \"a.wav\" WAVE\nTRACK 01 AUDIO\nTITLE \"One\"\nINDEX 01 00:00:00\n";
static const char script[] = "colour 1 F00\nfill 0 0 50 18 1\nshow 00:00:20 00:00:30\n";
static const char refused[] = "colour 1 F00\nfill 0 0 50 18 what\n";

static void open_player(void) { answer = ribjasper_player_open(&player); }
static void open_other(void) { answer = ribjasper_player_open(&other); }
static void begin(void) { answer = ribjasper_player_begin(&player, RIBJASPER_RAW, 0); }

static void feed(void)
{
    int k;
    for (k = 0; k < BLOCKS; k++)
        answer = ribjasper_player_feed(&player, worn + k * RIBJASPER_BLOCK);
}

static void take(void)
{
    ribjasper_pack taken[4];
    int k;
    for (k = 0; k < BLOCKS; k++)
        answer = ribjasper_player_take(&player, worn + k * RIBJASPER_BLOCK, taken);
}

static void feed_all(void)
{
    ribjasper_player_feed_all(&other, worn, BLOCKS, &change);
    answer = ribjasper_player_feed_all(&other, stream, BLOCKS, &change);
}

static void seek(void)
{
    static ribjasper_mark marks[4];
    int32_t sought = ribjasper_player_seek_packs(&other, worn, 4 * BLOCKS, 4 * BLOCKS, marks, 4, BLOCKS);
    memset(marks, 0, sizeof marks);
    answer = ribjasper_player_seek(&other, RIBJASPER_RAW, 3, worn, BLOCKS, BLOCKS - 1, marks, 4, 40);
    answer = sought != RIBJASPER_DONE ? sought : answer;
    if (answer == RIBJASPER_DONE)
        answer = ribjasper_player_seek(&other, RIBJASPER_RAW, 3, worn, BLOCKS, 90, marks, 4, 40);
}

static void many_planar_blocks(void)
{
    ribjasper_blocks_to_planar(worn, BLOCKS, packs, BLOCKS);
    ribjasper_blocks_from_planar(worn, BLOCKS, packs, BLOCKS);
    answer = RIBJASPER_DONE;
}

static void feed_counted(void)
{
    int k;
    for (k = 0; k < BLOCKS; k++)
        answer = ribjasper_player_feed_counted(&other, worn + k * RIBJASPER_BLOCK, &tally);
}

static void read_counts(void)
{
    ribjasper_counts counts;
    answer = ribjasper_player_counts(&player, &counts);
}

static void draw(void)
{
    /* Each instruction in turn: memory, border, tiles, scrolls, transparency levels and the table. */
    static const uint8_t kinds[9] = { 1, 2, 6, 38, 20, 24, 28, 30, 31 };
    uint8_t pack[24];
    int k, at;
    for (k = 0; k < 9; k++) {
        for (at = 0; at < 24; at++)
            pack[at] = at < 2 ? 9 : 1;
        pack[1] = kinds[k];
        answer = ribjasper_player_draw(&player, pack);
        answer = ribjasper_player_draw_all(&player, pack, 1, &change);
        answer = ribjasper_pack_change(pack, 3, 4, &change);
        answer = ribjasper_pack_touches(pack);
    }
}

static void read_screen(void)
{
    uint16_t colours[RIBJASPER_COLOURS];
    uint8_t levels[RIBJASPER_COLOURS], one, two;
    answer = ribjasper_player_screen(&player, pixels);
    answer = ribjasper_player_picture(&player, pixels);
    answer = ribjasper_player_rect(&player, 1, 2, 30, 40, pixels, sizeof pixels, 30);
    answer = ribjasper_player_pixel(&player, 7, 8, &one);
    answer = ribjasper_player_colours(&player, colours);
    answer = ribjasper_player_colour(&player, 3, colours);
    answer = ribjasper_player_levels(&player, levels);
    answer = ribjasper_player_border(&player, &one);
    answer = ribjasper_player_offsets(&player, &one, &two);
}

static void read_formats(void)
{
    uint32_t format;
    for (format = RIBJASPER_INDEXED; format <= RIBJASPER_RGB565; format++) {
        answer = ribjasper_player_pixels(&player, format, 3, 4, 150, 200, pixels, sizeof pixels, 600);
        if (answer != RIBJASPER_DONE)
            return;
    }
}

static void save(void) { answer = ribjasper_player_save(&player, file); }
static void copy(void) { answer = ribjasper_player_copy(&player, &other); }

static void load(void)
{
    uint32_t byte;
    answer = ribjasper_player_load(&player, file, &byte);
}

static void single_calls(void)
{
    static const uint8_t text[18] = { 0x80, 0, 0, 0, 'D', 'e', 'm', 'o', 0, 'O', 'n', 'e', 0, 0, 0, 0, 0x51, 0xd3 };
    static const uint8_t pause[12] = { 1, 1, 0, 0, 2, 0, 0, 0, 0, 0, 0xf0, 0xd9 };
    ribjasper_parity parity;
    ribjasper_q_frame frame;
    uint8_t bytes[72], block[RIBJASPER_BLOCK], bit;
    answer = ribjasper_correct(worn, bytes);
    ribjasper_packs_parity(worn, 4 * BLOCKS, &parity);
    ribjasper_packs_seal(packs, 4 * BLOCKS);
    answer = ribjasper_text_pack_matches(text);
    ribjasper_text_pack_symbols(text, bytes);
    answer = ribjasper_q_decode(pause, &frame, &bit);
    answer = ribjasper_q_encode(&frame, bytes);
    ribjasper_block_to_planar(worn, block);
    ribjasper_block_from_planar(worn, block);
    ribjasper_block_text_packs(worn, bytes);
    answer = ribjasper_tile_weight(bytes);
    ribjasper_answer_text(RIBJASPER_ANSWER_LATE, answer_text);
    answer = (int32_t)(ribjasper_blocks_after(1000) + ribjasper_packs_after(1000) + ribjasper_time_of_blocks(75) +
                       ribjasper_time_of_packs(300));
    answer = (int32_t)ribjasper_version();
}

static void convert(void)
{
    ribjasper_converted result;
    answer = ribjasper_convert(worn, sizeof worn, RIBJASPER_RAW, 0, packs, sizeof packs, &result);
    answer = ribjasper_convert(worn, sizeof worn, RIBJASPER_PACKS, 0, packs, sizeof packs, &result);
}

static void mend(void)
{
    static ribjasper_mended_readings counts;
    ribjasper_mended result;
    answer = ribjasper_mend_readings(worn, sizeof worn, 2, 0, packs, sizeof packs, pixels, sizeof pixels, &counts);
    answer = ribjasper_mend_stream(worn, sizeof worn, 2, 0, packs, sizeof packs, pixels, sizeof pixels, &counts);
    answer = ribjasper_mend(worn, sizeof worn, stream, sizeof stream, 0, packs, sizeof packs, &result);
    answer = ribjasper_mend(idle, sizeof idle, worn, sizeof worn, 0, packs, sizeof packs, &result);
}

/* The greatest number of readings, one of them without R to W. */
static void mend_readings(void)
{
    static uint8_t readings[3 * sizeof worn];
    memcpy(readings, worn, sizeof worn);
    memcpy(readings + sizeof worn, stream, sizeof stream);
    memcpy(readings + 2 * sizeof worn, idle, sizeof idle);
    answer = ribjasper_mend_readings(readings, sizeof readings, 3, 0, packs, sizeof packs, pixels, sizeof pixels, &mended);
}

static void survey(void)
{
    ribjasper_surveyed result;
    answer = ribjasper_survey(worn, sizeof worn, RIBJASPER_RAW, 4, rows, BLOCKS, &result);
    answer = ribjasper_survey(worn, sizeof worn, RIBJASPER_PACKS, 4, rows, BLOCKS, &result);
}

static void texts(void)
{
    ribjasper_listed result;
    answer = ribjasper_texts(lead_in, sizeof lead_in, RIBJASPER_RAW, BLOCKS, packs, sizeof packs, &result);
    if (answer == RIBJASPER_CONVERTED && result.bytes < 60)
        answer = RIBJASPER_NO_ROOM;
}

static void make_plan(void)
{
    ribjasper_planned result;
    const uint8_t *lines = (const uint8_t *)sheet;
    answer = ribjasper_plan(lines, sizeof sheet - 1, (const uint8_t *)script, sizeof script - 1, 300, 9000, plan, 16, &result);
    answer = ribjasper_plan(lines, sizeof sheet - 1, (const uint8_t *)refused, sizeof refused - 1, 300, 9000, plan, 16,
                            &result);
}

static void read_sheet(void)
{
    ribjasper_sheet_result result;
    uint32_t bytes;
    const uint8_t *lines = (const uint8_t *)sheet;
    answer = ribjasper_sheet(lines, sizeof sheet - 1, sheet_rows, 4, &result);
    if (answer == RIBJASPER_CONVERTED)
        answer = ribjasper_sheet_text(lines, sizeof sheet - 1, RIBJASPER_TITLE, 1, pixels, 100, &bytes);
}

static void close_player(void) { ribjasper_player_close(&player); }
static void close_other(void) { ribjasper_player_close(&other); }

static void run(void)
{
    call();
}

/* The number of bytes of the stack that a call uses. */
static size_t stack_used_by(void (*measured)(void))
{
    size_t clean = 0;
    memset(stack, PAINT, ROOM);
    call = measured;
    if (getcontext(&inside) != 0) {
        perror("getcontext");
        exit(1);
    }
    inside.uc_stack.ss_sp = stack;
    inside.uc_stack.ss_size = ROOM;
    inside.uc_link = &outside;
    makecontext(&inside, run, 0);
    if (swapcontext(&outside, &inside) != 0) {
        perror("swapcontext");
        exit(1);
    }
    while (clean < ROOM && stack[clean] == PAINT)
        clean++;
    return ROOM - clean;
}

int main(int count, char **words)
{
    FILE *authored = count == 2 ? fopen(words[1], "rb") : NULL;
    static const struct {
        const char *name;
        void (*call)(void);
        int32_t answer; /* of the last call; it shows that the call was not refused */
    } calls[] = {
        { "open", open_player, RIBJASPER_DONE },
        { "open another", open_other, RIBJASPER_DONE },
        { "begin", begin, RIBJASPER_DONE },
        { "feed", feed, RIBJASPER_DONE },
        { "take", take, 4 },
        { "feed all", feed_all, RIBJASPER_DONE },
        { "seek", seek, RIBJASPER_DONE },
        { "many planar blocks", many_planar_blocks, RIBJASPER_DONE },
        { "feed and count", feed_counted, RIBJASPER_DONE },
        { "counts", read_counts, RIBJASPER_DONE },
        { "draw", draw, RIBJASPER_TOUCHES_COLOURS },
        { "read the screen", read_screen, RIBJASPER_DONE },
        { "read in each format", read_formats, RIBJASPER_DONE },
        { "save", save, RIBJASPER_DONE },
        { "load", load, RIBJASPER_DONE },
        { "copy", copy, RIBJASPER_DONE },
        { "single calls", single_calls, RIBJASPER_VERSION },
        { "convert", convert, RIBJASPER_DAMAGED },
        { "mend", mend, RIBJASPER_DAMAGED },
        { "mend readings", mend_readings, RIBJASPER_DAMAGED },
        { "survey", survey, RIBJASPER_CONVERTED },
        { "texts", texts, RIBJASPER_CONVERTED },
        { "plan", make_plan, RIBJASPER_NOT_PLANNED },
        { "sheet", read_sheet, RIBJASPER_CONVERTED },
        { "close", close_player, RIBJASPER_CONVERTED },
        { "close another", close_other, RIBJASPER_CONVERTED },
    };
    uint32_t number = 1;
    size_t k, max = 0, max_mending = 0;
    int failed = 0;
    if (authored == NULL || fread(lead_in, 1, sizeof lead_in, authored) != sizeof lead_in) {
        fputs("no authored stream\n", stderr);
        return 2;
    }
    fclose(authored);
    for (k = 0; k < sizeof stream; k++) {
        /* Codewords of zeros with some wrong symbols, so that each kind of correction occurs. */
        number = number * 1664525u + 1013904223u;
        worn[k] = number >> 24 < 20 ? (uint8_t)(number >> 8) : 0;
        stream[k] = number >> 24 > 240 ? (uint8_t)(number >> 10) : 0;
    }
    for (k = 0; k < sizeof calls / sizeof calls[0]; k++) {
        size_t bytes = stack_used_by(calls[k].call);
        int mends = calls[k].call == mend || calls[k].call == mend_readings;
        size_t limit = mends ? LIMIT_MENDING : LIMIT;
        if (mends)
            max_mending = bytes > max_mending ? bytes : max_mending;
        else
            max = bytes > max ? bytes : max;
        if (answer != calls[k].answer) {
            printf("%s returns %ld instead of %ld\n", calls[k].name, (long)answer, (long)calls[k].answer);
            failed = 1;
        }
        if (bytes > limit) {
            printf("%s uses %lu bytes of stack, more than %lu\n", calls[k].name, (unsigned long)bytes,
                   (unsigned long)limit);
            failed = 1;
        }
    }
    printf("a call uses at most %lu bytes of stack, and a call that mends %lu\n", (unsigned long)max,
           (unsigned long)max_mending);
    return failed;
}
