/* The header of 1.1.0 without its comments: what is compiled with it has to run on the library of today
   (tests/library/compare_player.sh). It is never changed. */
#ifndef RIBJASPER_H
#define RIBJASPER_H

#include <stdbool.h>
#include <stddef.h>
#include <stdint.h>

#ifdef __cplusplus
extern "C" {
#endif

#define RIBJASPER_VERSION_MAJOR 1
#define RIBJASPER_VERSION_MINOR 1
#define RIBJASPER_VERSION_PATCH 0

#define RIBJASPER_VERSION (65536 * RIBJASPER_VERSION_MAJOR + 256 * RIBJASPER_VERSION_MINOR + RIBJASPER_VERSION_PATCH)

uint32_t ribjasper_version(void);

#define RIBJASPER_DONE 0
#define RIBJASPER_REFUSED (-1)

#define RIBJASPER_BLOCK 96
#define RIBJASPER_WIDTH 300
#define RIBJASPER_HEIGHT 216
#define RIBJASPER_PIXELS 64800
#define RIBJASPER_COLOURS 16
#define RIBJASPER_PICTURE 194400

#define RIBJASPER_RAW 0
#define RIBJASPER_PACKS 1
#define RIBJASPER_SECTORS 2

typedef struct ribjasper_player {
    struct {
        void *at;
    } handle;
    bool is_open;
} ribjasper_player;

#define RIBJASPER_CLOSED { { NULL }, false }

int32_t ribjasper_player_open(ribjasper_player *player);

void ribjasper_player_close(ribjasper_player *player);

int32_t ribjasper_player_begin(ribjasper_player *player, uint32_t form, uint32_t lead_in);

int32_t ribjasper_player_feed(ribjasper_player *player, const uint8_t block[RIBJASPER_BLOCK]);

typedef struct ribjasper_pack {
    uint8_t symbols[24];
    int32_t wrong;
} ribjasper_pack;

int32_t ribjasper_player_take(ribjasper_player *player, const uint8_t block[RIBJASPER_BLOCK], ribjasper_pack packs[4]);

int32_t ribjasper_player_draw(ribjasper_player *player, const uint8_t pack[24]);

int32_t ribjasper_player_pixel(const ribjasper_player *player, uint32_t x, uint32_t y, uint8_t *pixel);

int32_t ribjasper_player_screen(const ribjasper_player *player, uint8_t pixels[RIBJASPER_PIXELS]);

int32_t ribjasper_player_rect(const ribjasper_player *player, uint32_t x, uint32_t y, uint32_t width, uint32_t height,
                              uint8_t *pixels, size_t room, uint32_t stride);

int32_t ribjasper_player_picture(const ribjasper_player *player, uint8_t bytes[RIBJASPER_PICTURE]);

int32_t ribjasper_player_colour(const ribjasper_player *player, uint8_t k, uint16_t *colour);

int32_t ribjasper_player_colours(const ribjasper_player *player, uint16_t colours[RIBJASPER_COLOURS]);

int32_t ribjasper_player_levels(const ribjasper_player *player, uint8_t levels[RIBJASPER_COLOURS]);

int32_t ribjasper_player_border(const ribjasper_player *player, uint8_t *border);

int32_t ribjasper_player_offsets(const ribjasper_player *player, uint8_t *across, uint8_t *down);

#define RIBJASPER_CHECKPOINT 65045
#define RIBJASPER_NO_CHECKPOINT 3

int32_t ribjasper_player_save(const ribjasper_player *player, uint8_t file[RIBJASPER_CHECKPOINT]);

int32_t ribjasper_player_load(ribjasper_player *player, const uint8_t file[RIBJASPER_CHECKPOINT], uint32_t *byte);

int32_t ribjasper_player_copy(const ribjasper_player *from, ribjasper_player *to);

#define RIBJASPER_TOUCHES_NOTHING 900
#define RIBJASPER_TOUCHES_ALL 901
#define RIBJASPER_TOUCHES_BORDER 902
#define RIBJASPER_TOUCHES_COLOURS 903
#define RIBJASPER_TOUCHES_LEVELS 904
int32_t ribjasper_pack_touches(const uint8_t pack[24]);

int32_t ribjasper_correct(const uint8_t word[24], uint8_t out[24]);

int32_t ribjasper_text_pack_matches(const uint8_t pack[18]);

void ribjasper_text_pack_symbols(const uint8_t pack[18], uint8_t symbols[24]);

#define RIBJASPER_Q_PROGRAM 0
#define RIBJASPER_Q_TRACK 1
#define RIBJASPER_Q_FIRST 2
#define RIBJASPER_Q_LAST 3
#define RIBJASPER_Q_LEAD_OUT 4
#define RIBJASPER_Q_CATALOGUE 5
#define RIBJASPER_Q_ISRC 6
#define RIBJASPER_Q_OTHER 7

typedef struct ribjasper_q_frame {
    uint32_t kind;
    uint32_t time;
    uint32_t absolute;
    uint8_t control;
    uint8_t mode;
    uint8_t track;
    uint8_t index;
    uint8_t disc;
    uint8_t frame;
    uint8_t text[13];
} ribjasper_q_frame;

#define RIBJASPER_BAD_CHECK 1
#define RIBJASPER_BAD_FIELD 2

int32_t ribjasper_q_decode(const uint8_t bytes[12], ribjasper_q_frame *frame, uint8_t *bit);

int32_t ribjasper_q_encode(const ribjasper_q_frame *frame, uint8_t bytes[12]);

void ribjasper_block_to_planar(const uint8_t block[RIBJASPER_BLOCK], uint8_t planar[RIBJASPER_BLOCK]);

void ribjasper_block_from_planar(const uint8_t planar[RIBJASPER_BLOCK], uint8_t block[RIBJASPER_BLOCK]);

typedef struct ribjasper_converted {
    uint64_t bytes;
    uint32_t blocks;
    uint32_t bad;
} ribjasper_converted;

#define RIBJASPER_CONVERTED 0
#define RIBJASPER_DAMAGED 1
#define RIBJASPER_USAGE 2
#define RIBJASPER_TORN 3
#define RIBJASPER_NO_ROOM 6
#define RIBJASPER_NO_MEMORY 7

int32_t ribjasper_convert(const uint8_t *stream, size_t length, uint32_t form, uint32_t lead_in, uint8_t *packs,
                          size_t room, ribjasper_converted *told);

typedef struct ribjasper_mended {
    uint64_t bytes;
    uint32_t blocks;
    uint32_t both;
    uint32_t of_first;
    uint32_t of_second;
    uint32_t agreed;
    uint32_t none;
} ribjasper_mended;

int32_t ribjasper_mend(const uint8_t *first, size_t first_length, const uint8_t *second, size_t second_length,
                       uint32_t lead_in, uint8_t *packs, size_t room, ribjasper_mended *told);

typedef struct ribjasper_plan_row {
    uint32_t line;
    uint32_t ready;
    uint32_t hold;
    uint32_t need;
    uint32_t free;
    uint32_t first;
    uint8_t late;
} ribjasper_plan_row;

typedef struct ribjasper_planned {
    uint32_t pictures;
    uint32_t blocks;
    uint32_t late;
    uint32_t why;
    uint32_t line;
    uint32_t number;
} ribjasper_planned;

#define RIBJASPER_TEXT_TOO_LONG 1
#define RIBJASPER_SHEET_REFUSED 2
#define RIBJASPER_SCRIPT_REFUSED 3
#define RIBJASPER_LENGTH_SHORT 4
#define RIBJASPER_DISC_TOO_LONG 5
#define RIBJASPER_PAST_END 6
#define RIBJASPER_CD_TEXT_TOO_LONG 7
#define RIBJASPER_LEAD_IN_SHORT 8

#define RIBJASPER_PLANNED 0
#define RIBJASPER_NOT_PLANNED 3
#define RIBJASPER_LATE 4

int32_t ribjasper_plan(const uint8_t *sheet, size_t sheet_length, const uint8_t *script, size_t script_length,
                       uint32_t lead_in, uint32_t audio, ribjasper_plan_row *rows, size_t room,
                       ribjasper_planned *told);

#define RIBJASPER_NO_TIME 0xFFFFFFFFu

#define RIBJASPER_Q_NONE 253
#define RIBJASPER_Q_BAD_FIELD 254
#define RIBJASPER_Q_BAD_CHECK 255

typedef struct ribjasper_row {
    uint32_t absolute;
    uint8_t clean;
    uint8_t one;
    uint8_t two;
    uint8_t bad;
    uint8_t q;
    uint8_t track;
    uint8_t index;
    uint8_t empty;
} ribjasper_row;

typedef struct ribjasper_surveyed {
    uint32_t blocks;
    uint32_t rest;
} ribjasper_surveyed;

int32_t ribjasper_survey(const uint8_t *stream, size_t length, uint32_t form, uint32_t lead_in, ribjasper_row *rows,
                         size_t room, ribjasper_surveyed *told);

void ribjasper_block_text_packs(const uint8_t block[RIBJASPER_BLOCK], uint8_t packs[72]);

typedef struct ribjasper_listed {
    uint64_t bytes;
    uint32_t seq;
    uint32_t byte;
} ribjasper_listed;

#define RIBJASPER_TEXT_MISSING 8
#define RIBJASPER_TEXT_NO_SIZE 9
#define RIBJASPER_TEXT_MALFORMED 10

int32_t ribjasper_texts(const uint8_t *stream, size_t length, uint32_t form, uint32_t lead_in, uint8_t *out, size_t room,
                        ribjasper_listed *told);

#ifdef __cplusplus
}
#endif

#endif
