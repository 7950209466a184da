/* Tests the layout of the structs of include/ribjasper.h, on which callers in other languages depend. The header must compile
   in each standard of C and C++, and calls that only read a player must accept a const player. */
#include "ribjasper.h"

#include <stddef.h>
#ifndef LAYOUT_ONLY
#include <stdio.h>
#endif

#if defined __cplusplus && __cplusplus >= 201103L
#define ASSERT_STATIC(name, condition) static_assert(condition, #condition)
#elif defined __STDC_VERSION__ && __STDC_VERSION__ >= 201112L
#define ASSERT_STATIC(name, condition) _Static_assert(condition, #condition)
#else
#define ASSERT_STATIC(name, condition) extern char assertion_##name[(condition) ? 1 : -1]
#endif

#define ASSERT_OFFSET(type, field, place) ASSERT_STATIC(type##_##field, offsetof(type, field) == (place))

ASSERT_STATIC(player, sizeof(ribjasper_player) == 16);
ASSERT_OFFSET(ribjasper_player, is_open, 8);

ASSERT_STATIC(pack, sizeof(ribjasper_pack) == 28);
ASSERT_OFFSET(ribjasper_pack, wrong, 24);

ASSERT_STATIC(q_frame, sizeof(ribjasper_q_frame) == 32);
ASSERT_OFFSET(ribjasper_q_frame, time, 4);
ASSERT_OFFSET(ribjasper_q_frame, absolute, 8);
ASSERT_OFFSET(ribjasper_q_frame, control, 12);
ASSERT_OFFSET(ribjasper_q_frame, mode, 13);
ASSERT_OFFSET(ribjasper_q_frame, track, 14);
ASSERT_OFFSET(ribjasper_q_frame, index, 15);
ASSERT_OFFSET(ribjasper_q_frame, disc, 16);
ASSERT_OFFSET(ribjasper_q_frame, frame, 17);
ASSERT_OFFSET(ribjasper_q_frame, text, 18);

ASSERT_STATIC(converted, sizeof(ribjasper_converted) == 16);
ASSERT_OFFSET(ribjasper_converted, blocks, 8);
ASSERT_OFFSET(ribjasper_converted, bad, 12);

ASSERT_STATIC(mended, sizeof(ribjasper_mended) == 32);
ASSERT_OFFSET(ribjasper_mended, blocks, 8);
ASSERT_OFFSET(ribjasper_mended, both, 12);
ASSERT_OFFSET(ribjasper_mended, of_first, 16);
ASSERT_OFFSET(ribjasper_mended, of_second, 20);
ASSERT_OFFSET(ribjasper_mended, agreed, 24);
ASSERT_OFFSET(ribjasper_mended, none, 28);
ASSERT_STATIC(plan_row, sizeof(ribjasper_plan_row) == 28);
ASSERT_OFFSET(ribjasper_plan_row, ready, 4);
ASSERT_OFFSET(ribjasper_plan_row, hold, 8);
ASSERT_OFFSET(ribjasper_plan_row, need, 12);
ASSERT_OFFSET(ribjasper_plan_row, free, 16);
ASSERT_OFFSET(ribjasper_plan_row, first, 20);
ASSERT_OFFSET(ribjasper_plan_row, late, 24);

ASSERT_STATIC(change, sizeof(ribjasper_change) == 20);
ASSERT_OFFSET(ribjasper_change, top, 4);
ASSERT_OFFSET(ribjasper_change, right, 8);
ASSERT_OFFSET(ribjasper_change, bottom, 12);
ASSERT_OFFSET(ribjasper_change, colours, 16);
ASSERT_OFFSET(ribjasper_change, levels, 17);

ASSERT_STATIC(counts, sizeof(ribjasper_counts) == 24);
ASSERT_OFFSET(ribjasper_counts, form, 8);
ASSERT_OFFSET(ribjasper_counts, lead_in, 12);
ASSERT_OFFSET(ribjasper_counts, blocks, 16);
ASSERT_OFFSET(ribjasper_counts, bad, 20);

ASSERT_STATIC(tally, sizeof(ribjasper_tally) == 96);
ASSERT_OFFSET(ribjasper_tally, clean, 8);
ASSERT_OFFSET(ribjasper_tally, one, 16);
ASSERT_OFFSET(ribjasper_tally, two, 24);
ASSERT_OFFSET(ribjasper_tally, bad, 32);
ASSERT_OFFSET(ribjasper_tally, frames, 40);
ASSERT_OFFSET(ribjasper_tally, bad_frames, 48);
ASSERT_OFFSET(ribjasper_tally, frame_block, 56);
ASSERT_OFFSET(ribjasper_tally, frame, 64);

ASSERT_STATIC(sheet_row, sizeof(ribjasper_sheet_row) == 28);
ASSERT_OFFSET(ribjasper_sheet_row, pregap, 4);
ASSERT_OFFSET(ribjasper_sheet_row, postgap, 8);
ASSERT_OFFSET(ribjasper_sheet_row, track, 12);
ASSERT_OFFSET(ribjasper_sheet_row, index, 13);
ASSERT_OFFSET(ribjasper_sheet_row, control, 14);
ASSERT_OFFSET(ribjasper_sheet_row, has_isrc, 15);
ASSERT_OFFSET(ribjasper_sheet_row, isrc, 16);

ASSERT_STATIC(sheet_result, sizeof(ribjasper_sheet_result) == 32);
ASSERT_STATIC(sheet_told, sizeof(struct ribjasper_sheet_told) == 32);
ASSERT_OFFSET(ribjasper_sheet_result, tracks, 4);
ASSERT_OFFSET(ribjasper_sheet_result, line, 8);
ASSERT_OFFSET(ribjasper_sheet_result, why, 12);
ASSERT_OFFSET(ribjasper_sheet_result, has_catalogue, 16);
ASSERT_OFFSET(ribjasper_sheet_result, catalogue, 17);

ASSERT_STATIC(planned, sizeof(ribjasper_planned) == 24);
ASSERT_OFFSET(ribjasper_planned, blocks, 4);
ASSERT_OFFSET(ribjasper_planned, late, 8);
ASSERT_OFFSET(ribjasper_planned, why, 12);
ASSERT_OFFSET(ribjasper_planned, line, 16);
ASSERT_OFFSET(ribjasper_planned, number, 20);

ASSERT_STATIC(row, sizeof(ribjasper_row) == 12);
ASSERT_OFFSET(ribjasper_row, clean, 4);
ASSERT_OFFSET(ribjasper_row, one, 5);
ASSERT_OFFSET(ribjasper_row, two, 6);
ASSERT_OFFSET(ribjasper_row, bad, 7);
ASSERT_OFFSET(ribjasper_row, q, 8);
ASSERT_OFFSET(ribjasper_row, track, 9);
ASSERT_OFFSET(ribjasper_row, index, 10);
ASSERT_OFFSET(ribjasper_row, empty, 11);

ASSERT_STATIC(surveyed, sizeof(ribjasper_surveyed) == 8);
ASSERT_OFFSET(ribjasper_surveyed, rest, 4);

ASSERT_STATIC(listed, sizeof(ribjasper_listed) == 16);
ASSERT_OFFSET(ribjasper_listed, seq, 8);
ASSERT_OFFSET(ribjasper_listed, byte, 12);

/* With LAYOUT_ONLY, the compiler skips the rest: the C library of the target may be missing. */
#ifndef LAYOUT_ONLY
/* The number of calls, of those that only read a player, with this answer. */
static int count_answers(const ribjasper_player *player, ribjasper_player *other, int32_t answer)
{
    static uint8_t pixels[RIBJASPER_PIXELS], picture[RIBJASPER_PICTURE], file[RIBJASPER_CHECKPOINT];
    uint16_t colours[RIBJASPER_COLOURS];
    uint8_t levels[RIBJASPER_COLOURS], number, across;
    int count = 0;
    count += ribjasper_player_pixel(player, 0, 0, &number) == answer;
    count += ribjasper_player_screen(player, pixels) == answer;
    count += ribjasper_player_rect(player, 0, 0, 1, 1, pixels, sizeof pixels, 1) == answer;
    count += ribjasper_player_picture(player, picture) == answer;
    count += ribjasper_player_colour(player, 0, colours) == answer;
    count += ribjasper_player_colours(player, colours) == answer;
    count += ribjasper_player_levels(player, levels) == answer;
    count += ribjasper_player_border(player, &number) == answer;
    count += ribjasper_player_offsets(player, &across, &number) == answer;
    count += ribjasper_player_save(player, file) == answer;
    count += ribjasper_player_copy(player, other) == answer;
    return count;
}

#define READING_CALLS 11

int main(void)
{
    static ribjasper_player zeros;
    static const ribjasper_player closed = RIBJASPER_CLOSED_STATIC; /* in read-only memory */
    ribjasper_player player = RIBJASPER_CLOSED, other = RIBJASPER_CLOSED;
    ribjasper_player_close(&zeros);
    if (ribjasper_player_open(&player) != RIBJASPER_DONE || ribjasper_player_open(&other) != RIBJASPER_DONE)
        return 1;
    if (count_answers(&player, &other, RIBJASPER_DONE) != READING_CALLS ||
        count_answers(&closed, &other, RIBJASPER_REFUSED) != READING_CALLS)
        return 1;
    ribjasper_player_close(&player);
    ribjasper_player_close(&other);
    if (ribjasper_version() != RIBJASPER_VERSION)
        return 1;
    printf("%d.%d.%d\n", RIBJASPER_VERSION_MAJOR, RIBJASPER_VERSION_MINOR, RIBJASPER_VERSION_PATCH);
    return 0;
}
#endif
