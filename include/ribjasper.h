/* This header declares the library of Ribjasper for programs in C and C++. The library contains a proved player of CD
   subcode graphics. It is licensed under MIT or Apache-2.0, at your option: (c) 2026 The Ribjasper authors.

   Link with -lribjasper. The command pkg-config --cflags --libs ribjasper prints all flags.

   Terms. Subcode is the data next to the audio of a Compact Disc, in eight channels P to W. A block is the 96 bytes of
   subcode for 1/75 second. The low six bits of each byte, channels R to W, are a symbol. A pack is a group of 24
   symbols in a stream or in a .cdg file: an instruction for the picture, and parity. Each block has room for four
   packs. A word is 24 symbols as they were read: a pack, perhaps with wrong symbols. A codeword is 24 symbols with
   valid parity. It is near a word if it differs from the word in at most two symbols. The idle pack is 24 zeros; it is
   a codeword. A stream is the blocks of a disc in order: first the lead-in, and then the program blocks, which contain
   the tracks.

   Players. A player is a value of the type ribjasper_player. It receives blocks or packs, and has the picture that they
   draw. The library has no global state, so players are independent. While no call uses a player, you may move the
   bytes of the player to another place in memory. From then on, use only the new place. To get two players that show
   the same, use ribjasper_player_copy.

   Threads. You may make calls from any thread. A call with a const player only reads the player, so any number of
   threads may make such calls on one player at the same time. While a call with a player that is not const runs, no
   other call may use that player. (ribjasper_player_copy changes only its second player.) Calls without a player have
   no data in common. Do not make calls from a signal handler. A forked process has its own copies of all players. If
   the parent had more than one thread, the child must not make calls that allocate or free memory.

   Pointers. A pointer must point to as many bytes or structs as its type or the comment of the call says. If a count or
   a length is 0, the pointer that belongs to it may be null. No other pointer may be null; the library does not check
   pointers. Two arguments must not overlap, except where a comment allows it. While a call runs, the data behind its
   pointers to const must not change. Numbers may have any value: a call refuses a number that is out of range.

   Failure. A call that fails leaves its player unchanged. It also writes nothing, except where its comment says so.

   Memory. If a player is closed, ribjasper_player_open allocates 65,080 bytes with malloc, in one request. Some other
   calls allocate memory, as their comments say. Each of them frees this memory before it returns. The calls
   ribjasper_mend.. (see Mending, below) need at most 81,920 bytes of stack; all others need at most 16,384. */
#ifndef RIBJASPER_H
#define RIBJASPER_H

#include <stdbool.h>
#include <stddef.h>
#include <stdint.h>

#ifdef __cplusplus
extern "C" {
#endif

/* If a call has this mark, the compiler warns if the return value of the call is ignored. */
#if defined __cplusplus && __cplusplus >= 201703L
#define RIBJASPER_NODISCARD [[nodiscard]]
#elif defined __STDC_VERSION__ && __STDC_VERSION__ >= 202311L
#define RIBJASPER_NODISCARD [[nodiscard]]
#elif defined __GNUC__
#define RIBJASPER_NODISCARD __attribute__((warn_unused_result))
#else
#define RIBJASPER_NODISCARD
#endif

#define RIBJASPER_VERSION_MAJOR 1
#define RIBJASPER_VERSION_MINOR 13
#define RIBJASPER_VERSION_PATCH 1

/* This is the version of this header as one number. */
#define RIBJASPER_VERSION (65536 * RIBJASPER_VERSION_MAJOR + 256 * RIBJASPER_VERSION_MINOR + RIBJASPER_VERSION_PATCH)

/* Returns the version of the linked library, as a number like RIBJASPER_VERSION. */
uint32_t ribjasper_version(void);

/* These are the answers of calls. An answer is a return value that says whether a call succeeded. The same number means
   the same in every call that returns an answer. Some calls return something else, as their comments explain.
   ribjasper_player_take returns a count. ribjasper_correct, ribjasper_pack_touches, ribjasper_tile_weight and
   ribjasper_text_pack_matches return a number. ribjasper_q_decode returns codes of its own. The comments of the calls
   use other names for the same numbers, for example RIBJASPER_DONE for RIBJASPER_ANSWER_DONE. These names are older;
   you may use both. */
typedef enum ribjasper_answer {
    RIBJASPER_ANSWER_REFUSED = -1,       /* a player is closed, or cannot be opened, saved or copied; or a number is
                                            out of range */
    RIBJASPER_ANSWER_DONE = 0,           /* done */
    RIBJASPER_ANSWER_DAMAGED = 1,        /* done, but some words could not be corrected */
    RIBJASPER_ANSWER_USAGE = 2,          /* a number is out of range, in calls on whole streams and texts */
    RIBJASPER_ANSWER_BAD_INPUT = 3,      /* the stream, the file or the text is refused */
    RIBJASPER_ANSWER_LATE = 4,           /* done, but pictures are late */
    RIBJASPER_ANSWER_NO_ROOM = 6,        /* the output that you passed is too small */
    RIBJASPER_ANSWER_NO_MEMORY = 7,      /* out of memory: malloc failed */
    RIBJASPER_ANSWER_TEXT_MISSING = 8,   /* a CD-TEXT pack is missing */
    RIBJASPER_ANSWER_TEXT_NO_SIZE = 9,   /* one of the three CD-TEXT packs with the sizes is missing */
    RIBJASPER_ANSWER_TEXT_MALFORMED = 10 /* a byte of a CD-TEXT pack is invalid */
} ribjasper_answer;

#define RIBJASPER_DONE 0
#define RIBJASPER_REFUSED (-1)

#define RIBJASPER_ANSWER_TEXT 64 /* bytes of a text of ribjasper_answer_text, with a zero at the end */

/* Writes what an answer means, in English: at most 63 characters, padded with zeros. Pass only answers, not the counts
   that some calls return.
     answer: the answer that a call returned
     text: the output, 64 bytes */
void ribjasper_answer_text(int32_t answer, char text[RIBJASPER_ANSWER_TEXT]);

#define RIBJASPER_BLOCK 96     /* bytes of a raw block; in each byte, bit 7 is channel P, bit 0 is channel W */
#define RIBJASPER_WIDTH 300    /* width of the screen in pixels */
#define RIBJASPER_HEIGHT 216   /* height of the screen in pixels, with the border */
#define RIBJASPER_PIXELS 64800 /* the number of pixels of the screen (in outputs: row by row, from the top left) */
#define RIBJASPER_COLOURS 16   /* the number of colours of a player */
#define RIBJASPER_PICTURE 194400 /* bytes of a picture: three for each pixel, as in RIBJASPER_RGB */
#define RIBJASPER_WINDOW_LEFT 6     /* the first column of the window (the part of the screen inside the border) */
#define RIBJASPER_WINDOW_TOP 12     /* the first row of the window */
#define RIBJASPER_WINDOW_WIDTH 288  /* the width of the window in pixels */
#define RIBJASPER_WINDOW_HEIGHT 192 /* the height of the window in pixels */
#define RIBJASPER_TILE_WIDTH 6      /* width of a tile in pixels */
#define RIBJASPER_TILE_HEIGHT 12    /* height of a tile in pixels */
#define RIBJASPER_TILE_COLUMNS 50   /* how many tiles are in a row of a player's memory */
#define RIBJASPER_TILE_ROWS 18      /* how many rows of tiles are in this memory */

#define RIBJASPER_PACK 24               /* bytes of a pack */
#define RIBJASPER_SECTOR 2448           /* bytes of a sector: audio and a raw block */
#define RIBJASPER_PACKS_A_BLOCK 4       /* packs of a block */
#define RIBJASPER_BLOCKS_A_SECOND 75    /* blocks in a second */
#define RIBJASPER_PACKS_A_SECOND 300    /* packs in a second */
#define RIBJASPER_PACKS_BEHIND 7        /* how many packs at the end of a raw stream are not complete yet */
#define RIBJASPER_MOST_LEAD_IN 450000   /* maximum number of blocks of a lead-in */
#define RIBJASPER_MOST_AUDIO 449999     /* maximum number of audio blocks in ribjasper_plan */
#define RIBJASPER_MOST_BLOCKS 1000000   /* maximum number of blocks of a whole stream */
#define RIBJASPER_MOST_TEXT 67108864    /* maximum number of bytes of a cue sheet or a picture script */
#define RIBJASPER_MOST_SHEET_ROWS 9900  /* maximum number of INDEX lines of a cue sheet */
#define RIBJASPER_MOST_TEXTS 1048576    /* maximum number of bytes that ribjasper_texts writes */

/* Returns the number of blocks that are complete after a time.
     milliseconds: the time since the first block began */
uint32_t ribjasper_blocks_after(uint32_t milliseconds);

/* Returns the number of packs that are complete after a time.
     milliseconds: the time since the first pack began */
uint32_t ribjasper_packs_after(uint32_t milliseconds);

/* Returns the smallest time in milliseconds after which this number of blocks is complete.
     blocks: the number of blocks */
uint64_t ribjasper_time_of_blocks(uint32_t blocks);

/* Returns the smallest time in milliseconds after which this number of packs is complete.
     packs: the number of packs */
uint64_t ribjasper_time_of_packs(uint32_t packs);

/* These are the forms of a stream. A form says how the bytes of a stream are stored. RIBJASPER_RAW means raw blocks of
   96 bytes. RIBJASPER_PACKS (the form `cooked` of the commands) means packs of 24 bytes, four in each block of 96
   bytes. In contrast to raw blocks, the symbols of each pack are next to each other. A player corrects these packs by
   their parity. RIBJASPER_SECTORS means sectors of 2,448 bytes, each with 2,352 bytes of audio and a raw block. Only
   ribjasper_convert, ribjasper_survey and ribjasper_texts accept sectors.

   The packs of a .cdg file may have no valid parity. Do not feed such packs as RIBJASPER_PACKS: usually no codeword is
   near them, so they draw nothing and count as bad words. (Only packs of 24 zeros are codewords nevertheless.) The call
   ribjasper_packs_parity detects a .cdg file without valid parity. Either draw the packs of this file with
   ribjasper_player_draw_all, which ignores parity, or first compute their parity with ribjasper_packs_seal. */
#define RIBJASPER_RAW 0
#define RIBJASPER_PACKS 1
#define RIBJASPER_SECTORS 2

/* A player. Initialize a new player with RIBJASPER_CLOSED or with zeros. Change a player only by the calls below. Never
   use two copies of the bytes of an open player. */
typedef struct ribjasper_player {
    struct {
        void *at;
    } handle;
    bool is_open;
} ribjasper_player;

/* RIBJASPER_CLOSED is a closed player. Use it to initialize a player or to assign to one: `ribjasper_player player =
   RIBJASPER_CLOSED;`. A static player needs no initializer, since it consists of zeros. Some compilers accept only
   constants as initializers of a static player (gcc -pedantic); use RIBJASPER_CLOSED_STATIC there. In C89 and C++98,
   only gcc and clang accept RIBJASPER_CLOSED in an assignment; other compilers accept it only as an initializer.
   RIBJASPER_CLOSED_PLAYER is an older name of RIBJASPER_CLOSED. */
#define RIBJASPER_CLOSED_STATIC { { NULL }, false }
#if defined __cplusplus && __cplusplus >= 201103L
#define RIBJASPER_CLOSED (ribjasper_player RIBJASPER_CLOSED_STATIC)
#elif !defined __cplusplus && defined __STDC_VERSION__ && __STDC_VERSION__ >= 199901L
#define RIBJASPER_CLOSED ((ribjasper_player) RIBJASPER_CLOSED_STATIC)
#elif defined __GNUC__
#define RIBJASPER_CLOSED (__extension__(ribjasper_player) RIBJASPER_CLOSED_STATIC)
#else
#define RIBJASPER_CLOSED RIBJASPER_CLOSED_STATIC
#endif
#define RIBJASPER_CLOSED_PLAYER RIBJASPER_CLOSED

/* Opens a player for a raw stream without lead-in. If the player is already open, it keeps its memory and is reset, and
   the call succeeds. Otherwise the call allocates memory, which ribjasper_player_close frees.
     player: the player
   Returns RIBJASPER_DONE, or RIBJASPER_REFUSED if the player was closed and malloc failed. In this case the player stays
   closed. */
RIBJASPER_NODISCARD int32_t ribjasper_player_open(ribjasper_player *player);

/* Closes a player and frees its memory. If the player is already closed, nothing happens. Close each open player once.
     player: the player */
void ribjasper_player_close(ribjasper_player *player);

/* Resets an open player: it forgets all blocks and packs, and a new stream begins.
     player: the player
     form: RIBJASPER_RAW or RIBJASPER_PACKS (the comment of RIBJASPER_PACKS explains .cdg files without parity)
     lead_in: the number of blocks at the start that the player ignores, at most 450,000
   Returns RIBJASPER_DONE, or RIBJASPER_REFUSED if the player is closed or a number is out of range. */
RIBJASPER_NODISCARD int32_t ribjasper_player_begin(ribjasper_player *player, uint32_t form, uint32_t lead_in);

/* Feeds an open player the next block of its stream, and draws the words that are complete with this block. The player
   corrects each word to the codeword near it, and draws this codeword. If no codeword is near a word, the word draws
   nothing. In a raw stream, the symbols of a word are spread over up to three blocks. So the last seven words
   (RIBJASPER_PACKS_BEHIND) are not drawn yet, and the picture is 23 milliseconds behind the blocks. In the form
   RIBJASPER_PACKS, every word is drawn at once. You may feed any number of blocks.
     player: the player
     block: 96 bytes
   Returns RIBJASPER_DONE, or RIBJASPER_REFUSED if the player is closed. */
int32_t ribjasper_player_feed(ribjasper_player *player, const uint8_t block[RIBJASPER_BLOCK]);

/* This struct is a word of a stream. If a codeword is near the word, `symbols` are the 24 symbols of this codeword (6
   bits each), and `wrong` is the number of corrected symbols, 0 to 2. Otherwise `wrong` is -1, and `symbols` are the
   symbols as they were read; such a word draws nothing. */
typedef struct ribjasper_pack {
    uint8_t symbols[24];
    int32_t wrong;
} ribjasper_pack;

/* Feeds an open player the next block, as ribjasper_player_feed does, and writes the words that are complete with this
   block.
     player: the player
     block: 96 bytes
     packs: the output, with room for four words; entries beyond the returned number stay unchanged
   Returns the number of words, 0 to 4, or RIBJASPER_REFUSED if the player is closed. */
int32_t ribjasper_player_take(ribjasper_player *player, const uint8_t block[RIBJASPER_BLOCK], ribjasper_pack packs[4]);

/* Draws one pack, as players draw the packs of a .cdg file: the low six bits of each byte are a symbol, and parity is
   ignored. You may draw packs and feed blocks in any order. The screen shows what all these calls have drawn since
   ribjasper_player_open or ribjasper_player_begin, in the order of the calls. Drawing a pack does not disturb the
   stream of blocks.
     player: the player
     pack: 24 bytes
   Returns RIBJASPER_DONE, or RIBJASPER_REFUSED if the player is closed. */
int32_t ribjasper_player_draw(ribjasper_player *player, const uint8_t pack[24]);

/* This struct is the part of the screen that a call may have changed. The part is a rectangle with the pixels from
   column `left` to column `right` - 1, in the rows `top` to `bottom` - 1. If `left` is 300, the rectangle is empty.
   `colours` is 1 if the red, green and blue values of colours may have changed, otherwise 0. `levels` is 1 if
   transparency levels may have changed, otherwise 0. If colours or levels changed, any pixel may look different,
   although its colour number is the same. Nothing else on the screen changed. */
typedef struct ribjasper_change {
    uint32_t left;
    uint32_t top;
    uint32_t right;
    uint32_t bottom;
    uint8_t colours;
    uint8_t levels;
} ribjasper_change;

/* Feeds an open player many blocks, as ribjasper_player_feed does with one, and reports the part of the screen that may
   have changed. This part is the smallest rectangle around the tiles that were drawn. If a memory preset or a scroll
   was drawn, the rectangle is the window (the part of the screen inside the border). If a border preset was drawn, it
   is the whole screen. One call for many blocks is faster than a call for each block.
     player: the player
     blocks: the blocks, 96 bytes each, one after another
     count: the number of blocks
     change: the output: the part that may have changed
   Returns RIBJASPER_DONE, or RIBJASPER_REFUSED if the player is closed. */
int32_t ribjasper_player_feed_all(ribjasper_player *player, const uint8_t *blocks, size_t count,
                                  ribjasper_change *change);

/* Draws many packs, as ribjasper_player_draw does with one, and reports the part of the screen that may have changed.
     player: the player
     packs: the packs, 24 bytes each, one after another
     count: the number of packs
     change: the output: the part that may have changed
   Returns RIBJASPER_DONE, or RIBJASPER_REFUSED if the player is closed. */
int32_t ribjasper_player_draw_all(ribjasper_player *player, const uint8_t *packs, size_t count, ribjasper_change *change);

/* This struct has the counts of a player. The counts begin at 0 when the player is opened or a new stream begins. A
   player that was restored from a checkpoint continues with the counts of the checkpoint. `blocks` is the number of
   blocks, including the lead-in. `words` is the number of words that were complete in the program blocks. `bad` is the
   number of these words that have no codeword near. Packs that you draw with ribjasper_player_draw or
   ribjasper_player_draw_all are not counted. `form` and `lead_in` are the form and the number of lead-in blocks of the
   player's stream. `blocks` and `bad` saturate at 4,294,967,295. */
typedef struct ribjasper_counts {
    uint64_t words;
    uint32_t form;
    uint32_t lead_in;
    uint32_t blocks;
    uint32_t bad;
} ribjasper_counts;

/* Writes the counts of a player. If you need more detailed counts, use ribjasper_player_feed_counted.
     player: the player
     counts: the output
   Returns RIBJASPER_DONE, or RIBJASPER_REFUSED if the player is closed. */
int32_t ribjasper_player_counts(const ribjasper_player *player, ribjasper_counts *counts);

/* Writes the colour number of one pixel of the screen, 0 to 15.
     player: the player
     x: the column, 0 to 299 from the left
     y: the row, 0 to 215 from the top
     pixel: the output
   Returns RIBJASPER_DONE, or RIBJASPER_REFUSED if the player is closed or the place is not on the screen. */
int32_t ribjasper_player_pixel(const ribjasper_player *player, uint32_t x, uint32_t y, uint8_t *pixel);

/* Writes the colour numbers of all pixels of the screen, 0 to 15. Pixel (x, y) is at index 300 y + x.
     player: the player
     pixels: the output, 64,800 bytes
   Returns RIBJASPER_DONE, or RIBJASPER_REFUSED if the player is closed. */
int32_t ribjasper_player_screen(const ribjasper_player *player, uint8_t pixels[RIBJASPER_PIXELS]);

/* Writes the colour numbers of a rectangle of the screen, row by row.
     player: the player
     x, y: the first column and the first row
     width, height: the size in pixels
     pixels, room: the output and its size in bytes
     stride: the bytes from the start of a row to the start of the next, at least `width`; bytes between rows stay
       unchanged
   Returns RIBJASPER_DONE, or RIBJASPER_REFUSED if the player is closed or the rectangle does not fit. It does not fit if
   x + width is above 300, if y + height is above 216, if `stride` is below `width`, or if the last row ends beyond
   `room`. */
RIBJASPER_NODISCARD
int32_t ribjasper_player_rect(const ribjasper_player *player, uint32_t x, uint32_t y, uint32_t width, uint32_t height,
                              uint8_t *pixels, size_t room, uint32_t stride);

/* Writes the red, green and blue values of all pixels of the screen. The three bytes of pixel (x, y) begin at byte
   3 (300 y + x).
     player: the player
     bytes: the output, 194,400 bytes
   Returns RIBJASPER_DONE, or RIBJASPER_REFUSED if the player is closed. */
int32_t ribjasper_player_picture(const ribjasper_player *player, uint8_t bytes[RIBJASPER_PICTURE]);

/* These are the formats of pixels. Each format has a number, and its comment lists the bytes of a pixel in order. In the
   formats RGBA_LEVELS and BGRA_LEVELS, the last byte is the opacity of the pixel: 255 - (4 L + L / 16), where L is the
   transparency level of the pixel's colour, and L / 16 is rounded down. So level 0 is opaque (255), and level 63 is
   transparent (0). */
#define RIBJASPER_INDEXED 0     /* 1 byte: the colour number */
#define RIBJASPER_RGB 1         /* 3 bytes: red, green, blue; each is 17 times the four bits of the colour */
#define RIBJASPER_RGBA 2        /* 4 bytes: red, green, blue, 255 */
#define RIBJASPER_BGRA 3        /* 4 bytes: blue, green, red, 255 */
#define RIBJASPER_RGBA_LEVELS 4 /* 4 bytes: red, green, blue, opacity */
#define RIBJASPER_BGRA_LEVELS 5 /* 4 bytes: blue, green, red, opacity */
#define RIBJASPER_RGB565 6      /* 2 bytes, the low one first: the highest 5 bits of red, 6 of green, 5 of blue */

/* Writes a rectangle of the screen in one of these formats, row by row.
     player: the player
     format: a format of pixels
     x, y: the first column and the first row
     width, height: the size in pixels
     out, room: the output and its size in bytes
     stride: the bytes from the start of a row to the start of the next, at least the bytes of a row; bytes between rows
       stay unchanged
   Returns RIBJASPER_DONE, or RIBJASPER_REFUSED if the player is closed, the format is unknown, or the rectangle does
   not fit. It does not fit if x + width is above 300, if y + height is above 216, if `stride` is below the bytes of a
   row, or if the last row ends beyond `room`. */
RIBJASPER_NODISCARD
int32_t ribjasper_player_pixels(const ribjasper_player *player, uint32_t format, uint32_t x, uint32_t y, uint32_t width,
                                uint32_t height, uint8_t *out, size_t room, uint32_t stride);

/* Writes one of the sixteen colours as 0xRGB: four bits each for red, green and blue.
     player: the player
     k: the number of the colour, 0 to 15
     colour: the output
   Returns RIBJASPER_DONE, or RIBJASPER_REFUSED if the player is closed or `k` is above 15. */
RIBJASPER_NODISCARD int32_t ribjasper_player_colour(const ribjasper_player *player, uint8_t k, uint16_t *colour);

/* Writes all sixteen colours, each as 0xRGB: four bits each for red, green and blue.
     player: the player
     colours: the output
   Returns RIBJASPER_DONE, or RIBJASPER_REFUSED if the player is closed. */
int32_t ribjasper_player_colours(const ribjasper_player *player, uint16_t colours[RIBJASPER_COLOURS]);

/* Writes the transparency levels of all colours, from 0 (opaque) to 63 (transparent).
     player: the player
     levels: the output
   Returns RIBJASPER_DONE, or RIBJASPER_REFUSED if the player is closed. */
int32_t ribjasper_player_levels(const ribjasper_player *player, uint8_t levels[RIBJASPER_COLOURS]);

/* Writes the colour number of the border, 0 to 15.
     player: the player
     border: the output
   Returns RIBJASPER_DONE, or RIBJASPER_REFUSED if the player is closed. */
int32_t ribjasper_player_border(const ribjasper_player *player, uint8_t *border);

/* Writes the offsets of the screen. A player has a memory of 300 by 216 pixels, into which packs draw. Inside the
   border, pixel (x, y) of the screen shows pixel (x + across, y + down) of this memory.
     player: the player
     across, down: the outputs, 0 to 5 and 0 to 11
   Returns RIBJASPER_DONE, or RIBJASPER_REFUSED if the player is closed. */
int32_t ribjasper_player_offsets(const ribjasper_player *player, uint8_t *across, uint8_t *down);

/* Checkpoints. A checkpoint is a file with the state of a player. It has the format that `ribjasper save` writes. */
#define RIBJASPER_CHECKPOINT 65045 /* bytes of a checkpoint */
#define RIBJASPER_NO_CHECKPOINT 3  /* what ribjasper_player_load returns if the bytes are not a checkpoint */

/* Writes the checkpoint of a player of a raw stream. The checkpoint contains the number of blocks, the number of bad
   words, the last seven slots (groups of 24 symbols), and the state of the screen. It does not say how many packs you
   drew directly (with ribjasper_player_draw or ribjasper_player_draw_all). This call allocates 65,056 bytes.
     player: the player
     file: the output, 65,045 bytes
   Returns RIBJASPER_DONE, or RIBJASPER_NO_MEMORY if malloc failed. It returns RIBJASPER_REFUSED if the player is closed,
   if its form is RIBJASPER_PACKS, or if it was fed more than 1,000,000 blocks. */
RIBJASPER_NODISCARD int32_t ribjasper_player_save(const ribjasper_player *player, uint8_t file[RIBJASPER_CHECKPOINT]);

/* Restores an open player from a checkpoint. The player then continues exactly like the saved player, in a raw stream.
   This call allocates 65,056 bytes if the file is a checkpoint.
     player: the player
     file: the checkpoint, 65,045 bytes
     byte: if the file is not a checkpoint, the number of the byte at which the first invalid field begins
   Returns RIBJASPER_DONE, or RIBJASPER_REFUSED if the player is closed, or RIBJASPER_NO_MEMORY if malloc failed. It
   returns RIBJASPER_NO_CHECKPOINT if the file is not a checkpoint; only in this case, it writes `byte`. */
RIBJASPER_NODISCARD
int32_t ribjasper_player_load(ribjasper_player *player, const uint8_t file[RIBJASPER_CHECKPOINT], uint32_t *byte);

/* Copies an open player into another open player. The second player then shows the same and continues in the same way.
   The first player may have any form, and may have been fed any number of blocks.
     from: the player that is copied
     to: the player that changes
   Returns RIBJASPER_DONE, or RIBJASPER_REFUSED if one of them is closed or both are the same player. */
RIBJASPER_NODISCARD int32_t ribjasper_player_copy(const ribjasper_player *from, ribjasper_player *to);

/* Marks make seeking fast. A mark is a copy of a player at one place of a stream, in your own memory. At first, fill
   all marks with zeros, which means that they are not set. After that, only the calls below may change marks. Use a list
   of marks for only one stream, and always with the same form and the same number of lead-in blocks. For another stream,
   fill all marks with zeros again. You may copy a mark byte for byte. */
typedef struct ribjasper_mark {
    uint64_t place;       /* how many blocks or packs the player received; 0 if the mark is not set */
    uint64_t state[8135]; /* the state of the player */
} ribjasper_mark;

/* Seeks in a stream of blocks: the player gets the same state as after ribjasper_player_begin and feeding the first N
   blocks, where N is the parameter `to`. Marks are numbered from 0, and mark k is for the place (k + 1) * every (a
   number of blocks). The call starts from the last mark that is set and not after block `to`. If there is no such mark,
   it starts from the start of the stream. On the way, it sets the marks. So if all marks up to a place are set, a seek
   to this place feeds fewer than `every` blocks.
     player: the player, which must be open
     form, lead_in: as in ribjasper_player_begin
     blocks, count: the blocks of the stream from its start, including the lead-in, 96 bytes each, and their number
     to: the number of blocks, at most `count`
     marks, marks_count: the marks and their number, which may be 0
     every: the number of blocks from one mark to the next, at least 1
   Returns RIBJASPER_DONE, or RIBJASPER_REFUSED if the player is closed or a number is out of range. */
RIBJASPER_NODISCARD
int32_t ribjasper_player_seek(ribjasper_player *player, uint32_t form, uint32_t lead_in, const uint8_t *blocks,
                              size_t count, uint64_t to, ribjasper_mark *marks, size_t marks_count, uint32_t every);

/* Seeks in a list of packs, such as a .cdg file: the player gets the same state as after ribjasper_player_begin and
   drawing the first `to` packs. Marks work as in ribjasper_player_seek.
     player: the player, which must be open; it continues as a player of a raw stream without lead-in
     packs, count: the packs from the first one on, 24 bytes each, and their number
     to: the number of packs, at most `count`
     marks, marks_count: the marks and their number, which may be 0
     every: the number of packs from one mark to the next, at least 1
   Returns RIBJASPER_DONE, or RIBJASPER_REFUSED if the player is closed or a number is out of range. */
RIBJASPER_NODISCARD
int32_t ribjasper_player_seek_packs(ribjasper_player *player, const uint8_t *packs, size_t count, uint64_t to,
                                    ribjasper_mark *marks, size_t marks_count, uint32_t every);

/* ribjasper_pack_touches returns the number of a tile if the instruction draws this tile. For any other instruction, it
   returns one of the following results. The memory of a player consists of tiles: each row of tiles is twelve pixels
   high, and each column is six pixels wide. The screen shows each tile moved left and up by the offsets. The outermost
   tiles of the screen are under the border. */
#define RIBJASPER_TOUCHES_NOTHING 900 /* for example the idle pack */
#define RIBJASPER_TOUCHES_ALL 901     /* the whole memory, and the offsets */
#define RIBJASPER_TOUCHES_BORDER 902
#define RIBJASPER_TOUCHES_COLOURS 903 /* red, green and blue of eight colours */
#define RIBJASPER_TOUCHES_LEVELS 904  /* the transparency levels of all colours */

/* Reports what the instruction of a pack can change in any player. The instruction changes nothing else.
     pack: 24 bytes
   Returns 0 to 899 for a tile of the memory (50 times its row plus its column), or one of RIBJASPER_TOUCHES_NOTHING to
   RIBJASPER_TOUCHES_LEVELS. The result is not a ribjasper_answer. */
int32_t ribjasper_pack_touches(const uint8_t pack[24]);

/* Reports the part of the screen that may change if a pack is drawn. A tile at row r and column c has these pixels on
   the screen:
     x = max(6, 6 c - across) to min(293, 6 c + 5 - across);
     y = max(12, 12 r - down) to min(203, 12 r + 11 - down).
     pack: 24 bytes
     across, down: the offsets of the screen, as ribjasper_player_offsets writes them
     change: the output
   Returns RIBJASPER_DONE, or RIBJASPER_REFUSED if `across` is above 5 or `down` above 11. */
RIBJASPER_NODISCARD
int32_t ribjasper_pack_change(const uint8_t pack[24], uint8_t across, uint8_t down, ribjasper_change *change);

/* Returns the smallest number of packs that draw a tile over any earlier content, 1 to 4, or -1 if a colour number is
   above 15. The result depends only on the set of colours in the tile, not on their places. (If a tile already has the
   right content, it needs no pack.) The result is not a ribjasper_answer.
     pixels: the colour numbers of the tile, row by row */
int32_t ribjasper_tile_weight(const uint8_t pixels[72]);

/* Corrects a word: writes the codeword near it. The low six bits of each byte are a symbol.
     word: 24 bytes
     out: the codeword, 24 bytes
   Returns the number of wrong symbols, 0 to 2. If no codeword is near the word, it returns -1 and writes nothing. The
   result is not a ribjasper_answer. */
int32_t ribjasper_correct(const uint8_t word[24], uint8_t out[24]);

/* This struct counts packs with valid and with invalid parity. A pack with even one wrong symbol counts as `invalid`.
   The sum of the three numbers is the number of packs. */
typedef struct ribjasper_parity {
    uint64_t idle;    /* packs whose 24 symbols are 0; their parity is valid */
    uint64_t valid;   /* other packs whose parity is valid */
    uint64_t invalid; /* packs whose parity is not valid */
} ribjasper_parity;

/* Counts packs by their parity. In a .cdg file without parity, `valid` is 0 or far below `invalid`. The low six bits of
   each byte are a symbol.
     packs: the packs, 24 bytes each, one after another
     count: the number of packs
     parity: the output */
void ribjasper_packs_parity(const uint8_t *packs, size_t count, ribjasper_parity *parity);

/* Computes the parity of packs and writes it into the packs, so that a player with the form RIBJASPER_PACKS draws them.
   For given symbols 0, 1 and 4 to 19, there is exactly one codeword. Each pack becomes this codeword. The upper two
   bits of each byte become 0. A pack with valid parity keeps its symbols. Do not use this call for packs that have
   parity and may be damaged: afterwards, a wrong symbol would count as a right one.
     packs: the packs, 24 bytes each, one after another; the call writes all of them
     count: the number of packs */
void ribjasper_packs_seal(uint8_t *packs, size_t count);

/* Returns 1 if the last two bytes of a CD-TEXT pack are the CRC of its other bytes, otherwise 0. The result is not a
   ribjasper_answer.
     pack: 18 bytes */
int32_t ribjasper_text_pack_matches(const uint8_t pack[18]);

/* Writes the 24 symbols that carry a CD-TEXT pack in a lead-in, each below 64. The symbols of four such packs are the
   symbols of a block.
     pack: 18 bytes
     symbols: the output, 24 bytes */
void ribjasper_text_pack_symbols(const uint8_t pack[18], uint8_t symbols[24]);

/* These are the kinds of a frame of the Q channel. Names in parentheses are fields of ribjasper_q_frame. */
#define RIBJASPER_Q_PROGRAM 0   /* the position on the disc: track, index, time and absolute */
#define RIBJASPER_Q_TRACK 1     /* table of contents: a track (track) and the start of its music (absolute) */
#define RIBJASPER_Q_FIRST 2     /* table of contents: the first track (track), and the disc's type (disc): 0 is CD-DA or
                                   CD-ROM, 16 is CD-i, 32 is XA */
#define RIBJASPER_Q_LAST 3      /* table of contents: the last track (track) */
#define RIBJASPER_Q_LEAD_OUT 4  /* table of contents: the start of the lead-out (absolute) */
#define RIBJASPER_Q_CATALOGUE 5 /* the catalogue number: thirteen digits (text); of the disc time, only the 1/75
                                   seconds (frame) */
#define RIBJASPER_Q_ISRC 6      /* the track's recording code: twelve characters (text); frame as for kind 5 */
#define RIBJASPER_Q_OTHER 7     /* any other frame: its ADR (mode), and its bytes 1 to 9, counted from 0 (text) */

/* This struct is a frame of the Q channel. All kinds use `control`, and the kinds 0 to 4 use `time`. The comment of each
   kind, above, names its further fields. ribjasper_q_decode writes zeros to all other fields, and ribjasper_q_encode
   ignores them. Times are numbers of blocks, 75 a second, below 450,000. */
typedef struct ribjasper_q_frame {
    uint32_t kind;     /* one of the kinds above */
    uint32_t time;     /* kind 0: the distance from the start of the music; kinds 1 to 4: the time in the lead-in */
    uint32_t absolute; /* the time from the start of program block 0 */
    uint8_t control;   /* 0 to 15: 8 four channels, 4 data, 2 copying permitted, 1 pre-emphasis */
    uint8_t mode;      /* the field ADR, 0 to 15: the four bits after CONTROL */
    uint8_t track;     /* a track number, 1 to 99 */
    uint8_t index;     /* an index number, 0 to 99; 0 is the pause before the music of a track */
    uint8_t disc;      /* the type of the disc, any byte */
    uint8_t frame;     /* the 1/75 seconds of the absolute time, 0 to 74 */
    uint8_t text[13];  /* ASCII characters; kind 7: nine bytes of the frame, unchanged */
} ribjasper_q_frame;

#define RIBJASPER_BAD_CHECK 1 /* the CRC is wrong */
#define RIBJASPER_BAD_FIELD 2 /* a field is out of range */

/* Decodes the twelve bytes of a frame of the Q channel.
     bytes: the frame, 12 bytes
     frame: the output
     bit: if a field is refused, the first bit of this field, 0 to 95
   Returns RIBJASPER_DONE. It returns RIBJASPER_BAD_CHECK if the last sixteen bits are not the CRC of the others. It
   returns RIBJASPER_BAD_FIELD if a field is out of range; then it writes only `bit`, for the first such field. */
RIBJASPER_NODISCARD int32_t ribjasper_q_decode(const uint8_t bytes[12], ribjasper_q_frame *frame, uint8_t *bit);

/* Encodes a frame of the Q channel as twelve bytes.
     frame: the frame
     bytes: the output, 12 bytes
   Returns RIBJASPER_DONE, or RIBJASPER_REFUSED if a field is out of range. */
RIBJASPER_NODISCARD int32_t ribjasper_q_encode(const ribjasper_q_frame *frame, uint8_t bytes[12]);

/* Converts a raw block to the planar form, which has twelve bytes for each channel from P to W. In each byte, the
   highest bit comes first. Channel Q is bytes 12 to 23, as ribjasper_q_decode reads them.
     block: 96 bytes
     planar: the output, 96 bytes */
void ribjasper_block_to_planar(const uint8_t block[RIBJASPER_BLOCK], uint8_t planar[RIBJASPER_BLOCK]);

/* Converts a block from the planar form to the raw form.
     planar: 96 bytes
     block: the output, 96 bytes */
void ribjasper_block_from_planar(const uint8_t planar[RIBJASPER_BLOCK], uint8_t block[RIBJASPER_BLOCK]);

/* Converts many raw blocks to the planar form: all blocks of the input, or as many as fit into the output. The rest of
   the output stays unchanged.
     blocks, count: raw blocks of 96 bytes, and their number
     planar, room: the output, and the number of blocks that fit into it */
void ribjasper_blocks_to_planar(const uint8_t *blocks, size_t count, uint8_t *planar, size_t room);

/* Converts many blocks from the planar form to the raw form: all blocks of the input, or as many as fit into the
   output. The rest of the output stays unchanged.
     planar, count: planar blocks of 96 bytes, and their number
     blocks, room: the output, and the number of blocks that fit into it */
void ribjasper_blocks_from_planar(const uint8_t *planar, size_t count, uint8_t *blocks, size_t room);

/* A tally has detailed counts of the blocks that a player was fed. Initialize it with zeros. Each count saturates. */
typedef struct ribjasper_tally {
    uint64_t blocks;         /* blocks, including the lead-in */
    uint64_t clean;          /* words without a wrong symbol */
    uint64_t one;            /* words with one wrong symbol, which was corrected */
    uint64_t two;            /* words with two wrong symbols, which were corrected */
    uint64_t bad;            /* words with no codeword near */
    uint64_t frames;         /* valid frames of the Q channel, at most one in each block; 0 for RIBJASPER_PACKS */
    uint64_t bad_frames;     /* bad Q frames: with a wrong CRC or an impossible value */
    uint64_t frame_block;    /* the number of the block with the last valid frame, from 1; 0 if there is none */
    ribjasper_q_frame frame; /* this last valid frame, or zeros if there is none */
} ribjasper_tally;

/* Feeds an open player the next block, as ribjasper_player_feed does, and adds its words and its Q frame to a tally. If
   you use the tally from the first block on, its counts of words and frames are those of the command `ribjasper check`
   for all blocks so far. Saving, restoring or copying a player does not include the tally, so keep a copy of the tally
   together with a checkpoint.
     player: the player
     block: 96 bytes
     tally: the counts, which are read and written
   Returns RIBJASPER_DONE, or RIBJASPER_REFUSED if the player is closed. */
int32_t ribjasper_player_feed_counted(ribjasper_player *player, const uint8_t block[RIBJASPER_BLOCK],
                                      ribjasper_tally *tally);

/* This struct is the result of converting a stream. `bytes` is the number of bytes written, and `blocks` is the number
   of program blocks. `bad` is the number of words with no codeword near; such words are written as 24 zeros. */
typedef struct ribjasper_converted {
    uint64_t bytes;
    uint32_t blocks;
    uint32_t bad;
} ribjasper_converted;

/* These are the return values of calls on whole streams. They equal the exit statuses of the command ribjasper. */
#define RIBJASPER_CONVERTED 0 /* done */
#define RIBJASPER_DAMAGED 1   /* done, but some words could not be corrected */
#define RIBJASPER_USAGE 2     /* a number is out of range, for example `lead_in` above 450,000 */
#define RIBJASPER_TORN 3      /* the input is refused: a stream does not consist of whole blocks or sectors, or has
                                 more than 1,000,000 of them; or a line of a sheet has an error */
#define RIBJASPER_NO_ROOM 6   /* the output is too small */
#define RIBJASPER_NO_MEMORY 7 /* out of memory, only from calls that allocate */

/* Converts a stream to its packs, with damage corrected, and writes 24 bytes for each word. B program blocks have 4 B -
   7 words (none if B is below 2). In the form RIBJASPER_PACKS they have 4 B words (the comment of RIBJASPER_PACKS
   explains .cdg files without parity).
     stream, length: the stream, and its length in bytes
     form: RIBJASPER_RAW, RIBJASPER_PACKS or RIBJASPER_SECTORS
     lead_in: the number of blocks at the start that are ignored, at most 450,000
     packs, room: the output, and its size in bytes
     result: the counts
   Returns RIBJASPER_CONVERTED or RIBJASPER_DAMAGED. Otherwise the call failed, and it returns the first of these answers
   that applies: RIBJASPER_USAGE, RIBJASPER_TORN, RIBJASPER_NO_ROOM. */
RIBJASPER_NODISCARD
int32_t ribjasper_convert(const uint8_t *stream, size_t length, uint32_t form, uint32_t lead_in, uint8_t *packs,
                          size_t room, ribjasper_converted *result);

/* Mending. A disc may be read several times; the blocks from each time are a reading. From all readings, the calls
   below choose the best codeword for each word. The symbols of word n are in the program blocks n / 4 to (n + 7) / 4,
   both rounded down. A block is unread if its 96 bytes are 0. If you know that a block was not read, write zeros over
   it.

   Each reading has its own symbols for word n. A reading has a codeword at word n if the codeword is near these
   symbols. The distance of the codeword is the number of symbols in which the codeword differs from these symbols, 0 to
   2. There are two exceptions. If a block of the word is unread and the codeword is the idle pack, the distance is 3.
   If all blocks of the word are unread, the word is unread, and the reading has no codeword there. A reading is quiet
   at a word if it has the idle pack there, or if the word is unread.

   Sometimes a drive returns no graphics for a part of a disc, so the reading has idle packs there. A reading misses
   graphics at a word if it has the idle pack there and another reading shows that the word is not idle. Another reading
   shows this if it has a graphics pack there (at any distance), or any codeword at distance 0 except the idle pack. In
   a graphics pack, symbol 0 (mode and item) is 9, and symbol 1 is a known instruction. A quiet stretch is a run of
   successive words at which the reading is quiet. If a reading misses graphics at one word of a quiet stretch, it lacks
   graphics at every word of this stretch. A codeword is doubtful if its distance is 1 or 2 and its symbol 0 is not 8,
   9, 10 or 24. (Discs use only these modes and items.) The idle pack is never doubtful.

   Two kinds of codewords do not count. The first kind is the idle pack of a reading that lacks graphics at the word. The
   second kind is a doubtful codeword at a word at which some reading is quiet.

   Of the codewords that count, the result is the one with the smallest distance. If several codewords have this
   distance in some reading, the result is the one that counts in the most readings. (Here, its distance in each of
   these readings does not matter.) If there is a tie, there is no result. If no codeword counts, the result is the
   codeword on which two readings agree. If another pair of readings agrees on a different codeword, there is no result.
   Two readings agree on a codeword if this sum is at most four: twice the number of symbols that both have equally
   wrong, plus the number of symbols in which they differ. A reading can agree with another only if it has no codeword
   at the word, and the word is not unread in it.

   Suppose that a reading has a codeword at distance 0 at every word. Then these codewords are the result, under two
   conditions. First, if another reading has a codeword at distance 0 at a word, this codeword is the same one, or the
   idle pack. Second, if this reading has the idle pack at a word, no other reading has a graphics pack there, at any
   distance. (Random symbols look like a graphics pack only once in 28 million words.) The Q frames of this reading do
   not matter. There is one exception: a block in which all 96 bytes are 0 counts as unread, so its idle packs do not
   have distance 0.

   If each reading has at most two wrong symbols in each word, the result contains every pack. Suppose that only one
   reading has codewords that count. Then the result is what ribjasper_convert writes for this reading, with two
   exceptions: doubtful codewords, and words on which two readings agree. The order of the readings does not change the
   result. If several readings have the same codeword at the same distance, the order decides which of these readings is
   named as the source. */

/* This struct is the result of mending two readings. Five fields are numbers of words, and each word is counted in
   exactly one of them. `both`: words whose codeword both readings have. `of_first` and `of_second`: words whose
   codeword only the first or only the second reading has. `agreed`: words for which no codeword of a reading counts,
   but both readings agree on a codeword. `none`: words without a codeword, which are written as 24 zeros. The sum of
   the five numbers is the number of words. `bytes` is 24 times this number, and `blocks` is the number of program
   blocks. */
typedef struct ribjasper_mended {
    uint64_t bytes;
    uint32_t blocks;
    uint32_t both;
    uint32_t of_first;
    uint32_t of_second;
    uint32_t agreed;
    uint32_t none;
} ribjasper_mended;

/* Mends two readings of one stream of raw blocks into packs, and writes 24 bytes for each word. B program blocks have
   4 B - 7 words (none if B is below 2). The two readings may be the same memory.
     first, first_length, second, second_length: the readings, and the length of each in bytes
     lead_in: the number of blocks at the start of each reading that are ignored, at most 450,000
     packs, room: the output, and its size in bytes
     result: the counts
   Returns RIBJASPER_CONVERTED, or RIBJASPER_DAMAGED if no codeword was chosen for some word. Otherwise the call writes
   nothing, and returns the first of these answers that applies. RIBJASPER_USAGE: `lead_in` is out of range.
   RIBJASPER_TORN: the lengths differ, are not whole blocks, or are more than 1,000,000 blocks. RIBJASPER_NO_ROOM: the
   output is too small. This call allocates nothing. */
RIBJASPER_NODISCARD
int32_t ribjasper_mend(const uint8_t *first, size_t first_length, const uint8_t *second, size_t second_length,
                       uint32_t lead_in, uint8_t *packs, size_t room, ribjasper_mended *result);

#define RIBJASPER_READINGS 254   /* maximum number of readings in one call */
#define RIBJASPER_AGREED 254     /* instead of the number of a reading: two readings agree on the codeword */
#define RIBJASPER_NO_READING 255 /* there is no codeword */

/* This struct is the result of mending any number of readings. Readings are numbered from 0. In `of_reading` and
   `dropped`, entry k is for reading k; entries after the last reading are 0. The sum of all numbers in `of_reading`,
   `agreed` and `none` is the number of words. */
typedef struct ribjasper_mended_readings {
    uint64_t bytes;    /* bytes written to `packs` or `blocks`; the sources are not included */
    uint32_t blocks;   /* program blocks */
    uint32_t agreed;   /* words at which no codeword counts, but two readings agree on one */
    uint32_t none;     /* words without a codeword; `packs` has 24 zeros for each */
    uint32_t reserved; /* 0 */
    uint32_t of_reading[RIBJASPER_READINGS]; /* words whose codeword comes from this reading; if several readings have
                                                it at the same distance, only the first is named as the source */
    uint32_t dropped[RIBJASPER_READINGS];    /* words at which this reading has a codeword that does not count */
} ribjasper_mended_readings;

/* Mends several readings of one stream of raw blocks into packs. In memory, the readings follow each other, and all have
   the same length.
     readings, length: all readings, and their total length in bytes (in ribjasper_mend, a length is that of one reading)
     count: the number of readings, 1 to 254
     lead_in: the number of lead-in blocks of each reading, at most 450,000
     packs, room: the output with 24 bytes for each word, and its size in bytes
     sources, words: the second output, and its size in bytes. It has one byte for each word: the number of the reading
       whose codeword was chosen, RIBJASPER_AGREED or RIBJASPER_NO_READING. If you pass null and 0, the call does not
       write this output
     result: the counts
   Returns RIBJASPER_CONVERTED, or RIBJASPER_DAMAGED if no codeword was chosen for some word. Otherwise the call writes
   nothing, and returns the first of these answers that applies. RIBJASPER_USAGE: `lead_in` or `count` is out of range.
   RIBJASPER_TORN: the readings are not whole blocks of equal length, or have more than 1,000,000 blocks each.
   RIBJASPER_NO_ROOM: `packs` is too small, or `words` is above 0 and below the number of words. This call allocates
   nothing. */
RIBJASPER_NODISCARD
int32_t ribjasper_mend_readings(const uint8_t *readings, size_t length, uint32_t count, uint32_t lead_in,
                                uint8_t *packs, size_t room, uint8_t *sources, size_t words,
                                ribjasper_mended_readings *result);

/* Mends readings as ribjasper_mend_readings does, into a stream of blocks. The stream is as long as each reading,
   including the lead-in. The symbols of a mended word are those of its codeword.

   All other symbols of a block (for example in the lead-in, and of words without a codeword) come from one reading
   whose block is not unread. If the block is unread in all readings, these symbols are 0. If several readings have the
   block, the call uses the one that agrees with the chosen codewords in the most symbols of this block. If there is a
   tie, it uses the reading whose other symbols most readings have. If there is still a tie, it uses the reading whose
   list of symbols is the greatest in lexicographic order.

   P and Q of a block come from one of the readings that have a good Q frame there. If no reading has one, P and Q come
   from one of the readings whose block is not unread. Of the lists of P and Q bits that these readings have for the
   block, the most frequent is used. If several lists are equally frequent, the greatest of them in lexicographic order
   is used.

   The order of the readings changes no byte of the stream. If you convert this stream with ribjasper_convert, each
   mended word becomes its codeword. If there is only one reading, the stream is that reading with its words corrected.
     blocks, room: the output and its size in bytes, at least the size of one reading; it must not overlap the readings
     sources, words: as in ribjasper_mend_readings, but this output is always written
     result: the counts; result->bytes is the size of the stream
   Returns the same as ribjasper_mend_readings, with one difference: RIBJASPER_NO_ROOM means that `room` is smaller than
   a reading, or that `words` is below the number of words. This call allocates nothing. */
RIBJASPER_NODISCARD
int32_t ribjasper_mend_stream(const uint8_t *readings, size_t length, uint32_t count, uint32_t lead_in,
                              uint8_t *blocks, size_t room, uint8_t *sources, size_t words,
                              ribjasper_mended_readings *result);

/* This struct is a report on mended readings. `counts` is the result that the calls above write, and `lost` has the
   number of lost words of each reading. A word of a reading is lost if the reading has a codeword at distance 0 that
   counts, but the output has another codeword or none. */
typedef struct ribjasper_mend_reported {
    ribjasper_mended_readings counts;
    uint32_t lost[RIBJASPER_READINGS];
} ribjasper_mend_reported;

/* Does the same as ribjasper_mend_readings, but writes a report (ribjasper_mend_reported) in place of the result. */
RIBJASPER_NODISCARD
int32_t ribjasper_mend_report(const uint8_t *readings, size_t length, uint32_t count, uint32_t lead_in, uint8_t *packs,
                              size_t room, uint8_t *sources, size_t words, ribjasper_mend_reported *report);

/* Does the same as ribjasper_mend_stream, but writes a report (ribjasper_mend_reported) in place of the result. */
RIBJASPER_NODISCARD
int32_t ribjasper_mend_stream_report(const uint8_t *readings, size_t length, uint32_t count, uint32_t lead_in,
                                     uint8_t *blocks, size_t room, uint8_t *sources, size_t words,
                                     ribjasper_mend_reported *report);

/* This struct is a row of a plan. It describes one picture of a script. Times are numbers of program blocks, 75 a
   second, from the absolute time 00:00:00. Packs are numbered from 0. */
typedef struct ribjasper_plan_row {
    uint32_t line;  /* the number of its `show` line in the script, counted from 1 */
    uint32_t ready; /* the ready time of the picture */
    uint32_t hold;  /* the hold time of the picture */
    uint32_t need;  /* how many packs change the previous picture into this one, at most 3,076 */
    uint32_t free;  /* how many packs can be sent for this change by the ready time */
    uint32_t first; /* the number of the first of these free packs */
    uint8_t late;   /* 1 if the change does not fit: first + need + 7 is above 4 * ready; otherwise 0 */
} ribjasper_plan_row;

/* This struct is the result of a plan. */
typedef struct ribjasper_planned {
    uint32_t pictures; /* how many pictures the script has */
    uint32_t blocks;   /* how many program blocks the disc has */
    uint32_t late;     /* how many pictures are late */
    uint32_t why;      /* why there is no plan: one of the reasons below, or 0 */
    uint32_t line;     /* the refused line of the sheet or the script, counted from 1; or 0 */
    uint32_t number;   /* the number that the reason below explains, or 0 */
} ribjasper_planned;

/* These are the reasons why there is no plan. The command `ribjasper author` checks them in this order. (It checks the
   length of the script only after the lines of the sheet.) */
#define RIBJASPER_TEXT_TOO_LONG 1   /* the sheet or the script has more than 67,108,864 bytes */
#define RIBJASPER_SHEET_REFUSED 2   /* a line of the sheet is refused; the number is the reason: 1 unknown-command,
    2 second-file, 3 misplaced, 4 bad-argument, 5 repeated, 6 no-index, 7 not-audio, 8 number-order, 9 index-order,
    10 time-order, 11 no-file, 12 no-track */
#define RIBJASPER_SCRIPT_REFUSED 3  /* a line of the script is refused; the number is the reason: 1 unknown-command,
    2 bad-argument, 3 out-of-range, 4 time-order, 5 too-many */
#define RIBJASPER_LENGTH_SHORT 4    /* the audio is too short; the number is how many blocks the index lines need */
#define RIBJASPER_DISC_TOO_LONG 5   /* the disc is too long; the number is its number of program blocks */
#define RIBJASPER_PAST_END 6        /* the last picture is held beyond the end of the disc; the number is how many program
    blocks the disc has */
#define RIBJASPER_CD_TEXT_TOO_LONG 7 /* too much CD-TEXT; the number is how many packs it needs (above 256) */
#define RIBJASPER_LEAD_IN_SHORT 8   /* the lead-in is too short; the number is how many blocks it must have */

/* ribjasper_plan returns these answers, or RIBJASPER_USAGE, RIBJASPER_NO_ROOM or RIBJASPER_NO_MEMORY. */
#define RIBJASPER_PLANNED 0     /* each picture is on time */
#define RIBJASPER_NOT_PLANNED 3 /* `result` has the reason, and no row is written */
#define RIBJASPER_LATE 4        /* pictures are late; in their rows, `late` is 1 */

/* Plans a disc from a cue sheet and a picture script, and writes one row for each picture. `late` is computed for each
   picture as if all earlier pictures were on time. The command `ribjasper author` reports only the first late picture.
     sheet, sheet_length, script, script_length: the texts of the cue sheet and of the script, and their lengths in bytes
     lead_in: the number of lead-in blocks, at most 450,000
     audio: the number of audio blocks, at most 449,999 (above 449,849, the disc is too long, since its pause has 150
       blocks)
     rows, room: the output, and the number of rows that fit into it
     result: the counts, or the reason why there is no plan
   Returns RIBJASPER_PLANNED or RIBJASPER_LATE if the rows were written. Otherwise no row is written.
   RIBJASPER_NOT_PLANNED: there is no plan, and `result` has the reason. RIBJASPER_NO_ROOM: there are more pictures than
   rows, and `result` has the numbers of pictures and blocks. RIBJASPER_USAGE: a number is out of range; `result` is not
   written. RIBJASPER_NO_MEMORY: malloc failed; `result` is not written. RIBJASPER_NO_MEMORY is possible only if both
   texts are short enough and all their lines are valid. This call allocates memory. */
RIBJASPER_NODISCARD
int32_t ribjasper_plan(const uint8_t *sheet, size_t sheet_length, const uint8_t *script, size_t script_length,
                       uint32_t lead_in, uint32_t audio, ribjasper_plan_row *rows, size_t room,
                       ribjasper_planned *result);

/* This struct is an index line of a cue sheet, with the data of its track. Times are numbers of blocks, 75 a second,
   below 450,000. */
typedef struct ribjasper_sheet_row {
    uint32_t time;    /* the time of the index in the audio file */
    uint32_t pregap;  /* the silence at the beginning of the track (PREGAP) */
    uint32_t postgap; /* the silence at the end of the track (POSTGAP) */
    uint8_t track;    /* the number of the track, 1 to 99 */
    uint8_t index;    /* the number of the index, 0 to 99 */
    uint8_t control;  /* flags of the track: 8 four channels, 2 copying permitted, 1 pre-emphasis */
    uint8_t has_isrc; /* 1 if the track has a recording code (ISRC), otherwise 0 */
    uint8_t isrc[12]; /* the ISRC in ASCII, or zeros */
} ribjasper_sheet_row;

/* This struct is the result of reading a cue sheet. If the sheet is refused, all fields except `line` and `why` are 0.
   */
typedef struct ribjasper_sheet_result {
    uint32_t rows;         /* the number of index lines, at most 9,900 */
    uint32_t tracks;       /* the number of tracks, 1 to 99 */
    uint32_t line;         /* the first refused line, from 1 (at the end of the sheet: the last line plus 1), or 0 */
    uint32_t why;          /* the reason, a number listed at RIBJASPER_SHEET_REFUSED, or 0 */
    uint8_t has_catalogue; /* 1 if the sheet has a catalogue number, otherwise 0 */
    uint8_t catalogue[13]; /* the digits of this number in ASCII, or zeros */
} ribjasper_sheet_result;
#define ribjasper_sheet_told ribjasper_sheet_result /* the name before version 1.13 */

/* Reads a cue sheet, and writes one row for each index line, in order.
     sheet, length: the text of the sheet, and its length in bytes
     rows, room: the output, and the number of rows that fit into it
     result: the counts, or the refused line
   Returns RIBJASPER_CONVERTED if the rows were written. Otherwise no row is written. RIBJASPER_TORN: a line has an
   error, and `result` has the number of this line. RIBJASPER_NO_ROOM: there are more index lines than rows, and
   `result` has all counts. RIBJASPER_USAGE: the sheet has more than 67,108,864 bytes; `result` is not written.
   RIBJASPER_NO_MEMORY: malloc failed; `result` is not written. RIBJASPER_NO_MEMORY is possible only if all lines are
   valid. This call allocates memory. */
RIBJASPER_NODISCARD int32_t ribjasper_sheet(const uint8_t *sheet, size_t length, ribjasper_sheet_row *rows, size_t room,
                                            ribjasper_sheet_result *result);

/* These are the kinds of texts of a cue sheet. */
#define RIBJASPER_TITLE 0
#define RIBJASPER_PERFORMER 1
#define RIBJASPER_SONGWRITER 2

/* Writes one text of a cue sheet, for example the title of a track.
     sheet, length: the text of the sheet, and its length in bytes
     kind: RIBJASPER_TITLE, RIBJASPER_PERFORMER or RIBJASPER_SONGWRITER
     place: 0 for the album, k for the k-th track
     out, room: the output, and its size in bytes
     bytes: the output: the length of the text, or 0 if the sheet has no such text
   Returns RIBJASPER_CONVERTED. RIBJASPER_NO_ROOM: the text is longer than the output, and only `bytes` is written. With
   every other answer, nothing is written. RIBJASPER_USAGE: there is no such kind or place, or the sheet has more than
   67,108,864 bytes. RIBJASPER_TORN: a line has an error. RIBJASPER_NO_MEMORY: malloc failed; this answer is possible
   only if all lines are valid. This call allocates memory. */
RIBJASPER_NODISCARD int32_t ribjasper_sheet_text(const uint8_t *sheet, size_t length, uint32_t kind, uint32_t place,
                                                 uint8_t *out, size_t room, uint32_t *bytes);

/* The calls below report what each block of a stream contains, and the texts of a lead-in. */

#define RIBJASPER_NO_TIME 0xFFFFFFFFu /* in place of an absolute time */

/* If a block has no valid Q frame, one of these numbers replaces the kind of frame. (The kinds are RIBJASPER_Q_PROGRAM,
   0, to RIBJASPER_Q_OTHER, 7.) */
#define RIBJASPER_Q_NONE 253      /* a stream of RIBJASPER_PACKS has no Q channel */
#define RIBJASPER_Q_BAD_FIELD 254 /* the CRC is right, but a field is out of its range */
#define RIBJASPER_Q_BAD_CHECK 255 /* the CRC is wrong; this includes 96 zero bits */

/* This struct is a row of a survey. It describes one block of a stream. The row counts the words whose last symbol is
   in the block. In program block b, these are the words 4 b - 7 to 4 b - 4 (none below 0). In a block of
   RIBJASPER_PACKS, they are the four words of the block. In a lead-in block, there are none. The sums over all rows are
   the numbers clean, one, two, bad, q-good and q-bad of the command `ribjasper check`. */
typedef struct ribjasper_row {
    uint32_t absolute; /* in blocks, if the frame is of kind 0 (RIBJASPER_Q_PROGRAM); otherwise RIBJASPER_NO_TIME */
    uint8_t clean;     /* words without a wrong symbol */
    uint8_t one;       /* words with one wrong symbol */
    uint8_t two;       /* words with two wrong symbols */
    uint8_t bad;       /* words with no codeword near */
    uint8_t q;         /* the kind of the frame, or one of the three numbers above */
    uint8_t track;     /* the track, if the frame is of kind 0 to 3; otherwise 0 */
    uint8_t index;     /* the index, if the frame is of kind 0; otherwise 0 */
    uint8_t empty;     /* 1 if all 96 bytes of the block are zero, otherwise 0 */
} ribjasper_row;

/* This struct is the result of a survey. */
typedef struct ribjasper_surveyed {
    uint32_t blocks; /* the number of whole blocks, including the lead-in */
    uint32_t rest;   /* the number of bytes after the last whole block, 0 if the stream ends with it */
} ribjasper_surveyed;

/* Surveys a stream: writes one row for each whole block.
     stream, length: the stream, and its length in bytes
     form: RIBJASPER_RAW, RIBJASPER_PACKS or RIBJASPER_SECTORS
     lead_in: the number of lead-in blocks, at most 450,000
     rows, room: the output, and the number of rows that fit into it
     result: the counts
   Returns RIBJASPER_CONVERTED. Otherwise the call writes nothing, and returns the first of these answers that applies.
   RIBJASPER_USAGE: a number is out of range. RIBJASPER_TORN: there are more than 1,000,000 whole blocks. (A stream that
   ends within a block is not refused; `rest` counts its last bytes.) RIBJASPER_NO_ROOM: there are more blocks than rows.
   This call allocates nothing. */
RIBJASPER_NODISCARD
int32_t ribjasper_survey(const uint8_t *stream, size_t length, uint32_t form, uint32_t lead_in, ribjasper_row *rows,
                         size_t room, ribjasper_surveyed *result);

/* Writes the four CD-TEXT packs of a lead-in block. They are the low six bits of its 96 bytes, in order, 18 bytes for
   each pack. The call does not check their CRC; ribjasper_text_pack_matches does.
     block: the block, 96 bytes
     packs: the output, 72 bytes */
void ribjasper_block_text_packs(const uint8_t block[RIBJASPER_BLOCK], uint8_t packs[72]);

/* This struct is the result of listing texts. Each answer uses some of these numbers, as their comments say; the others
   are 0. */
typedef struct ribjasper_listed {
    uint64_t bytes; /* the number of bytes written, if the texts are not refused */
    uint32_t seq;   /* the sequence number (third byte) of the missing or invalid CD-TEXT pack, 0 to 255 */
    uint32_t byte;  /* the number of the invalid byte in this pack */
} ribjasper_listed;

/* These answers say why the texts of a lead-in are refused. */
#define RIBJASPER_TEXT_MISSING 8    /* the pack with the sequence number `seq` is missing */
#define RIBJASPER_TEXT_NO_SIZE 9    /* one of the three packs with the sizes (type 8F) is missing */
#define RIBJASPER_TEXT_MALFORMED 10 /* byte `byte` of the pack with the sequence number `seq` is invalid */

/* Lists the texts of a lead-in. The output has the same lines as that of the command `ribjasper text`.
     stream, length: the stream, and its length in bytes
     form: RIBJASPER_RAW or RIBJASPER_SECTORS
     lead_in: the number of lead-in blocks, at most 450,000
     out, room: the output, and its size in bytes
     result: the counts, or the missing or invalid pack
   Returns RIBJASPER_CONVERTED. RIBJASPER_TEXT_MISSING, RIBJASPER_TEXT_NO_SIZE or RIBJASPER_TEXT_MALFORMED: the texts
   are refused, and only `result` is written. With every other answer, nothing is written. RIBJASPER_USAGE: `form` or
   `lead_in` is out of range. RIBJASPER_TORN: the stream ends within a block, or is too long. RIBJASPER_NO_ROOM: the
   output is too small. RIBJASPER_NO_MEMORY: malloc failed; this answer is possible only if the texts are not refused.
   This call allocates memory. */
RIBJASPER_NODISCARD
int32_t ribjasper_texts(const uint8_t *stream, size_t length, uint32_t form, uint32_t lead_in, uint8_t *out, size_t room,
                        ribjasper_listed *result);

#ifdef __cplusplus
}
#endif

#endif
