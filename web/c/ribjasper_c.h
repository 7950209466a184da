/* The CD+G player of Ribjasper in plain C, for systems without a Ribjasper library. ribjasper_wasm.c is the proved module for
   web pages, translated to C by wasm2c; these calls exchange bytes with it. The player has the same answers and pictures as the
   native library, and needs about three times as much time. Licensed under MIT or Apache-2.0: (c) 2026 The Ribjasper authors.

   Compile with the C files in this folder: cc -O2 -DWASM_RT_MEMCHECK_SIGNAL_HANDLER=0 player.c ribjasper_c.c ribjasper_wasm.c
   wasm-rt-impl.c -lm. The processor must be little-endian. Several threads may use players, one call at a time for each
   player; open the first player before other threads open one. */
#ifndef RIBJASPER_C_H
#define RIBJASPER_C_H

#include <stdint.h>

#ifdef __cplusplus
extern "C" {
#endif

#define RIBJASPER_C_BLOCK 96        /* bytes of a raw block */
#define RIBJASPER_C_PACK 24         /* bytes of a pack, as in a .cdg file */
#define RIBJASPER_C_WIDTH 300       /* the width of the screen in pixels */
#define RIBJASPER_C_HEIGHT 216      /* the height of the screen, both with the border */
#define RIBJASPER_C_PIXELS 64800    /* the number of pixels */
#define RIBJASPER_C_PICTURE 259200  /* bytes of a picture: red, green, blue and 255 for each pixel */
#define RIBJASPER_C_FILE 65045      /* bytes of a checkpoint */
#define RIBJASPER_C_RAW 0           /* a form of a stream: raw blocks, with error correction */
#define RIBJASPER_C_PACKS 1         /* a form of a stream: packs */
#define RIBJASPER_C_MOST_LEAD_IN 450000

typedef struct ribjasper_c ribjasper_c;

/* Opens a player for raw blocks without a lead-in. Returns null if memory runs out. */
ribjasper_c *ribjasper_c_open(void);

/* Closes a player and frees its memory; a null pointer is ignored. */
void ribjasper_c_close(ribjasper_c *player);

/* Begins a new stream. Returns 0, or -1 without a change if the form or the number of lead-in blocks is out of range. */
int ribjasper_c_begin(ribjasper_c *player, uint32_t form, uint32_t lead_in);

/* Feeds a block, or draws a pack. */
void ribjasper_c_feed(ribjasper_c *player, const uint8_t block[RIBJASPER_C_BLOCK]);
void ribjasper_c_draw(ribjasper_c *player, const uint8_t pack[RIBJASPER_C_PACK]);

/* Writes the screen, as colour numbers from 0 to 15 or as a picture. */
void ribjasper_c_screen(ribjasper_c *player, uint8_t pixels[RIBJASPER_C_PIXELS]);
void ribjasper_c_picture(ribjasper_c *player, uint8_t picture[RIBJASPER_C_PICTURE]);

/* Writes a checkpoint of a raw stream. Returns 0, or -1 without output if the player has no checkpoint. */
int ribjasper_c_save(ribjasper_c *player, uint8_t file[RIBJASPER_C_FILE]);

/* Restores a checkpoint. Returns 0, or -1 without a change if the file is not a checkpoint. */
int ribjasper_c_load(ribjasper_c *player, const uint8_t file[RIBJASPER_C_FILE]);

#ifdef __cplusplus
}
#endif
#endif
