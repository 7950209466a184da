/* The calls of ribjasper_c.h, which call the translated module. */
#include "ribjasper_c.h"

#include "ribjasper_wasm.h"

#include <stdlib.h>
#include <string.h>

/* Offsets in the added pages of the module's memory: the player, small inputs, and a picture or a file. */
enum { PAGE = 65536, PLAYER = 0, SMALL = PAGE, LARGE = 2 * PAGE, PAGES = 6 };

struct ribjasper_c {
    Z_ribjasper_instance_t module;
    uint64_t start;
};

static uint8_t *bytes_at(ribjasper_c *it, uint64_t place)
{
    return Z_ribjasperZ_memory(&it->module)->data + it->start + place;
}

ribjasper_c *ribjasper_c_open(void)
{
    static int is_ready;
    ribjasper_c *it = calloc(1, sizeof *it);
    uint32_t pages;
    if (it == NULL)
        return NULL;
    if (!is_ready) {
        wasm_rt_init();
        Z_ribjasper_init_module();
        is_ready = 1;
    }
    Z_ribjasper_instantiate(&it->module);
    pages = (uint32_t)wasm_rt_grow_memory(Z_ribjasperZ_memory(&it->module), PAGES);
    if (pages == (uint32_t)-1) {
        ribjasper_c_close(it);
        return NULL;
    }
    it->start = (uint64_t)pages * PAGE;
    if (ribjasper_c_begin(it, RIBJASPER_C_RAW, 0) != 0) {
        ribjasper_c_close(it);
        return NULL;
    }
    return it;
}

void ribjasper_c_close(ribjasper_c *it)
{
    if (it == NULL)
        return;
    Z_ribjasper_free(&it->module);
    free(it);
}

int ribjasper_c_begin(ribjasper_c *it, uint32_t form, uint32_t lead_in)
{
    return (int32_t)Z_ribjasperZ_ribjasper_web_begin(&it->module, it->start + PLAYER, form, lead_in) == 0 ? 0 : -1;
}

void ribjasper_c_feed(ribjasper_c *it, const uint8_t block[RIBJASPER_C_BLOCK])
{
    memcpy(bytes_at(it, SMALL), block, RIBJASPER_C_BLOCK);
    Z_ribjasperZ_ribjasper_web_feed(&it->module, it->start + PLAYER, it->start + SMALL);
}

void ribjasper_c_draw(ribjasper_c *it, const uint8_t pack[RIBJASPER_C_PACK])
{
    memcpy(bytes_at(it, SMALL), pack, RIBJASPER_C_PACK);
    Z_ribjasperZ_ribjasper_web_draw(&it->module, it->start + PLAYER, it->start + SMALL);
}

void ribjasper_c_screen(ribjasper_c *it, uint8_t pixels[RIBJASPER_C_PIXELS])
{
    Z_ribjasperZ_ribjasper_web_screen(&it->module, it->start + PLAYER, it->start + LARGE);
    memcpy(pixels, bytes_at(it, LARGE), RIBJASPER_C_PIXELS);
}

void ribjasper_c_picture(ribjasper_c *it, uint8_t picture[RIBJASPER_C_PICTURE])
{
    Z_ribjasperZ_ribjasper_web_picture(&it->module, it->start + PLAYER, it->start + LARGE);
    memcpy(picture, bytes_at(it, LARGE), RIBJASPER_C_PICTURE);
}

int ribjasper_c_save(ribjasper_c *it, uint8_t file[RIBJASPER_C_FILE])
{
    if (Z_ribjasperZ_ribjasper_web_save(&it->module, it->start + PLAYER, it->start + LARGE) != 0)
        return -1;
    memcpy(file, bytes_at(it, LARGE), RIBJASPER_C_FILE);
    return 0;
}

int ribjasper_c_load(ribjasper_c *it, const uint8_t file[RIBJASPER_C_FILE])
{
    memcpy(bytes_at(it, LARGE), file, RIBJASPER_C_FILE);
    return Z_ribjasperZ_ribjasper_web_load(&it->module, it->start + PLAYER, it->start + LARGE, it->start + SMALL) == 0 ? 0 : -1;
}
