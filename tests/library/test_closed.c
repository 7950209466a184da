/* Tests each way to make a closed player: as an initializer, as a value, in arrays and structs, static and automatic. It is
   compiled with each standard of C and C++. STRICT leaves the static player out that is initialized with the value, because strict
   C does not accept it. */
#include "ribjasper.h"

#include <stdio.h>

/* Inside braces, strict C89 accepts only constants. */
#if !defined __cplusplus && (!defined __STDC_VERSION__ || __STDC_VERSION__ < 199901L)
#define IN_BRACES RIBJASPER_CLOSED_STATIC
#else
#define IN_BRACES RIBJASPER_CLOSED
#endif

typedef struct holder {
    int number;
    ribjasper_player player;
} holder;

static ribjasper_player of_zeros;
static ribjasper_player initialized = RIBJASPER_CLOSED_STATIC;
static const ribjasper_player constant = RIBJASPER_CLOSED_STATIC;
static holder held = { 1, RIBJASPER_CLOSED_STATIC };
static ribjasper_player two[2] = { RIBJASPER_CLOSED_STATIC, RIBJASPER_CLOSED_STATIC };
#ifndef STRICT
static ribjasper_player by_value = RIBJASPER_CLOSED;
#endif

static int is_closed(const ribjasper_player *player)
{
    uint8_t border;
    return player->handle.at == NULL && !player->is_open && ribjasper_player_border(player, &border) == RIBJASPER_REFUSED;
}

static ribjasper_player closed(void)
{
    return RIBJASPER_CLOSED;
}

int main(void)
{
    ribjasper_player player = RIBJASPER_CLOSED, list[2] = { IN_BRACES, IN_BRACES }, copy = closed();
    holder local = { 2, IN_BRACES };
    int all;
    if (ribjasper_player_open(&player) != RIBJASPER_DONE || is_closed(&player))
        return 1;
    ribjasper_player_close(&player);
    player = RIBJASPER_CLOSED;
    of_zeros = RIBJASPER_CLOSED;
    initialized = RIBJASPER_CLOSED_PLAYER;
    held.player = RIBJASPER_CLOSED;
    two[1] = list[1] = RIBJASPER_CLOSED;
    all = is_closed(&player) && is_closed(&of_zeros) && is_closed(&initialized) && is_closed(&constant) &&
          is_closed(&held.player) && is_closed(&two[0]) && is_closed(&two[1]) && is_closed(&list[0]) &&
          is_closed(&list[1]) && is_closed(&copy) && is_closed(&local.player);
#ifndef STRICT
    all = all && is_closed(&by_value);
#endif
    if (!all)
        puts("test_closed: a player is not closed");
    return !all;
}
