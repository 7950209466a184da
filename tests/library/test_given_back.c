/* Tests that the calls free all memory that they allocate. The inputs are thousands of sheets, scripts, players and checkpoints,
   both accepted and refused. Linked with a heap that counts (testing.h).

   test_given_back SHEET SCRIPT STREAM */
#include "ribjasper.h"

#include "testing.h"

#define MAX_SIZE 100000

static uint8_t sheet[MAX_SIZE], script[MAX_SIZE], stream[96 * 2000], out[1 << 20];
static ribjasper_plan_row rows[64];
static ribjasper_sheet_row sheet_rows[64];

static size_t read_file(const char *name, uint8_t *to, size_t room)
{
    FILE *file = fopen(name, "rb");
    size_t count = file == NULL ? 0 : fread(to, 1, room, file);
    if (file != NULL)
        fclose(file);
    return count;
}

/* Reads each prefix of the texts, and the texts with each byte changed in turn. */
static void texts(size_t sheet_size, size_t script_size)
{
    long refusals = 0, calls = 0;
    size_t n;
    int32_t answer;
    ribjasper_planned planned;
    ribjasper_sheet_result result;
    uint32_t bytes;
    for (n = 0; n < script_size; n++) {
        uint8_t kept = script[n];
        answer = ribjasper_plan(sheet, sheet_size, script, n, 500, 1650, rows, 64, &planned);
        CHECK(answer != RIBJASPER_NO_MEMORY && held == 0);
        refusals += answer == RIBJASPER_NOT_PLANNED;
        script[n] ^= 0x15;
        answer = ribjasper_plan(sheet, sheet_size, script, script_size, 500, 1650, rows, 64, &planned);
        CHECK(answer != RIBJASPER_NO_MEMORY && held == 0);
        refusals += answer == RIBJASPER_NOT_PLANNED;
        script[n] = kept;
        calls += 2;
    }
    for (n = 0; n < sheet_size; n++) {
        uint8_t kept = sheet[n];
        answer = ribjasper_sheet(sheet, n, sheet_rows, 64, &result);
        CHECK(answer != RIBJASPER_NO_MEMORY && held == 0);
        refusals += answer == RIBJASPER_TORN;
        sheet[n] ^= 0x15;
        answer = ribjasper_plan(sheet, sheet_size, script, script_size, 500, 1650, rows, 64, &planned);
        CHECK(answer != RIBJASPER_NO_MEMORY && held == 0);
        answer = ribjasper_sheet_text(sheet, sheet_size, RIBJASPER_TITLE, (uint32_t)(n % 4), out, n % 20, &bytes);
        CHECK(answer != RIBJASPER_NO_MEMORY && held == 0);
        refusals += answer != RIBJASPER_CONVERTED;
        sheet[n] = kept;
        calls += 3;
    }
    CHECK(calls > 1000 && refusals > 500);
}

static void players(void)
{
    static uint8_t file[RIBJASPER_CHECKPOINT];
    ribjasper_player player = RIBJASPER_CLOSED, packs = RIBJASPER_CLOSED;
    long open, n, refusals = 0;
    uint32_t byte;
    if (ribjasper_player_open(&player) != RIBJASPER_DONE || ribjasper_player_open(&packs) != RIBJASPER_DONE)
        return;
    open = held;
    CHECK(ribjasper_player_begin(&packs, RIBJASPER_PACKS, 0) == RIBJASPER_DONE);
    for (n = 0; n < 1000; n++) {
        int32_t answer;
        CHECK(ribjasper_player_feed(&player, stream + 96 * n) == RIBJASPER_DONE);
        CHECK(ribjasper_player_save(&player, file) == RIBJASPER_DONE && held == open);
        CHECK(ribjasper_player_save(&packs, file) == RIBJASPER_REFUSED && held == open);
        CHECK(ribjasper_player_load(&player, file, &byte) == RIBJASPER_DONE && held == open);
        file[(n * 67) % RIBJASPER_CHECKPOINT] ^= 0xff;
        answer = ribjasper_player_load(&player, file, &byte);
        CHECK((answer == RIBJASPER_NO_CHECKPOINT || answer == RIBJASPER_DONE) && held == open);
        refusals += answer == RIBJASPER_NO_CHECKPOINT;
        CHECK(ribjasper_player_open(&player) == RIBJASPER_DONE && held == open);
    }
    CHECK(refusals > 900);
    ribjasper_player_close(&player);
    ribjasper_player_close(&packs);
    CHECK(held == 0);
}

/* Lists the texts of a lead-in with changed bytes. */
static void lead_ins(size_t blocks)
{
    ribjasper_listed listed;
    long n, refusals = 0;
    for (n = 0; n < 1000; n++) {
        size_t at = (size_t)(n * 7919) % (96 * 300);
        int32_t answer;
        stream[at] ^= 0x2a;
        answer = ribjasper_texts(stream, 96 * blocks, RIBJASPER_RAW, (uint32_t)(n % 300), out, (size_t)(n % 700), &listed);
        CHECK(answer != RIBJASPER_NO_MEMORY && answer != RIBJASPER_USAGE && answer != RIBJASPER_TORN && held == 0);
        refusals += answer != RIBJASPER_CONVERTED;
    }
    CHECK(refusals > 10);
}

int main(int argc, char **argv)
{
    size_t sheet_size, script_size, blocks;
    if (argc != 4)
        return 2;
    sheet_size = read_file(argv[1], sheet, MAX_SIZE);
    script_size = read_file(argv[2], script, MAX_SIZE);
    blocks = read_file(argv[3], stream, sizeof stream) / 96;
    CHECK(sheet_size > 0 && script_size > 0 && blocks > 1000);
    texts(sheet_size, script_size);
    players();
    lead_ins(blocks);
    if (!failed)
        printf("test_given_back: %ld memory requests, and all memory is freed\n", requests);
    return failed;
}
