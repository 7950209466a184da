/* Tests the planning of a disc: rows with values from docs/FORMATS.md, each refusal, buffers that are too small, and each request
   for memory refused in turn. With four arguments (a sheet, a script, and the numbers of blocks of the lead-in and of the audio)
   it prints the rows of that disc instead. Linked with a heap that counts (testing.h). */
#include "ribjasper.h"

#include "testing.h"

static const char sheet[] = "FILE \"a\" WAVE\nTRACK 01 AUDIO\nINDEX 01 00:00:00\n";

/* The first picture needs a preset, the border and both halves of the table: four packs. At block 2 only one of them is
   complete, at block 3 five packs are. The second picture needs no packs, and the third only the border. */
static const char late_script[] = "# late\nshow 00:00:02 00:00:03\n\nshow 00:00:10 00:00:10\nborder 3\nshow 00:01:00 00:01:01\n";
static const char script[] = "# in time\nshow 00:00:03 00:00:03\n\nshow 00:00:10 00:00:10\nborder 3\nshow 00:01:00 00:01:01\n";

enum { ROOM = 5 };
static ribjasper_plan_row rows[ROOM];
static ribjasper_planned result;

static int32_t plan(const char *cue, const char *drawings, uint32_t lead_in, uint32_t audio, size_t room)
{
    memset(rows, 0x5a, sizeof rows);
    memset(&result, 0x5a, sizeof result);
    return ribjasper_plan((const uint8_t *)cue, strlen(cue), (const uint8_t *)drawings, strlen(drawings), lead_in, audio, rows,
                          room, &result);
}

/* Whether all rows from number `from` on are unchanged. */
static int untouched(size_t from)
{
    const uint8_t *bytes = (const uint8_t *)(rows + from);
    for (size_t i = 0; i < sizeof rows - from * sizeof *rows; i++)
        if (bytes[i] != 0x5a)
            return 0;
    return 1;
}

static int is_row(size_t k, uint32_t line, uint32_t ready, uint32_t hold, uint32_t need, uint32_t free, uint32_t first, int late)
{
    const ribjasper_plan_row *row = &rows[k];
    return row->line == line && row->ready == ready && row->hold == hold && row->need == need && row->free == free &&
           row->first == first && row->late == late;
}

static int has_counts(uint32_t pictures, uint32_t blocks, uint32_t late)
{
    return result.pictures == pictures && result.blocks == blocks && result.late == late && result.why == 0 && result.line == 0 &&
           result.number == 0;
}

static int is_refused(uint32_t why, uint32_t line, uint32_t number)
{
    return result.pictures == 0 && result.blocks == 0 && result.late == 0 && result.why == why && result.line == line &&
           result.number == number && untouched(0);
}

static void rows_of_pictures(void)
{
    CHECK(plan(sheet, late_script, 0, 100, ROOM) == RIBJASPER_LATE);
    CHECK(has_counts(3, 250, 1));
    CHECK(is_row(0, 2, 2, 3, 4, 1, 0, 1));
    CHECK(is_row(1, 4, 10, 10, 0, 28, 5, 0));
    CHECK(is_row(2, 6, 75, 76, 1, 260, 33, 0));
    CHECK(untouched(3));
    CHECK(plan(sheet, script, 0, 100, 3) == RIBJASPER_PLANNED);
    CHECK(has_counts(3, 250, 0));
    CHECK(is_row(0, 2, 3, 3, 4, 5, 0, 0));
    CHECK(is_row(1, 4, 10, 10, 0, 28, 5, 0));
    CHECK(untouched(3));
    CHECK(plan(sheet, "", 0, 1, 0) == RIBJASPER_PLANNED);
    CHECK(has_counts(0, 151, 0));
    CHECK(untouched(0));
}

static void refusals(void)
{
    CHECK(plan("FILE \"a\" WAVE\nNONSENSE\n", script, 0, 100, ROOM) == RIBJASPER_NOT_PLANNED);
    CHECK(is_refused(RIBJASPER_SHEET_REFUSED, 2, 1));
    CHECK(plan("FILE \"a\" WAVE\n", script, 0, 100, ROOM) == RIBJASPER_NOT_PLANNED);
    CHECK(is_refused(RIBJASPER_SHEET_REFUSED, 2, 12));
    CHECK(plan(sheet, "border 1\nfill 16\n", 0, 100, ROOM) == RIBJASPER_NOT_PLANNED);
    CHECK(is_refused(RIBJASPER_SCRIPT_REFUSED, 2, 3));
    CHECK(plan("FILE \"a\" WAVE\nTRACK 01 AUDIO\nINDEX 01 00:10:00\n", script, 0, 750, ROOM) == RIBJASPER_NOT_PLANNED);
    CHECK(is_refused(RIBJASPER_LENGTH_SHORT, 0, 751));
    CHECK(plan(sheet, script, 0, 449999, ROOM) == RIBJASPER_NOT_PLANNED);
    CHECK(is_refused(RIBJASPER_DISC_TOO_LONG, 0, 450149));
    CHECK(plan(sheet, "show 00:02:00 00:02:02\n", 0, 1, ROOM) == RIBJASPER_NOT_PLANNED);
    CHECK(is_refused(RIBJASPER_PAST_END, 0, 151));
    CHECK(plan(sheet, "show 00:02:00 00:02:01\n", 0, 1, ROOM) == RIBJASPER_PLANNED);
    CHECK(plan(sheet, script, 11, 100, ROOM) == RIBJASPER_NOT_PLANNED);
    CHECK(is_refused(RIBJASPER_LEAD_IN_SHORT, 0, 12));
    CHECK(plan(sheet, script, 12, 100, ROOM) == RIBJASPER_PLANNED);
    CHECK(plan(sheet, script, 450001, 100, ROOM) == RIBJASPER_USAGE);
    CHECK(untouched(0) && result.why == 0x5a5a5a5a);
    CHECK(plan(sheet, script, 0, 450000, ROOM) == RIBJASPER_USAGE);
    CHECK(untouched(0) && result.why == 0x5a5a5a5a);
}

/* A title that needs more than 256 packs, and texts above 64 MB. */
static void long_texts(void)
{
    enum { TITLE = 4000 };
    static char cue[TITLE + 200];
    size_t size = 67108865;
    uint8_t *zeros = (uint8_t *)__real_malloc(size);
    memset(cue, 'x', sizeof cue);
    memcpy(cue, "TITLE \"", 7);
    memcpy(cue + 7 + TITLE, "\"\n", 3);
    strcat(cue, sheet);
    CHECK(plan(cue, script, 12, 100, ROOM) == RIBJASPER_NOT_PLANNED);
    CHECK(result.why == RIBJASPER_CD_TEXT_TOO_LONG && result.number > 256);
    CHECK(plan(cue, script, 0, 100, ROOM) == RIBJASPER_PLANNED);
    if (zeros == NULL)
        return;
    memset(zeros, '\n', size);
    CHECK(ribjasper_plan(zeros, size, zeros, 0, 0, 100, rows, ROOM, &result) == RIBJASPER_NOT_PLANNED);
    CHECK(result.why == RIBJASPER_TEXT_TOO_LONG && result.line == 0);
    CHECK(ribjasper_plan((const uint8_t *)sheet, strlen(sheet), zeros, size, 0, 100, rows, ROOM, &result) ==
          RIBJASPER_NOT_PLANNED);
    CHECK(result.why == RIBJASPER_TEXT_TOO_LONG && result.line == 0);
    __real_free(zeros);
}

static void rooms_and_memory(void)
{
    int32_t answer;
    for (size_t room = 0; room < 3; room++) {
        CHECK(plan(sheet, late_script, 0, 100, room) == RIBJASPER_NO_ROOM);
        CHECK(has_counts(3, 250, 0) && untouched(0));
    }
    CHECK(held == 0);
    for (long n = 0;; n++) {
        requests = 0;
        refused = n;
        answer = plan(sheet, late_script, 12, 100, ROOM);
        refused = -1;
        CHECK(held == 0);
        if (answer != RIBJASPER_NO_MEMORY)
            break;
        CHECK(untouched(0) && result.why == 0x5a5a5a5a);
    }
    CHECK(answer == RIBJASPER_LATE);
    /* A script is refused even if there is no memory for the sheet. */
    for (long n = 0; n < 20; n++) {
        requests = 0;
        refused = n;
        answer = plan(sheet, "border 1\nfill 16\n", 12, 100, ROOM);
        refused = -1;
        CHECK(answer == RIBJASPER_NOT_PLANNED && is_refused(RIBJASPER_SCRIPT_REFUSED, 2, 3) && held == 0);
    }
}

/* Every prefix of a script is planned or refused, and the rows after the last one are unchanged. */
static void torn_scripts(void)
{
    char part[sizeof late_script];
    for (size_t length = 0; length <= strlen(late_script); length++) {
        int32_t answer;
        memcpy(part, late_script, length);
        part[length] = 0;
        answer = plan(sheet, part, 0, 100, ROOM);
        CHECK(answer == RIBJASPER_PLANNED || answer == RIBJASPER_LATE || answer == RIBJASPER_NOT_PLANNED);
        CHECK(result.pictures <= 3 && untouched(result.pictures));
    }
    CHECK(held == 0);
}

static uint8_t *read_file(const char *name, size_t *size)
{
    FILE *file = fopen(name, "rb");
    uint8_t *bytes = (uint8_t *)malloc(67108864);
    if (file == NULL || bytes == NULL)
        exit(2);
    *size = fread(bytes, 1, 67108864, file);
    fclose(file);
    return bytes;
}

static int print_plan(char **words)
{
    enum { MAX_ROWS = 20000 };
    static ribjasper_plan_row all[MAX_ROWS];
    size_t sheet_size, script_size;
    uint8_t *cue = read_file(words[1], &sheet_size);
    uint8_t *drawings = read_file(words[2], &script_size);
    int32_t answer = ribjasper_plan(cue, sheet_size, drawings, script_size, (uint32_t)atol(words[3]),
                                    (uint32_t)atol(words[4]), all, MAX_ROWS, &result);
    printf("%d %u %u %u %u %u %u\n", (int)answer, result.pictures, result.blocks, result.late, result.why, result.line, result.number);
    if (answer == RIBJASPER_PLANNED || answer == RIBJASPER_LATE)
        for (uint32_t k = 0; k < result.pictures; k++)
            printf("%u %u %u %u %u %u %u %u\n", k, all[k].line, all[k].ready, all[k].hold, all[k].need, all[k].free,
                   all[k].first, all[k].late);
    free(cue);
    free(drawings);
    return 0;
}

int main(int count, char **words)
{
    if (count == 5)
        return print_plan(words);
    rows_of_pictures();
    refusals();
    long_texts();
    rooms_and_memory();
    torn_scripts();
    if (!failed)
        printf("test_plan: all checks pass\n");
    return failed;
}
