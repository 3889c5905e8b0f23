/* Decide in C, at its edges: a printed line for each call, held to the file decide.expected. */
/* Document 02, "Stop reading once it is decided" and "Thirty-two actions"; document 01, "Image and row machine", "Calls" and */
/* "Replies that refuse". */
#define _DEFAULT_SOURCE /* for MAP_ANONYMOUS and MAP_NORESERVE */
#include <sys/mman.h>

#include "testing.h"

/* ---- bytes of images and traces */

/* S where party 1 tries action 0, V1 where it tries action 1, V2 where party 2 does; and records that decide. */
#define PLAIN BYTES(ROW(2, 1, 0), ROW(2, 1, 1), ROW(2, 2, 1), END(0, 1, 2))
#define MEETS PERIOD(1, 0)
#define BREAKS_1 PERIOD(2, 0)
#define BREAKS_2 PERIOD(0, 2)
#define BREAKS_3 PERIOD(2, 2)

/* Records with a wrong mark; their attempts would satisfy. */
#define WRONG_FIRST 'U', 'P', TWO(1), TWO(0)
#define WRONG_SECOND 'T', 'O', TWO(1), TWO(0)

/* Row 2 is true in period 3 alone, row 3 never. */
#define THIRD_PERIOD ROW(1, 0, 0), ROW(6, 0, 0), ROW(6, 1, 0), ROW(0, 0, 0)

/* Row 0 looks back at the later row 1 and is true in every second period. */
#define TURNS BYTES(ROW(6, 1, 0), ROW(3, 0, 0), ROW(0, 0, 0), END(2, 0, 2))

/* S where party 2 tries action 0, and party 1 did so in a period before. */
#define LATER BYTES(ROW(6, 2, 0), ROW(2, 1, 0), ROW(5, 0, 1), ROW(2, 2, 0), ROW(4, 0, 3), ROW(0, 0, 0), END(4, 5, 5))

static const struct bytes plain = PLAIN;

/* ---- lines */

/* Whether begin and a run over just the records read leave what decide gave. */
static int run_agrees(struct monitor_decide_reply decided, struct bytes records)
{
    size_t read = form_bytes(form_of(records)) * (size_t)decided.records;

    if (read > records.length)
        return 0;
    begin();
    take_run((struct bytes){records.at, read});
    const uint8_t *s = start(&state);
    return s[0] == decided.outcome && s[1] == decided.blame && four(s + 6) == decided.decision;
}

/* The rest of a line: the result, the reply's fields and, if it was accepted, whether begin and run agree. */
static void end_line(uint32_t result, struct bytes records)
{
    struct monitor_decide_reply decided = decide_reply();

    put_decided(result);
    if (decided.number == MONITOR_ACCEPTED)
        printf(" %s", run_agrees(decided, records) ? "same" : "different");
    printf("\n");
}

static void sample(const char *label, struct bytes rows, struct bytes records)
{
    copy(&image, rows);
    copy(&trace, records);
    printf("%s:", label);
    end_line(lend(DECIDE, sizeof(struct monitor_decide_reply)), records);
}

/* ---- tables */

struct sample {
    const char *label;
    struct bytes image, trace;
};

static const struct sample decisions[] = {
    {"no record", PLAIN, NO_BYTES},
    {"1 record, undecided", PLAIN, BYTES(NOBODY)},
    {"5 records, undecided", PLAIN, BYTES(NOBODY, NOBODY, NOBODY, NOBODY, NOBODY)},
    {"other attempts", PLAIN, BYTES(PERIOD(0xfffc, 0xfffd))},
    {"other attempts, wide", PLAIN, BYTES(WIDE_PERIOD(0xfffffffc, 0xfffffffd))},
    /* Rows of the end record that become true at once. */
    {"S and V1", PLAIN, BYTES(NOBODY, PERIOD(3, 0), NOBODY)},
    {"S and V2", PLAIN, BYTES(NOBODY, PERIOD(1, 2), NOBODY)},
    {"S, V1 and V2", PLAIN, BYTES(NOBODY, PERIOD(3, 2), NOBODY)},
    {"S is V1", BYTES(ROW(2, 1, 0), ROW(0, 0, 0), END(0, 0, 1)), BYTES(NOBODY, MEETS, NOBODY)},
    {"S is V2", BYTES(ROW(2, 1, 0), ROW(0, 0, 0), END(0, 1, 0)), BYTES(NOBODY, MEETS, NOBODY)},
    {"S is V1 and V2", BYTES(ROW(2, 1, 0), END(0, 0, 0)), BYTES(NOBODY, MEETS, NOBODY)},
    /* What follows the decision. */
    {"satisfied, later violated", PLAIN, BYTES(MEETS, NOBODY, BREAKS_3)},
    {"violated, later satisfied", PLAIN, BYTES(BREAKS_1, MEETS)},
    {"blame 2, later 1 and 3", PLAIN, BYTES(NOBODY, BREAKS_2, BREAKS_1, BREAKS_3)},
    /* Rows that look back, from zeros in each call. */
    {"true in period 1, no record", BYTES(ROW(1, 0, 0), ROW(0, 0, 0), END(0, 1, 1)), NO_BYTES},
    {"true in period 1", BYTES(ROW(1, 0, 0), ROW(0, 0, 0), END(0, 1, 1)), BYTES(NOBODY, NOBODY)},
    {"true in period 3, 2 records", BYTES(THIRD_PERIOD, END(2, 3, 3)), BYTES(NOBODY, NOBODY)},
    {"true in period 3", BYTES(THIRD_PERIOD, END(2, 3, 3)), BYTES(NOBODY, NOBODY, NOBODY)},
    {"S and V1 true in period 3", BYTES(THIRD_PERIOD, END(2, 2, 3)), BYTES(NOBODY, NOBODY, NOBODY, NOBODY)},
    {"S and V2 true in period 3", BYTES(THIRD_PERIOD, END(2, 3, 2)), BYTES(NOBODY, NOBODY, NOBODY, NOBODY)},
    {"turns", TURNS, BYTES(NOBODY, NOBODY, NOBODY)},
    {"turns again", TURNS, BYTES(NOBODY, NOBODY, NOBODY)},
    {"later", LATER, BYTES(PERIOD(0, 1), PERIOD(1, 1), NOBODY, PERIOD(0, 1), NOBODY)},
    {"not later", LATER, BYTES(PERIOD(0, 1))},
};

/* The records that decide; their attempts are in bytes 2 and 4. */
static const struct { const char *label; uint8_t record[MONITOR_PERIOD_BYTES]; } deciding[] = {
    {"satisfied", {MEETS}},
    {"violated, blame 1,", {BREAKS_1}},
    {"violated, blame 2,", {BREAKS_2}},
    {"violated, blame 3,", {BREAKS_3}},
};

static const struct sample refusals[] = {
    /* Marks before the decision, in the deciding record and after it. */
    {"wrong first byte in the first of 3", PLAIN, BYTES(WRONG_FIRST, NOBODY, MEETS)},
    {"wrong second byte in the first of 3", PLAIN, BYTES(WRONG_SECOND, NOBODY, MEETS)},
    {"wrong first byte before the decision", PLAIN, BYTES(NOBODY, 'U', 'P', 0, 0, 0, 0, MEETS)},
    {"wrong second byte before the decision", PLAIN, BYTES(NOBODY, 'T', 'O', 0, 0, 0, 0, MEETS)},
    {"wrong first byte in the deciding record", PLAIN, BYTES(NOBODY, WRONG_FIRST, NOBODY)},
    {"wrong second byte in the deciding record", PLAIN, BYTES(NOBODY, WRONG_SECOND, NOBODY)},
    {"wrong first byte after the decision", PLAIN, BYTES(NOBODY, MEETS, WRONG_FIRST, NOBODY)},
    {"wrong second byte after the decision", PLAIN, BYTES(NOBODY, MEETS, WRONG_SECOND, NOBODY)},
    {"wrong first byte in the last, decided before", PLAIN, BYTES(BREAKS_1, NOBODY, WRONG_FIRST)},
    {"wrong second byte in the last, decided before", PLAIN, BYTES(BREAKS_1, NOBODY, WRONG_SECOND)},
    {"wrong marks in all after the decision", PLAIN, BYTES(BREAKS_2, WRONG_FIRST, WRONG_SECOND, 'T', 'C', 1, 1, 0, 0)},
    {"wrong mark in the last of 3, undecided", PLAIN, BYTES(NOBODY, NOBODY, WRONG_SECOND)},
    {"wrong marks in the last 2 of 4, undecided", PLAIN, BYTES(NOBODY, NOBODY, WRONG_SECOND, WRONG_FIRST)},
    {"wrong marks before and after the decision", PLAIN, BYTES(NOBODY, WRONG_SECOND, MEETS, WRONG_FIRST)},
    {"mark 50 54", PLAIN, BYTES('P', 'T', 0, 0, 0, 0)},
    /* Lengths, before later marks and whatever decides. */
    {"1 byte", PLAIN, BYTES('T')},
    {"5 bytes", PLAIN, BYTES('T', 'P', 0, 0, 0)},
    {"7 bytes", PLAIN, BYTES(NOBODY, 'T')},
    {"11 bytes", PLAIN, BYTES(NOBODY, 'T', 'P', 0, 0, 0)},
    {"7 bytes, satisfied by the first record", PLAIN, BYTES(MEETS, 'T')},
    {"length before a later mark", PLAIN, BYTES(NOBODY, WRONG_SECOND, 'T')},
    /* Images, before all else. */
    {"row 0 of kind 3", BAD_IMAGE, BYTES(NOBODY)},
    {"row 0 of kind 3, no record", BAD_IMAGE, NO_BYTES},
    {"row 1 of kind 7", BYTES(ROW(2, 1, 0), ROW(7, 0, 0), END(0, 0, 0)), BYTES(MEETS)},
    {"S is 1 of 1 row", BYTES(ROW(2, 1, 0), END(1, 0, 0)), BYTES(MEETS)},
    {"row for the end record", BYTES(ROW(2, 1, 0), ROW(2, 1, 0)), BYTES(MEETS)},
    {"image of 0 bytes", NO_BYTES, BYTES(NOBODY)},
    {"image of 8 bytes", BYTES(END(0, 0, 0)), BYTES(NOBODY)},
    {"image of 15 bytes", BYTES(ROW(0, 0, 0), 'T', 'E', 0, 0, 0, 0, 0), BYTES(NOBODY)},
    {"image of 16 bytes", BYTES(ROW(0, 0, 0), END(0, 0, 0)), BYTES(NOBODY)},
    {"image of 17 bytes", BYTES(ROW(0, 0, 0), END(0, 0, 0), 0), BYTES(NOBODY)},
    {"bad image and mark", BYTES(ROW(2, 1, 0), END(1, 0, 0)), BYTES(WRONG_FIRST)},
    {"bad image, length and mark", BYTES(ROW(2, 1, 0), END(1, 0, 0)), BYTES(WRONG_FIRST, 'T')},
};

/* Reply areas: decide needs 32 bytes. */
#define BROKEN BYTES(NOBODY, BREAKS_3, NOBODY)
static const struct { const char *label; size_t length; struct bytes image, trace; } areas[] = {
    {"", 0, PLAIN, BROKEN},
    {"", 24, PLAIN, BROKEN},
    {"", 31, PLAIN, BROKEN},
    {"", 32, PLAIN, BROKEN},
    {"", 33, PLAIN, BROKEN},
    {"", 2048, PLAIN, BROKEN},
    {"wide records, ", 31, PLAIN, BYTES(WIDE_NOBODY, WIDE_PERIOD(2, 2))},
    {"wide records, ", 32, PLAIN, BYTES(WIDE_NOBODY, WIDE_PERIOD(2, 2))},
    {"undecided, ", 33, PLAIN, BYTES(NOBODY, NOBODY, NOBODY)},
    {"bad mark, ", 31, PLAIN, BYTES(NOBODY, WRONG_FIRST)},
    {"bad mark, ", 32, PLAIN, BYTES(NOBODY, WRONG_FIRST)},
    {"bad mark, ", 33, PLAIN, BYTES(NOBODY, WRONG_FIRST)},
    {"bad image, ", 31, BAD_IMAGE, NO_BYTES},
    {"bad image, ", 40, BAD_IMAGE, NO_BYTES},
};

/* ---- running them */

static void put_samples(const struct sample *table, size_t count)
{
    for (size_t k = 0; k < count; k++)
        sample(table[k].label, table[k].image, table[k].trace);
}

/* Traces of 1 to 3 records, decided by each of them in turn. */
static void positions(enum form form, const char *name)
{
    for (size_t d = 0; d < COUNT(deciding); d++)
        for (unsigned count = 1; count <= 3; count++)
            for (unsigned k = 0; k < count; k++) {
                const uint8_t *decides = deciding[d].record;
                uint8_t records[3 * MONITOR_WIDE_PERIOD_BYTES];
                size_t length = 0;
                char label[64];
                for (unsigned i = 0; i < count; i++)
                    length += put_period(records + length, form, i == k ? decides[2] : 0, i == k ? decides[4] : 0);
                snprintf(label, sizeof label, "%s by %s %u of %u", deciding[d].label, name, k + 1, count);
                sample(label, plain, (struct bytes){records, length});
            }
}

/* The result, and the area's bytes up to the last one that was written. */
static void put_areas(void)
{
    for (size_t k = 0; k < COUNT(areas); k++) {
        copy(&image, areas[k].image);
        copy(&trace, areas[k].trace);
        uint32_t result = lend(DECIDE, areas[k].length);
        printf("%sarea of %u bytes: %u", areas[k].label, (unsigned)areas[k].length, (unsigned)result);
        put_bytes(start(&reply), changed(&reply, UNWRITTEN));
        printf("\n");
    }
}

/* Images of 5,952 rows, the most, and of one row more. All rows are false, but among the last 300 each is what the one before */
/* it was, and the first of these is true in period 1: so the last row is true in period 300. */
static void largest(void)
{
    enum { LAST = MONITOR_MAX_ROWS - 1, DECISION = 300 };
    static uint8_t rows[BUFFER_BYTES + MONITOR_ROW_BYTES], records[MONITOR_PERIOD_BYTES * (DECISION + 1)];
    static const uint8_t blank[] = {ROW(0, 0, 0)}, first[] = {ROW(1, 0, 0)}, nobody[] = {NOBODY}, wrong[] = {WRONG_SECOND};
    static const uint8_t own[] = {ROW(3, LAST, 0)};
    static const uint8_t satisfied[] = {END(LAST, 0, 0)}, violated[] = {END(LAST, LAST, LAST)}, beyond[] = {END(LAST + 1, 0, 0)};
    uint8_t *last_at = rows + MONITOR_ROW_BYTES * LAST, *end_at = last_at + MONITOR_ROW_BYTES;
    struct bytes most = {rows, BUFFER_BYTES}, longer = {rows, sizeof rows};
    struct bytes open = {records, MONITOR_PERIOD_BYTES * (DECISION - 1)}, decided = {records, MONITOR_PERIOD_BYTES * DECISION};
    struct bytes all = {records, sizeof records};

    for (size_t k = 0; k < sizeof rows; k += sizeof blank)
        memcpy(rows + k, blank, sizeof blank);
    memcpy(rows + MONITOR_ROW_BYTES * (LAST + 1 - DECISION), first, sizeof first);
    for (size_t k = LAST + 2 - DECISION; k <= LAST; k++)
        memcpy(rows + MONITOR_ROW_BYTES * k, (const uint8_t[]){ROW(6, k - 1, 0)}, MONITOR_ROW_BYTES);
    memcpy(end_at, satisfied, sizeof satisfied);
    for (size_t k = 0; k < sizeof records; k += sizeof nobody)
        memcpy(records + k, nobody, sizeof nobody);

    sample("5952 rows, 299 records", most, open);
    sample("5952 rows, 300 records", most, decided);
    sample("5952 rows, 301 records", most, all);
    memcpy(end_at, violated, sizeof violated);
    sample("5952 rows, S, V1 and V2", most, all);
    memcpy(records + decided.length, wrong, sizeof wrong);
    sample("5952 rows, wrong mark after the decision", most, all);
    memcpy(records + open.length, wrong, sizeof wrong);
    sample("5952 rows, wrong mark in the deciding record", most, all);
    memcpy(end_at, beyond, sizeof beyond);
    sample("S is 5952", most, all);
    memcpy(last_at, own, sizeof own);
    sample("row 5951 names itself", most, all);
    memcpy(last_at, blank, sizeof blank);
    memcpy(end_at, blank, sizeof blank);
    memcpy(end_at + MONITOR_ROW_BYTES, satisfied, sizeof satisfied);
    sample("image of 47632 bytes", longer, all);
}

/* ---- traces of which only the first records can be read */

/* Memory of which one page can be read, and none after it. */
enum { PAGE = 4096 };
#define MOST ((size_t)4294967295)
#define RECORDS(count) (MONITOR_PERIOD_BYTES * (size_t)(count))
#define WIDE_RECORDS(count) (MONITOR_WIDE_PERIOD_BYTES * (size_t)(count))
#define MAPPED (PAGE + WIDE_RECORDS(MOST + 2))

#define NARROW_MARK 'T', 'P'
#define WIDE_MARK 'T', 'Q'
#define WIDE_MEETS WIDE_PERIOD(1, 0)

/* The bytes that can be read, and the whole trace's length. */
static const struct { const char *label; struct bytes image, records; size_t length; } far_traces[] = {
    {"no record", PLAIN, NO_BYTES, 0},
    {"1 byte", PLAIN, BYTES('T'), 1},
    {"5 bytes", PLAIN, BYTES(NARROW_MARK), 5},
    {"9 bytes of a wide record", PLAIN, BYTES(WIDE_MARK), 9},
    {"4 records, satisfied by the third", PLAIN, BYTES(NOBODY, NOBODY, MEETS), RECORDS(4)},
    {"4 wide records, satisfied by the third", PLAIN, BYTES(WIDE_NOBODY, WIDE_NOBODY, WIDE_MEETS), WIDE_RECORDS(4)},
    {"4294967295 records, satisfied by the third", PLAIN, BYTES(NOBODY, NOBODY, MEETS), RECORDS(MOST)},
    {"4294967295 records, violated by the first", PLAIN, BYTES(BREAKS_3), RECORDS(MOST)},
    {"4294967295 records, wrong mark in the third", PLAIN, BYTES(NOBODY, NOBODY, WRONG_FIRST), RECORDS(MOST)},
    {"4294967295 records and a byte, satisfied by the first", PLAIN, BYTES(MEETS), RECORDS(MOST) + 1},
    {"4294967295 records, bad image", BAD_IMAGE, NO_BYTES, RECORDS(MOST)},
    {"4294967295 wide records, satisfied by the third", PLAIN, BYTES(WIDE_NOBODY, WIDE_NOBODY, WIDE_MEETS), WIDE_RECORDS(MOST)},
    {"4294967295 wide records, narrow mark in the third", PLAIN, BYTES(WIDE_NOBODY, WIDE_NOBODY, MEETS), WIDE_RECORDS(MOST)},
    {"4294967295 wide records and a byte, satisfied by the first", PLAIN, BYTES(WIDE_MEETS), WIDE_RECORDS(MOST) + 1},
    /* Too many: the first record's mark and the length go before the count, and the count before later marks. */
    {"4294967296 records", PLAIN, BYTES(NARROW_MARK), RECORDS(MOST + 1)},
    {"4294967296 records, satisfied by the third", PLAIN, BYTES(NOBODY, NOBODY, MEETS), RECORDS(MOST + 1)},
    {"4294967296 records, wrong mark in the first", PLAIN, BYTES(WRONG_FIRST), RECORDS(MOST + 1)},
    {"4294967296 records, wrong mark in the second", PLAIN, BYTES(NOBODY, WRONG_SECOND), RECORDS(MOST + 1)},
    {"4294967296 records and a byte", PLAIN, BYTES(NARROW_MARK), RECORDS(MOST + 1) + 1},
    {"4294967296 records, bad image", BAD_IMAGE, NO_BYTES, RECORDS(MOST + 1)},
    {"4294967299 records, satisfied by the third", PLAIN, BYTES(NOBODY, NOBODY, MEETS), RECORDS(MOST + 4)},
    {"4294967296 wide records", PLAIN, BYTES(WIDE_MARK), WIDE_RECORDS(MOST + 1)},
    {"4294967296 wide records, wrong mark in the first", PLAIN, BYTES(WRONG_SECOND), WIDE_RECORDS(MOST + 1)},
    {"4294967296 wide records, narrow mark in the second", PLAIN, BYTES(WIDE_NOBODY, MEETS), WIDE_RECORDS(MOST + 1)},
    {"4294967296 wide records and a byte", PLAIN, BYTES(WIDE_MARK), WIDE_RECORDS(MOST + 1) + 1},
    /* 25,769,803,800 bytes are 4,294,967,300 narrow records or 2,576,980,380 wide ones. */
    {"25769803800 bytes, narrow, satisfied by the first", PLAIN, BYTES(MEETS), 25769803800},
    {"25769803800 bytes, wide, satisfied by the first", PLAIN, BYTES(WIDE_MEETS), 25769803800},
};

static uint8_t *map_page(void)
{
    uint8_t *page = mmap(NULL, MAPPED, PROT_NONE, MAP_PRIVATE | MAP_ANONYMOUS | MAP_NORESERVE, -1, 0);

    return page != MAP_FAILED && mprotect(page, PAGE, PROT_READ | PROT_WRITE) == 0 ? page : NULL;
}

/* The records end where the page does, so a look at any byte after them ends the test. */
static void far_sample(uint8_t *page, const char *label, struct bytes rows, struct bytes records, size_t length)
{
    static struct area image_before;
    static uint8_t page_before[PAGE];
    uint8_t *at = page + PAGE - records.length;

    memset(page, GUARD, PAGE);
    memcpy(at, records.at, records.length);
    memcpy(page_before, page, PAGE);
    copy(&image, rows);
    image_before = image;
    fill(&reply, UNWRITTEN, sizeof(struct monitor_decide_reply));
    printf("unreadable rest, %s:", label);
    fflush(stdout);
    uint32_t result = monitor_decide(start(&image), image.length, at, length, start(&reply), reply.length);
    check_kept(&image, &image_before);
    check_guards(&reply);
    if (memcmp(page, page_before, PAGE) != 0)
        fault("bytes changed that are only read");
    end_line(result, records);
}

static void put_far_traces(void)
{
    uint8_t *page = map_page();

    if (page == NULL) {
        fault("the machine refuses a mapping for 4294967296 wide records");
        return;
    }
    for (size_t k = 0; k < COUNT(far_traces); k++)
        far_sample(page, far_traces[k].label, far_traces[k].image, far_traces[k].records, far_traces[k].length);
}

int main(void)
{
    put_samples(decisions, COUNT(decisions));
    positions(NARROW, "record");
    positions(WIDE, "wide record");
    put_samples(refusals, COUNT(refusals));
    put_areas();
    largest();
    put_far_traces();
    return faults != 0;
}
