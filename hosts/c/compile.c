/* Compile at its edges: refusals, buffers and reply areas; the contract of "Watch" through all six calls; and an image that was */
/* compiled earlier, beside the one that compile writes now. */
/* Document 01, "Calls", "Replies that refuse" and "Watch"; document 02, "Duties with a deadline", "Duties that both parties */
/* own", "Stop reading once it is decided", "Thirty-two actions", "Join the two parties' logs" and "An ending that may begin in */
/* any period". What it prints is held to the file compile.expected. */
#include "testing.h"

_Static_assert(MONITOR_BUFFER_BYTES(1, 0) == 776, "776 bytes take one record that is no deadline");
_Static_assert(MONITOR_BUFFER_BYTES(MONITOR_MAX_RECORDS, 0) == 16904, "16,904 bytes take every contract without deadlines");
_Static_assert(MONITOR_BUFFER_BYTES(MONITOR_MAX_RECORDS, MONITOR_MAX_RECORDS * MONITOR_MAX_WINDOW) == BUFFER_BYTES,
               "47,624 bytes take every contract");

#define DUTY MONITOR_RECORD(MONITOR_KIND_DUTY, MONITOR_PARTY_1, 0)
#define REPEAT MONITOR_RECORD(MONITOR_KIND_REPEAT, 0, 0)
#define ANY MONITOR_RECORD(MONITOR_KIND_ANY, 0, 0)
#define DEADLINE(window) MONITOR_DEADLINE(MONITOR_PARTY_1, 0, window)

static const struct bytes duty = BYTES(DUTY);
static const struct bytes last_action = BYTES(MONITOR_RECORD(MONITOR_KIND_DUTY, MONITOR_PARTY_1, MONITOR_ACTIONS - 1));
static const struct bytes joint_duty = BYTES(MONITOR_RECORD(MONITOR_KIND_DUTY, MONITOR_PARTY_BOTH, 0));
static const struct bytes duty_repeat = BYTES(DUTY, REPEAT);
static const struct bytes any = BYTES(ANY);
static const struct bytes shortest = BYTES(DEADLINE(1));
static const struct bytes longest = BYTES(DEADLINE(MONITOR_MAX_WINDOW));
static const struct bytes windows = BYTES(DEADLINE(3), DEADLINE(5), MONITOR_RECORD(MONITOR_KIND_BOTH, 0, 0), REPEAT);

/* The contract and the trace of "Watch", the latter also in wide records and as two logs, which have no record of a period */
/* without attempts. */
static const struct bytes watched =
    BYTES(DUTY, MONITOR_RECORD(MONITOR_KIND_DUTY, MONITOR_PARTY_1, 1), MONITOR_RECORD(MONITOR_KIND_REPAIR, 0, 0), REPEAT);
static const struct bytes narrow_trace =
    BYTES(MONITOR_PERIOD(1, 1), MONITOR_PERIOD(0, 0), MONITOR_PERIOD(2, 0), MONITOR_PERIOD(1, 1));
static const struct bytes wide_trace =
    BYTES(MONITOR_WIDE_PERIOD(1, 1), MONITOR_WIDE_PERIOD(0, 0), MONITOR_WIDE_PERIOD(2, 0), MONITOR_WIDE_PERIOD(1, 1));
static const struct bytes first_log = BYTES(MONITOR_LOG_RECORD(1, 1), MONITOR_LOG_RECORD(3, 2), MONITOR_LOG_RECORD(4, 1));
static const struct bytes second_log = BYTES(MONITOR_LOG_RECORD(1, 1), MONITOR_LOG_RECORD(4, 1));

/* ---- the macros, and "Watch" by all six calls */

/* The macros' bytes, also where a mask has its highest bit. */
static void records(void)
{
    static const uint8_t made[] = {MONITOR_RECORD(MONITOR_KIND_STAR, MONITOR_PARTY_2, 31),
                                   MONITOR_RECORD(MONITOR_KIND_DUTY, MONITOR_PARTY_BOTH, 9),
                                   MONITOR_DEADLINE(MONITOR_PARTY_2, 14, 13), MONITOR_PERIOD(0x8001, 0x1234),
                                   MONITOR_WIDE_PERIOD(0x80000001, 0x12345678), MONITOR_WIDE_PERIOD(~0, INT32_MIN),
                                   MONITOR_LOG_RECORD(0x1234, 0x89abcdef), MONITOR_LOG_RECORD(65535, INT32_MIN)};
    static const uint8_t meant[] = {0x54, 0x43, 23, 2, 31, 0, 0x54, 0x43, 1, 3, 9, 0, 0x54, 0x43, 10, 2, 14, 13,
                                    0x54, 0x50, 0x01, 0x80, 0x34, 0x12,
                                    0x54, 0x51, 0x01, 0x00, 0x00, 0x80, 0x78, 0x56, 0x34, 0x12,
                                    0x54, 0x51, 0xff, 0xff, 0xff, 0xff, 0x00, 0x00, 0x00, 0x80,
                                    0x54, 0x4c, 0x34, 0x12, 0xef, 0xcd, 0xab, 0x89,
                                    0x54, 0x4c, 0xff, 0xff, 0x00, 0x00, 0x00, 0x80};

    check("the macros' bytes", sizeof made == sizeof meant && memcmp(made, meant, sizeof meant) == 0);
}

static void begin_line(void)
{
    uint32_t result = begin();
    struct monitor_begin_reply r = begin_reply();
    printf("begin:");
    PUT(result, r.number, r.zero, r.place);
    printf("\n");
}

/* The image in its area on these periods: begin and steps, begin and a run, decide. */
static void follow(struct bytes periods)
{
    static struct area before, stepped;
    struct monitor_step_reply s = {0};
    size_t record = form_bytes(form_of(periods));

    before = image;
    begin_line();
    for (size_t k = 0; k < periods.length; k += record) {
        s = take_step((struct bytes){periods.at + k, record});
        printf("%u %s %u\n", (unsigned)(k / record + 1), verdict_name(s.verdict), (unsigned)s.blame);
    }
    printf("decided %u\n", (unsigned)s.decision);
    stepped = state;
    begin_line();
    struct monitor_run_reply r = take_run(periods);
    printf("run: %s %u %u\n", verdict_name(r.verdict), (unsigned)r.blame, (unsigned)r.decision);
    check("the run ends in the steps' state", memcmp(state.all, stepped.all, sizeof state.all) == 0);
    copy(&trace, periods);
    printf("decide:");
    put_decided(lend(DECIDE, sizeof(struct monitor_decide_reply)));
    printf("\n");
    check("the image is as it was", memcmp(image.all, before.all, sizeof image.all) == 0);
}

static void watch(struct bytes periods)
{
    copy(&contract, watched);
    compile_taken();
    follow(periods);
}

/* The trace that join makes of the logs, for the other calls. */
static void watch_logs(void)
{
    static uint8_t joined[MONITOR_TRACE_BYTES(4)];

    copy(&logs[0], first_log);
    copy(&logs[1], second_log);
    uint32_t result = join(sizeof joined, sizeof(struct monitor_join_reply));
    struct monitor_join_reply r = join_reply();
    printf("join:");
    PUT(result, r.number, r.records, r.place);
    printf("\n");
    check("the trace is the one in wide records", holds(&trace, wide_trace));
    memcpy(joined, start(&trace), sizeof joined);
    watch((struct bytes){joined, sizeof joined});
}

/* ---- an image from before the expression of an `until` could begin in any period */

/* Until (repeat (duty 1 a), tries 1 b), and a/a, ab/a, -/-. */
static const struct bytes notice = BYTES(DUTY, REPEAT, MONITOR_RECORD(MONITOR_KIND_TRIES, MONITOR_PARTY_1, 1),
                                         MONITOR_RECORD(MONITOR_KIND_UNTIL, 0, 0));
static const struct bytes notice_trace = BYTES(MONITOR_PERIOD(1, 1), MONITOR_PERIOD(3, 1), MONITOR_PERIOD(0, 0));

/* What compile wrote of it then: b counts in period 1 alone, by rows 1, 6 and 7. */
static const struct bytes earlier =
    BYTES(ROW(0, 0, 0), ROW(1, 0, 0), ROW(3, 1, 0), ROW(6, 25, 0), ROW(3, 3, 0), ROW(4, 2, 4), ROW(2, 1, 1), ROW(4, 1, 6),
          ROW(6, 16, 0), ROW(4, 5, 8), ROW(3, 8, 0), ROW(4, 5, 10), ROW(5, 1, 9), ROW(2, 1, 0), ROW(2, 2, 0), ROW(4, 12, 13),
          ROW(4, 15, 14), ROW(3, 13, 0), ROW(4, 12, 17), ROW(3, 14, 0), ROW(4, 15, 19), ROW(5, 18, 20), ROW(3, 21, 0),
          ROW(4, 7, 22), ROW(5, 0, 23), ROW(5, 24, 21), END(24, 18, 20));

static void earlier_and_now(void)
{
    copy(&image, earlier);
    printf("compiled earlier, %u rows\n", (unsigned)(earlier.length / MONITOR_ROW_BYTES - 1));
    follow(notice_trace);
    copy(&contract, notice);
    printf("compiled now, %u rows\n", (unsigned)compile_taken());
    follow(notice_trace);
}

/* ---- compile alone */

static void put_compiled(uint32_t result)
{
    struct monitor_compile_reply r = compile_reply();
    PUT(result, r.number, r.rows, r.place);
}

/* A line: the image buffer's length, the result, the reply's fields, and how far the buffer was changed. */
static void buffer(const char *label, struct bytes from, size_t length)
{
    copy(&contract, from);
    printf("%s, buffer %u:", label, (unsigned)length);
    put_compiled(compile(length, sizeof(struct monitor_compile_reply)));
    printf(" changed");
    PUT(changed(&image, UNWRITTEN));
    printf("\n");
}

/* The refusal table's small inputs for 1 to 7, and others. */
static const struct { const char *label; struct bytes contract; } table[] = {
    {"0 bytes", NO_BYTES},
    {"5 bytes", BYTES('T', 'C', MONITOR_KIND_DUTY, 1, 0)},
    {"mark 54 44", BYTES('T', 'D', MONITOR_KIND_DUTY, 1, 0, 0)},
    {"kind 11", BYTES(MONITOR_RECORD(11, 0, 0))},
    {"duty, party 4", BYTES(MONITOR_RECORD(MONITOR_KIND_DUTY, 4, 0))},
    {"duty, action 32", BYTES(MONITOR_RECORD(MONITOR_KIND_DUTY, MONITOR_PARTY_1, 32))},
    {"window 0", BYTES(DEADLINE(0))},
    {"window 16", BYTES(DEADLINE(16))},
    {"repeat", BYTES(REPEAT)},
    {"any", BYTES(ANY)},
    {"any, star, duty, when", BYTES(ANY, MONITOR_RECORD(MONITOR_KIND_STAR, 0, 0), DUTY, MONITOR_RECORD(MONITOR_KIND_WHEN, 0, 0))},
    {"duty, duty", BYTES(DUTY, DUTY)},
};

/* Also with a buffer that meets 8. */
static void refusals(void)
{
    for (size_t k = 0; k < COUNT(table); k++) {
        buffer(table[k].label, table[k].contract, BUFFER_BYTES);
        buffer(table[k].label, table[k].contract, 775);
    }
}

/* 31 `both` of 32 duties, joint or not, or deadlines of the longest window, under repeats, one for 64 records: no contract of */
/* so many has more rows, without deadlines and with them. */
static struct bytes max_rows(int leaf, int repeats)
{
    static uint8_t records[MONITOR_RECORD_BYTES * (MONITOR_MAX_RECORDS + 1)];

    nest_left(leaf, MONITOR_KIND_BOTH, 32);
    add_run(0, MONITOR_KIND_REPEAT, 0, repeats);
    memcpy(records, start(&contract), contract.length);
    return (struct bytes){records, contract.length};
}

/* A buffer a byte shorter than the least, and one of just so many. */
static void least(const char *label, struct bytes from, size_t length)
{
    buffer(label, from, length - 1);
    buffer(label, from, length);
}

/* Buffers about the least, and 65 records. */
static void buffers(void)
{
    enum { WINDOWS = 32 * MONITOR_MAX_WINDOW };

    buffer("duty", duty, 0);
    least("duty", duty, 776);
    buffer("duty", duty, 777);
    buffer("duty", duty, BUFFER_BYTES);
    least("duty, action 31", last_action, 776);
    least("joint duty", joint_duty, 776);
    least("duty, repeat", duty_repeat, 1032);
    least("watch", watched, MONITOR_BUFFER_BYTES(4, 0));
    least("64 records", max_rows(MONITOR_KIND_DUTY, 1), MONITOR_BUFFER_BYTES(64, 0));
    least("joint duties, 64 records", max_rows(JOINT_DUTY, 1), MONITOR_BUFFER_BYTES(64, 0));
    buffer("65 records", max_rows(MONITOR_KIND_DUTY, 2), BUFFER_BYTES);
    buffer("deadline of 1", shortest, 776);
    least("deadline of 1", shortest, 808);
    least("deadline of 15", longest, 1256);
    least("deadlines of 3 and 5", windows, MONITOR_BUFFER_BYTES(4, 3 + 5));
    least("deadlines, 63 records", max_rows(MONITOR_KIND_DEADLINE, 0), MONITOR_BUFFER_BYTES(63, WINDOWS));
    least("deadlines, 64 records", max_rows(MONITOR_KIND_DEADLINE, 1), MONITOR_BUFFER_BYTES(64, WINDOWS));
    buffer("deadlines, 64 records", max_rows(MONITOR_KIND_DEADLINE, 1), BUFFER_BYTES);
    buffer("deadlines, 65 records", max_rows(MONITOR_KIND_DEADLINE, 2), BUFFER_BYTES);
}

/* A line for each: the reply area's length, the result, and how far the area and the image buffer were changed. */
static void areas(const char *label, struct bytes from)
{
    static const size_t lengths[] = {0, 15, 16, 17, 2048};

    copy(&contract, from);
    for (size_t k = 0; k < COUNT(lengths); k++) {
        printf("%s, reply area %u:", label, (unsigned)lengths[k]);
        PUT(compile(BUFFER_BYTES, lengths[k]));
        printf(" changed");
        PUT(changed(&reply, UNWRITTEN), changed(&image, UNWRITTEN));
        printf("\n");
    }
}

/* A line: the replies with a buffer full of one byte and of another, how far each was changed, and if the images are the same. */
static void contents(const char *label, struct bytes from)
{
    static struct area one;

    copy(&contract, from);
    printf("%s:", label);
    put_compiled(compile(BUFFER_BYTES, sizeof(struct monitor_compile_reply)));
    one = image;
    fill(&image, 255, BUFFER_BYTES);
    put_compiled(compile_over(sizeof(struct monitor_compile_reply)));
    printf(" changed");
    PUT(changed(&one, UNWRITTEN), changed(&image, 255));
    int same = memcmp(start(&one), start(&image), MONITOR_IMAGE_BYTES(compile_reply().rows)) == 0;
    printf(" %s\n", same ? "same" : "different");
}

int main(void)
{
    records();
    watch(narrow_trace);
    watch(wide_trace);
    watch_logs();
    earlier_and_now();
    refusals();
    buffers();
    areas("watch", watched);
    areas("5 bytes", (struct bytes){watched.at, 5});
    areas("duty", duty);
    areas("any", any);
    contents("duty", duty);
    contents("joint duty", joint_duty);
    contents("duty, duty, repair, repeat", watched);
    contents("64 records", max_rows(MONITOR_KIND_DUTY, 1));
    contents("deadlines, 64 records", max_rows(MONITOR_KIND_DEADLINE, 1));
    return faults != 0;
}
