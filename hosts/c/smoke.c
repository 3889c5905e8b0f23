/* A host that only runs images, linked with librunner.a alone: an image by hand through begin, steps, run, decide and */
/* refusals. The header's structs are its reply areas. What it prints is held to the file smoke.expected. */
#include "testing.h"

/* ---- the header's structs and numbers, once more as documents 01 and 02 and the calls' replies have them */

/* A field of a reply: where it starts, and its bytes. */
#define FIELD(reply, field, from, bytes) \
    _Static_assert(offsetof(struct reply, field) == (from) && sizeof(((struct reply *)0)->field) == (bytes), #reply ": " #field)
#define SIZE(reply, bytes) _Static_assert(sizeof(struct reply) == (bytes), #reply)

FIELD(monitor_compile_reply, number, 0, 4);
FIELD(monitor_compile_reply, rows, 4, 4);
FIELD(monitor_compile_reply, place, 8, 8);
SIZE(monitor_compile_reply, 16);

FIELD(monitor_begin_reply, number, 0, 4);
FIELD(monitor_begin_reply, zero, 4, 4);
FIELD(monitor_begin_reply, place, 8, 8);
SIZE(monitor_begin_reply, 16);

FIELD(monitor_step_reply, number, 0, 4);
FIELD(monitor_step_reply, verdict, 4, 4);
FIELD(monitor_step_reply, place, 8, 8);
FIELD(monitor_step_reply, blame, 16, 4);
FIELD(monitor_step_reply, decision, 20, 4);
SIZE(monitor_step_reply, 24);

FIELD(monitor_run_reply, number, 0, 4);
FIELD(monitor_run_reply, verdict, 4, 4);
FIELD(monitor_run_reply, place, 8, 8);
FIELD(monitor_run_reply, blame, 16, 4);
FIELD(monitor_run_reply, decision, 20, 4);
SIZE(monitor_run_reply, 24);

FIELD(monitor_decide_reply, number, 0, 4);
FIELD(monitor_decide_reply, outcome, 4, 4);
FIELD(monitor_decide_reply, place, 8, 8);
FIELD(monitor_decide_reply, blame, 16, 4);
FIELD(monitor_decide_reply, decision, 20, 4);
FIELD(monitor_decide_reply, records, 24, 4);
FIELD(monitor_decide_reply, zero, 28, 4);
SIZE(monitor_decide_reply, 32);

FIELD(monitor_join_reply, number, 0, 4);
FIELD(monitor_join_reply, records, 4, 4);
FIELD(monitor_join_reply, place, 8, 8);
SIZE(monitor_join_reply, 16);

#define KIND(name, number) _Static_assert(MONITOR_KIND_##name == (number), #name)
KIND(DUTY, 1);
KIND(BAN, 2);
KIND(POWER, 3);
KIND(BOTH, 4);
KIND(THEN, 5);
KIND(REPAIR, 6);
KIND(REPEAT, 7);
KIND(WHEN, 8);
KIND(UNTIL, 9);
KIND(DEADLINE, 10);
KIND(ANY, 16);
KIND(TRIES, 17);
KIND(IDLE, 18);
KIND(SUCCEEDS, 19);
KIND(FAILS, 20);
KIND(SEQ, 21);
KIND(OR, 22);
KIND(STAR, 23);

#define REFUSED(name, number) _Static_assert(MONITOR_REFUSED_##name == (number), #name)
_Static_assert(MONITOR_ACCEPTED == 0, "ACCEPTED");
REFUSED(BAD_LENGTH, 1);
REFUSED(BAD_MARK, 2);
REFUSED(UNKNOWN_KIND, 3);
REFUSED(BAD_FIELD, 4);
REFUSED(BAD_OPERANDS, 5);
REFUSED(NOT_ONE_CLAUSE, 6);
REFUSED(EMPTY_LIST, 7);
REFUSED(SHORT_BUFFER, 8);
REFUSED(BAD_IMAGE, 9);
REFUSED(BAD_STATE, 10);
REFUSED(BAD_PERIOD, 11);
REFUSED(FULL_COUNT, 12);
REFUSED(BAD_LOG, 14);
REFUSED(OUT_OF_ORDER, 15);
REFUSED(SHORT_TRACE, 16);
_Static_assert(MONITOR_LOG_2_PLACE == 65536, "what is added to a place in log 2");

#define VERDICT(name, number) _Static_assert(MONITOR_VERDICT_##name == (number), #name)
VERDICT(OPEN, 0);
VERDICT(MET, 1);
VERDICT(BROKEN, 2);
VERDICT(MET_AFTER, 3);
VERDICT(BROKEN_AFTER, 4);

#define OUTCOME(name, number) _Static_assert(MONITOR_OUTCOME_##name == (number), #name)
OUTCOME(UNDECIDED, 0);
OUTCOME(SATISFIED, 1);
OUTCOME(VIOLATED, 2);

#define PARTY(name, number) _Static_assert(MONITOR_PARTY_##name == (number), #name)
PARTY(NONE, 0);
PARTY(1, 1);
PARTY(2, 2);
PARTY(BOTH, 3);

_Static_assert(MONITOR_ACTIONS == 32, "the number of actions");
_Static_assert(MONITOR_MAX_WINDOW == 15, "the longest window");
_Static_assert(MONITOR_PERIOD_BYTES == 6, "a narrow period record");
_Static_assert(MONITOR_WIDE_PERIOD_BYTES == 10, "a wide period record");
_Static_assert(MONITOR_LOG_RECORD_BYTES == 8, "a log record");
_Static_assert(MONITOR_MAX_LOG_RECORDS == 65535, "the most records of a log");
_Static_assert(MONITOR_TRACE_BYTES(1) == 10 && MONITOR_TRACE_BYTES(65535) == 655350, "a trace of wide records");
_Static_assert(MONITOR_MAX_ROWS == 5952, "the most rows");
_Static_assert(MONITOR_IMAGE_BYTES(MONITOR_MAX_ROWS) == 47624, "the longest image");
_Static_assert(MONITOR_STATE_BYTES(MONITOR_MAX_ROWS) == 5962, "its state");

/* ---- an image by hand */

/* Party 1 owes action 0 in each period: V1 is row 1, not row 0; V2 and S are row 2, false. */
static const uint8_t rows[] = {
    0x54, 0x52, 2, 0, 1, 0, 0, 0,
    0x54, 0x52, 3, 0, 0, 0, 0, 0,
    0x54, 0x52, 0, 0, 0, 0, 0, 0,
    0x54, 0x45, 2, 0, 1, 0, 2, 0,
};

/* Three periods: party 1 tries, tries, doesn't; then one period more. In narrow records, and in wide ones. */
static const uint8_t records[] = {
    0x54, 0x50, 1, 0, 0, 0,
    0x54, 0x50, 1, 0, 1, 0,
    0x54, 0x50, 0, 0, 1, 0,
    0x54, 0x50, 1, 0, 1, 0,
};
static const uint8_t wide_records[] = {
    0x54, 0x51, 1, 0, 0, 0, 0, 0, 0, 0,
    0x54, 0x51, 1, 0, 0, 0, 1, 0, 0, 0,
    0x54, 0x51, 0, 0, 0, 0, 1, 0, 0, 0,
    0x54, 0x51, 1, 0, 0, 0, 1, 0, 0, 0,
};

/* The first bytes of them. */
static struct bytes narrow(size_t length)
{
    return (struct bytes){records, length};
}

static struct bytes wide(size_t length)
{
    return (struct bytes){wide_records, length};
}

enum { STATE_BYTES = MONITOR_HEAD_BYTES + 3 };
static uint8_t stepped[STATE_BYTES], other[STATE_BYTES], before[STATE_BYTES];

/* Ends a line; the reply in it must be the one that documents 01 and 02 give. */
static void end_line(int good)
{
    printf("\n");
    if (!good)
        fault("not as expected");
}

static void step(const char *label, size_t rows_length, uint8_t *values, struct bytes record, struct monitor_step_reply want)
{
    struct monitor_step_reply r;

    memset(&r, 0xff, sizeof r);
    uint32_t result = monitor_step(rows, rows_length, values, STATE_BYTES, record.at, record.length, (uint8_t *)&r, sizeof r);
    printf("%s:", label);
    PUT(result, r.number, r.verdict, r.place, r.blame, r.decision);
    end_line(result == 1 && memcmp(&r, &want, sizeof r) == 0);
}

static void run(const char *label, uint8_t *values, struct bytes trace, struct monitor_run_reply want)
{
    struct monitor_run_reply r;

    memset(&r, 0xff, sizeof r);
    uint32_t result = monitor_run(rows, sizeof rows, values, STATE_BYTES, trace.at, trace.length, (uint8_t *)&r, sizeof r);
    printf("%s:", label);
    PUT(result, r.number, r.verdict, r.place, r.blame, r.decision);
    end_line(result == 1 && memcmp(&r, &want, sizeof r) == 0);
}

static void decide(const char *label, size_t rows_length, struct bytes trace, struct monitor_decide_reply want)
{
    struct monitor_decide_reply r;

    memset(&r, 0xff, sizeof r);
    uint32_t result = monitor_decide(rows, rows_length, trace.at, trace.length, (uint8_t *)&r, sizeof r);
    printf("%s:", label);
    PUT(result, r.number, r.outcome, r.place, r.blame, r.decision, r.records, r.zero);
    end_line(result == 1 && memcmp(&r, &want, sizeof r) == 0);
}

static void begins(void)
{
    static const uint8_t zeros[STATE_BYTES];
    struct monitor_begin_reply r;

    memset(stepped, 0xff, sizeof stepped);
    memset(&r, 0xff, sizeof r);
    uint32_t result = monitor_begin(rows, sizeof rows, stepped, sizeof stepped, (uint8_t *)&r, sizeof r);
    printf("begin:");
    PUT(result, r.number, r.zero, r.place);
    printf("\n");
    check("begin is accepted", result == 1 && r.number == MONITOR_ACCEPTED && r.zero == 0 && r.place == 0);
    check("the state is zeros", memcmp(stepped, zeros, sizeof stepped) == 0);
}

static void steps(void)
{
    static const struct monitor_step_reply want[] = {
        {MONITOR_ACCEPTED, MONITOR_VERDICT_OPEN, 0, MONITOR_PARTY_NONE, 0},
        {MONITOR_ACCEPTED, MONITOR_VERDICT_OPEN, 0, MONITOR_PARTY_NONE, 0},
        {MONITOR_ACCEPTED, MONITOR_VERDICT_BROKEN, 0, MONITOR_PARTY_1, 3},
        {MONITOR_ACCEPTED, MONITOR_VERDICT_BROKEN_AFTER, 0, MONITOR_PARTY_1, 3},
    };

    for (size_t k = 0; k < COUNT(want); k++)
        step("step", sizeof rows, stepped, (struct bytes){records + MONITOR_PERIOD_BYTES * k, MONITOR_PERIOD_BYTES}, want[k]);
}

static void runs(void)
{
    static const struct monitor_run_reply want = {MONITOR_ACCEPTED, MONITOR_VERDICT_BROKEN_AFTER, 0, MONITOR_PARTY_1, 3};

    run("run", other, narrow(sizeof records), want);
    check("the run ends in the steps' state", memcmp(stepped, other, sizeof stepped) == 0);
    memset(other, 0, sizeof other);
    run("run of wide records", other, wide(sizeof wide_records), want);
    check("it ends in the same state", memcmp(stepped, other, sizeof stepped) == 0);
    memcpy(before, stepped, sizeof stepped);
    run("run of no record", stepped, narrow(0), want);
}

/* Without a state. Of the four records the third decides. */
static void decides(void)
{
    static const struct monitor_decide_reply nothing = {.outcome = MONITOR_OUTCOME_UNDECIDED};
    static const struct monitor_decide_reply open = {.outcome = MONITOR_OUTCOME_UNDECIDED, .records = 2};
    static const struct monitor_decide_reply violated = {.outcome = MONITOR_OUTCOME_VIOLATED, .blame = MONITOR_PARTY_1,
                                                         .decision = 3, .records = 3};

    decide("decide", sizeof rows, narrow(sizeof records), violated);
    decide("decide of 3 records", sizeof rows, narrow(3 * MONITOR_PERIOD_BYTES), violated);
    decide("decide of 2 records", sizeof rows, narrow(2 * MONITOR_PERIOD_BYTES), open);
    decide("decide of no record", sizeof rows, narrow(0), nothing);
    decide("decide of wide records", sizeof rows, wide(sizeof wide_records), violated);
    decide("decide of 2 wide records", sizeof rows, wide(2 * MONITOR_WIDE_PERIOD_BYTES), open);
}

static void refusals(void)
{
    static const struct monitor_run_reply bad_period = {.number = MONITOR_REFUSED_BAD_PERIOD};
    static const struct monitor_decide_reply bad_trace = {.number = MONITOR_REFUSED_BAD_PERIOD};
    static const struct monitor_decide_reply no_image = {.number = MONITOR_REFUSED_BAD_IMAGE};
    static const struct monitor_step_reply bad_image = {.number = MONITOR_REFUSED_BAD_IMAGE};
    static const struct monitor_step_reply bad_state = {.number = MONITOR_REFUSED_BAD_STATE};

    run("run of 7 bytes", stepped, narrow(7), bad_period);
    run("run of 12 bytes of wide records", stepped, wide(12), bad_period);
    step("step with a short image", sizeof rows - 1, stepped, narrow(MONITOR_PERIOD_BYTES), bad_image);
    check("the state is kept", memcmp(stepped, before, sizeof stepped) == 0);
    memset(other, 3, sizeof other);
    memcpy(before, other, sizeof other);
    step("step on an unsound state", sizeof rows, other, wide(MONITOR_WIDE_PERIOD_BYTES), bad_state);
    decide("decide of 19 bytes", sizeof rows, narrow(19), bad_trace);
    decide("decide with a short image", sizeof rows - 1, narrow(19), no_image);
}

static void short_areas(void)
{
    struct monitor_step_reply r;
    struct monitor_decide_reply d;

    memset(&r, 0xff, sizeof r);
    uint32_t result = monitor_step(rows, sizeof rows, stepped, sizeof stepped, records, MONITOR_PERIOD_BYTES, (uint8_t *)&r, 23);
    check("23 bytes are too short for a reply", result == 0 && r.number == 0xffffffff && r.decision == 0xffffffff);
    check("the unsound state is kept", memcmp(other, before, sizeof other) == 0);
    memset(&d, 0xff, sizeof d);
    result = monitor_decide(rows, sizeof rows, records, sizeof records, (uint8_t *)&d, 31);
    check("31 bytes are too short for decide's", result == 0 && d.number == 0xffffffff && d.zero == 0xffffffff);
}

int main(void)
{
    begins();
    steps();
    runs();
    decides();
    refusals();
    short_areas();
    return faults != 0;
}
