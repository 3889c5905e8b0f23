/* Samples of begin, step and run in C: a printed line for each call, held to the file samples.expected. */
/* Document 01, "Image and row machine", "Calls" and "Replies that refuse"; document 02, "Duties with a deadline" and */
/* "Thirty-two actions". */
#include "testing.h"

/* ---- bytes of images, states and traces */

#define NINE(v) v, v, v, v, v, v, v, v, v
#define TEN(v) NINE(v), v
#define ELEVEN(v) TEN(v), v
#define TWELVE(v) ELEVEN(v), v
#define THIRTEEN(v) TWELVE(v), v

#define ONE_RECORD BYTES(NOBODY)

/* Two rows: party 1 tries action 0, party 2 tries action 1. S is row 0, V1 and V2 are row 1. */
#define FIRST_ROW ROW(2, 1, 0)
#define SECOND_ROW ROW(2, 2, 1)
#define SMALL_END END(0, 1, 1)
#define SMALL BYTES(FIRST_ROW, SECOND_ROW, SMALL_END)

/* States of two rows, and the full count. */
#define STATE(outcome, blame, periods, decision, first, second) \
    BYTES(outcome, blame, FOUR(periods), FOUR(decision), first, second)
#define FRESH BYTES(TWELVE(0))
#define FULL 4294967295

static const struct bytes small = SMALL;
static const struct bytes sevens = BYTES(TWELVE(7));
static const struct bytes fresh = FRESH;
static const struct bytes no_bytes = NO_BYTES;
static const struct bytes one_record = ONE_RECORD;
static const struct bytes two_records = BYTES(NOBODY, NOBODY);

/* ---- lines */

static const char *const names[] = {"begin", "step", "run"};

/* Calls with copies; the areas of state and reply have what the call leaves. */
static uint32_t lend_copies(enum call call, struct bytes rows, struct bytes before, struct bytes records, size_t reply_length)
{
    copy(&image, rows);
    copy(&state, before);
    copy(&trace, records);
    return lend(call, reply_length);
}

static void put_kept(struct bytes before)
{
    printf(" %s\n", holds(&state, before) ? "kept" : "changed");
}

/* Calls with room for just the reply and prints the result and the reply's fields. */
static void reply_to(enum call call, struct bytes rows, struct bytes before, struct bytes records)
{
    static const size_t rooms[] = {
        [BEGIN] = sizeof(struct monitor_begin_reply),
        [STEP] = sizeof(struct monitor_step_reply),
        [RUN] = sizeof(struct monitor_run_reply),
    };
    uint32_t result = lend_copies(call, rows, before, records, rooms[call]);

    if (call == BEGIN) {
        struct monitor_begin_reply r = begin_reply();
        PUT(result, r.number, r.zero, r.place);
    } else if (call == STEP) {
        struct monitor_step_reply r = step_reply();
        PUT(result, r.number, r.verdict, r.place, r.blame, r.decision);
    } else {
        struct monitor_run_reply r = run_reply();
        PUT(result, r.number, r.verdict, r.place, r.blame, r.decision);
    }
}

/* A line: the call, a label, the result, the reply's fields, and whether the state was kept. */
static void sample(enum call call, const char *label, struct bytes rows, struct bytes before, struct bytes records)
{
    printf("%s: %s:", names[call], label);
    reply_to(call, rows, before, records);
    put_kept(before);
}

/* The state that the last call left. */
static void put_state(void)
{
    printf("then the state holds:");
    put_bytes(start(&state), state.length);
    printf("\n");
}

/* ---- tables */

struct sample {
    enum call call;
    const char *label;
    struct bytes image, before, trace;
};

/* Refusals, and accepted calls next to them. */
static const struct sample refusals[] = {
    /* The refusal table's small inputs for 9 to 12. */
    {BEGIN, "row 0 of kind 3", BAD_IMAGE, BYTES(ELEVEN(7)), NO_BYTES},
    {STEP, "row 0 of kind 3", BAD_IMAGE, BYTES(ELEVEN(0)), ONE_RECORD},
    {RUN, "row 0 of kind 3", BAD_IMAGE, BYTES(ELEVEN(0)), ONE_RECORD},
    {STEP, "outcome 3", SMALL, STATE(3, 0, 1, 1, 0, 0), ONE_RECORD},
    {RUN, "outcome 3", SMALL, STATE(3, 0, 1, 1, 0, 0), ONE_RECORD},
    {STEP, "7 bytes", SMALL, FRESH, BYTES(NOBODY, 'T')},
    {RUN, "7 bytes", SMALL, FRESH, BYTES(NOBODY, 'T')},
    {STEP, "full count, open", SMALL, STATE(0, 0, FULL, 0, 0, 0), ONE_RECORD},
    {STEP, "full count, satisfied", SMALL, STATE(1, 0, FULL, 1, 0, 0), ONE_RECORD},
    {STEP, "full count, violated", SMALL, STATE(2, 3, FULL, 9, 0, 0), ONE_RECORD},
    /* A trace that would pass the count, and one that fills it. */
    {RUN, "2 records at 4294967294", SMALL, STATE(0, 0, FULL - 1, 0, 0, 0), BYTES(NOBODY, NOBODY)},
    {RUN, "3 records at 4294967294, decided", SMALL, STATE(2, 1, FULL - 1, 4, 0, 0), BYTES(NOBODY, NOBODY, NOBODY)},
    {RUN, "3 records at 4294967293", SMALL, STATE(0, 0, FULL - 2, 0, 0, 0), BYTES(NOBODY, NOBODY, NOBODY)},
    {RUN, "3 records at 4294967295", SMALL, STATE(0, 0, FULL, 0, 0, 0), BYTES(NOBODY, NOBODY, NOBODY)},
    {RUN, "1 record at 4294967294", SMALL, STATE(0, 0, FULL - 1, 0, 0, 0), ONE_RECORD},
    {RUN, "2 records at 4294967293, decided", SMALL, STATE(1, 0, FULL - 2, 2, 0, 0), BYTES(NOBODY, NOBODY)},
    {RUN, "3 wide records at 4294967293", SMALL, STATE(0, 0, FULL - 2, 0, 0, 0), BYTES(WIDE_NOBODY, WIDE_NOBODY, WIDE_NOBODY)},
    {RUN, "3 wide records at 4294967292", SMALL, STATE(0, 0, FULL - 3, 0, 0, 0), BYTES(WIDE_NOBODY, WIDE_NOBODY, WIDE_NOBODY)},
    {RUN, "no record at 4294967295", SMALL, STATE(0, 0, FULL, 0, 0, 0), NO_BYTES},
    {STEP, "at 4294967294", SMALL, STATE(0, 0, FULL - 1, 0, 0, 0), ONE_RECORD},
    {STEP, "at 4294967294, decided", SMALL, STATE(1, 0, FULL - 1, 2, 0, 0), BYTES(PERIOD(1, 0))},
    /* A step's record: its length and its mark. */
    {STEP, "record of 0 bytes", SMALL, FRESH, NO_BYTES},
    {STEP, "record of 5 bytes", SMALL, FRESH, BYTES('T', 'P', 0, 0, 0)},
    {STEP, "record of 6 bytes", SMALL, FRESH, ONE_RECORD},
    {STEP, "record of 7 bytes", SMALL, FRESH, BYTES(NOBODY, 'T')},
    {STEP, "record of 12 bytes", SMALL, FRESH, BYTES(NOBODY, NOBODY)},
    {STEP, "record with a wrong first byte", SMALL, FRESH, BYTES('U', 'P', 0, 0, 0, 0)},
    {STEP, "record with a wrong second byte", SMALL, FRESH, BYTES('T', 'O', 0, 0, 0, 0)},
    {STEP, "contract record", SMALL, FRESH, BYTES('T', 'C', 0, 0, 0, 0)},
    {STEP, "wrong mark on a decided state", SMALL, STATE(1, 0, 3, 2, 0, 0), BYTES('P', 'T', 0, 0, 0, 0)},
    /* A run's trace: its length and its marks. */
    {RUN, "wrong mark in the first of 3", SMALL, FRESH, BYTES('T', 'R', 0, 0, 0, 0, PERIOD(8, 16), PERIOD(8, 16))},
    {RUN, "wrong mark in the last of 3", SMALL, FRESH, BYTES(PERIOD(8, 16), PERIOD(8, 16), 'T', 'E', 0, 0, 0, 0)},
    {RUN, "wrong mark in the last of 3, decided by the first", SMALL, FRESH,
     BYTES(PERIOD(1, 0), PERIOD(8, 16), 'T', 'p', 0, 0, 0, 0)},
    {RUN, "wrong marks in the last 2 of 4", SMALL, FRESH,
     BYTES(PERIOD(8, 16), PERIOD(8, 16), 'T', 'X', 0, 0, 0, 0, 'X', 'P', 0, 0, 0, 0)},
    {RUN, "5 bytes", SMALL, FRESH, BYTES('T', 'P', 0, 0, 0)},
    {RUN, "11 bytes", SMALL, FRESH, BYTES(PERIOD(8, 16), 'T', 'P', 8, 0, 16)},
    {RUN, "13 bytes", SMALL, FRESH, BYTES(PERIOD(8, 16), PERIOD(8, 16), 'T')},
    {RUN, "16 bytes", SMALL, FRESH, BYTES(PERIOD(8, 16), PERIOD(8, 16), 'T', 'P', 0, 0)},
    {RUN, "18 bytes", SMALL, FRESH, BYTES(PERIOD(8, 16), PERIOD(8, 16), PERIOD(8, 16))},
    /* Zero records. */
    {RUN, "no record, nothing taken", SMALL, FRESH, NO_BYTES},
    {RUN, "no record, open", SMALL, STATE(0, 0, 5, 0, 1, 1), NO_BYTES},
    {RUN, "no record, met", SMALL, STATE(1, 0, 5, 5, 1, 0), NO_BYTES},
    {RUN, "no record, met-after", SMALL, STATE(1, 0, 6, 5, 1, 0), NO_BYTES},
    {RUN, "no record, broken", SMALL, STATE(2, 2, 1, 1, 0, 1), NO_BYTES},
    {RUN, "no record, broken-after", SMALL, STATE(2, 3, 7, 1, 0, 1), NO_BYTES},
    /* The order of the tests. */
    {STEP, "bad image, state and record", BAD_IMAGE, BYTES(ELEVEN(3)), BYTES('T', 'O')},
    {RUN, "bad image, state and trace", BAD_IMAGE, BYTES(TWELVE(3)), BYTES('T', 'O')},
    {BEGIN, "bad image and state length", BAD_IMAGE, BYTES(TWELVE(3)), NO_BYTES},
    {STEP, "bad state and record", SMALL, STATE(3, 0, 1, 1, 0, 0), BYTES('T', 'O', 0, 0, 0, 0)},
    {RUN, "bad state and trace", SMALL, STATE(3, 0, 1, 1, 0, 0), BYTES('T', 'O', 0, 0, 0, 0, 0)},
    {STEP, "bad state with a full count", SMALL, STATE(0, 1, FULL, 0, 0, 0), ONE_RECORD},
    {STEP, "bad record on a full count", SMALL, STATE(0, 0, FULL, 0, 0, 0), BYTES('T', 'O', 0, 0, 0, 0)},
    {RUN, "bad last record past a full count", SMALL, STATE(0, 0, FULL - 1, 0, 0, 0),
     BYTES(NOBODY, NOBODY, 'T', 'O', 0, 0, 0, 0)},
    {RUN, "length before a later mark", SMALL, FRESH, BYTES(NOBODY, 'T', 'O', 0, 0, 0, 0, 'T')},
    {RUN, "length before count", SMALL, STATE(0, 0, FULL, 0, 0, 0), BYTES(NOBODY, 'T')},
    /* Image lengths; 16 to 47,624 by eights are allowed. */
    {BEGIN, "image of 0 bytes", NO_BYTES, BYTES(ELEVEN(7)), NO_BYTES},
    {BEGIN, "image of 8 bytes", BYTES(END(0, 0, 0)), BYTES(TEN(7)), NO_BYTES},
    {BEGIN, "image of 15 bytes", BYTES(ROW(0, 0, 0), 'T', 'E', 0, 0, 0, 0, 0), BYTES(ELEVEN(7)), NO_BYTES},
    {BEGIN, "image of 16 bytes", BYTES(ROW(0, 0, 0), END(0, 0, 0)), BYTES(ELEVEN(7)), NO_BYTES},
    {BEGIN, "image of 17 bytes", BYTES(ROW(0, 0, 0), END(0, 0, 0), 0), BYTES(ELEVEN(7)), NO_BYTES},
    {BEGIN, "image of 24 bytes", SMALL, BYTES(TWELVE(7)), NO_BYTES},
    {BEGIN, "image of 23 bytes", BYTES(FIRST_ROW, SECOND_ROW, 'T', 'E', 0, 0, 1, 0, 1), BYTES(TWELVE(7)), NO_BYTES},
};

/* Images by begin, with a state of 12 bytes. */
static const struct { const char *label; struct bytes image; } images[] = {
    /* Marks and fourth bytes. */
    {"wrong first byte in row 0", BYTES('R', 'R', 2, 0, 1, 0, 0, 0, SECOND_ROW, SMALL_END)},
    {"wrong second byte in row 1", BYTES(FIRST_ROW, 'T', 'r', 2, 0, 2, 0, 1, 0, SMALL_END)},
    {"end record for row 1", BYTES(FIRST_ROW, END(0, 0, 0), SMALL_END)},
    {"fourth byte of row 0", BYTES('T', 'R', 2, 1, 1, 0, 0, 0, SECOND_ROW, SMALL_END)},
    {"fourth byte of row 1", BYTES(FIRST_ROW, 'T', 'R', 2, 128, 2, 0, 1, 0, SMALL_END)},
    {"two bad rows", BYTES('R', 'R', 2, 0, 1, 0, 0, 0, 'T', 'r', 2, 0, 2, 0, 1, 0, SMALL_END)},
    {"wrong first byte of the end record", BYTES(FIRST_ROW, SECOND_ROW, 'U', 'E', 0, 0, 1, 0, 1, 0)},
    {"row for the end record", BYTES(FIRST_ROW, SECOND_ROW, ROW(0, 0, 0))},
    {"bad row and bad end record", BYTES(FIRST_ROW, ROW(7, 2, 1), 'U', 'E', 0, 0, 1, 0, 1, 0)},
    /* Kinds and attempts in row 1 of two. */
    {"kind 7", BYTES(FIRST_ROW, ROW(7, 0, 0), SMALL_END)},
    {"kind 255", BYTES(FIRST_ROW, ROW(255, 0, 0), SMALL_END)},
    {"party 0", BYTES(FIRST_ROW, ROW(2, 0, 0), SMALL_END)},
    {"party 3", BYTES(FIRST_ROW, ROW(2, 3, 0), SMALL_END)},
    {"party 257", BYTES(FIRST_ROW, ROW(2, 257, 0), SMALL_END)},
    {"action 16", BYTES(FIRST_ROW, ROW(2, 1, 16), SMALL_END)},
    {"action 31", BYTES(FIRST_ROW, ROW(2, 2, 31), SMALL_END)},
    {"action 32", BYTES(FIRST_ROW, ROW(2, 1, 32), SMALL_END)},
    {"action 256", BYTES(FIRST_ROW, ROW(2, 1, 256), SMALL_END)},
    /* Unused fields in row 1 of two. */
    {"kind 0 with x", BYTES(FIRST_ROW, ROW(0, 1, 0), SMALL_END)},
    {"kind 0 with y", BYTES(FIRST_ROW, ROW(0, 0, 256), SMALL_END)},
    {"kind 1 with x", BYTES(FIRST_ROW, ROW(1, 1, 0), SMALL_END)},
    {"kind 1 with y", BYTES(FIRST_ROW, ROW(1, 0, 256), SMALL_END)},
    {"kind 3 with y", BYTES(FIRST_ROW, ROW(3, 0, 1), SMALL_END)},
    {"kind 6 with y", BYTES(FIRST_ROW, ROW(6, 0, 1), SMALL_END)},
    {"kind 0", BYTES(FIRST_ROW, ROW(0, 0, 0), SMALL_END)},
    {"kind 1", BYTES(FIRST_ROW, ROW(1, 0, 0), SMALL_END)},
    /* Rows that row 1 of two may not name, and those that it may. */
    {"kind 3 names its own row", BYTES(FIRST_ROW, ROW(3, 1, 0), SMALL_END)},
    {"kind 4 names its own row in x", BYTES(FIRST_ROW, ROW(4, 1, 0), SMALL_END)},
    {"kind 4 names its own row in y", BYTES(FIRST_ROW, ROW(4, 0, 1), SMALL_END)},
    {"kind 5 names its own row in x", BYTES(FIRST_ROW, ROW(5, 1, 0), SMALL_END)},
    {"kind 5 names its own row in y", BYTES(FIRST_ROW, ROW(5, 0, 1), SMALL_END)},
    {"kind 3 names row 256", BYTES(FIRST_ROW, ROW(3, 256, 0), SMALL_END)},
    {"kind 6 names row 2", BYTES(FIRST_ROW, ROW(6, 2, 0), SMALL_END)},
    {"kind 6 names its own row", BYTES(FIRST_ROW, ROW(6, 1, 0), SMALL_END)},
    {"kind 3 names row 0", BYTES(FIRST_ROW, ROW(3, 0, 0), SMALL_END)},
    {"kind 4 names row 0", BYTES(FIRST_ROW, ROW(4, 0, 0), SMALL_END)},
    {"kind 5 names row 0", BYTES(FIRST_ROW, ROW(5, 0, 0), SMALL_END)},
    {"kind 6 in row 0 names row 1", BYTES(ROW(6, 1, 0), ROW(1, 0, 0), END(1, 0, 0))},
    /* The rows that the end record names. */
    {"S is 2", BYTES(FIRST_ROW, SECOND_ROW, END(2, 0, 0))},
    {"V1 is 2", BYTES(FIRST_ROW, SECOND_ROW, END(0, 2, 0))},
    {"V2 is 2", BYTES(FIRST_ROW, SECOND_ROW, END(0, 0, 2))},
    {"S is 256", BYTES(FIRST_ROW, SECOND_ROW, END(256, 0, 0))},
    {"V2 is 65535", BYTES(FIRST_ROW, SECOND_ROW, END(0, 1, 65535))},
    {"S is 1", BYTES(FIRST_ROW, SECOND_ROW, END(1, 1, 1))},
};

/* Begin: a state's length, and what it held. */
static const struct sample begins[] = {
    {BEGIN, "state of 0 bytes", SMALL, NO_BYTES, NO_BYTES},
    {BEGIN, "state of 10 bytes", SMALL, BYTES(TEN(7)), NO_BYTES},
    {BEGIN, "state of 11 bytes", SMALL, BYTES(ELEVEN(7)), NO_BYTES},
    {BEGIN, "state of 13 bytes", SMALL, BYTES(THIRTEEN(7)), NO_BYTES},
    {BEGIN, "state of 12 zeros", SMALL, FRESH, NO_BYTES},
};
static const struct bytes highest = BYTES(TWELVE(255));

/* Step and run: a state's length. */
static const struct sample lengths[] = {
    {STEP, "state of 0 bytes", SMALL, NO_BYTES, ONE_RECORD},
    {STEP, "state of 9 bytes", SMALL, BYTES(NINE(0)), ONE_RECORD},
    {STEP, "state of 11 bytes", SMALL, BYTES(ELEVEN(0)), ONE_RECORD},
    {STEP, "state of 13 bytes", SMALL, BYTES(THIRTEEN(0)), ONE_RECORD},
    {RUN, "state of 0 bytes", SMALL, NO_BYTES, ONE_RECORD},
    {RUN, "state of 10 bytes", SMALL, BYTES(TEN(0)), ONE_RECORD},
    {RUN, "state of 11 bytes", SMALL, BYTES(ELEVEN(0)), ONE_RECORD},
    {RUN, "state of 13 bytes", SMALL, BYTES(THIRTEEN(0)), ONE_RECORD},
};

struct labelled {
    const char *label;
    struct bytes before;
};

/* States that are not sound. */
static const struct labelled unsound[] = {
    {"outcome 4", STATE(4, 1, 1, 1, 0, 0)},
    {"row value 2", STATE(0, 0, 1, 0, 0, 2)},
    {"row value 255, decided", STATE(1, 0, 1, 1, 255, 0)},
    {"outcome 2, blame 0", STATE(2, 0, 1, 1, 0, 0)},
    {"outcome 2, blame 4", STATE(2, 4, 1, 1, 0, 0)},
    {"outcome 1, blame 1", STATE(1, 1, 1, 1, 0, 0)},
    {"outcome 0, blame 1", STATE(0, 1, 1, 0, 0, 0)},
    {"outcome 1, decision 0", STATE(1, 0, 1, 0, 0, 0)},
    {"outcome 2, decision 0", STATE(2, 1, 1, 0, 0, 0)},
    {"outcome 0, decision 1", STATE(0, 0, 1, 1, 0, 0)},
    {"outcome 1, decision above periods", STATE(1, 0, 1, 2, 0, 0)},
    {"outcome 2, decision above periods", STATE(2, 1, 4, 5, 0, 0)},
};

/* States that are not all 0 though no period was taken. */
static const struct labelled nothing_taken[] = {
    {"nothing taken, row value 1", STATE(0, 0, 0, 0, 0, 1)},
    {"nothing taken, outcome 1", STATE(1, 0, 0, 0, 0, 0)},
    {"nothing taken, outcome 2", STATE(2, 3, 0, 0, 0, 0)},
    {"nothing taken, blame 2", STATE(0, 2, 0, 0, 0, 0)},
    {"nothing taken, decision 1", STATE(1, 0, 0, 1, 0, 0)},
};

/* Sound states at the edges. */
static const struct sample sound[] = {
    {STEP, "row values 1", SMALL, STATE(0, 0, 1, 0, 1, 1), ONE_RECORD},
    {STEP, "satisfied in its last period", SMALL, STATE(1, 0, 255, 255, 1, 1), ONE_RECORD},
    {STEP, "violated, blame 1", SMALL, STATE(2, 1, 1, 1, 1, 1), BYTES(PERIOD(1, 2))},
    {STEP, "violated, blame 3", SMALL, STATE(2, 3, 9, 8, 0, 1), ONE_RECORD},
    {STEP, "S becomes true", SMALL, STATE(0, 0, 4, 0, 0, 0), BYTES(PERIOD(1, 0))},
    {STEP, "V1 and V2 become true", SMALL, STATE(0, 0, 4, 0, 1, 0), BYTES(PERIOD(2, 2))},
    {STEP, "all three become true", SMALL, FRESH, BYTES(PERIOD(1, 2))},
    {STEP, "other attempts", SMALL, FRESH, BYTES(PERIOD(0xfffe, 0xfffd))},
    {STEP, "other attempts, wide", SMALL, FRESH, BYTES(WIDE_PERIOD(0xfffffffe, 0xfffffffd))},
};

/* Counts and decision periods of several bytes. */
static const struct sample carries[] = {
    {STEP, "count 255, open", SMALL, STATE(0, 0, 255, 0, 1, 1), ONE_RECORD},
    {STEP, "count 255, S becomes true", SMALL, STATE(0, 0, 255, 0, 0, 0), BYTES(PERIOD(1, 0))},
    {STEP, "count 255, V1 and V2 become true", SMALL, STATE(0, 0, 255, 0, 0, 0), BYTES(PERIOD(1, 2))},
    {STEP, "count 255, violated before", SMALL, STATE(2, 2, 255, 254, 1, 0), BYTES(PERIOD(1, 2))},
    {STEP, "count 4294967294, open", SMALL, STATE(0, 0, FULL - 1, 0, 0, 0), ONE_RECORD},
    {STEP, "count 4294967294, S becomes true", SMALL, STATE(0, 0, FULL - 1, 0, 0, 0), BYTES(PERIOD(1, 0))},
};

/* Reply areas: begin needs 16 bytes, step and run 24. */
static const struct { enum call call; const char *label; size_t length; struct bytes image, trace; } areas[] = {
    {BEGIN, "", 0, SMALL, NO_BYTES},
    {BEGIN, "", 15, SMALL, NO_BYTES},
    {BEGIN, "", 16, SMALL, NO_BYTES},
    {BEGIN, "", 23, SMALL, NO_BYTES},
    {BEGIN, "", 24, SMALL, NO_BYTES},
    {BEGIN, "", 30, SMALL, NO_BYTES},
    {BEGIN, "bad image, ", 15, NO_BYTES, NO_BYTES},
    {BEGIN, "bad image, ", 17, NO_BYTES, NO_BYTES},
    {STEP, "", 15, SMALL, BYTES(PERIOD(1, 2))},
    {STEP, "", 16, SMALL, BYTES(PERIOD(1, 2))},
    {STEP, "", 23, SMALL, BYTES(PERIOD(1, 2))},
    {STEP, "", 24, SMALL, BYTES(PERIOD(1, 2))},
    {STEP, "", 30, SMALL, BYTES(PERIOD(1, 2))},
    {STEP, "wide record, ", 23, SMALL, BYTES(WIDE_PERIOD(1, 2))},
    {STEP, "wide record, ", 24, SMALL, BYTES(WIDE_PERIOD(1, 2))},
    {STEP, "bad record, ", 23, SMALL, BYTES('T', 'P')},
    {STEP, "bad record, ", 25, SMALL, BYTES('T', 'P')},
    {RUN, "", 0, SMALL, BYTES(PERIOD(1, 2), PERIOD(1, 2))},
    {RUN, "", 16, SMALL, BYTES(PERIOD(1, 2), PERIOD(1, 2))},
    {RUN, "", 23, SMALL, BYTES(PERIOD(1, 2), PERIOD(1, 2))},
    {RUN, "", 24, SMALL, BYTES(PERIOD(1, 2), PERIOD(1, 2))},
    {RUN, "", 30, SMALL, BYTES(PERIOD(1, 2), PERIOD(1, 2))},
    {RUN, "wide records, ", 23, SMALL, BYTES(WIDE_PERIOD(1, 2), WIDE_PERIOD(1, 2))},
    {RUN, "wide records, ", 24, SMALL, BYTES(WIDE_PERIOD(1, 2), WIDE_PERIOD(1, 2))},
    {RUN, "bad trace, ", 23, SMALL, BYTES(PERIOD(1, 2), 'T', 'X', 0, 0, 0, 0)},
    {RUN, "bad trace, ", 25, SMALL, BYTES(PERIOD(1, 2), 'T', 'X', 0, 0, 0, 0)},
};

/* Images by hand that no compiler makes, of nine rows. */
enum { WALK_STATE = MONITOR_HEAD_BYTES + 9 };

/* Row 0 looks back at the later row 3; S is V1; rows 2 and 7 are unused. By an action of each party. */
#define FORWARD(one, two) BYTES(ROW(6, 3, 0), ROW(2, 1, one), ROW(6, 8, 0), ROW(5, 1, 0), ROW(2, 2, two), \
    ROW(4, 0, 4), ROW(1, 0, 0), ROW(3, 6, 0), ROW(0, 0, 0), END(5, 5, 8))

/* Rows 0 and 1 alternate, row 0 by the later row 1; row 4 is true in period 3; V1 and V2 stay false. */
#define LATER BYTES(ROW(6, 1, 0), ROW(3, 0, 0), ROW(1, 0, 0), ROW(6, 2, 0), ROW(6, 3, 0), \
    ROW(4, 0, 4), ROW(0, 0, 0), ROW(6, 6, 0), ROW(5, 6, 7), END(4, 5, 8))

/* After period 1, V1 where party 1 doesn't try action 0 and V2 where party 2 doesn't; S where both try it. */
#define DUTIES BYTES(ROW(1, 0, 0), ROW(3, 0, 0), ROW(2, 1, 0), ROW(3, 2, 0), ROW(2, 2, 0), \
    ROW(3, 4, 0), ROW(4, 1, 3), ROW(4, 5, 1), ROW(4, 2, 4), END(8, 6, 7))

static const struct { const char *name; struct bytes image, trace; } walks[] = {
    {"forward previous, S is V1", FORWARD(2, 15),
     BYTES(NOBODY, PERIOD(4, 0x8000), PERIOD(3, 0), PERIOD(0, 0x8000), PERIOD(4, 0), NOBODY)},
    {"the same by actions 18 and 31", FORWARD(18, 31),
     BYTES(WIDE_NOBODY, WIDE_PERIOD(0x40000, 0x80000000), WIDE_PERIOD(0x30004, 0x8000), WIDE_PERIOD(4, 0x80000000),
           WIDE_PERIOD(0x40000, 0), WIDE_NOBODY)},
    {"met in period 3", LATER, BYTES(NOBODY, PERIOD(0x200, 0), PERIOD(0, 0x200), NOBODY, PERIOD(2, 2))},
    {"duties, blame 2", DUTIES, BYTES(NOBODY, PERIOD(1, 0), PERIOD(1, 1), NOBODY)},
    {"duties, blame 3", DUTIES, BYTES(PERIOD(2, 2), PERIOD(2, 2), PERIOD(1, 1))},
    {"duties, blame 1", DUTIES, BYTES(PERIOD(1, 0), PERIOD(2, 1), PERIOD(1, 1))},
    {"duties, met", DUTIES, BYTES(PERIOD(1, 1), NOBODY, NOBODY)},
};

/* ---- running them */

static void put_samples(const struct sample *table, size_t count)
{
    for (size_t k = 0; k < count; k++)
        sample(table[k].call, table[k].label, table[k].image, table[k].before, table[k].trace);
}

static void put_labelled(enum call call, const struct labelled *table, size_t count, struct bytes trace)
{
    for (size_t k = 0; k < count; k++)
        sample(call, table[k].label, small, table[k].before, trace);
}

/* Every byte of the reply area. */
static void put_areas(void)
{
    for (size_t k = 0; k < COUNT(areas); k++) {
        struct bytes before = areas[k].call == BEGIN ? sevens : fresh;
        uint32_t result = lend_copies(areas[k].call, areas[k].image, before, areas[k].trace, areas[k].length);
        printf("%s: %sarea of %u bytes: %u", names[areas[k].call], areas[k].label, (unsigned)areas[k].length,
               (unsigned)result);
        put_bytes(start(&reply), reply.length);
        put_kept(before);
    }
}

/* A walk's call: the result, the reply's fields and the state's bytes. */
static void put_after(enum call call, struct bytes rows, struct bytes before, struct bytes records)
{
    printf("%s:", names[call]);
    reply_to(call, rows, before, records);
    printf(":");
    put_bytes(start(&state), state.length);
    printf("\n");
}

/* Begins, takes the trace by steps past its decision, and then the whole from zeros by one run. */
static void walk(const char *name, struct bytes rows, struct bytes records)
{
    uint8_t now[WALK_STATE];
    struct bytes before = {now, sizeof now};
    size_t record = form_bytes(form_of(records));

    printf("%s\nbegin:", name);
    memset(now, 255, sizeof now);
    reply_to(BEGIN, rows, before, no_bytes);
    printf("\n");
    for (size_t k = 0; k < records.length; k += record) {
        memcpy(now, start(&state), sizeof now);
        put_after(STEP, rows, before, (struct bytes){records.at + k, record});
    }
    memcpy(now, start(&state), sizeof now);
    struct monitor_step_reply last = step_reply();
    put_after(RUN, rows, (struct bytes){(const uint8_t[WALK_STATE]){0}, WALK_STATE}, records);
    printf("%s\n", holds(&state, before) && agree(last, run_reply()) ? "same" : "different");
}

/* Images of 5,952 rows, the most, and of one row more. */
static void largest(void)
{
    enum { LAST = MONITOR_MAX_ROWS - 1, MAX_STATE = MONITOR_HEAD_BYTES + MONITOR_MAX_ROWS + 1 };
    static const uint8_t blank[] = {ROW(0, 0, 0)};
    static const uint8_t last_row[] = {ROW(3, LAST - 1, 0)}, own_row[] = {ROW(3, LAST, 0)};
    static const uint8_t end[] = {END(LAST, LAST - 1, 0)}, far_end[] = {END(LAST + 1, LAST - 1, 0)};
    static uint8_t rows[BUFFER_BYTES + MONITOR_ROW_BYTES], high[MAX_STATE], zero[MAX_STATE];
    uint8_t *last_at = rows + MONITOR_ROW_BYTES * LAST, *end_at = last_at + MONITOR_ROW_BYTES;
    struct bytes most = {rows, BUFFER_BYTES}, longer = {rows, sizeof rows};
    struct bytes full = {high, MAX_STATE - 1}, zeros = {zero, MAX_STATE - 1};

    memset(high, 7, sizeof high);
    for (size_t k = 0; k < sizeof rows; k += sizeof blank)
        memcpy(rows + k, blank, sizeof blank);
    memcpy(last_at, last_row, sizeof last_row);
    memcpy(end_at, end, sizeof end);
    sample(BEGIN, "image of 47624 bytes", most, full, no_bytes);
    sample(STEP, "image of 47624 bytes", most, zeros, one_record);
    sample(RUN, "image of 47624 bytes", most, zeros, two_records);
    memcpy(last_at, own_row, sizeof own_row);
    sample(BEGIN, "row 5951 names itself", most, full, no_bytes);
    sample(STEP, "row 5951 names itself", most, zeros, one_record);
    memcpy(last_at, last_row, sizeof last_row);
    memcpy(end_at, far_end, sizeof far_end);
    sample(BEGIN, "S is 5952", most, full, no_bytes);
    sample(RUN, "S is 5952", most, zeros, two_records);
    memcpy(end_at, blank, sizeof blank);
    memcpy(end_at + MONITOR_ROW_BYTES, end, sizeof end);
    full.length = zeros.length = MAX_STATE;
    sample(BEGIN, "image of 47632 bytes", longer, full, no_bytes);
    sample(STEP, "image of 47632 bytes", longer, zeros, one_record);
    sample(RUN, "image of 47632 bytes", longer, zeros, two_records);
}

int main(void)
{
    put_samples(refusals, COUNT(refusals));
    for (size_t k = 0; k < COUNT(images); k++)
        sample(BEGIN, images[k].label, images[k].image, sevens, no_bytes);
    put_samples(begins, COUNT(begins));
    sample(BEGIN, "state of 12 bytes 255", small, highest, no_bytes);
    put_state();
    put_samples(lengths, COUNT(lengths));
    put_labelled(STEP, unsound, COUNT(unsound), one_record);
    put_labelled(RUN, unsound, COUNT(unsound), no_bytes);
    put_labelled(STEP, nothing_taken, COUNT(nothing_taken), one_record);
    put_labelled(RUN, nothing_taken, COUNT(nothing_taken), one_record);
    put_samples(sound, COUNT(sound));
    for (size_t k = 0; k < COUNT(carries); k++) {
        put_samples(carries + k, 1);
        put_state();
    }
    put_areas();
    for (size_t k = 0; k < COUNT(walks); k++)
        walk(walks[k].name, walks[k].image, walks[k].trace);
    largest();
    return faults != 0;
}
