/* What the tests share: areas between guard bytes, the calls on them, replies by their fields, and contracts by letters. */
#ifndef TESTING_H
#define TESTING_H

#include <stdio.h>
#include <stdlib.h>
#include <string.h>

#include "monitor.h"

#define COUNT(table) (sizeof(table) / sizeof(table)[0])

/* ---- what a test prints, held to its file of expected lines */

static int faults;

static inline void fault(const char *what)
{
    printf("%s\n", what);
    faults++;
}

static inline void check(const char *label, int good)
{
    printf("%s: %s\n", label, good ? "yes" : "no");
    if (!good)
        faults++;
}

/* Ends a line: of how many something holds that should hold of all. */
static inline void put_count(size_t good, size_t all)
{
    printf(" %u of %u\n", (unsigned)good, (unsigned)all);
    if (good != all)
        faults++;
}

static inline void put_numbers(const uint64_t *numbers, size_t count)
{
    for (size_t k = 0; k < count; k++)
        printf(" %llu", (unsigned long long)numbers[k]);
}

/* Numbers, each after a blank. */
#define PUT(...) put_numbers((const uint64_t[]){__VA_ARGS__}, COUNT(((const uint64_t[]){__VA_ARGS__})))

static inline void put_bytes(const uint8_t *from, size_t length)
{
    for (size_t k = 0; k < length; k++)
        PUT(from[k]);
}

/* Periods or values, a range of them for each answer. */
static inline void put_ranges(unsigned from, unsigned to, int (*same)(unsigned, unsigned), void (*put_answer)(unsigned))
{
    for (unsigned k = from; k <= to; k++) {
        if (k < to && same(k, k + 1))
            continue;
        PUT(from);
        if (from < k)
            printf("-%u", k);
        put_answer(k);
        if (k < to)
            printf(",");
        from = k + 1;
    }
}

/* ---- texts of words with blanks between them */

static inline size_t word_length(const char *text)
{
    return strcspn(text, " ");
}

static inline const char *next_word(const char *text)
{
    text += word_length(text);
    return text + strspn(text, " ");
}

/* ---- bytes that are given, as a field of a table outside functions */

struct bytes {
    const uint8_t *at;
    size_t length;
};

#define BYTES(...) {(const uint8_t[]){__VA_ARGS__}, sizeof((const uint8_t[]){__VA_ARGS__})}
#define NO_BYTES {(const uint8_t *)"", 0}

/* Fields of two and of four bytes; a row, an end record, a narrow and a wide period record with both parties' attempts, and a */
/* log record. The bytes of the header's macros are tested in compile.c. */
#define TWO MONITOR_TWO_BYTES
#define FOUR MONITOR_FOUR_BYTES
#define ROW(kind, x, y) 'T', 'R', kind, 0, TWO(x), TWO(y)
#define END(s, v1, v2) 'T', 'E', TWO(s), TWO(v1), TWO(v2)
#define PERIOD MONITOR_PERIOD
#define NOBODY PERIOD(0, 0)
#define WIDE_PERIOD MONITOR_WIDE_PERIOD
#define WIDE_NOBODY WIDE_PERIOD(0, 0)
#define LOG MONITOR_LOG_RECORD

/* The forms of a period record, and how many bytes it has. */
enum form { NARROW, WIDE };

static inline size_t form_bytes(enum form form)
{
    return form == WIDE ? MONITOR_WIDE_PERIOD_BYTES : MONITOR_PERIOD_BYTES;
}

/* The form of a trace, by its first record's mark. */
static inline enum form form_of(struct bytes records)
{
    return records.length > 1 && records.at[1] == 'Q' ? WIDE : NARROW;
}

/* Writes a period record, and says how many bytes it has. */
static inline size_t put_period(uint8_t *to, enum form form, uint32_t first, uint32_t second)
{
    const uint8_t narrow[] = {MONITOR_PERIOD(first, second)}, wide[] = {MONITOR_WIDE_PERIOD(first, second)};

    memcpy(to, form == WIDE ? wide : narrow, form_bytes(form));
    return form_bytes(form);
}

/* Row 0 of kind 3. */
#define BAD_IMAGE BYTES(ROW(3, 0, 0), END(0, 0, 0))

/* ---- areas that are lent, each between guard bytes */

/* The most bytes of an area: an image of one row too many. A test may name more before it includes this. */
#ifndef MAX_BYTES
#define MAX_BYTES (MONITOR_ROW_BYTES * (MONITOR_MAX_ROWS + 2))
#endif

enum {
    GUARD = 165,
    GUARD_BYTES = 16,
    UNWRITTEN = 238,                                          /* each byte of an area before a call writes it */
    BUFFER_BYTES = MONITOR_ROW_BYTES * (MONITOR_MAX_ROWS + 1) /* an image buffer that takes every contract */
};

struct area {
    uint8_t all[GUARD_BYTES + MAX_BYTES + GUARD_BYTES];
    size_t length;
};

static struct area contract, image, state, logs[2], trace, reply;

static inline uint8_t *start(struct area *a)
{
    return a->all + GUARD_BYTES;
}

/* The area has so many bytes from now on; all others are guards. */
static inline void cut(struct area *a, size_t length)
{
    if (length > MAX_BYTES)
        abort();
    memset(a->all, GUARD, GUARD_BYTES);
    memset(start(a) + length, GUARD, MAX_BYTES - length + GUARD_BYTES);
    a->length = length;
}

static inline void fill(struct area *a, uint8_t value, size_t length)
{
    cut(a, length);
    memset(start(a), value, length);
}

static inline void copy(struct area *a, struct bytes from)
{
    cut(a, from.length);
    memcpy(start(a), from.at, from.length);
}

static inline int holds(struct area *a, struct bytes given)
{
    return a->length == given.length && memcmp(start(a), given.at, given.length) == 0;
}

/* How many bytes there are up to the last one that isn't the value. */
static inline size_t reach(const uint8_t *from, size_t length, uint8_t value)
{
    while (length > 0 && from[length - 1] == value)
        length--;
    return length;
}

static inline size_t changed(struct area *a, uint8_t before)
{
    return reach(start(a), a->length, before);
}

/* Whether one or more bytes all have the value. */
static inline int all_have(const uint8_t *from, size_t length, uint8_t value)
{
    return from[0] == value && memcmp(from, from + 1, length - 1) == 0;
}

static inline void check_guards(struct area *a)
{
    if (!all_have(a->all, GUARD_BYTES, GUARD) || !all_have(start(a) + a->length, MAX_BYTES - a->length + GUARD_BYTES, GUARD))
        fault("guard bytes changed");
}

/* An area that is only read. */
static inline void check_kept(struct area *a, const struct area *before)
{
    if (memcmp(a->all, before->all, sizeof a->all) != 0)
        fault("bytes changed that are only read");
}

/* ---- replies, by their fields */

static inline uint32_t four(const uint8_t *from)
{
    return from[0] | (uint32_t)from[1] << 8 | (uint32_t)from[2] << 16 | (uint32_t)from[3] << 24;
}

static inline uint64_t eight(const uint8_t *from)
{
    return four(from) | (uint64_t)four(from + 4) << 32;
}

static inline struct monitor_compile_reply compile_reply(void)
{
    const uint8_t *r = start(&reply);
    return (struct monitor_compile_reply){four(r), four(r + 4), eight(r + 8)};
}

static inline struct monitor_begin_reply begin_reply(void)
{
    const uint8_t *r = start(&reply);
    return (struct monitor_begin_reply){four(r), four(r + 4), eight(r + 8)};
}

static inline struct monitor_step_reply step_reply(void)
{
    const uint8_t *r = start(&reply);
    return (struct monitor_step_reply){four(r), four(r + 4), eight(r + 8), four(r + 16), four(r + 20)};
}

static inline struct monitor_run_reply run_reply(void)
{
    const uint8_t *r = start(&reply);
    return (struct monitor_run_reply){four(r), four(r + 4), eight(r + 8), four(r + 16), four(r + 20)};
}

static inline struct monitor_decide_reply decide_reply(void)
{
    const uint8_t *r = start(&reply);
    return (struct monitor_decide_reply){four(r), four(r + 4), eight(r + 8), four(r + 16), four(r + 20), four(r + 24),
                                         four(r + 28)};
}

static inline struct monitor_join_reply join_reply(void)
{
    const uint8_t *r = start(&reply);
    return (struct monitor_join_reply){four(r), four(r + 4), eight(r + 8)};
}

/* A decide's result and its reply's fields. */
static inline void put_decided(uint32_t result)
{
    struct monitor_decide_reply r = decide_reply();
    PUT(result, r.number, r.outcome, r.place, r.blame, r.decision, r.records, r.zero);
}

/* Whether a run ended as that last step did. */
static inline int agree(struct monitor_step_reply s, struct monitor_run_reply r)
{
    return s.number == r.number && s.verdict == r.verdict && s.place == r.place && s.blame == r.blame && s.decision == r.decision;
}

static inline const char *verdict_name(uint32_t verdict)
{
    static const char *const names[] = {"open", "met", "broken", "met-after", "broken-after"};
    return verdict < COUNT(names) ? names[verdict] : "unknown";
}

/* ---- the calls on the areas, with a reply area of so many bytes */

/* Compile, also into a buffer that holds something. */
static inline uint32_t compile_over(size_t reply_length)
{
    static struct area before;

    before = contract;
    fill(&reply, UNWRITTEN, reply_length);
    uint32_t result = monitor_compile(start(&contract), contract.length, start(&image), image.length,
                                      start(&reply), reply.length);
    check_kept(&contract, &before);
    check_guards(&image);
    check_guards(&reply);
    return result;
}

/* Compile into an unwritten buffer, of which just the image may change. */
static inline uint32_t compile(size_t buffer_length, size_t reply_length)
{
    fill(&image, UNWRITTEN, buffer_length);
    uint32_t result = compile_over(reply_length);
    int written = result == 1 && compile_reply().number == MONITOR_ACCEPTED;
    if (changed(&image, UNWRITTEN) != (written ? MONITOR_IMAGE_BYTES(compile_reply().rows) : 0))
        fault("changed bytes are not the image's");
    return result;
}

/* Join, also into a trace buffer that holds something. */
static inline uint32_t join_over(size_t reply_length)
{
    static struct area before[COUNT(logs)];

    memcpy(before, logs, sizeof before);
    fill(&reply, UNWRITTEN, reply_length);
    uint32_t result = monitor_join(start(&logs[0]), logs[0].length, start(&logs[1]), logs[1].length,
                                   start(&trace), trace.length, start(&reply), reply.length);
    for (size_t k = 0; k < COUNT(logs); k++)
        check_kept(&logs[k], &before[k]);
    check_guards(&trace);
    check_guards(&reply);
    return result;
}

/* Join into an unwritten buffer, of which just the trace may change; its last byte must not be the unwritten one. */
static inline uint32_t join(size_t buffer_length, size_t reply_length)
{
    fill(&trace, UNWRITTEN, buffer_length);
    uint32_t result = join_over(reply_length);
    int written = result == 1 && join_reply().number == MONITOR_ACCEPTED;
    if (changed(&trace, UNWRITTEN) != (written ? MONITOR_TRACE_BYTES(join_reply().records) : 0))
        fault("changed bytes are not the trace's");
    return result;
}

enum call { BEGIN, STEP, RUN, DECIDE };

static inline uint32_t lend(enum call call, size_t reply_length)
{
    static struct area image_before, trace_before;
    uint32_t result = 0;

    image_before = image;
    trace_before = trace;
    fill(&reply, UNWRITTEN, reply_length);
    switch (call) {
    case BEGIN:
        result = monitor_begin(start(&image), image.length, start(&state), state.length, start(&reply), reply.length);
        break;
    case STEP:
        result = monitor_step(start(&image), image.length, start(&state), state.length, start(&trace), trace.length,
                              start(&reply), reply.length);
        break;
    case RUN:
        result = monitor_run(start(&image), image.length, start(&state), state.length, start(&trace), trace.length,
                             start(&reply), reply.length);
        break;
    case DECIDE:
        result = monitor_decide(start(&image), image.length, start(&trace), trace.length, start(&reply), reply.length);
        break;
    }
    check_kept(&image, &image_before);
    check_kept(&trace, &trace_before);
    if (call != DECIDE)
        check_guards(&state);
    check_guards(&reply);
    return result;
}

/* ---- a contract that is followed */

/* Compiles the contract, which must be taken, and leaves just the image in its area; the rows. */
static inline uint32_t compile_taken(void)
{
    uint32_t result = compile(BUFFER_BYTES, sizeof(struct monitor_compile_reply));
    struct monitor_compile_reply r = compile_reply();
    if (result != 1 || r.number != MONITOR_ACCEPTED || r.place != 0)
        fault("compile: not accepted");
    cut(&image, MONITOR_IMAGE_BYTES(r.rows));
    return r.rows;
}

static inline uint32_t begin(void)
{
    fill(&state, UNWRITTEN, MONITOR_STATE_BYTES(image.length / MONITOR_ROW_BYTES - 1));
    uint32_t result = lend(BEGIN, sizeof(struct monitor_begin_reply));
    struct monitor_begin_reply r = begin_reply();
    if (result != 1 || r.number != MONITOR_ACCEPTED || r.zero != 0 || r.place != 0)
        fault("begin: not accepted");
    return result;
}

static inline struct monitor_step_reply take_step(struct bytes record)
{
    copy(&trace, record);
    uint32_t result = lend(STEP, sizeof(struct monitor_step_reply));
    struct monitor_step_reply r = step_reply();
    if (result != 1 || r.number != MONITOR_ACCEPTED || r.place != 0)
        fault("step: not accepted");
    return r;
}

static inline struct monitor_run_reply take_run(struct bytes records)
{
    copy(&trace, records);
    uint32_t result = lend(RUN, sizeof(struct monitor_run_reply));
    struct monitor_run_reply r = run_reply();
    if (result != 1 || r.number != MONITOR_ACCEPTED || r.place != 0)
        fault("run: not accepted");
    return r;
}

/* ---- period records, in the trace's area */

static inline void add_period(enum form form, uint32_t first, uint32_t second)
{
    size_t end = trace.length;

    cut(&trace, end + form_bytes(form));
    put_period(start(&trace) + end, form, first, second);
}

/* ---- contracts by letters, and nests, in the contract's area */

/* Duty D, ban B, power P, both &, then ;, repair /, repeat R, when W, until U, deadline L, */
/* any A, tries T, idle I, succeeds S, fails F, seq ., or |, star *; 0 for another letter. */
static inline int kind_of(char letter)
{
    static const char clauses[] = "DBP&;/RWUL", expressions[] = "ATISF.|*";
    const char *clause = strchr(clauses, letter), *expression = strchr(expressions, letter);

    if (clause)
        return MONITOR_KIND_DUTY + (int)(clause - clauses);
    return expression ? MONITOR_KIND_ANY + (int)(expression - expressions) : 0;
}

static inline void add_record(int kind, int party, int action)
{
    const uint8_t record[] = {MONITOR_RECORD(kind, party, action)};
    size_t end = contract.length;

    cut(&contract, end + sizeof record);
    memcpy(start(&contract) + end, record, sizeof record);
}

/* A byte of the last record: 3 is its party, 4 its action, 5 its window. */
static inline uint8_t *field(size_t byte)
{
    return start(&contract) + contract.length - MONITOR_RECORD_BYTES + byte;
}

/* A leaf is a kind, or this: a duty that both parties own. */
enum { JOINT_DUTY = 256 + MONITOR_KIND_DUTY };

/* Leaf i has action i: 0 to 15 have party 1, 16 to 31 have party 2; a joint duty has both parties. */
/* A deadline has the longest window. */
static inline void add_leaf(int leaf, int i)
{
    if (leaf == JOINT_DUTY)
        add_record(MONITOR_KIND_DUTY, MONITOR_PARTY_BOTH, i);
    else
        add_record(leaf, MONITOR_PARTY_1 + i / 16, i);
    if (leaf == MONITOR_KIND_DEADLINE)
        *field(5) = MONITOR_MAX_WINDOW;
}

/* Leaves `from` to `to` - 1 of one sort, and after each an operator; 0 leaves out the one or the other. */
static inline void add_run(int leaf, int operator, int from, int to)
{
    for (int i = from; i < to; i++) {
        if (leaf != 0)
            add_leaf(leaf, i);
        if (operator != 0)
            add_record(operator, 0, 0);
    }
}

/* Leaves 0 to `count` - 1 under one operator, nested in its left operand. */
static inline void nest_left(int leaf, int operator, int count)
{
    cut(&contract, 0);
    add_leaf(leaf, 0);
    add_run(leaf, operator, 1, count);
}

#endif
