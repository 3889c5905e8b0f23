/* A host that only joins logs, linked with libjoiner.a alone: join at its edges. The traces of two logs, which logs and */
/* buffers are refused, in which order they are tested, and reply areas. Document 02, "Join the two parties' logs"; */
/* document 01, "Calls" and "Replies that refuse". What it prints is held to the file join.expected. */
#define _DEFAULT_SOURCE /* for MAP_ANONYMOUS and MAP_NORESERVE */
#include <sys/mman.h>

/* The areas have room for the longest trace, and for one record more than it or a log may have. */
#define MAX_BYTES MONITOR_TRACE_BYTES(MONITOR_MAX_LOG_RECORDS + 1)
#include "testing.h"

enum {
    LOGS = COUNT(logs),
    LOG_BYTES = MONITOR_LOG_RECORD_BYTES,
    PERIOD_BYTES = MONITOR_WIDE_PERIOD_BYTES,
    MOST = MONITOR_MAX_LOG_RECORDS /* also the greatest number */
};

/* ---- answers */

/* Join with room for just the reply. */
static struct monitor_join_reply ask(size_t buffer_length)
{
    if (join(buffer_length, sizeof(struct monitor_join_reply)) != 1)
        fault("no reply");
    struct monitor_join_reply r = join_reply();
    if (r.number == MONITOR_ACCEPTED ? r.place != 0 : r.records != 0)
        fault("a field that should be 0");
    return r;
}

static int same_answer(struct monitor_join_reply a, struct monitor_join_reply b)
{
    return a.number == b.number && a.records == b.records && a.place == b.place;
}

static void put_answer(struct monitor_join_reply r)
{
    if (r.number == MONITOR_ACCEPTED) {
        printf(" taken");
        PUT(r.records);
    } else {
        printf(" refused");
        PUT(r.number, r.place);
    }
}

/* ---- traces */

static uint8_t *record(struct area *of, unsigned period)
{
    return start(of) + PERIOD_BYTES * (size_t)(period - 1);
}

static int same_record(unsigned period, unsigned other)
{
    return memcmp(record(&trace, period), record(&trace, other), PERIOD_BYTES) == 0;
}

static void put_record(unsigned period)
{
    printf(" is");
    put_bytes(record(&trace, period), PERIOD_BYTES);
}

/* Exchanges the logs, and tells whether they then give the last trace with the parties exchanged in each period, and nothing */
/* else. */
static int exchanges(struct monitor_join_reply r)
{
    static struct area meant, first;

    meant = trace;
    for (unsigned period = 1; period <= r.records; period++) {
        uint8_t *at = record(&meant, period);
        put_period(at, WIDE, four(at + 6), four(at + 2));
    }
    first = logs[0];
    logs[0] = logs[1];
    logs[1] = first;
    return same_answer(ask(trace.length), r) && memcmp(trace.all, meant.all, sizeof trace.all) == 0;
}

/* The rest of a line: the answer, the trace's bytes, equal records once, and whether exchanged logs exchange the parties. */
static void end_line(void)
{
    struct monitor_join_reply r = ask(MAX_BYTES);

    put_answer(r);
    printf(",");
    put_ranges(1, r.records, same_record, put_record);
    printf("%s %s\n", r.records > 0 ? "," : "", exchanges(r) ? "exchanged" : "not exchanged");
}

static const struct { const char *label; struct bytes logs[LOGS]; } pairs[] = {
    {"both empty", {NO_BYTES, NO_BYTES}},
    {"log 2 empty", {BYTES(LOG(1, 0x04030201)), NO_BYTES}},
    {"log 1 empty", {NO_BYTES, BYTES(LOG(1, 0x04030201))}},
    {"one period", {BYTES(LOG(1, 0x04030201)), BYTES(LOG(1, 0x08070605))}},
    {"no attempts", {BYTES(LOG(1, 0)), BYTES(LOG(2, 0))}},
    {"all attempts", {BYTES(LOG(1, 0xffffffff)), BYTES(LOG(1, 0xffffffff))}},
    /* Attempts whose bytes are marks. */
    {"marks", {BYTES(LOG(1, 0x51544c54)), BYTES(LOG(1, 0x4c545154))}},
    {"equal numbers", {BYTES(LOG(1, 1), LOG(2, 2), LOG(3, 3)), BYTES(LOG(1, 4), LOG(2, 5), LOG(3, 6))}},
    {"log 1 before log 2", {BYTES(LOG(1, 1), LOG(2, 2)), BYTES(LOG(3, 3), LOG(4, 4))}},
    {"log 2 before log 1", {BYTES(LOG(3, 3), LOG(4, 4)), BYTES(LOG(1, 1), LOG(2, 2))}},
    {"in turn", {BYTES(LOG(1, 1), LOG(3, 3)), BYTES(LOG(2, 2), LOG(4, 4))}},
    {"overlapping", {BYTES(LOG(1, 1), LOG(2, 2), LOG(3, 3)), BYTES(LOG(2, 4), LOG(3, 5), LOG(4, 6))}},
    {"log 1 goes on", {BYTES(LOG(1, 1), LOG(2, 2), LOG(3, 3)), BYTES(LOG(1, 4))}},
    {"log 2 goes on", {BYTES(LOG(1, 1)), BYTES(LOG(1, 2), LOG(2, 3), LOG(3, 4))}},
    /* Numbers that no log has. */
    {"gap before the first", {BYTES(LOG(3, 1)), NO_BYTES}},
    {"gap between", {BYTES(LOG(1, 1), LOG(4, 2)), BYTES(LOG(1, 3), LOG(4, 4))}},
    {"gaps", {BYTES(LOG(2, 1), LOG(5, 2)), BYTES(LOG(3, 3), LOG(5, 4), LOG(8, 5))}},
    /* Both bytes of a number. */
    {"255 and 256", {BYTES(LOG(255, 1)), BYTES(LOG(256, 2))}},
    {"258 and 513", {BYTES(LOG(258, 1)), BYTES(LOG(513, 2))}},
    {"32768 and 32767", {BYTES(LOG(32768, 1)), BYTES(LOG(32767, 2))}},
    {"65535", {BYTES(LOG(65535, 1)), NO_BYTES}},
    {"65534 and 65535", {BYTES(LOG(65534, 1)), BYTES(LOG(65535, 2))}},
    {"1 and 65535 in both", {BYTES(LOG(1, 1), LOG(65535, 2)), BYTES(LOG(1, 3), LOG(65535, 4))}},
};

static void put_pairs(void)
{
    for (size_t k = 0; k < COUNT(pairs); k++) {
        for (unsigned log = 0; log < LOGS; log++)
            copy(&logs[log], pairs[k].logs[log]);
        printf("%s:", pairs[k].label);
        end_line();
    }
}

/* How many attempts come out at their places, and nothing else with them. */
static void single_attempts(unsigned log)
{
    unsigned good = 0;

    for (unsigned action = 0; action < MONITOR_ACTIONS; action++) {
        const uint32_t mask = (uint32_t)1 << action;
        const uint8_t logged[] = {LOG(2, mask)}, meant[] = {WIDE_NOBODY, WIDE_PERIOD(log == 0 ? mask : 0, log == 0 ? 0 : mask)};
        copy(&logs[log], (struct bytes){logged, sizeof logged});
        cut(&logs[1 - log], 0);
        ask(sizeof meant);
        good += holds(&trace, (struct bytes){meant, sizeof meant});
    }
    printf("log %u, each attempt alone:", log + 1);
    put_count(good, MONITOR_ACTIONS);
}

/* ---- long logs */

/* Attempts that neither another period nor the other log has. */
static uint32_t attempts(unsigned log, unsigned period)
{
    return (2 * period + log) * 2654435761u;
}

/* Every so many periods, from one up to another. */
struct numbers {
    unsigned every, from, to;
};

static int has(struct numbers all, unsigned period)
{
    return period >= all.from && period <= all.to && (period - all.from) % all.every == 0;
}

static void write_log(unsigned log, struct numbers all)
{
    size_t length = 0;

    cut(&logs[log], all.from > all.to ? 0 : LOG_BYTES * (size_t)((all.to - all.from) / all.every + 1));
    for (unsigned period = all.from; period <= all.to; period += all.every) {
        memcpy(start(&logs[log]) + length, (const uint8_t[]){LOG(period, attempts(log, period))}, LOG_BYTES);
        length += LOG_BYTES;
    }
}

#define NONE {1, 1, 0}
#define EACH {1, 1, MOST}
static const struct { const char *label; struct numbers logs[LOGS]; } long_pairs[] = {
    {"65535 records and none", {EACH, NONE}},
    {"none and 65535 records", {NONE, EACH}},
    {"65535 records each", {EACH, EACH}},
    {"odd and even numbers", {{2, 1, MOST}, {2, 2, MOST}}},
    {"every 3rd number and every 5th", {{3, 3, MOST}, {5, 5, MOST}}},
    {"up to 32767 and from 32768", {{1, 1, 32767}, {1, 32768, MOST}}},
    {"up to 65534 and each", {{1, 1, MOST - 1}, EACH}},
};

/* A line for each: the answer, whether exchanged logs exchange the parties, and how many records are as the logs have them. */
static void put_long_pairs(void)
{
    for (size_t k = 0; k < COUNT(long_pairs); k++) {
        const struct numbers *all = long_pairs[k].logs;
        unsigned good = 0;
        for (unsigned log = 0; log < LOGS; log++)
            write_log(log, all[log]);
        struct monitor_join_reply r = ask(MAX_BYTES);
        for (unsigned period = 1; period <= r.records; period++) {
            uint8_t meant[PERIOD_BYTES];
            put_period(meant, WIDE, has(all[0], period) ? attempts(0, period) : 0, has(all[1], period) ? attempts(1, period) : 0);
            good += memcmp(record(&trace, period), meant, sizeof meant) == 0;
        }
        printf("%s:", long_pairs[k].label);
        put_answer(r);
        printf(", %s,", exchanges(r) ? "exchanged" : "not exchanged");
        put_count(good, MOST);
    }
}

/* ---- one log, the other being empty */

/* Numbers with commas between them, each a record's; x is a record with another mark. */
static void spell(unsigned log, const char *text)
{
    const char *last = text + word_length(text);
    unsigned count = 0;

    cut(&logs[log], 0);
    while (text < last) {
        uint8_t next[] = {LOG(*text == 'x' ? count + 1 : (unsigned)atoi(text), 1)};
        if (*text == 'x')
            next[1] = 'P';
        cut(&logs[log], LOG_BYTES * (size_t)(count + 1));
        memcpy(start(&logs[log]) + LOG_BYTES * (size_t)count, next, sizeof next);
        count++;
        text += strcspn(text, ", ") + 1;
    }
}

/* A line for each of a list: the answers to it as log 1 and as log 2. */
static void lines(const char *list)
{
    for (; *list != '\0'; list = next_word(list)) {
        printf("%.*s:", (int)word_length(list), list);
        for (unsigned log = 0; log < LOGS; log++) {
            spell(log, list);
            cut(&logs[1 - log], 0);
            printf("%s log %u", log == 0 ? "" : ",", log + 1);
            put_answer(ask(MAX_BYTES));
        }
        printf("\n");
    }
}

static void lists(void)
{
    /* Numbers that rise. */
    lines("1 2 255 256 65535 1,2 1,3 254,255 255,256 256,257 511,512 1,65535 65534,65535 1,2,3,4,5");
    /* A number that is the one before it, or below it. */
    lines("1,1 2,1 256,255 256,1 257,256 257,1 512,511 65535,65535 65535,65534 65535,1");
    lines("1,2,2 1,3,2 1,3,1 2,1,3 3,1,2 5,5,5 1,2,2,1 1,3,5,4,6");
    /* Number 0 and other marks, alone, and behind a number that doesn't rise. */
    lines("0 0,0 0,1 1,0 1,0,2 1,2,0 x x,x x,2 1,x 1,x,3 1,2,x 0,x x,0 1,0,x 1,x,0");
    lines("2,1,0 2,1,x 1,1,0 1,1,x 3,2,1,0,x 3,2,1,x,0");
}

/* ---- every length, and every value of a byte */

static struct monitor_join_reply answers[256];

static int same_at(unsigned value, unsigned other)
{
    return same_answer(answers[value], answers[other]);
}

static void put_answer_at(unsigned value)
{
    put_answer(answers[value]);
}

static void lengths(unsigned log)
{
    static struct area whole;

    spell(log, "1,2,3,4,5");
    cut(&logs[1 - log], 0);
    whole = logs[log];
    for (unsigned length = 0; length <= whole.length; length++) {
        copy(&logs[log], (struct bytes){start(&whole), length});
        answers[length] = ask(MAX_BYTES);
    }
    printf("log %u, length:", log + 1);
    put_ranges(0, (unsigned)whole.length, same_at, put_answer_at);
    printf("\n");
}

/* Bytes 0 and 1 of a record are its mark, 2 and 3 its number. */
static void values(unsigned log, unsigned at, unsigned byte)
{
    spell(log, "1,300,600");
    spell(1 - log, "1");
    for (unsigned value = 0; value <= 255; value++) {
        start(&logs[log])[LOG_BYTES * at + byte] = (uint8_t)value;
        answers[value] = ask(PERIOD_BYTES * 600);
    }
    printf("log %u, record %u, byte %u:", log + 1, at, byte);
    put_ranges(0, 255, same_at, put_answer_at);
    printf("\n");
}

static void sweeps(unsigned log)
{
    lengths(log);
    for (unsigned at = 0; at < 3; at++)
        for (unsigned byte = 0; byte < (at < 2 ? 4 : 2); byte++)
            values(log, at, byte);
}

/* ---- the longest log, and longer ones */

/* Lengths about 65,535 records; a record past these has the last number again. Then a record too many where the other log, or */
/* this one's record 1, has a fault too. */
static void long_lengths(unsigned log)
{
    enum { RECORDS = MOST + 1 };
    static uint8_t records[LOG_BYTES * RECORDS + LOG_BYTES];
    static const size_t tried[] = {LOG_BYTES * MOST - 1, LOG_BYTES * MOST, LOG_BYTES * MOST + 1, LOG_BYTES * RECORDS - 1,
                                   LOG_BYTES * RECORDS, LOG_BYTES * RECORDS + 1, LOG_BYTES * RECORDS + LOG_BYTES};
    static const char *const others[] = {"1,x", "2,1"};

    for (unsigned k = 0; k < RECORDS + 1; k++)
        memcpy(records + LOG_BYTES * (size_t)k, (const uint8_t[]){LOG(k < MOST ? k + 1 : MOST, 1)}, LOG_BYTES);
    cut(&logs[1 - log], 0);
    for (size_t k = 0; k < COUNT(tried); k++) {
        copy(&logs[log], (struct bytes){records, tried[k]});
        printf("log %u of %u bytes:", log + 1, (unsigned)tried[k]);
        put_answer(ask(MAX_BYTES));
        printf("\n");
    }
    for (size_t k = 0; k < COUNT(others); k++) {
        copy(&logs[log], (struct bytes){records, LOG_BYTES * RECORDS});
        spell(1 - log, others[k]);
        printf("log %u of 65536 records, log %u \"%s\":", log + 1, 2 - log, others[k]);
        put_answer(ask(MAX_BYTES));
        printf("\n");
    }
    start(&logs[log])[LOG_BYTES + 1] = 'P';
    cut(&logs[1 - log], 0);
    printf("log %u of 65536 records, wrong mark in record 1:", log + 1);
    put_answer(ask(MAX_BYTES));
    printf("\n");
}

/* Faults in the last of 65,535 records. */
static void last_records(unsigned log)
{
    uint8_t *last = start(&logs[log]) + LOG_BYTES * (size_t)(MOST - 1);

    cut(&logs[1 - log], 0);
    write_log(log, (struct numbers)EACH);
    last[1] = 'P';
    printf("log %u, wrong mark in record 65534:", log + 1);
    put_answer(ask(MAX_BYTES));
    memcpy(last, (const uint8_t[]){LOG(0, 1)}, LOG_BYTES);
    printf("\nlog %u, number 0 in record 65534:", log + 1);
    put_answer(ask(MAX_BYTES));
    memcpy(last, (const uint8_t[]){LOG(MOST - 1, 1)}, LOG_BYTES);
    printf("\nlog %u, number 65534 in record 65534:", log + 1);
    put_answer(ask(MAX_BYTES));
    printf("\n");
}

/* ---- the order of the tests */

enum test { LENGTH_1, RECORD_1, LENGTH_2, RECORD_2, ORDER_1, ORDER_2, BUFFER, TESTS };
static const char *const test_names[] = {"length of log 1", "record of log 1", "length of log 2", "record of log 2",
                                         "order of log 1", "order of log 2", "buffer"};

/* Logs of three records with a fault for each bit: a byte too few; in record `bad` a wrong mark (log 1) or number 0 (log 2); */
/* in record `order` a number that doesn't rise; a buffer a byte too short. */
static struct monitor_join_reply ask_spoiled(unsigned bits, unsigned bad, unsigned order)
{
    spell(0, bits >> ORDER_1 & 1 ? (order == 1 ? "3,3,4" : "3,4,2") : "2,3,4");
    spell(1, bits >> ORDER_2 & 1 ? (order == 1 ? "3,2,5" : "3,5,5") : "3,4,5");
    if (bits >> RECORD_1 & 1)
        start(&logs[0])[LOG_BYTES * bad + 1] = 'P';
    if (bits >> RECORD_2 & 1)
        memset(start(&logs[1]) + LOG_BYTES * bad + 2, 0, 2);
    if (bits >> LENGTH_1 & 1)
        cut(&logs[0], logs[0].length - 1);
    if (bits >> LENGTH_2 & 1)
        cut(&logs[1], logs[1].length - 1);
    return ask(PERIOD_BYTES * 5 - (bits >> BUFFER & 1));
}

/* A line for each fault: the answer to it alone, and how often it is the same with faults that are tested later. */
static void orders(unsigned bad, unsigned order)
{
    for (unsigned first = 0; first < TESTS; first++) {
        struct monitor_join_reply alone = ask_spoiled(1u << first, bad, order);
        unsigned good = 0, all = 0;
        for (unsigned later = 0; later < 1u << TESTS; later += 2u << first) {
            good += same_answer(ask_spoiled(1u << first | later, bad, order), alone);
            all++;
        }
        printf("%s and any later fault:", test_names[first]);
        put_answer(alone);
        printf(",");
        put_count(good, all);
    }
}

/* ---- trace buffers and reply areas */

static void buffers(const char *first, const char *second)
{
    enum { TO = 41 };

    spell(0, first);
    spell(1, second);
    for (unsigned length = 0; length <= TO; length++)
        answers[length] = ask(length);
    printf("logs \"%s\" and \"%s\", buffer:", first, second);
    put_ranges(0, TO, same_at, put_answer_at);
    printf("\n");
}

/* About the longest trace's. */
static void long_buffers(void)
{
    static const size_t tried[] = {PERIOD_BYTES * (MOST - 1), PERIOD_BYTES * MOST - 1, PERIOD_BYTES * MOST,
                                   PERIOD_BYTES * MOST + 1, MAX_BYTES};

    spell(0, "1");
    spell(1, "65535");
    for (size_t k = 0; k < COUNT(tried); k++) {
        printf("last number 65535, buffer %u:", (unsigned)tried[k]);
        put_answer(ask(tried[k]));
        printf("\n");
    }
}

/* What a buffer holds that is full of a value: the trace, and behind it the value. */
static void contents(uint8_t value)
{
    spell(0, "2");
    spell(1, "3");
    fill(&trace, value, PERIOD_BYTES * 3 + 4);
    join_over(sizeof(struct monitor_join_reply));
    printf("a buffer full of %u:", value);
    put_bytes(start(&trace), trace.length);
    printf("\n");
}

/* For each length of the reply area the result, and how far the area and the trace buffer were changed. */
static struct { uint32_t result; size_t reply, trace; } left[18];

static int same_left(unsigned length, unsigned other)
{
    return left[length].result == left[other].result && left[length].reply == left[other].reply &&
           left[length].trace == left[other].trace;
}

static void put_left(unsigned length)
{
    printf(" gives");
    PUT(left[length].result);
    printf(" changed");
    PUT(left[length].reply, left[length].trace);
}

/* A line for the areas of 0 to 17 bytes, and one with the bytes of the reply in an area of 2,048. */
static void areas(const char *first, const char *second, size_t buffer_length)
{
    spell(0, first);
    spell(1, second);
    for (unsigned length = 0; length < COUNT(left); length++) {
        left[length].result = join(buffer_length, length);
        left[length].reply = changed(&reply, UNWRITTEN);
        left[length].trace = changed(&trace, UNWRITTEN);
    }
    printf("logs \"%s\" and \"%s\", buffer %u, reply area:", first, second, (unsigned)buffer_length);
    put_ranges(0, COUNT(left) - 1, same_left, put_left);
    printf("\nreply area of 2048 bytes:");
    PUT(join(buffer_length, 2048));
    put_bytes(start(&reply), changed(&reply, UNWRITTEN));
    printf("\n");
}

/* ---- lengths beyond 32 bits */

/* Memory of which the first page can be written, and the rest only read. */
enum { PAGE = 4096 };
#define FOUR_GIB ((size_t)4294967296)
#define MAPPED (LOG_BYTES * (FOUR_GIB + 1))

static uint8_t *map_page(void)
{
    uint8_t *page = mmap(NULL, MAPPED, PROT_READ, MAP_PRIVATE | MAP_ANONYMOUS | MAP_NORESERVE, -1, 0);

    return page != MAP_FAILED && mprotect(page, PAGE, PROT_READ | PROT_WRITE) == 0 ? page : NULL;
}

/* A log that starts with a good record. */
static void far_log(uint8_t *page, unsigned log, size_t length)
{
    static const uint8_t none[1], good[] = {LOG(1, 1)};

    memcpy(page, good, sizeof good);
    fill(&trace, UNWRITTEN, PERIOD_BYTES);
    fill(&reply, UNWRITTEN, sizeof(struct monitor_join_reply));
    monitor_join(log == 0 ? page : none, log == 0 ? length : 0, log == 0 ? none : page, log == 0 ? 0 : length,
                 start(&trace), trace.length, start(&reply), reply.length);
    printf("log %u of %llu bytes:", log + 1, (unsigned long long)length);
    put_answer(join_reply());
    printf(" changed");
    PUT(changed(&trace, UNWRITTEN));
    printf("\n");
}

static void far_buffer(uint8_t *page, size_t length)
{
    static const uint8_t one[] = {LOG(2, 1)}, two[] = {LOG(1, 2)};

    memset(page, UNWRITTEN, PAGE);
    fill(&reply, UNWRITTEN, sizeof(struct monitor_join_reply));
    monitor_join(one, sizeof one, two, sizeof two, page, length, start(&reply), reply.length);
    printf("buffer of %llu bytes:", (unsigned long long)length);
    put_answer(join_reply());
    printf(",");
    put_bytes(page, reach(page, PAGE, UNWRITTEN));
    printf("\n");
}

static void far_lengths(void)
{
    static const size_t records[] = {FOUR_GIB / LOG_BYTES, FOUR_GIB / LOG_BYTES + 1, FOUR_GIB, FOUR_GIB + 1};
    uint8_t *page = map_page();

    if (page == NULL) {
        fault("the machine refuses a mapping for 4294967297 log records");
        return;
    }
    for (unsigned log = 0; log < LOGS; log++)
        for (size_t k = 0; k < COUNT(records); k++)
            far_log(page, log, LOG_BYTES * records[k]);
    far_buffer(page, FOUR_GIB);
    far_buffer(page, FOUR_GIB + PERIOD_BYTES);
}

int main(void)
{
    put_pairs();
    put_long_pairs();
    for (unsigned log = 0; log < LOGS; log++)
        single_attempts(log);
    lists();
    for (unsigned log = 0; log < LOGS; log++) {
        sweeps(log);
        long_lengths(log);
        last_records(log);
    }
    orders(1, 2);
    orders(2, 1);
    buffers("", "");
    buffers("3", "1");
    buffers("1", "3");
    long_buffers();
    contents(0);
    contents(255);
    areas("2", "3", PERIOD_BYTES * 3 + 1);
    areas("65535", "", MAX_BYTES);
    areas("", "1,2,0", MAX_BYTES);
    areas("2,2", "", MAX_BYTES);
    areas("2", "3", PERIOD_BYTES * 3 - 1);
    far_lengths();
    return faults != 0;
}
