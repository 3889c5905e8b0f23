/* An example host in C: compiles a contract between a plugin and its host, and steps it over four periods; then it decides */
/* these periods as a stored trace, and once more as the trace that it joins of the two parties' logs. */
/* "C" in docs/HOSTS.md has the command that builds and runs it. */
#include <stdio.h>
#include <string.h>

#include "monitor.h"

/* The plugin is party 1, the host party 2. In each period (here a recalculation) each of them tries some actions, */
/* and an action succeeds when both try it. Actions are 0 to 31. */
enum { PLUGIN = MONITOR_PARTY_1 };
enum {
    VALUES = 0,    /* the plugin hands over its cells' values, the host takes them */
    CORRECTION = 1 /* the plugin hands over a correction, the host takes it */
};

/* Again and again the plugin owes its values, or if that fails, a correction in the next recalculation. */
/* Operands stand before their operator: repeat (repair (duty values, duty correction)). */
static const uint8_t contract[] = {
    MONITOR_RECORD(MONITOR_KIND_DUTY, PLUGIN, VALUES),
    MONITOR_RECORD(MONITOR_KIND_DUTY, PLUGIN, CORRECTION),
    MONITOR_RECORD(MONITOR_KIND_REPAIR, 0, 0),
    MONITOR_RECORD(MONITOR_KIND_REPEAT, 0, 0),
};

/* What the plugin and the host try in each recalculation: bit a is set when the party tries action a. */
static const struct { uint32_t plugin, host; } attempts[] = {
    {1u << VALUES, 1u << VALUES},
    {0, 0},
    {1u << CORRECTION, 0},
    {1u << VALUES, 1u << VALUES},
};
enum { PERIODS = sizeof attempts / sizeof attempts[0] };

/* Their period records, as the host stores them, in the wide form, which has all 32 actions. */
static uint8_t trace[PERIODS * MONITOR_WIDE_PERIOD_BYTES];

/* The same as the two parties log it, each its own attempts. A party tries nothing in a period that its log lacks. */
static const uint8_t plugin_log[] = {
    MONITOR_LOG_RECORD(1, 1u << VALUES),
    MONITOR_LOG_RECORD(3, 1u << CORRECTION),
    MONITOR_LOG_RECORD(4, 1u << VALUES),
};
static const uint8_t host_log[] = {
    MONITOR_LOG_RECORD(1, 1u << VALUES),
    MONITOR_LOG_RECORD(4, 1u << VALUES),
};

/* Compile wants a buffer of MONITOR_BUFFER_BYTES; the contract has no deadline, so there are no windows to add up. The image */
/* is the beginning of the buffer, and how many rows it has follows from the contract, so the state has room for the most. */
/* A host with many states takes MONITOR_STATE_BYTES(rows) for each. */
static uint8_t image[MONITOR_BUFFER_BYTES(sizeof contract / MONITOR_RECORD_BYTES, 0)];
static uint8_t state[MONITOR_STATE_BYTES(MONITOR_MAX_ROWS)];

static const char *const verdicts[] = {
    [MONITOR_VERDICT_OPEN] = "open",
    [MONITOR_VERDICT_MET] = "met",
    [MONITOR_VERDICT_BROKEN] = "broken",
    [MONITOR_VERDICT_MET_AFTER] = "met-after",
    [MONITOR_VERDICT_BROKEN_AFTER] = "broken-after",
};

/* docs/FORMAT.md says what the number means and what the place counts. */
static int refused(const char *call, uint32_t number, uint64_t place)
{
    printf("%s refused %u %llu\n", call, (unsigned)number, (unsigned long long)place);
    return 1;
}

/* A stored trace needs no state: decide reads it up to the period that decides. */
static int decide_trace(size_t image_length, size_t trace_length)
{
    struct monitor_decide_reply decided;

    monitor_decide(image, image_length, trace, trace_length, (uint8_t *)&decided, sizeof decided);
    if (decided.number != MONITOR_ACCEPTED)
        return refused("decide", decided.number, decided.place);
    if (decided.outcome == MONITOR_OUTCOME_VIOLATED)
        printf("broken by %u in period %u, ", (unsigned)decided.blame, (unsigned)decided.decision);
    printf("%u of %u records read\n", (unsigned)decided.records, (unsigned)(trace_length / MONITOR_WIDE_PERIOD_BYTES));
    return 0;
}

/* Join makes the trace of the two logs. It has as many periods as the reply says; the buffer may be longer. */
static int decide_logs(size_t image_length)
{
    struct monitor_join_reply joined;

    memset(trace, 0, sizeof trace);
    monitor_join(plugin_log, sizeof plugin_log, host_log, sizeof host_log, trace, sizeof trace,
                 (uint8_t *)&joined, sizeof joined);
    if (joined.number != MONITOR_ACCEPTED)
        return refused("join", joined.number, joined.place);
    return decide_trace(image_length, MONITOR_TRACE_BYTES(joined.records));
}

int main(void)
{
    /* A call's result is 0 only where its reply area is too short, and a whole struct never is. */
    struct monitor_compile_reply compiled;
    struct monitor_begin_reply begun;
    struct monitor_step_reply reply = {0};

    monitor_compile(contract, sizeof contract, image, sizeof image, (uint8_t *)&compiled, sizeof compiled);
    if (compiled.number != MONITOR_ACCEPTED)
        return refused("compile", compiled.number, compiled.place);

    /* From here on image and state are lent with just the lengths that the rows give. */
    size_t image_length = MONITOR_IMAGE_BYTES(compiled.rows);
    size_t state_length = MONITOR_STATE_BYTES(compiled.rows);

    monitor_begin(image, image_length, state, state_length, (uint8_t *)&begun, sizeof begun);
    if (begun.number != MONITOR_ACCEPTED)
        return refused("begin", begun.number, begun.place);

    for (size_t k = 0; k < PERIODS; k++) {
        const uint8_t period[MONITOR_WIDE_PERIOD_BYTES] = {MONITOR_WIDE_PERIOD(attempts[k].plugin, attempts[k].host)};
        monitor_step(image, image_length, state, state_length, period, sizeof period, (uint8_t *)&reply, sizeof reply);
        if (reply.number != MONITOR_ACCEPTED)
            return refused("step", reply.number, reply.place);
        /* The blame is a party, MONITOR_PARTY_NONE or MONITOR_PARTY_BOTH. */
        printf("%u %s %u\n", (unsigned)(k + 1), verdicts[reply.verdict], (unsigned)reply.blame);
        memcpy(trace + k * sizeof period, period, sizeof period);
    }

    printf("decided %u\n", (unsigned)reply.decision);
    if (decide_trace(image_length, sizeof trace) != 0)
        return 1;
    return decide_logs(image_length);
}
