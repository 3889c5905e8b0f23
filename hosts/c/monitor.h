/* The plugin contract monitor's calls. libmonitor.a has all of them, librunner.a begin, step, run and decide alone, */
/* libjoiner.a join alone. */
/* docs/HOSTS.md is the page for a host's author; docs/FORMAT.md says what the bytes mean. */
#ifndef MONITOR_H
#define MONITOR_H

#include <stddef.h>
#include <stdint.h>

#ifdef __cplusplus
extern "C" {
#endif

/* Sizes in bytes, the most records of a contract and of a log, the most rows of an image, the number of actions, and the */
/* longest window. */
enum {
    MONITOR_RECORD_BYTES = 6,       /* a contract record */
    MONITOR_MAX_RECORDS = 64,
    MONITOR_ACTIONS = 32,           /* numbered from 0 */
    MONITOR_MAX_WINDOW = 15,        /* of a deadline, in periods; the shortest is 1 */
    MONITOR_ROW_BYTES = 8,          /* a row, and the end record */
    MONITOR_HEAD_BYTES = 10,        /* a state before its row values */
    MONITOR_PERIOD_BYTES = 6,       /* a narrow period record: mark 54 50, actions 0 to 15 */
    MONITOR_WIDE_PERIOD_BYTES = 10, /* a wide period record: mark 54 51, actions 0 to 31 */
    MONITOR_LOG_RECORD_BYTES = 8,   /* a record of one party's log: mark 54 4C */
    MONITOR_MAX_LOG_RECORDS = 65535,
    MONITOR_MAX_ROWS = 5952
};

/* The least bytes of an image buffer for a contract of so many records, whose deadlines' windows add up to so many periods */
/* (0 where it has no deadline); those of an image of so many rows, and of its state. */
/* A buffer of MONITOR_IMAGE_BYTES(MONITOR_MAX_ROWS) takes every contract. */
#define MONITOR_BUFFER_BYTES(records, windows) (MONITOR_ROW_BYTES * (32 * (size_t)(records) + 65 + 4 * (size_t)(windows)))
#define MONITOR_IMAGE_BYTES(rows) (MONITOR_ROW_BYTES * ((size_t)(rows) + 1))
#define MONITOR_STATE_BYTES(rows) (MONITOR_HEAD_BYTES + (size_t)(rows))

/* The bytes of a trace of so many periods in wide records, as join writes it. */
/* A buffer of MONITOR_TRACE_BYTES(MONITOR_MAX_LOG_RECORDS) takes the trace of any two logs. */
#define MONITOR_TRACE_BYTES(periods) (MONITOR_WIDE_PERIOD_BYTES * (size_t)(periods))

/* Kinds of contract records. Operands stand before their operator. */
enum monitor_kind {
    MONITOR_KIND_DUTY = 1,      /* party or MONITOR_PARTY_BOTH, action */
    MONITOR_KIND_BAN = 2,       /* party, action */
    MONITOR_KIND_POWER = 3,     /* party, action */
    MONITOR_KIND_BOTH = 4,      /* two clauses */
    MONITOR_KIND_THEN = 5,      /* two clauses */
    MONITOR_KIND_REPAIR = 6,    /* two clauses */
    MONITOR_KIND_REPEAT = 7,    /* a clause */
    MONITOR_KIND_WHEN = 8,      /* an expression, then a clause */
    MONITOR_KIND_UNTIL = 9,     /* a clause, then an expression */
    MONITOR_KIND_DEADLINE = 10, /* party, action, window */
    MONITOR_KIND_ANY = 16,
    MONITOR_KIND_TRIES = 17,    /* party, action */
    MONITOR_KIND_IDLE = 18,     /* party, action */
    MONITOR_KIND_SUCCEEDS = 19, /* action */
    MONITOR_KIND_FAILS = 20,    /* action */
    MONITOR_KIND_SEQ = 21,      /* two expressions */
    MONITOR_KIND_OR = 22,       /* two expressions */
    MONITOR_KIND_STAR = 23      /* an expression */
};

/* Parties: 1 or 2 in a contract record, for the owner of a duty also both (a joint duty); any of the four in a reply's blame. */
enum monitor_party {
    MONITOR_PARTY_NONE = 0,
    MONITOR_PARTY_1 = 1,
    MONITOR_PARTY_2 = 2,
    MONITOR_PARTY_BOTH = 3
};

/* The bytes of a contract record, for an initializer: of any kind but a deadline, and of a deadline. */
/* A field that the kind doesn't use is 0. */
#define MONITOR_RECORD(kind, party, action) 0x54, 0x43, (uint8_t)(kind), (uint8_t)(party), (uint8_t)(action), 0
#define MONITOR_DEADLINE(party, action, window) \
    0x54, 0x43, MONITOR_KIND_DEADLINE, (uint8_t)(party), (uint8_t)(action), (uint8_t)(window)

/* The bytes of a period record, for an initializer, from both parties' attempts: bit a is set when the party tries action a. */
/* Write 1u << a, since 1 << 31 overflows. An argument is evaluated more than once. */
/* A wide record has all 32 bits. A narrow one has bits 0 to 15; in its period nobody tries actions 16 to 31. */
/* A new host writes wide records; narrow ones are for hosts and traces from before. */
#define MONITOR_PERIOD(one, two) 0x54, 0x50, MONITOR_TWO_BYTES(one), MONITOR_TWO_BYTES(two)
#define MONITOR_WIDE_PERIOD(one, two) 0x54, 0x51, MONITOR_FOUR_BYTES(one), MONITOR_FOUR_BYTES(two)

/* The bytes of a log record, for an initializer, from the period's number, 1 to 65,535, and the party's attempts in it, all 32 */
/* bits. In a log each number is above the one before it. An argument is evaluated more than once. */
#define MONITOR_LOG_RECORD(period, attempts) 0x54, 0x4c, MONITOR_TWO_BYTES(period), MONITOR_FOUR_BYTES(attempts)

/* A number's bytes in a field of two and in one of four, low byte first. */
#define MONITOR_TWO_BYTES(number) (uint8_t)((uint32_t)(number) & 0xff), (uint8_t)((uint32_t)(number) >> 8 & 0xff)
#define MONITOR_FOUR_BYTES(number) MONITOR_TWO_BYTES(number), MONITOR_TWO_BYTES((uint32_t)(number) >> 16)

/* A reply's number: 0, or what the call was refused for. docs/FORMAT.md has the conditions, and what the place counts. */
enum monitor_refusal {
    MONITOR_ACCEPTED = 0,
    MONITOR_REFUSED_BAD_LENGTH = 1,     /* of the contract */
    MONITOR_REFUSED_BAD_MARK = 2,       /* of a contract record */
    MONITOR_REFUSED_UNKNOWN_KIND = 3,   /* of a contract record */
    MONITOR_REFUSED_BAD_FIELD = 4,      /* of a contract record: out of range, or unused and not 0 */
    MONITOR_REFUSED_BAD_OPERANDS = 5,   /* missing, or of the wrong sort */
    MONITOR_REFUSED_NOT_ONE_CLAUSE = 6, /* at the contract's end */
    MONITOR_REFUSED_EMPTY_LIST = 7,     /* held by the expression under a when or until */
    MONITOR_REFUSED_SHORT_BUFFER = 8,   /* for the image */
    MONITOR_REFUSED_BAD_IMAGE = 9,      /* its length, a row or the end record */
    MONITOR_REFUSED_BAD_STATE = 10,     /* its length, or (step, run) not sound */
    MONITOR_REFUSED_BAD_PERIOD = 11,    /* a single byte; the first record's mark; the length for its form; a later mark */
    MONITOR_REFUSED_FULL_COUNT = 12,    /* periods taken would pass 4,294,967,295, or decide's trace has more records */
    /* 13 is given by the program `watch` alone. */
    MONITOR_REFUSED_BAD_LOG = 14,       /* its length; a record's mark, or period 0 */
    MONITOR_REFUSED_OUT_OF_ORDER = 15,  /* a log record's number isn't above the one before it */
    MONITOR_REFUSED_SHORT_TRACE = 16    /* join's buffer for the trace */
};

/* What is added to the place of a record in log 2. A bad length has place 0 in either log. */
enum { MONITOR_LOG_2_PLACE = 65536 };

enum monitor_verdict {
    MONITOR_VERDICT_OPEN = 0,
    MONITOR_VERDICT_MET = 1,
    MONITOR_VERDICT_BROKEN = 2,
    MONITOR_VERDICT_MET_AFTER = 3,
    MONITOR_VERDICT_BROKEN_AFTER = 4
};

/* What decide gives; also a state's first byte. */
enum monitor_outcome {
    MONITOR_OUTCOME_UNDECIDED = 0,
    MONITOR_OUTCOME_SATISFIED = 1,
    MONITOR_OUTCOME_VIOLATED = 2
};

/* Replies. These structs fit the bytes of a reply where the machine has the low byte first, as x86-64 has: */
/* lend one as (uint8_t *)&reply, sizeof reply. In a refusal all but number and place is 0. */

/* 16 bytes. */
struct monitor_compile_reply {
    uint32_t number;
    uint32_t rows; /* of the image */
    uint64_t place;
};

/* 16 bytes. */
struct monitor_begin_reply {
    uint32_t number;
    uint32_t zero;
    uint64_t place;
};

/* 24 bytes. */
struct monitor_step_reply {
    uint32_t number;
    uint32_t verdict;
    uint64_t place;
    uint32_t blame;
    uint32_t decision; /* the decision period, 0 for none */
};

/* 24 bytes. */
struct monitor_run_reply {
    uint32_t number;
    uint32_t verdict;
    uint64_t place;
    uint32_t blame;
    uint32_t decision; /* the decision period, 0 for none */
};

/* 32 bytes. */
struct monitor_decide_reply {
    uint32_t number;
    uint32_t outcome;
    uint64_t place;
    uint32_t blame;
    uint32_t decision; /* the decision period, 0 for none */
    uint32_t records;  /* how many were read: the decision period, or all of the trace where it is undecided */
    uint32_t zero;
};

/* 16 bytes. */
struct monitor_join_reply {
    uint32_t number;
    uint32_t records; /* of the trace */
    uint64_t place;
};

/* Each call takes areas that don't overlap, as pointer (not NULL) and length in bytes. */
/* The result is 1, or 0 where the reply area is too short: then nothing is written. */
/* A refusal writes the reply alone. Calls keep nothing between them, so different states may be stepped in different threads. */

/* Writes the contract's image into the first MONITOR_IMAGE_BYTES(rows) bytes of the buffer, and no others. */
/* The other calls take just those bytes as the image. Needs up to 20 KB of stack. */
uint32_t monitor_compile(const uint8_t *contract, size_t contract_length,
                         uint8_t *image, size_t image_length,
                         uint8_t *reply, size_t reply_length);

/* Sets the state, MONITOR_STATE_BYTES(rows) bytes, to zeros: no period is taken. */
uint32_t monitor_begin(const uint8_t *image, size_t image_length,
                       uint8_t *state, size_t state_length,
                       uint8_t *reply, size_t reply_length);

/* Takes one period record, narrow or wide, whatever form earlier ones had. */
uint32_t monitor_step(const uint8_t *image, size_t image_length,
                      uint8_t *state, size_t state_length,
                      const uint8_t *period, size_t period_length,
                      uint8_t *reply, size_t reply_length);

/* Takes a trace of zero or more period records, all of them or none. All have the form of the first, which its mark tells. */
uint32_t monitor_run(const uint8_t *image, size_t image_length,
                     uint8_t *state, size_t state_length,
                     const uint8_t *trace, size_t trace_length,
                     uint8_t *reply, size_t reply_length);

/* Reads a trace, as run takes one, up to the record that decides. It needs no state: it starts from zeros, as begin would */
/* leave them. Records after the decision are not looked at, so a wrong mark there is no refusal. Needs about 6 KB of stack. */
uint32_t monitor_decide(const uint8_t *image, size_t image_length,
                        const uint8_t *trace, size_t trace_length,
                        uint8_t *reply, size_t reply_length);

/* Joins two logs, log1 party 1's and log2 party 2's, on the period number: writes their trace into the first */
/* MONITOR_TRACE_BYTES(records) bytes of the buffer, and no others. It is in wide records, from period 1 to the greater of the */
/* two last numbers; in a period that its log lacks a party tries nothing. Two empty logs give an empty trace. */
uint32_t monitor_join(const uint8_t *log1, size_t log1_length,
                      const uint8_t *log2, size_t log2_length,
                      uint8_t *trace, size_t trace_length,
                      uint8_t *reply, size_t reply_length);

#ifdef __cplusplus
}
#endif

#endif
