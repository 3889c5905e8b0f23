/* Nests of each operator, up to 64 records, compiled and stepped: the verdict and the blame in each period. */
/* Document 01, "Records", "Expressions" and "Meaning of clauses"; document 02, "Duties with a deadline", "Duties that both */
/* parties own", "An ending that may begin in any period" and "Thirty-two actions". What it prints is held to the file */
/* nests.expected. */
#include "testing.h"

/* ---- traces */

/* What both parties try in a period: nothing; everything; action 0 in period 1, action 1 in period 2 and so on, after 31 */
/* again 0; the action that comes after that one; or action 0 in period 15, action 1 in period 30 and so on, and nothing */
/* between them. */
enum usual { NONE, ALL, TURN, AHEAD, LATE };

/* So many periods of this kind, but in period `except` the parties try `one` and `two`. */
struct periods {
    enum usual usual;
    unsigned count, except, one, two;
};

static unsigned usual(enum usual kind, unsigned period)
{
    switch (kind) {
    case ALL:
        return 0xffffffff;
    case TURN:
        return 1u << (period - 1) % MONITOR_ACTIONS;
    case AHEAD:
        return 1u << period % MONITOR_ACTIONS;
    case LATE:
        return period % MONITOR_MAX_WINDOW != 0 ? 0 : 1u << (period / MONITOR_MAX_WINDOW - 1) % MONITOR_ACTIONS;
    default:
        return 0;
    }
}

static struct monitor_step_reply step(struct periods t, unsigned period)
{
    unsigned both = usual(t.usual, period);
    unsigned one = period == t.except ? t.one : both, two = period == t.except ? t.two : both;

    return take_step((struct bytes)BYTES(MONITOR_WIDE_PERIOD(one, two)));
}

/* ---- lines */

/* Replies by their periods, as many as the longest trace has. */
enum { MAX_PERIODS = 752 };
static struct monitor_step_reply replies[MAX_PERIODS + 1];

static int same_reply(unsigned period, unsigned other)
{
    struct monitor_step_reply r = replies[period], o = replies[other];
    return r.number == o.number && r.verdict == o.verdict && r.blame == o.blame && r.decision == o.decision;
}

static void put_reply(unsigned period)
{
    printf(" %s %u", verdict_name(replies[period].verdict), (unsigned)replies[period].blame);
}

/* A range for each reply, and the decision period. */
static void steps(struct periods t)
{
    if (t.count > MAX_PERIODS)
        abort();
    for (unsigned period = 1; period <= t.count; period++)
        replies[period] = step(t, period);
    put_ranges(1, t.count, same_reply, put_reply);
    printf(", decided %u\n", (unsigned)replies[t.count].decision);
}

/* A line for the contract in its area: the operator and the side on which it is nested, the records, the rows, the steps. */
static void line(const char *operator, const char *side, struct periods t)
{
    unsigned rows = compile_taken();

    printf("%s%s, %u records, %u rows:", operator, side, (unsigned)(contract.length / MONITOR_RECORD_BYTES), rows);
    begin();
    steps(t);
}

/* ---- clauses */

/* What stands above a nest: nothing, or a repeat. */
enum { ONCE, AGAIN };

static void nest_right(int leaf, int operator, int count)
{
    cut(&contract, 0);
    add_run(leaf, 0, 0, count);
    add_run(0, operator, 1, count);
}

/* Both nests of 32 leaves. */
static void both_nests(const char *name, int leaf, int operator, int repeats, struct periods t)
{
    nest_left(leaf, operator, 32);
    add_run(0, MONITOR_KIND_REPEAT, 0, repeats);
    line(name, " left", t);
    nest_right(leaf, operator, 32);
    add_run(0, MONITOR_KIND_REPEAT, 0, repeats);
    line(name, " right", t);
}

static void duties(const char *name, int operator, int repeats, struct periods t)
{
    both_nests(name, MONITOR_KIND_DUTY, operator, repeats, t);
}

static void repeats(const char *name, int leaf, struct periods t)
{
    cut(&contract, 0);
    add_leaf(leaf, 0);
    add_run(0, MONITOR_KIND_REPEAT, 0, 63);
    line(name, "", t);
}

static void clauses(void)
{
    /* In period 3 party 1 doesn't try action 5, and party 2 not action 25; then party 2 alone not action 31. */
    duties("both", MONITOR_KIND_BOTH, AGAIN, (struct periods){ALL, 5, 3, 0xffffffdf, 0xfdffffff});
    duties("both", MONITOR_KIND_BOTH, AGAIN, (struct periods){ALL, 5, 3, 0xffffffff, 0x7fffffff});
    /* Each duty in its turn; begun again in period 33, and nobody tries what party 2 owes in period 52. */
    duties("then", MONITOR_KIND_THEN, ONCE, (struct periods){TURN, 34, 0, 0, 0});
    duties("then", MONITOR_KIND_THEN, AGAIN, (struct periods){TURN, 54, 52, 0, 0});
    /* Each duty is violated but that of period 20; begun again in period 21, all are. */
    duties("repair", MONITOR_KIND_REPAIR, ONCE, (struct periods){AHEAD, 22, 20, 0xffffffff, 0xffffffff});
    duties("repair", MONITOR_KIND_REPAIR, AGAIN, (struct periods){AHEAD, 54, 20, 0xffffffff, 0xffffffff});
    /* Party 2 doesn't try action 0 in period 5. */
    repeats("repeat", MONITOR_KIND_DUTY, (struct periods){ALL, 6, 5, 0xffffffff, 0xfffffffe});
}

/* Duties that both parties own. */
static void joint_duties(const char *name, int operator, int repeats, struct periods t)
{
    both_nests(name, JOINT_DUTY, operator, repeats, t);
}

static void joint(void)
{
    /* In period 3 party 1 doesn't try action 5, and party 2 not action 25; then party 2 alone not action 31; then nobody 0. */
    joint_duties("both of joint duties", MONITOR_KIND_BOTH, AGAIN, (struct periods){ALL, 5, 3, 0xffffffdf, 0xfdffffff});
    joint_duties("both of joint duties", MONITOR_KIND_BOTH, AGAIN, (struct periods){ALL, 5, 3, 0xffffffff, 0x7fffffff});
    joint_duties("both of joint duties", MONITOR_KIND_BOTH, AGAIN, (struct periods){ALL, 5, 3, 0xfffffffe, 0xfffffffe});
    /* Each in its turn; begun again in period 33, and nobody tries what is owed in period 52. */
    joint_duties("then of joint duties", MONITOR_KIND_THEN, AGAIN, (struct periods){TURN, 54, 52, 0, 0});
    /* Each is violated by both parties, and the last by party 2 alone: party 1 tries action 31 in period 32. */
    joint_duties("repair of joint duties", MONITOR_KIND_REPAIR, ONCE, (struct periods){AHEAD, 34, 32, 0x80000000, 0});
    /* Nobody tries action 0 in period 5. */
    repeats("repeat of a joint duty", JOINT_DUTY, (struct periods){ALL, 6, 5, 0xfffffffe, 0xfffffffe});
}

/* Deadlines of the longest window. */
static void deadlines(const char *name, int operator, int repeats, struct periods t)
{
    both_nests(name, MONITOR_KIND_DEADLINE, operator, repeats, t);
}

static void windows(void)
{
    /* None succeeds. Then action 31 alone doesn't in time: party 1 tries it in period 15, party 2 doesn't. Then all do; begun */
    /* again in period 16, actions 0 to 14, 30 and 31 don't in time. */
    deadlines("both of deadlines", MONITOR_KIND_BOTH, ONCE, (struct periods){NONE, 17, 0, 0, 0});
    deadlines("both of deadlines", MONITOR_KIND_BOTH, AGAIN, (struct periods){TURN, 17, 15, 0xffffc000, 0x7fffc000});
    deadlines("both of deadlines", MONITOR_KIND_BOTH, AGAIN, (struct periods){TURN, 32, 15, 0xffffc000, 0xffffc000});
    /* Each in its last period; begun again in period 481, and in period 750 party 1 alone tries what party 2 owes by then. */
    deadlines("then of deadlines", MONITOR_KIND_THEN, ONCE, (struct periods){LATE, 482, 0, 0, 0});
    deadlines("then of deadlines", MONITOR_KIND_THEN, AGAIN, (struct periods){LATE, 752, 750, 1u << 17, 0});
    /* Each is violated but the second, met in period 20; begun again in period 21, all are. */
    deadlines("repair of deadlines", MONITOR_KIND_REPAIR, ONCE, (struct periods){NONE, 22, 20, 0xffffffff, 0xffffffff});
    deadlines("repair of deadlines", MONITOR_KIND_REPAIR, AGAIN, (struct periods){NONE, 502, 20, 0xffffffff, 0xffffffff});
}

/* 31 `when`, each with a `tries`, above a duty, the last leaf. */
static void whens(int repeats, struct periods t)
{
    cut(&contract, 0);
    add_run(MONITOR_KIND_TRIES, 0, 0, 31);
    add_leaf(MONITOR_KIND_DUTY, 31);
    add_run(0, MONITOR_KIND_WHEN, 0, 31);
    add_run(0, MONITOR_KIND_REPEAT, 0, repeats);
    line("when", "", t);
}

/* 31 `until`, each with a `tries`, above a repeated ban. */
static void untils(struct periods t)
{
    cut(&contract, 0);
    add_leaf(MONITOR_KIND_BAN, 0);
    add_record(MONITOR_KIND_REPEAT, 0, 0);
    add_run(MONITOR_KIND_TRIES, MONITOR_KIND_UNTIL, 1, 32);
    line("until", "", t);
}

static void conditions(void)
{
    /* Rejected in period 10; all accepted, and the duty violated in period 32. */
    whens(ONCE, (struct periods){TURN, 12, 10, 0, 0});
    whens(AGAIN, (struct periods){TURN, 34, 32, 0, 0});
    /* Accepted in period 3: the first one; the last one; all, and the ban violated there. */
    untils((struct periods){NONE, 5, 3, 1u << 1, 0});
    untils((struct periods){NONE, 5, 3, 0, 0x80000000});
    untils((struct periods){NONE, 5, 3, 0xffffffff, 0xffffffff});
}

/* ---- expressions */

/* A duty, the last leaf, under a `when` with the expression in the contract's area. */
static void on_duty(const char *name, const char *side, int repeats, struct periods t)
{
    add_leaf(MONITOR_KIND_DUTY, 31);
    add_record(MONITOR_KIND_WHEN, 0, 0);
    add_run(0, MONITOR_KIND_REPEAT, 0, repeats);
    line(name, side, t);
}

/* Both nests of 31 `tries`. */
static void tries(const char *name, int operator, int repeats, struct periods t)
{
    nest_left(MONITOR_KIND_TRIES, operator, 31);
    on_duty(name, " left", repeats, t);
    nest_right(MONITOR_KIND_TRIES, operator, 31);
    on_duty(name, " right", repeats, t);
}

/* Party 2 tries action 17 after any number of periods: 58 stars over an `any`. */
static void stars(struct periods t)
{
    cut(&contract, 0);
    add_record(MONITOR_KIND_ANY, 0, 0);
    add_run(0, MONITOR_KIND_STAR, 0, 58);
    add_leaf(MONITOR_KIND_TRIES, 17);
    add_record(MONITOR_KIND_SEQ, 0, 0);
    on_duty("star", "", AGAIN, t);
}

/* A repeated power, the last leaf, and the first of 31 `tries`. */
static void begin_until(void)
{
    cut(&contract, 0);
    add_leaf(MONITOR_KIND_POWER, 31);
    add_record(MONITOR_KIND_REPEAT, 0, 0);
    add_leaf(MONITOR_KIND_TRIES, 0);
}

/* That power until 31 `tries` in turn: both nests of `seq`. */
static void sequences_under_until(struct periods t)
{
    begin_until();
    add_run(MONITOR_KIND_TRIES, MONITOR_KIND_SEQ, 1, 31);
    add_record(MONITOR_KIND_UNTIL, 0, 0);
    line("seq under until", " left", t);
    begin_until();
    add_run(MONITOR_KIND_TRIES, 0, 1, 31);
    add_run(0, MONITOR_KIND_SEQ, 1, 31);
    add_record(MONITOR_KIND_UNTIL, 0, 0);
    line("seq under until", " right", t);
}

static void expressions(void)
{
    /* Rejected in period 10; accepted in period 31, and the duty violated in period 32. */
    tries("seq", MONITOR_KIND_SEQ, ONCE, (struct periods){TURN, 12, 10, 0, 0});
    tries("seq", MONITOR_KIND_SEQ, AGAIN, (struct periods){TURN, 34, 32, 0, 0});
    /* Rejected in periods 1 and 2, accepted in period 3 by the first leaf, and by the last; then the duty violated. */
    tries("or", MONITOR_KIND_OR, AGAIN, (struct periods){NONE, 5, 3, 1, 0});
    tries("or", MONITOR_KIND_OR, AGAIN, (struct periods){NONE, 5, 3, 0, 0x40000000});
    /* Never accepted; accepted in period 6, and the duty violated in period 7. */
    stars((struct periods){NONE, 8, 0, 0, 0});
    stars((struct periods){NONE, 8, 6, 0, 1u << 17});
    /* In period 10 party 1 doesn't try action 9, which the stretch from period 1 wants there; that from period 2 is whole in */
    /* period 32. */
    sequences_under_until((struct periods){ALL, 34, 10, 0xfffffdff, 0xffffffff});
}

int main(void)
{
    clauses();
    joint();
    windows();
    conditions();
    expressions();
    return faults != 0;
}
