/* Contracts of every kind, compiled and stepped: the verdict, the blame and the decision period after a trace, in narrow */
/* records; then how the answers in wide ones compare. */
/* Document 01, "Expressions" and "Meaning of clauses"; document 02, "Duties with a deadline", "Duties that both parties own", */
/* "An ending that may begin in any period" and "Thirty-two actions". What it prints is held to the file verdicts.expected. */
#include "testing.h"

/* A record is its letter, and after it its party, 1 or 2, or for a duty of both 3, its action, a to p, and its window, 1 to 9, */
/* where it has them. A period is what party 1 tries, a slash, and what party 2 tries; "-" is no attempt. */
/* A contract that is decided is so in the last period, but where a later breach follows. */
static const struct { const char *contract, *trace; } samples[] = {
    /* Literals. */
    {"B2a R", "a/- -/a a/a"},
    {"P2p R", "-/- p/- p/p -/p"},
    {"D1a B1a / P1a / D2a /", "a/- a/a a/- -/-"},
    {"P1a D1b D1a ; ;", "-/- ab/b a/a"},
    /* Joint duties: satisfied, and violated with the blame on each party that doesn't try. */
    {"D3a", "a/a"},
    {"D3a", "-/a"},
    {"D3a", "a/-"},
    {"D3a", "-/-"},
    {"D3p", "p/ao"},
    /* Both: the blames of one period are united. */
    {"D3a D3b &", "ab/ab"},
    {"D3a D3b &", "ab/a"},
    {"D3a D3b &", "b/a"},
    {"D3a D2b &", "-/a"},
    {"D1b D3a &", "-/a"},
    {"D1b D3a &", "b/b"},
    /* A later breach adds no party to the earlier blame, of a joint duty or of the other half. */
    {"D3a B1c D2b ; &", "-/a -/-"},
    {"B1c D3b ; D1a &", "-/- -/-"},
    {"D3a R D3b R &", "ab/ab a/ab -/-"},
    /* Then and repair: the right reads from the period after, and of a repair its blame alone counts. */
    {"D3a D1b ;", "b/b"},
    {"D3a D1b ;", "ab/ab -/b"},
    {"D1b D3a ;", "ab/ab -/-"},
    {"D3a D1b /", "a/a"},
    {"D3a D1b /", "b/b b/b"},
    {"D3a D1b /", "-/- b/-"},
    {"D2a D3b /", "-/- -/b"},
    {"D3a D3b /", "b/b b/-"},
    {"D3a D3b /", "a/- -/-"},
    /* Begun again; a half of a violated both ends with it. */
    {"D3a R", "a/a a/a"},
    {"D3a R", "a/a a/a -/-"},
    {"D3a D3b / R", "-/- b/b a/a a/- -/b"},
    {"D3a R D1b & D1c / R", "a/a c/c ab/ab a/a"},
    /* When; until, where acceptance comes after a violation, with it, before it and never. */
    {"T1b D3a W", "-/-"},
    {"T1b D3a W R", "b/- a/a -/- b/- -/-"},
    {"D3a R A T1b . U", "b/a"},
    {"D3a R A * T1b . U", "a/a b/a"},
    {"D3a R A * T1b . U", "a/a b/-"},
    {"D3a R A * T1b . U", "a/a ab/a"},
    {"D3a R T1b U B1c ;", "ab/a -/-"},
    {"D3a R T1b U", "a/a a/-"},
    /* Deadlines: met, missed with the blame of the last period alone, and open. */
    {"L1a3", "a/a"},
    {"L1a3", "a/- a/a"},
    {"L1a3", "-/- -/a a/a"},
    {"L1a3", "a/- a/- -/-"},
    {"L1a3", "-/- -/a a/-"},
    {"L1a3", "a/- -/- -/a"},
    {"L1a3", "-/- a/-"},
    {"L2p2", "-/p p/-"},
    {"L2p2", "-/- -/p"},
    {"L1a1", "a/a"},
    {"L1a1", "a/-"},
    {"L1a1", "-/a"},
    /* Begun again in the period after; the window that was met says nothing more. */
    {"L1a2 R", "-/- a/a a/a -/- -/-"},
    {"L1a3 R", "a/a a/a -/- -/- a/a -/-"},
    {"L1a3 R", "-/- a/a -/- -/- a/-"},
    /* Under operators: the right of repair and of then reads from the period after. */
    {"L1a2 D1b /", "b/b -/- b/-"},
    {"L1a2 D1b /", "-/- a/a"},
    {"D1a L1b2 /", "-/- b/- b/b"},
    {"L1a2 D1b ;", "-/- a/a -/b"},
    {"L1a2 D1b ;", "b/b b/b"},
    {"L1a2 L2b2 &", "-/- -/-"},
    {"L1a3 L2b2 &", "-/- -/-"},
    {"L1a3 L2b2 &", "-/- b/b a/a"},
    {"T1b L2a2 W", "b/- -/a -/a"},
    /* A half of a violated both ends with it: a window from period 1 would be missed in period 3. */
    {"L1a3 D1b & D1c / R", "-/- c/c b/b -/- -/- -/-"},
    /* Acceptance in the window's last period, before it and after it; and the window ends with a finished until. */
    {"L1a2 A A . U", "-/- -/a"},
    {"L1a2 A A . U", "-/- a/a"},
    {"L1a3 A A . U", "-/- -/-"},
    {"L1a2 A A A . . U", "-/- a/-"},
    {"L1a3 A A . U R", "-/- -/- -/- -/-"},
    {"L1a3 A U B1c D1b ; ;", "-/- a/a bc/bc"},
    /* Operators. */
    {"D1a R D2b R &", "ab/ab b/a"},
    {"D1a D1a D1b ; ; D1a & R", "a/a a/a b/b a/a a/a b/b -/-"},
    {"D1a D1a D1a D1b ; ; & R", "a/a a/a b/b a/a a/a b/b -/-"},
    {"B1a B1a & B1a B1b ; ;", "-/- -/- a/a"},
    {"D1a D1b ;", "-/-"},
    {"B2b D1a ;", "-/- -/a"},
    {"D1a R D1b R / D2a /", "-/- b/- -/-"},
    {"D1a R T1b U B1b ;", "ab/a -/-"},
    {"B1b B2a / R A U R", "b/b a/a"},
    /* Expressions of one period. */
    {"T2a D2b W R", "a/- -/a b/-"},
    {"I1a D2b W R", "a/- -/a b/-"},
    {"Sa D2b W R", "a/- -/a a/a b/-"},
    {"Fa D1b W R", "a/a a/- b/b -/a a/b"},
    {"I1a Sa | Fa | B1b B1b D2b ; ; W", "-/- -/a a/a -/-"},
    /* When. */
    {"A * T1b . B1a B1b ; W", "b/- b/- a/a"},
    {"T1b A * . D2a W", "b/- -/-"},
    {"A T1b . T1a | D2a W", "-/- b/- -/-"},
    {"T1b T1a T2b . | D2a W R", "-/- a/- -/b -/-"},
    {"A A . * T1a . D2b W", "-/- a/- -/- a/- a/- -/-"},
    {"T1b D2a W T1b U B1b ;", "b/- -/-"},
    /* From its first period alone: rejected in period 3, though a stretch from period 2 could go on. */
    {"T1a T1a T1b . . D1a W", "a/- a/- a/-"},
    /* Until: accepted in whichever period b is tried, and the same with star any before it; a violation there counts. */
    {"D1a R T1b U", "a/a a/a a/a ab/a"},
    {"D1a R T1b U", "a/a ab/a"},
    {"D1a R A * T1b . U", "a/a ab/a"},
    {"D1a R T1b U", "a/a b/a"},
    {"D1a R A * T1b . U", "a/a b/a"},
    {"P1a T1b U D1a /", "ab/- -/-"},
    /* A stretch from period 2 on; and one from period 4 on, after two periods that a gap parts. */
    {"B1c R T1a T1b . U", "-/- a/- b/-"},
    {"B1c R T1a T1b . U", "a/- -/- b/- a/- b/-"},
    /* Stretches that overlap: the later one alone completes; the later one ends while the first could still go on. */
    {"B1c R T1a T1a T1b . . U", "a/- a/- a/- b/-"},
    {"B1c R A * T1a T1a T1b . . . U", "a/- a/- a/- b/-"},
    {"B1c R T1a A A T1b . . . T1b T1b . | U", "a/- b/- b/-"},
    /* Once the clause is violated or satisfied, or the expression accepted, a later acceptance says nothing. */
    {"D1a R A * T1b . U B1a B1a ; /", "-/- b/- -/-"},
    {"D1a R T1b U B1a B1a D1a ; ; /", "-/- b/- b/- -/-"},
    {"D1a A T1b . U B1a B1b ; ;", "a/a b/- -/-"},
    {"D1a T1b U B1a B1b ; ;", "a/a b/- -/-"},
    {"B1c R T1b U B1a B1a B1b ; ; ;", "b/- b/- b/- -/-"},
    /* Begun in period 3 by then, repair and when: b in period 2 ends it neither there nor together with b in period 3. */
    {"D1a D1a ; B1c R T1b U ;", "a/a ab/a -/- b/-"},
    {"D1a D1a ; B1c R T1b T1b . U ;", "a/a ab/a b/- b/-"},
    {"D1a D1b ; B1c R T1b U /", "a/a b/- -/- b/-"},
    {"D1a D1b ; B1c R T1b T1b . U /", "a/a b/- b/- b/-"},
    {"A A . B1c R T1b U W", "-/- b/- -/- b/-"},
    {"A A . B1c R T1b T1b . U W", "-/- b/- b/- b/-"},
    /* Begun anew by a repeat: what is tried in the last round, or in this one before it begins, doesn't count. */
    {"D1a D1b ; T1b T1a . U R", "a/a b/b a/a a/a"},
    {"D1a B1c R T1b U ; R", "a/a b/- ab/a -/- b/- -/-"},
    /* The same where a violated both, or a finished until, ends the round. */
    {"B1c R T1b T1b T1b . . U D1a ; D1d & B1e / R", "b/- b/- bd/d -/- e/e"},
    {"B1c R T1b T1b . U D1a ; T1d U R", "bd/- b/- -/-"},
};

/* How a sample is taken: the form of its records, by how much every action of contract and trace is raised, and the attempts */
/* of both parties in each period: the sample's (or none), and these. */
struct way {
    enum form form;
    unsigned raised;
    int as_spelled;
    uint32_t always;
};

static void spell(const char *text, unsigned raised)
{
    size_t numbered = 0; /* the field that a number is for */

    cut(&contract, 0);
    for (; *text != '\0'; text++) {
        if (*text >= '1' && *text <= '9') {
            *field(numbered) = (uint8_t)(*text - '0');
        } else if (*text >= 'a' && *text <= 'p') {
            *field(4) = (uint8_t)(*text - 'a' + raised);
            numbered = 5;
        } else if (*text != ' ') {
            add_record(kind_of(*text), 0, 0);
            numbered = 3;
        }
    }
}

/* The record of one period, a word of the text, at the trace's end. */
static void add_spelled(const char *text, size_t length, struct way way)
{
    uint32_t tries[2] = {way.always, way.always}, party = 0;

    for (size_t k = 0; k < length; k++) {
        if (text[k] == '/')
            party = 1;
        else if (text[k] != '-' && way.as_spelled)
            tries[party] |= (uint32_t)1 << (text[k] - 'a' + way.raised);
    }
    add_period(way.form, tries[0], tries[1]);
}

/* What the calls answer: each step, a run over the whole trace, decide, and the states that steps and run leave. */
enum { MAX_PERIODS = 16 };
struct answers {
    size_t periods;
    struct monitor_step_reply steps[MAX_PERIODS];
    struct monitor_run_reply run;
    struct monitor_decide_reply decided;
    struct area stepped, after_run;
};

static void take(const char *spelled, const char *text, struct way way, struct answers *a)
{
    uint8_t records[MAX_PERIODS * MONITOR_WIDE_PERIOD_BYTES];
    size_t record = form_bytes(way.form);

    memset(a, 0, sizeof *a);
    spell(spelled, way.raised);
    compile_taken();
    cut(&trace, 0);
    for (; *text != '\0'; text = next_word(text))
        add_spelled(text, word_length(text), way);
    if (trace.length > MAX_PERIODS * record)
        abort();
    struct bytes whole = {records, trace.length};
    memcpy(records, start(&trace), whole.length);

    begin();
    for (a->periods = 0; a->periods < whole.length / record; a->periods++)
        a->steps[a->periods] = take_step((struct bytes){records + a->periods * record, record});
    a->stepped = state;
    begin();
    a->run = take_run(whole);
    a->after_run = state;
    copy(&trace, whole);
    if (lend(DECIDE, sizeof a->decided) != 1)
        fault("decide: no reply");
    a->decided = decide_reply();
}

/* The run and decide end as the steps do, and a run of no record says so once more. */
static void check_whole(const struct answers *a)
{
    static const uint32_t outcomes[] = {
        [MONITOR_VERDICT_OPEN] = MONITOR_OUTCOME_UNDECIDED,
        [MONITOR_VERDICT_MET] = MONITOR_OUTCOME_SATISFIED,
        [MONITOR_VERDICT_BROKEN] = MONITOR_OUTCOME_VIOLATED,
        [MONITOR_VERDICT_MET_AFTER] = MONITOR_OUTCOME_SATISFIED,
        [MONITOR_VERDICT_BROKEN_AFTER] = MONITOR_OUTCOME_VIOLATED,
    };
    struct monitor_step_reply last = a->steps[a->periods - 1];

    if (!agree(last, a->run) || memcmp(a->stepped.all, a->after_run.all, sizeof a->stepped.all) != 0)
        fault("the run ends otherwise than the steps");
    if (!agree(last, take_run((struct bytes)NO_BYTES)))
        fault("the run of no record has another reply");
    if (a->decided.number != MONITOR_ACCEPTED || last.verdict >= COUNT(outcomes) ||
        a->decided.outcome != outcomes[last.verdict] || a->decided.blame != last.blame || a->decided.decision != last.decision ||
        a->decided.records != (last.decision != 0 ? last.decision : a->periods))
        fault("decide ends otherwise than the steps");
}

static int same_replies(const struct answers *a, const struct answers *b)
{
    return a->periods == b->periods && memcmp(a->steps, b->steps, sizeof a->steps) == 0 &&
           memcmp(&a->run, &b->run, sizeof a->run) == 0 && memcmp(&a->decided, &b->decided, sizeof a->decided) == 0;
}

static int same_states(const struct answers *a, const struct answers *b)
{
    return memcmp(a->stepped.all, b->stepped.all, sizeof a->stepped.all) == 0;
}

int main(void)
{
    enum { LOW = 0xffff };
    static struct answers narrow, wide, upper, low, none;
    size_t in_wide = 0, in_upper = 0, never = 0;

    for (size_t k = 0; k < COUNT(samples); k++) {
        const char *spelled = samples[k].contract, *text = samples[k].trace;
        take(spelled, text, (struct way){NARROW, 0, 1, 0}, &narrow);
        check_whole(&narrow);
        struct monitor_step_reply r = narrow.steps[narrow.periods - 1];
        printf("%s: %s: %s %u, decided %u\n", spelled, text, verdict_name(r.verdict), (unsigned)r.blame, (unsigned)r.decision);

        take(spelled, text, (struct way){WIDE, 0, 1, 0}, &wide);
        in_wide += same_replies(&wide, &narrow) && same_states(&wide, &narrow);
        take(spelled, text, (struct way){WIDE, 16, 1, LOW}, &upper);
        in_upper += same_replies(&upper, &narrow);
        take(spelled, text, (struct way){NARROW, 16, 0, LOW}, &low);
        take(spelled, text, (struct way){WIDE, 16, 0, 0}, &none);
        never += same_replies(&low, &none) && same_states(&low, &none);
    }
    printf("the same replies and states in wide records:");
    put_count(in_wide, COUNT(samples));
    printf("the same replies where every action is 16 higher, and actions 0 to 15 are always tried:");
    put_count(in_upper, COUNT(samples));
    printf("narrow records that try actions 0 to 15 try none of 16 to 31:");
    put_count(never, COUNT(samples));
    return faults != 0;
}
