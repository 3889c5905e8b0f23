/* Narrow and wide period records: which traces step, run and decide take, in which order they are tested, and which attempts */
/* are read. Document 02, "Thirty-two actions"; document 01, "Calls" and "Replies that refuse". */
/* What it prints is held to the file forms.expected. */
#include <ctype.h>

#include "testing.h"

/* ---- answers */

static const char *const call_names[] = {[STEP] = "step", [RUN] = "run", [DECIDE] = "decide"};
static const char *const form_names[] = {[NARROW] = "narrow", [WIDE] = "wide"};

/* The count is that of the periods taken, in decide of the records read; decide's outcome stands for the verdict. */
struct answer {
    uint32_t number, verdict;
    uint64_t place;
    uint32_t blame, decision, count;
};

/* A call on the areas as they are. The three replies start with the same fields. */
static struct answer ask(enum call call)
{
    static struct area before;
    const uint8_t *r = start(&reply);

    before = state;
    if (lend(call, call == DECIDE ? sizeof(struct monitor_decide_reply) : sizeof(struct monitor_run_reply)) != 1)
        fault("no reply");
    struct answer a = {four(r), four(r + 4), eight(r + 8), four(r + 16), four(r + 20), call == DECIDE ? four(r + 24) : 0};
    if (a.number == MONITOR_ACCEPTED) {
        if (a.place != 0)
            fault("a place where nothing is refused");
        if (call != DECIDE)
            a.count = four(start(&state) + 2);
        return a;
    }
    if (a.verdict != 0 || a.blame != 0 || a.decision != 0 || a.count != 0)
        fault("a refusal with more than number and place");
    if (memcmp(state.all, before.all, sizeof state.all) != 0)
        fault("a refusal that changed the state");
    return a;
}

/* The same on a state just begun. */
static struct answer ask_fresh(enum call call)
{
    if (call != DECIDE)
        begin();
    return ask(call);
}

static int same_answer(struct answer a, struct answer b)
{
    return a.number == b.number && a.verdict == b.verdict && a.place == b.place && a.blame == b.blame &&
           a.decision == b.decision && a.count == b.count;
}

static void put_answer(struct answer a)
{
    if (a.number == MONITOR_ACCEPTED) {
        printf(" taken");
        PUT(a.verdict, a.blame, a.decision, a.count);
    } else {
        printf(" refused");
        PUT(a.number, a.place);
    }
}

/* ---- traces by letters */

/* S where party 1 tries action 0 or 31, V2 where party 2 tries action 15 or 16. */
enum { S_ROW = 2 };
static const struct bytes edges = BYTES(ROW(2, 1, 0), ROW(2, 1, 31), ROW(5, 0, 1), ROW(2, 2, 15), ROW(2, 2, 16), ROW(5, 3, 4),
                                        ROW(0, 0, 0), END(S_ROW, 6, 5));

/* A letter for each record, small for a narrow one and large for a wide one: n where nobody tries anything, s where it */
/* satisfies, v where it violates, x where it has neither mark. */
static void spell(const char *text, size_t length)
{
    cut(&trace, 0);
    for (size_t k = 0; k < length; k++) {
        enum form form = isupper((unsigned char)text[k]) ? WIDE : NARROW;
        int letter = tolower((unsigned char)text[k]);
        uint32_t satisfies = form == WIDE ? (uint32_t)1 << 31 : 1 << 0, violates = form == WIDE ? 1 << 16 : 1 << 15;
        add_period(form, letter == 's' ? satisfies : 0, letter == 'v' ? violates : 0);
        if (letter == 'x')
            start(&trace)[trace.length - form_bytes(form) + 1] = 'O';
    }
}

/* A line for each trace of a list. */
static void lines(const char *list)
{
    copy(&image, edges);
    for (; *list != '\0'; list = next_word(list)) {
        printf("%.*s:", (int)word_length(list), list);
        spell(list, word_length(list));
        for (enum call call = STEP; call <= DECIDE; call++) {
            printf("%s %s", call == STEP ? "" : ",", call_names[call]);
            put_answer(ask_fresh(call));
        }
        printf("\n");
    }
}

static void traces(void)
{
    /* One form; 30 and 60 bytes are whole records of either. */
    lines("n N s S v V nn NN ns NS vn VN nnnnn NNN nnnnnnnnnn NNNNNN");
    /* Neither mark. */
    lines("x X nx NX xn XN nxn NXN sx SX nsx NSX vxx VXX");
    /* Both forms, where the length doesn't fit that of the first record, and where it does. */
    lines("nN Nn sN Sn nnN nNn nNN NNn NnN Nnn");
    lines("nNNN nnNNN nnnNNN nNNNn nNnNN Nnnnnn NNnnnnn NNNnnnnn NnnnnnN NnNnnnn");
    /* The same after the decision. */
    lines("sNNN nsNNN nnsNNN nvNNNnn Snnnnn NSnnnnn NNSnnnnn NVnnnnnN");
}

/* ---- every length, and every value of a byte */

static struct answer answers[256];

static int same_at(unsigned value, unsigned other)
{
    return same_answer(answers[value], answers[other]);
}

static void put_answer_at(unsigned value)
{
    put_answer(answers[value]);
}

/* The trace in its area, cut to each length up to one. */
static void lengths(enum call call, const char *name, unsigned to)
{
    static struct area whole;

    whole = trace;
    printf("%s %s, length:", call_names[call], name);
    for (unsigned length = 0; length <= to; length++) {
        copy(&trace, (struct bytes){start(&whole), length});
        answers[length] = ask_fresh(call);
    }
    put_ranges(0, to, same_at, put_answer_at);
    printf("\n");
}

/* The trace in its area, with each value of a byte. */
static void values(enum call call, const char *name, size_t byte)
{
    uint8_t before = start(&trace)[byte];

    printf("%s %s, byte %u:", call_names[call], name, (unsigned)byte);
    for (unsigned value = 0; value <= 255; value++) {
        start(&trace)[byte] = (uint8_t)value;
        answers[value] = ask_fresh(call);
    }
    start(&trace)[byte] = before;
    put_ranges(0, 255, same_at, put_answer_at);
    printf("\n");
}

/* Both bytes of each record's mark. */
static void marks(enum call call, const char *text)
{
    size_t records = strlen(text);

    spell(text, records);
    for (size_t k = 0; k < records; k++) {
        values(call, text, trace.length / records * k);
        values(call, text, trace.length / records * k + 1);
    }
}

/* 30 bytes with every mark of five narrow records and of three wide ones, but the first, and an image of which the narrow ones */
/* make S true in period 2, and the wide ones V1 in period 3. */
static const struct bytes either = BYTES(PERIOD(0, 0), PERIOD(0, 0x5154), PERIOD(0, 0), PERIOD(0x5154, 0), PERIOD(0, 0));
static const struct bytes either_rows = BYTES(ROW(2, 2, 8), ROW(2, 1, 18), ROW(0, 0, 0), END(0, 1, 2));

static void sweeps(void)
{
    static const char *const long_traces[] = {"nnnnnn", "snnnnn", "NNNN", "SNNN", "xxxxxx", "XXXX"};
    static const char *const marked[] = {"nnn", "nsnn", "NNN", "NSNN"};

    copy(&image, edges);
    for (size_t k = 0; k < COUNT(long_traces); k++)
        for (enum call call = STEP; call <= DECIDE; call++) {
            spell(long_traces[k], strlen(long_traces[k]));
            lengths(call, long_traces[k], 31);
        }
    fill(&trace, 0, 1);
    for (enum call call = STEP; call <= DECIDE; call++)
        values(call, "a single byte", 0);
    marks(STEP, "n");
    marks(STEP, "N");
    for (size_t k = 0; k < COUNT(marked); k++) {
        marks(RUN, marked[k]);
        marks(DECIDE, marked[k]);
    }
    spell("nnnnn", 5);
    values(RUN, "nnnnn", 1);
    values(DECIDE, "nnnnn", 1);
    copy(&image, either_rows);
    copy(&trace, either);
    values(RUN, "either", 1);
    values(DECIDE, "either", 1);
}

/* ---- the order of the tests */

/* The tests in their order, and which of them a call makes; decide's count is in decide.c. */
enum test { IMAGE, STATE, FIRST_MARK, LENGTH, LATER_MARK, FULL_COUNT, TESTS };
static const char *const test_names[] = {"image", "state", "first mark", "length", "later mark", "full count"};
static const unsigned made[] = {
    [STEP] = 1u << IMAGE | 1u << STATE | 1u << FIRST_MARK | 1u << LENGTH | 1u << FULL_COUNT,
    [RUN] = (1u << TESTS) - 1,
    [DECIDE] = 1u << IMAGE | 1u << FIRST_MARK | 1u << LENGTH | 1u << LATER_MARK,
};

/* The areas with a fault for each bit; three records, in step one. A row of the image names itself, the last record has the */
/* other form's mark, and the count has room for one record, in step for none. */
static void spoil(enum call call, enum form form, unsigned bits)
{
    copy(&image, edges);
    fill(&state, 0, MONITOR_STATE_BYTES(edges.length / MONITOR_ROW_BYTES - 1));
    spell(form == WIDE ? "NNN" : "nnn", call == STEP ? 1 : 3);
    if (bits >> IMAGE & 1)
        start(&image)[MONITOR_ROW_BYTES * S_ROW + 4] = S_ROW;
    if (bits >> FULL_COUNT & 1) {
        memset(start(&state) + 2, 255, 4);
        start(&state)[2] -= call != STEP;
    }
    if (bits >> STATE & 1)
        start(&state)[0] = 3;
    if (bits >> FIRST_MARK & 1)
        start(&trace)[1] = 'O';
    if (bits >> LATER_MARK & 1)
        start(&trace)[2 * form_bytes(form) + 1] ^= 'P' ^ 'Q';
    if (bits >> LENGTH & 1)
        cut(&trace, trace.length - 1);
}

/* A line for each fault: the answer to it alone, and how often it is the same with faults that are tested later. */
static void orders(enum call call, enum form form)
{
    for (unsigned first = 0; first < TESTS; first++) {
        unsigned good = 0, all = 0;
        if (!(made[call] >> first & 1))
            continue;
        spoil(call, form, 1u << first);
        struct answer alone = ask(call);
        for (unsigned later = 0; later < 1u << TESTS; later += 2u << first) {
            if ((later & made[call]) != later)
                continue;
            spoil(call, form, 1u << first | later);
            good += same_answer(ask(call), alone);
            all++;
        }
        printf("%s %s, %s and any later fault:", call_names[call], form_names[form], test_names[first]);
        put_answer(alone);
        printf(",");
        put_count(good, all);
    }
}

/* ---- attempts */

/* A row for each attempt, rows 0 to 31 for party 1's and 32 to 63 for party 2's, and a false one. S is a row, V1 and V2 are */
/* the false one. */
enum { ATTEMPTS = 2 * MONITOR_ACTIONS };

static void attempt_rows(unsigned satisfied)
{
    const uint8_t last[] = {ROW(0, 0, 0), END(satisfied, ATTEMPTS, ATTEMPTS)};

    cut(&image, MONITOR_IMAGE_BYTES(ATTEMPTS + 1));
    for (unsigned k = 0; k < ATTEMPTS; k++)
        memcpy(start(&image) + MONITOR_ROW_BYTES * k,
               (const uint8_t[]){ROW(2, MONITOR_PARTY_1 + k / MONITOR_ACTIONS, k % MONITOR_ACTIONS)}, MONITOR_ROW_BYTES);
    memcpy(start(&image) + MONITOR_ROW_BYTES * ATTEMPTS, last, sizeof last);
}

/* Which attempts' rows the record in the trace's area makes true: by the state that a call leaves, in decide by each row in */
/* turn as S. */
static uint8_t tried[ATTEMPTS];

static void read_attempts(enum call call)
{
    attempt_rows(ATTEMPTS);
    if (call != DECIDE) {
        ask_fresh(call);
        memcpy(tried, start(&state) + MONITOR_HEAD_BYTES, ATTEMPTS);
        return;
    }
    for (unsigned k = 0; k < ATTEMPTS; k++) {
        attempt_rows(k);
        tried[k] = ask_fresh(DECIDE).verdict == MONITOR_OUTCOME_SATISFIED;
    }
}

static int same_tried(unsigned k, unsigned other)
{
    return tried[k] == tried[other];
}

static void put_tried(unsigned k)
{
    printf(" %s", tried[k] ? "tried" : "not");
}

/* A line: which attempts are read in a record with these. */
static void masks(enum call call, enum form form, uint32_t one, uint32_t two)
{
    cut(&trace, 0);
    add_period(form, one, two);
    read_attempts(call);
    printf("%s %s %08x %08x:", call_names[call], form_names[form], (unsigned)one, (unsigned)two);
    put_ranges(0, ATTEMPTS - 1, same_tried, put_tried);
    printf("\n");
}

/* A line: how many attempts are read at their places, and no others with them, in records that have no other. */
static void single_attempts(enum call call, enum form form, unsigned actions)
{
    unsigned good = 0;

    for (unsigned k = 0; k < 2 * actions; k++) {
        unsigned row = k / actions * MONITOR_ACTIONS + k % actions, others = 0;
        uint32_t mask = (uint32_t)1 << k % actions;
        cut(&trace, 0);
        add_period(form, k < actions ? mask : 0, k < actions ? 0 : mask);
        read_attempts(call);
        for (unsigned other = 0; other < ATTEMPTS; other++)
            others += other != row && tried[other];
        good += tried[row] && others == 0;
    }
    printf("%s %s, each attempt alone:", call_names[call], form_names[form]);
    put_count(good, 2 * actions);
}

static void attempts(void)
{
    for (enum call call = STEP; call <= DECIDE; call++) {
        masks(call, NARROW, 0xffff, 0xffff);
        masks(call, WIDE, 0xffff, 0xffff);
        masks(call, WIDE, 0xffffffff, 0xffffffff);
        masks(call, WIDE, 0xffff, 0xffff0000);
        single_attempts(call, NARROW, 16);
        single_attempts(call, WIDE, MONITOR_ACTIONS);
    }
}

/* ---- steps in both forms on one state */

/* The contract and the periods of "Watch" in every mix of the forms. Before each step one with a second record, of the other */
/* form, is refused. */
static void mixes(void)
{
    static const struct { uint32_t one, two; struct answer want; } periods[] = {
        {1, 1, {.verdict = MONITOR_VERDICT_OPEN, .count = 1}},
        {0, 0, {.verdict = MONITOR_VERDICT_OPEN, .count = 2}},
        {2, 0, {.verdict = MONITOR_VERDICT_BROKEN, .blame = MONITOR_PARTY_2, .decision = 3, .count = 3}},
        {1, 1, {.verdict = MONITOR_VERDICT_BROKEN_AFTER, .blame = MONITOR_PARTY_2, .decision = 3, .count = 4}},
    };
    static const struct answer bad_length = {.number = MONITOR_REFUSED_BAD_PERIOD};
    enum { MIXES = 1 << COUNT(periods) };
    unsigned good = 0;

    cut(&contract, 0);
    add_record(MONITOR_KIND_DUTY, MONITOR_PARTY_1, 0);
    add_record(MONITOR_KIND_DUTY, MONITOR_PARTY_1, 1);
    add_record(MONITOR_KIND_REPAIR, 0, 0);
    add_record(MONITOR_KIND_REPEAT, 0, 0);
    compile_taken();
    for (unsigned mix = 0; mix < MIXES; mix++) {
        int as_wanted = 1;
        begin();
        for (size_t k = 0; k < COUNT(periods); k++) {
            enum form form = mix >> k & 1 ? WIDE : NARROW;
            cut(&trace, 0);
            add_period(form, periods[k].one, periods[k].two);
            add_period(form == WIDE ? NARROW : WIDE, 0, 0);
            as_wanted &= same_answer(ask(STEP), bad_length);
            cut(&trace, form_bytes(form));
            as_wanted &= same_answer(ask(STEP), periods[k].want);
        }
        good += as_wanted;
    }
    printf("steps in each mix of forms:");
    put_count(good, MIXES);
}

int main(void)
{
    traces();
    sweeps();
    for (enum call call = STEP; call <= DECIDE; call++) {
        orders(call, NARROW);
        orders(call, WIDE);
    }
    attempts();
    mixes();
    return faults != 0;
}
