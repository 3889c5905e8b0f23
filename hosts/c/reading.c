/* Which contracts compile takes and which it refuses by 1 to 7: small inputs, the order of tests, every kind and field, nests. */
/* Document 01, "Records" and "Replies that refuse"; document 02, "Duties with a deadline", "Duties that both parties own" and */
/* "Thirty-two actions". What it prints is held to the file reading.expected. */
#include <ctype.h>

#include "testing.h"

static struct monitor_compile_reply answer(void)
{
    if (compile(BUFFER_BYTES, sizeof(struct monitor_compile_reply)) != 1)
        fault("no reply");
    return compile_reply();
}

static void put_reply(struct monitor_compile_reply r)
{
    if (r.number == MONITOR_ACCEPTED) {
        printf(" taken");
    } else {
        printf(" refused");
        PUT(r.number, r.place);
    }
}

/* ---- contracts by their bytes */

#define RECORD(kind) MONITOR_RECORD(kind, 0, 0)
#define DUTY MONITOR_RECORD(MONITOR_KIND_DUTY, MONITOR_PARTY_1, 0)
#define OF_BOTH(kind) MONITOR_RECORD(kind, MONITOR_PARTY_BOTH, 0)
#define REPEAT RECORD(MONITOR_KIND_REPEAT)
#define ANY RECORD(MONITOR_KIND_ANY)
#define STAR RECORD(MONITOR_KIND_STAR)
#define WHEN RECORD(MONITOR_KIND_WHEN)
#define UNTIL RECORD(MONITOR_KIND_UNTIL)
#define WRONG_MARK 'T', 'D', MONITOR_KIND_DUTY, 1, 0, 0

static const struct { const char *label; struct bytes contract; } samples[] = {
    /* The refusal table's small inputs for 1 to 7, short lengths, and the contract of "Watch". */
    {"5 bytes", BYTES('T', 'C', MONITOR_KIND_DUTY, 1, 0)},
    {"mark 54 44", BYTES(WRONG_MARK)},
    {"kind 11", BYTES(RECORD(11))},
    {"duty, party 4", BYTES(MONITOR_RECORD(MONITOR_KIND_DUTY, 4, 0))},
    {"repeat", BYTES(REPEAT)},
    {"any", BYTES(ANY)},
    {"any, star, duty, when", BYTES(ANY, STAR, DUTY, WHEN)},
    {"0 bytes", NO_BYTES},
    {"6 bytes", BYTES(DUTY)},
    {"7 bytes", BYTES(DUTY, 'T')},
    {"8 bytes", BYTES(DUTY, 'T', 'C')},
    {"9 bytes", BYTES(DUTY, 'T', 'C', MONITOR_KIND_REPEAT)},
    {"duty, duty, repair, repeat",
     BYTES(DUTY, MONITOR_RECORD(MONITOR_KIND_DUTY, MONITOR_PARTY_1, 1), RECORD(MONITOR_KIND_REPAIR), REPEAT)},
    /* Both parties may own a duty, but not a ban. */
    {"duty, ban, each of both parties", BYTES(OF_BOTH(MONITOR_KIND_DUTY), OF_BOTH(MONITOR_KIND_BAN))},
    /* The last byte: a deadline's window, and 0 in every other kind. */
    {"window 0", BYTES(MONITOR_DEADLINE(MONITOR_PARTY_1, 0, 0))},
    {"window 1", BYTES(MONITOR_DEADLINE(MONITOR_PARTY_1, 0, 1))},
    {"window 15", BYTES(MONITOR_DEADLINE(MONITOR_PARTY_1, 0, 15))},
    {"window 16", BYTES(MONITOR_DEADLINE(MONITOR_PARTY_1, 0, 16))},
    {"duty, last byte 1", BYTES('T', 'C', MONITOR_KIND_DUTY, 1, 0, 1)},
    {"duty, duty, both, last byte 1", BYTES(DUTY, DUTY, 'T', 'C', MONITOR_KIND_BOTH, 0, 0, 1)},
    {"any, last byte 1", BYTES('T', 'C', MONITOR_KIND_ANY, 0, 0, 1)},
    /* Two faults: the one that is tested first is answered, and of two records' the earlier one's. */
    {"length, mark", BYTES(WRONG_MARK, 'T')},
    {"mark, kind", BYTES('T', 'D', 11, 1, 0, 0)},
    {"kind, field", BYTES('T', 'C', 11, 4, 32, 1)},
    {"field, operands", BYTES(MONITOR_RECORD(MONITOR_KIND_REPEAT, 1, 0))},
    {"last byte, operands", BYTES('T', 'C', MONITOR_KIND_REPEAT, 0, 0, 1)},
    {"operands, empty list", BYTES(ANY, STAR, ANY, WHEN)},
    {"empty list, not one clause", BYTES(DUTY, DUTY, ANY, STAR, UNTIL)},
    {"mark, then mark", BYTES('t', 'C', MONITOR_KIND_DUTY, 1, 0, 0, 't', 'C', MONITOR_KIND_DUTY, 1, 0, 0)},
    {"kind, then mark", BYTES(RECORD(11), WRONG_MARK)},
    {"field, then kind", BYTES(MONITOR_RECORD(MONITOR_KIND_DUTY, 1, 32), RECORD(11))},
    {"operands, then mark", BYTES(REPEAT, WRONG_MARK)},
    {"empty list, then mark", BYTES(ANY, STAR, DUTY, WHEN, WRONG_MARK)},
    {"not one clause, but a mark", BYTES(ANY, WRONG_MARK)},
};

static void by_bytes(void)
{
    for (size_t k = 0; k < COUNT(samples); k++) {
        copy(&contract, samples[k].contract);
        printf("%s:", samples[k].label);
        put_reply(answer());
        printf("\n");
    }
}

/* ---- contracts by letters */

/* A letter for each record, with party 1, action 0 and window 1 where they are used; J is a duty of both parties, _ is kind 0, */
/* and those of expressions are small. */
static void spell(const char *text, size_t length)
{
    cut(&contract, 0);
    for (size_t k = 0; k < length; k++) {
        if (text[k] == 'J')
            add_leaf(JOINT_DUTY, 0);
        else
            add_record(kind_of((char)toupper((unsigned char)text[k])), strchr("DBPLti", text[k]) != NULL, 0);
        *field(5) = text[k] == 'L';
    }
}

/* Replies by the value of a byte. */
static struct monitor_compile_reply replies[256];

static int same_reply(unsigned value, unsigned other)
{
    return replies[value].number == replies[other].number && replies[value].place == replies[other].place;
}

static void put_reply_to(unsigned value)
{
    put_reply(replies[value]);
}

/* A byte of the last record takes the values up to one: a range for each reply. */
static void sweep(size_t byte, unsigned to)
{
    for (unsigned value = 0; value <= to; value++) {
        *field(byte) = (uint8_t)value;
        replies[value] = answer();
    }
    put_ranges(0, to, same_reply, put_reply_to);
}

/* A text as it is, or with a byte of its last record swept. */
static void line(const char *text, size_t length, size_t byte, unsigned to)
{
    spell(text, length);
    printf("%.*s", (int)length, text);
    if (to > 0) {
        printf(" byte %u:", (unsigned)byte);
        sweep(byte, to);
    } else {
        printf(":");
        put_reply(answer());
    }
    printf("\n");
}

/* The texts of a list. */
static void lines(const char *list, size_t byte, unsigned to)
{
    for (; *list != '\0'; list = next_word(list))
        line(list, word_length(list), byte, to);
}

/* The fields of the last record. */
static void fields(const char *list, unsigned to)
{
    for (size_t byte = 3; byte < MONITOR_RECORD_BYTES; byte++)
        lines(list, byte, to);
}

/* Marks, kinds above each stack of at most two operands, and the fields of each kind. */
static void sweeps(void)
{
    lines("D DR", 0, 255);
    lines("D DR", 1, 255);
    lines("D J L _ D_ a_ DD_ Da_ aD_ aa_", 2, 255);
    fields("D L DD& s", 255);
    fields("J B P DD; DD/ DR aDW DaU a t i f aa. aa| a*", 63);
}

/* Expressions with and without the empty list, under `when` and `until`. */
static void empty_lists(void)
{
    lines("aDW DaU tDW DtU iDW DiU sDW DsU fDW DfU a*DW Da*U "
          "aa.DW a*a.DW aa*.DW a*a*.DW Daa.U Da*a.U Daa*.U Da*a*.U "
          "aa|DW a*a|DW aa*|DW a*a*|DW Daa|U Da*a|U Daa*|U Da*a*|U "
          "a**DW Da**U aa.*DW aa|*DW a*a.a*a*.|DW a*a|aa*|.DW Da*a|a.U "
          "DDa*a.U& aDa*UW aDWa*a.U aDWa*a*.U DaDW/a*a.aa|.U "
          "aLW LaU a*LW La*U",
          0, 0);
}

/* Nests of 64 records, and of 65. */
static void nests(void)
{
    lines("DRRRRRRRRRRRRRRRRRRRRRRRRRRRRRRRRRRRRRRRRRRRRRRRRRRRRRRRRRRRRRRR "
          "DDDDDDDDDDDDDDDDDDDDDDDDDDDDDDDD&&&&&&&&&&&&&&&&&&&&&&&&&&&&&&&R "
          "DD&D&D&D&D&D&D&D&D&D&D&D&D&D&D&D&D&D&D&D&D&D&D&D&D&D&D&D&D&D&D&R "
          "LLLLLLLLLLLLLLLLLLLLLLLLLLLLLLLL&&&&&&&&&&&&&&&&&&&&&&&&&&&&&&&R "
          "DDDDDDDDDDDDDDDDDDDDDDDDDDDDDDDD//////////////////////////////// "
          "DDDDDDDDDDDDDDDDDDDDDDDDDDDDDDDDD;;;;;;;;;;;;;;;;;;;;;;;;;;;;;;; "
          "DDDDDDDDDDDDDDDDDDDDDDDDDDDDDDDDDDDDDDDDDDDDDDDDDDDDDDDDDDDDDDDD "
          "aaaaaaaaaaaaaaaaaaaaaaaaaaaaaaaaaaaaaaaaaaaaaaaaaaaaaaaaaaaaaaaa "
          "aaaaaaaaaaaaaaaaaaaaaaaaaaaaaaaDWWWWWWWWWWWWWWWWWWWWWWWWWWWWWWWR "
          "DaUaUaUaUaUaUaUaUaUaUaUaUaUaUaUaUaUaUaUaUaUaUaUaUaUaUaUaUaUaUaUR "
          "a*************************************************************DW "
          "a**********************************************************a.DWR "
          "Daaaaaaaaaaaaaaaaaaaaaaaaaaaaaaa..............................UR "
          "Daa|a|a|a|a|a|a|a|a|a|a|a|a|a|a|a|a|a|a|a|a|a|a|a|a|a|a|a|a|a|UR "
          "Da*a*a*a*a*a*a*a*a*a*a*a*a*a*a*a*a*a*a*a*...................URRR "
          "Da*a*a*a*a*a*a*a*a*a*aa*a*a*a*a*a*a*a*a*...................URRRR "
          "Daaaaaaaaaaa*aaaaaaaaaaaaaaaaaaa|||||||||||||||||||||||||||||URR",
          0, 0);
    lines("DRRRRRRRRRRRRRRRRRRRRRRRRRRRRRRRRRRRRRRRRRRRRRRRRRRRRRRRRRRRRRRRR "
          "DDDDDDDDDDDDDDDDDDDDDDDDDDDDDDDD&&&&&&&&&&&&&&&&&&&&&&&&&&&&&&&RR "
          "DD&D&D&D&D&D&D&D&D&D&D&D&D&D&D&D&D&D&D&D&D&D&D&D&D&D&D&D&D&D&D&RR "
          "LLLLLLLLLLLLLLLLLLLLLLLLLLLLLLLL&&&&&&&&&&&&&&&&&&&&&&&&&&&&&&&RR "
          "a**************************************************************DW "
          "DDDDDDDDDDDDDDDDDDDDDDDDDDDDDDDDDDDDDDDDDDDDDDDDDDDDDDDDDDDDDDDDD",
          0, 0);
}

int main(void)
{
    by_bytes();
    sweeps();
    empty_lists();
    nests();
    return faults != 0;
}
