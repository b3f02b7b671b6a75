/*
 * Every answer, wait, register, number of cells and field of KTCS by its name in the header, each from calls that give it.
 *
 * The numbers are not written out here: what is tested is that the header's names mean what the library does. The situations
 * and what they come to are worked from the unit's rules. All numbers are octal where they begin with 0.
 */
#include "kt11b.h"

#define PROGRAM "answers"
#include "check.h"

/* How much of the memory is lent, where its length is not what is tried. */
#define MEMORY_BYTES 0200000UL
#define NO_ADDRESS (~0UL)
#define FLAGS (KT11B_KTCS_RV | KT11B_KTCS_PV | KT11B_KTCS_WV | KT11B_KTCS_AV | KT11B_KTCS_IV)
#define COUNT(list) (sizeof(list) / sizeof((list)[0]))

static unsigned short unit[KT11B_UNIT_WORDS];
static unsigned char memory[KT11B_MEMORY_MOST + 2];

/* All of it is tried with either number of cells. */
static const unsigned long counts[] = {KT11B_CELLS_8, KT11B_CELLS_24};
static unsigned long count;

/* A word of memory, low byte first, written behind the unit's back. */
static void put_word(unsigned long place, unsigned word)
{
    memory[place] = (unsigned char) (word & 0377);
    memory[place + 1] = (unsigned char) (word >> 8 & 0377);
}

static unsigned long word_access(unsigned long operation, unsigned long state, unsigned address, unsigned data)
{
    return kt11b_access(unit, memory, MEMORY_BYTES, operation, state, KT11B_WORD, (unsigned short) address,
        (unsigned short) data);
}

static unsigned long byte_access(unsigned long operation, unsigned address, unsigned data)
{
    return kt11b_access(unit, memory, MEMORY_BYTES, operation, KT11B_EXECUTE, KT11B_BYTE, (unsigned short) address,
        (unsigned short) data);
}

static unsigned long read_word(unsigned address)
{
    return word_access(KT11B_DATI, KT11B_EXECUTE, address, 0);
}

static unsigned long store_word(unsigned address, unsigned data)
{
    return word_access(KT11B_DATO, KT11B_EXECUTE, address, data);
}

static unsigned long fetch(unsigned address)
{
    return word_access(KT11B_DATI, KT11B_FETCH, address, 0);
}

static unsigned ktcs(void)
{
    return KT11B_REPLY_DATA(kt11b_register(unit, KT11B_KTCS));
}

static int wait_is(int wait)
{
    unsigned long reply = kt11b_wait(unit);

    return KT11B_REPLY_ANSWER(reply) == KT11B_DONE && KT11B_REPLY_DATA(reply) == wait;
}

/* Every part of a reply, by the header's macros. */
static void expect(const char *what, unsigned long reply, int answer, unsigned data, unsigned long physical)
{
    int has_physical = physical != NO_ADDRESS;

    check(KT11B_REPLY_ANSWER(reply) == answer, what);
    check(KT11B_REPLY_DATA(reply) == data, what);
    check(KT11B_REPLY_HAS_PHYSICAL(reply) == has_physical, what);
    check(KT11B_REPLY_PHYSICAL(reply) == (has_physical ? physical : 0), what);
}

/* The same of a reply with no data and no physical address, as refusals have and most sequence accesses. */
static void expect_bare(const char *what, unsigned long reply, int answer)
{
    expect(what, reply, answer, 0, NO_ADDRESS);
}

static void make_unit(void)
{
    expect_bare("a unit is made", kt11b_fresh(unit, count), KT11B_DONE);
}

/*
 * A user in FCN 2: by KTUM pages 0 to 20 (octal) are simple, with the map in physical page 5. Page 1 is private and open, page 2
 * is not resident, page 3 has no write key, page 4 is public. The words fetched are RESET in page 1 and a plain one in page 4.
 */
static void start_user(void)
{
    make_unit();
    put_word(05402, 0120020);
    put_word(05404, 0020022);
    put_word(05406, 0100021);
    put_word(05410, 0140023);
    put_word(020010, 0000123);
    put_word(020012, 0000005);
    put_word(023010, 0010001);
    store_word(0177614, 020005);
    store_word(0177576, 3);
    read_word(0);
    read_word(0);
}

/* The answers that change nothing, or that no violation gives. */
static void plain_answers(void)
{
    start_user();
    expect("a read that is done", read_word(001010), KT11B_DONE, 0123, 020010);
    expect_bare("a DATO as byte", byte_access(KT11B_DATO, 001010, 7), KT11B_MISSHAPEN);
    make_unit();
    expect("a register's address, of 18 bits", store_word(0177614, 020005), KT11B_DONE, 0, 0777614);
    expect_bare("an odd word, unpaged", read_word(001011), KT11B_UNPAGED_ODD);
    expect_bare("an address that nothing answers", read_word(0160000), KT11B_TIME_OUT);
    store_word(0177576, 3);
    expect_bare("an interrupt in FCN 3", kt11b_interrupt(unit), KT11B_NOT_DUE);
    unit[0] = 0;
    expect_bare("words that don't hold a unit", kt11b_init(unit), KT11B_NO_UNIT);
}

/* A violation, a 10 or a paged 9 has just been given: its flag, if it has one, and no other, and the unit waits. */
static void left_by_violation(const char *what, unsigned flag)
{
    check((ktcs() & FLAGS) == flag, what);
    check(wait_is(KT11B_WAIT_STATUS), what);
}

static void violations(void)
{
    start_user();
    expect_bare("an odd word, paged", read_word(001011), KT11B_AV);
    left_by_violation("the flag of an odd word", KT11B_KTCS_AV);
    start_user();
    expect_bare("a page that is not resident", read_word(002010), KT11B_RV);
    left_by_violation("the flag of a page that is not resident", KT11B_KTCS_RV);
    start_user();
    expect_bare("a store without the write key", store_word(003010, 7), KT11B_WV);
    left_by_violation("the flag of a store without the write key", KT11B_KTCS_WV);
    start_user();
    expect("public code", fetch(004010), KT11B_DONE, 010001, 023010);
    expect_bare("public code that reads private data", read_word(001010), KT11B_PV);
    left_by_violation("the flag of public code that reads private data", KT11B_KTCS_PV);
    start_user();
    expect("a user's RESET", fetch(001012), KT11B_IV, 5, 020012);
    left_by_violation("the flag of a user's RESET", KT11B_KTCS_IV);
}

/* A paged access whose target, or whose map word, is not in memory: it has no flag, and the unit waits all the same. */
static void not_in_memory(void)
{
    start_user();
    put_word(05412, 0120776);
    expect_bare("a target that is not in memory", read_word(005010), KT11B_TIME_OUT);
    left_by_violation("no flag of a time-out", 0);
    make_unit();
    store_word(0177616, 0177200);
    store_word(0177576, 2);
    expect_bare("a map word at 200402, past memory", read_word(001010), KT11B_OFF_MAP);
    left_by_violation("no flag of a walk that ran off memory", 0);
}

/* Only DATIP asks for the write key of a read, and only DATOB stores a byte. */
static void operations(void)
{
    start_user();
    expect("DATI without the write key", read_word(003010), KT11B_DONE, 0, 021010);
    expect_bare("DATIP without the write key", word_access(KT11B_DATIP, KT11B_EXECUTE, 003010, 0), KT11B_WV);
    start_user();
    expect("DATO", store_word(001010, 0123456), KT11B_DONE, 0, 020010);
    expect("DATOB", byte_access(KT11B_DATOB, 001011, 0177001), KT11B_DONE, 0, 020011);
    expect("both bytes", read_word(001010), KT11B_DONE, 0000456, 020010);
}

/* What is waited for after a violation, and between the two START reads. */
static void waits(void)
{
    start_user();
    check(wait_is(KT11B_WAIT_NOTHING), "a started user waits for nothing");
    read_word(001011);
    check(wait_is(KT11B_WAIT_STATUS), "after a violation the status is due");
    expect_bare("a read while the status is due", read_word(001010), KT11B_NOT_DUE);
    expect_bare("an EXECUTE store while the status is due", store_word(0000676, 0340), KT11B_NOT_DUE);
    expect_bare("the status", word_access(KT11B_DATO, KT11B_SERVICE, 0000676, 0340), KT11B_DONE);
    check(wait_is(KT11B_WAIT_PROGRAM_COUNTER), "then the program counter is due");
    expect_bare("the program counter", word_access(KT11B_DATO, KT11B_SERVICE, 0000674, 016), KT11B_DONE);
    check(wait_is(KT11B_WAIT_NOTHING), "then nothing is");
    kt11b_init(unit);
    store_word(0177576, 3);
    expect("the first START read", read_word(0), KT11B_DONE, 016, NO_ADDRESS);
    check(wait_is(KT11B_WAIT_SECOND_READ), "between the START reads the second is due");
    expect("the second START read", read_word(0), KT11B_DONE, 0340, NO_ADDRESS);
    check(wait_is(KT11B_WAIT_NOTHING), "after both nothing is");
}

/* The registers by name, each holding another word that was stored at its address. */
static void registers(void)
{
    static const struct {
        unsigned long number;
        unsigned address;
    } table[] = {{KT11B_KTIC, 0177600}, {KT11B_KTSP, 0177602}, {KT11B_KTPC, 0177604}, {KT11B_KTPS, 0177606},
        {KT11B_KTAD, 0177610}, {KT11B_KTDT, 0177612}, {KT11B_KTUM, 0177614}, {KT11B_KTEM, 0177616}};
    unsigned long index;

    make_unit();
    for (index = 0; index < COUNT(table); index++) {
        store_word(table[index].address, table[index].address ^ 0123000);
    }
    store_word(0177576, 1);
    for (index = 0; index < COUNT(table); index++) {
        expect("a register by its name", kt11b_register(unit, table[index].number), KT11B_DONE,
            table[index].address ^ 0123000, NO_ADDRESS);
    }
    expect("KTMR", kt11b_register(unit, KT11B_KTMR), KT11B_DONE, 0004000, NO_ADDRESS);
    expect("KTCS", kt11b_register(unit, KT11B_KTCS), KT11B_DONE, 0000001, NO_ADDRESS);
    expect_bare("one register too many", kt11b_register(unit, KT11B_KTEM + 1), KT11B_MISSHAPEN);
}

/* The number of cells by itself, and a unit that is not made. */
static void cells(void)
{
    make_unit();
    expect("the number of cells", kt11b_cells(unit), KT11B_DONE, (unsigned) count, NO_ADDRESS);
    expect("the last cell's tag", kt11b_cell_tag(unit, count - 1), KT11B_DONE, 0, NO_ADDRESS);
    expect("the last cell's word", kt11b_cell_word(unit, count - 1), KT11B_DONE, 0, NO_ADDRESS);
    expect_bare("one tag too many", kt11b_cell_tag(unit, count), KT11B_MISSHAPEN);
    expect_bare("one word too many", kt11b_cell_word(unit, count), KT11B_MISSHAPEN);
    expect_bare("a number between the two", kt11b_fresh(unit, KT11B_CELLS_8 + 1), KT11B_OTHER_COUNT);
    expect("the unit that stood there", kt11b_cells(unit), KT11B_DONE, (unsigned) count, NO_ADDRESS);
    unit[0] = 0;
    expect_bare("the number of words that don't hold a unit", kt11b_cells(unit), KT11B_NO_UNIT);
}

/* FCN, UM and IU, and which state sets SS and which DS. */
static void fields(void)
{
    start_user();
    check((ktcs() & KT11B_KTCS_FCN) == 2 && ktcs() == (KT11B_KTCS_UM | 2U), "a started user: UM, and FCN 2");
    word_access(KT11B_DATI, KT11B_SOURCE, 001010, 0);
    check(ktcs() == (KT11B_KTCS_UM | KT11B_KTCS_SS | 2U), "SOURCE sets SS");
    word_access(KT11B_DATI, KT11B_DESTINATION, 001010, 0);
    check(ktcs() == (KT11B_KTCS_UM | KT11B_KTCS_SS | KT11B_KTCS_DS | 2U), "DESTINATION sets DS");
    expect_bare("an interrupt", kt11b_interrupt(unit), KT11B_DONE);
    check(ktcs() == (KT11B_KTCS_IU | KT11B_KTCS_SS | KT11B_KTCS_DS | 2U), "an interrupt turns UM into IU");
    check((FLAGS | 077U) == 0174077U, "the fields of KTCS are bits 15 to 11 and 5 to 0");
}

/* An unpaged read at 002010, with so much memory lent. */
static unsigned long read_with_length(unsigned long length)
{
    return kt11b_access(unit, memory, length, KT11B_DATI, KT11B_EXECUTE, KT11B_WORD, 002010, 0);
}

/* The longest memory, and the map page. */
static void sizes(void)
{
    make_unit();
    expect("the longest memory", read_with_length(KT11B_MEMORY_MOST), KT11B_DONE, 0, 002010);
    expect_bare("a longer memory", read_with_length(KT11B_MEMORY_MOST + 2), KT11B_MISSHAPEN);
    check(kt11b_map_page(MEMORY_BYTES, 020005) == 05000, "the map page");
    check(kt11b_map_page(05776, 020005) == KT11B_NO_PAGE, "a map page that is not wholly in memory");
}

static void every_name(void)
{
    plain_answers();
    violations();
    not_in_memory();
    operations();
    waits();
    registers();
    cells();
    fields();
    sizes();
}

int main(void)
{
    unsigned long index;

    for (index = 0; index < COUNT(counts); index++) {
        count = counts[index];
        every_name();
    }
    return all_held();
}
