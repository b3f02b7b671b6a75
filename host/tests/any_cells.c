/*
 * A host that asks for any number of cells, and words that say any: a unit is made with 8 or 24 cells and with no other number,
 * words with another number are no unit, and what stands in the room for the cells that a unit hasn't got changes no answer.
 *
 * Usage: any_cells [ROUNDS]. Fewer rounds are for valgrind.
 */
#define PROGRAM "any_cells"
#include "any.h"

/* Where the fields lie that are written over here: number of cells, counter, all tags, all scratchpad words, last word. */
#define CELLS_AT 16
#define COUNTER_AT 17
#define TAGS_AT 18
#define WORDS_AT 42
#define LAST_AT 66

/* "Cell i (from 0) is the one that the counter names at 10o + i". */
#define FIRST_CELL 010

/* Of so many calls of a run one is INIT, and seven are interrupts and traps. */
#define CALLS 200

/*
 * The memory of a long run, with map words in its first pages, and so little of it that every walk runs off: the first map word that
 * there can be, that of exec page 1 beyond N with M=0, stands at 2.
 */
#define WHOLE 65536UL
#define MAP_PAGES 4
#define LITTLE 2UL

static const unsigned long both[] = {KT11B_CELLS_8, KT11B_CELLS_24};

/* A reply with an answer alone, as making and refusals have it. */
static unsigned long bare(int answer)
{
    return (unsigned long) answer << 40;
}

static int is_a_number_of_cells(unsigned long number)
{
    return number == KT11B_CELLS_8 || number == KT11B_CELLS_24;
}

/* Making --------------------------------------------------------------------------------------------------------------- */

/* "A fresh unit is all zero, then INIT", with so many cells: each of its words. */
static void check_fresh(unsigned long cells)
{
    unsigned short fresh[KT11B_UNIT_WORDS];

    memset(fresh, 0, sizeof fresh);
    fresh[0] = 'K' | '2' << 8;
    fresh[CELLS_AT] = (unsigned short) cells;
    fresh[COUNTER_AT] = FIRST_CELL;
    fresh[LAST_AT] = '1' | 'B' << 8;
    check(memcmp(unit, fresh, sizeof fresh) == 0, "every word of a fresh unit");
}

/* A unit of so many cells with all kinds of words in its registers and cells. */
static void used_unit(unsigned long cells)
{
    static const int fields[] = {2, 3, 4, 5, 6, 7, 9, 10, 14, 15};
    unsigned long index;

    fresh_unit(cells);
    for (index = 0; index < COUNT(fields); index++) {
        unit[fields[index]] = (unsigned short) next_random();
    }
    for (index = TAGS_AT; index < LAST_AT; index++) {
        unit[index] = (unsigned short) next_random();
    }
    unit[COUNTER_AT] = (unsigned short) (FIRST_CELL + below(cells));
    check(kt11b_cells(unit) == cells, "a used unit is one");
}

/* Asks for a unit of so many cells where these words stand. */
static void ask_for(unsigned long cells)
{
    unsigned long reply;

    remember();
    reply = kt11b_fresh(unit, cells);
    if (is_a_number_of_cells(cells)) {
        check(reply == 0, "a making that is done has answer 0, no data and no physical address");
        check(kt11b_cells(unit) == cells, "a fresh unit has the cells that were asked for");
        check_fresh(cells);
        check_guards();
    } else {
        check(reply == bare(KT11B_OTHER_COUNT), "another number is answered 30, with no data and no physical address");
        check_words_unchanged("and leaves the words as they were");
    }
}

/* The same number over words that are no unit and over a unit of either number. */
static void try_number(unsigned long cells)
{
    set_guards();
    memset(unit, 0, KT11B_UNIT_WORDS * sizeof *unit);
    ask_for(cells);
    memset(unit, 0377, KT11B_UNIT_WORDS * sizeof *unit);
    ask_for(cells);
    random_words();
    ask_for(cells);
    used_unit(KT11B_CELLS_8);
    ask_for(cells);
    used_unit(KT11B_CELLS_24);
    ask_for(cells);
}

/* "The number is of any size (64 bits at the doors)": 8 and 24 more than powers of 2 are no numbers of cells either. */
static void making(void)
{
    static const unsigned long large[] = {65535, 65536, 65544, 65560, 1UL << 32, (1UL << 32) + 8, (1UL << 32) + 24,
        (1UL << 63) + 8, (1UL << 63) + 24, ~0UL - 7, ~0UL - 23, ~0UL - 1, ~0UL};
    unsigned long cells, index;

    for (cells = 0; cells <= 300; cells++) {
        try_number(cells);
    }
    for (index = 0; index < COUNT(large); index++) {
        try_number(large[index]);
    }
}

/* Words that say any number ---------------------------------------------------------------------------------------------- */

/* Every call and every reading of words that are no unit: "answered 70", and the words stay. */
static void check_no_unit(const char *what)
{
    unsigned char lent[2] = {0, 0};
    unsigned long none = bare(KT11B_NO_UNIT);

    remember();
    check(kt11b_access(unit, lent, 2, KT11B_DATO, KT11B_EXECUTE, KT11B_WORD, 0, 0123456) == none, what);
    check(kt11b_interrupt(unit) == none && kt11b_trap(unit, 030) == none && kt11b_init(unit) == none, what);
    check(kt11b_cells(unit) == none && kt11b_counter(unit) == none && kt11b_wait(unit) == none, what);
    check(kt11b_cell_tag(unit, 0) == none && kt11b_cell_word(unit, 0) == none, what);
    check(kt11b_register(unit, KT11B_KTMR) == none, what);
    check_words_unchanged(what);
    check(lent[0] == 0 && lent[1] == 0, what);
}

/* "Words that say 8 cells with a counter above 17o, or 24 with one above 37o, or either with one below 10o, are no unit." */
static void check_counted(unsigned long cells, unsigned long counter)
{
    int names_a_cell = is_a_number_of_cells(cells) && counter >= FIRST_CELL && counter < FIRST_CELL + cells;

    unit[CELLS_AT] = (unsigned short) cells;
    unit[COUNTER_AT] = (unsigned short) counter;
    if (names_a_cell) {
        check(kt11b_cells(unit) == cells && kt11b_counter(unit) == counter, "a unit's own number and counter");
        check(kt11b_register(unit, KT11B_KTMR) == counter * 256, "KTMR is the counter times 256");
    } else {
        check_no_unit("words with another number, or a counter that names no cell of theirs, are no unit");
    }
}

/* Every number that a word can say, with counters that name a cell of one of 8, of one of 24 alone, and of neither. */
static void every_number(void)
{
    static const unsigned long counters[] = {007, 010, 017, 020, 037, 040};
    unsigned long cells, index;

    fresh_unit(KT11B_CELLS_8);
    for (cells = 0; cells <= 0177777; cells++) {
        check_counted(cells, 010);
    }
    for (cells = 0; cells <= 300; cells++) {
        for (index = 0; index < COUNT(counters); index++) {
            check_counted(cells, counters[index]);
        }
    }
}

static void every_counter(void)
{
    unsigned long counter, index;

    fresh_unit(KT11B_CELLS_24);
    for (index = 0; index < COUNT(both); index++) {
        for (counter = 0; counter <= 0177777; counter++) {
            check_counted(both[index], counter);
        }
    }
}

/* The layout of version 1 began with "KT". */
static void other_layouts(void)
{
    unsigned long first, index;

    for (index = 0; index < COUNT(both); index++) {
        fresh_unit(both[index]);
        unit[0] = 'K' | 'T' << 8;
        check_no_unit("words of version 1's layout are no unit");
        for (first = 0; first <= 0177777; first += 0377) {
            unit[0] = (unsigned short) first;
            check(kt11b_cells(unit) == (first == ('K' | '2' << 8) ? both[index] : bare(KT11B_NO_UNIT)), "the first word");
        }
    }
}

/* Cells by index ---------------------------------------------------------------------------------------------------------- */

/* One index of a unit whose words hold something at every place, also where an 8-cell unit has no cells. */
static void check_index(unsigned long cells, unsigned long index)
{
    int there = index < cells;

    check(kt11b_cell_tag(unit, index) == (there ? unit[TAGS_AT + index] : bare(KT11B_MISSHAPEN)), "a tag by its index");
    check(kt11b_cell_word(unit, index) == (there ? unit[WORDS_AT + index] : bare(KT11B_MISSHAPEN)), "a word by its index");
}

static void indices(void)
{
    static const unsigned long large[] = {65535, 65536, 65544, 1UL << 32, (1UL << 32) + 7, (1UL << 32) + 23, 1UL << 63,
        (1UL << 63) + 7, ~0UL - 16, ~0UL - 1, ~0UL};
    unsigned long number, index;

    for (number = 0; number < COUNT(both); number++) {
        used_unit(both[number]);
        remember();
        for (index = 0; index <= 300; index++) {
            check_index(both[number], index);
        }
        for (index = 0; index < COUNT(large); index++) {
            check_index(both[number], large[index]);
        }
        check_words_unchanged("reading changes nothing");
    }
}

/* Long runs --------------------------------------------------------------------------------------------------------------- */

static void put_word(unsigned long place, unsigned long word)
{
    memory[place] = (unsigned char) (word & 0377);
    memory[place + 1] = (unsigned char) (word >> 8 & 0377);
}

/*
 * Memory whose first pages, where random map registers mostly point, hold map words: most of memory, some of the registers' page.
 * Every fourth word of the other pages is one that the unit knows at a fetch.
 */
static void lend_with_maps(void)
{
    static const unsigned long known[] = {0, 1, 5, 0400, 2, 0200, 04000, 0104400};
    unsigned long place;

    lend(WHOLE);
    for (place = 0; place < MAP_PAGES * 512; place += 2) {
        unsigned long keys = below(16) ? 0120000 | (next_random() & 0040000) : next_random() & 0160000;

        put_word(place, keys | (below(8) ? below(128) : 0777));
    }
    for (; place < length; place += 2 * 4) {
        put_word(place, known[below(COUNT(known))]);
    }
    memcpy(expected, memory, length);
}

/* Whether a map register names none of the pages that lend_with_maps fills. */
static int names_no_map(unsigned long map_register)
{
    return (KT11B_REPLY_DATA(kt11b_register(unit, map_register)) & 0777) >= MAP_PAGES;
}

/*
 * Makes an access a store: one that mends a map register which names no map, or, where both name one, the store that begins paging.
 * With a register that leads nowhere a long run would come to little else than answer 10, since paged it finds no way back to the
 * registers.
 */
static void make_paging_begin(struct access *made)
{
    made->operation = KT11B_DATO, made->state = KT11B_EXECUTE, made->width = KT11B_WORD;
    if (names_no_map(KT11B_KTUM)) {
        made->address = 0177614, made->data &= 0177003;
    } else if (names_no_map(KT11B_KTEM)) {
        made->address = 0177616, made->data &= 0177003;
    } else {
        made->address = 0177576, made->data = (unsigned short) (1 + below(3));
    }
}

/* Makes an access the one that is due, or one that begins paging, or a fetch of the right shape. */
static void make_due(struct access *made)
{
    unsigned wait = KT11B_REPLY_DATA(kt11b_wait(unit));
    unsigned function = KT11B_REPLY_DATA(kt11b_register(unit, KT11B_KTCS)) & KT11B_KTCS_FCN;

    if (wait == KT11B_WAIT_STATUS || wait == KT11B_WAIT_PROGRAM_COUNTER) {
        made->operation = KT11B_DATO, made->state = KT11B_SERVICE, made->width = KT11B_WORD;
    } else if (function == 3) {
        made->operation = KT11B_DATI, made->state = KT11B_EXECUTE, made->width = KT11B_WORD;
    } else if (function == 0 && below(2)) {
        make_paging_begin(made);
    } else if (made->state == KT11B_FETCH) {
        made->operation = KT11B_DATI, made->width = KT11B_WORD;
    }
}

/*
 * An access as any, but mostly in few pages, at even addresses and with data that a map register can use, so that cells are
 * filled, found and emptied.
 */
static void steered_access(struct access *made)
{
    random_access(made);
    if (below(8)) {
        made->data &= 0177003;
    }
    if (below(4)) {
        made->address = (unsigned short) (below(40) * 512 + (below(4) ? made->address & 0776 : 0572 + below(72)));
    }
    if (below(8)) {
        make_due(made);
    }
}

/* One call of any kind, of the unit in these words and with this memory. Where it is no access, `made` says which. */
static unsigned long one_call(unsigned short *of, unsigned char *with, const struct access *made, unsigned long kind)
{
    if (kind == 0) {
        return kt11b_init(of);
    }
    if (kind < 4) {
        return kt11b_interrupt(of);
    }
    if (kind < 8) {
        return kt11b_trap(of, made->address & 074);
    }
    return kt11b_access(of, with, length, made->operation, made->state, made->width, made->address, made->data);
}

/* Random calls keep the number of cells, the counter names each of them in turn, and the room for absent cells stays 0. */
static void number_stays(unsigned long cells, unsigned long rounds)
{
    unsigned long absent, named = 0;
    struct access made;

    lend_with_maps();
    fresh_unit(cells);
    while (rounds--) {
        steered_access(&made);
        checked_answer(one_call(unit, memory, &made, below(CALLS)));
        check(kt11b_cells(unit) == cells, "a call keeps the number of cells");
        named |= 1UL << (KT11B_REPLY_DATA(kt11b_counter(unit)) - FIRST_CELL);
        for (absent = cells; absent < KT11B_CELLS_24; absent++) {
            check(unit[TAGS_AT + absent] == 0 && unit[WORDS_AT + absent] == 0, "no call fills an absent cell");
        }
    }
    check(named == (1UL << cells) - 1, "the counter has named every cell");
    memcpy(expected, memory, length);
    give_back();
}

/* An 8-cell unit beside the unit in `words`, which differs from it in the room for absent cells alone. Its memory is `expected`. */
static unsigned short garbled[KT11B_UNIT_WORDS];

/* Puts into that room what a search would find if it came there: the pages that this access may ask for, with other words. */
static void garble(const struct access *made)
{
    unsigned page = made->address >> 9;
    unsigned inner = KT11B_REPLY_DATA(kt11b_register(unit, KT11B_KTAD)) >> 9;
    unsigned long index;

    for (index = KT11B_CELLS_8; index < KT11B_CELLS_24; index++) {
        unsigned long tag = next_random();

        switch (below(4)) {
        case 0: tag = page; break;
        case 1: tag = 0200 | page; break;
        case 2: tag = 0200 | inner; break;
        }
        garbled[TAGS_AT + index] = (unsigned short) tag;
        garbled[WORDS_AT + index] = (unsigned short) (next_random() | 0160000);
    }
}

/* The words of the cells that both have, and all others but those of the room. */
static void check_same_words(void)
{
    size_t before_room = (TAGS_AT + KT11B_CELLS_8) * sizeof *unit;

    check(memcmp(unit, garbled, before_room) == 0, "registers, wait, fetch memory, number, counter and tags");
    check(memcmp(unit + WORDS_AT, garbled + WORDS_AT, KT11B_CELLS_8 * sizeof *unit) == 0, "scratchpad words");
    check(unit[LAST_AT] == garbled[LAST_AT], "the last word");
}

static void check_same_readings(void)
{
    unsigned long number;

    for (number = 0; number <= 12; number++) {
        check(kt11b_register(unit, number) == kt11b_register(garbled, number), "the same registers");
    }
    for (number = 0; number <= KT11B_CELLS_24; number++) {
        check(kt11b_cell_tag(unit, number) == kt11b_cell_tag(garbled, number), "the same tags");
        check(kt11b_cell_word(unit, number) == kt11b_cell_word(garbled, number), "the same scratchpad words");
    }
    check(kt11b_counter(unit) == kt11b_counter(garbled), "the same counter");
    check(kt11b_wait(unit) == kt11b_wait(garbled), "the same wait");
    check(kt11b_cells(unit) == kt11b_cells(garbled), "the same number of cells");
}

/* "what stands in those words changes no answer": calls of two units that differ only there, over memories that are equal. */
static void garbage(unsigned long rounds)
{
    unsigned long answers[KT11B_OFF_MAP + 1] = {0}, answer;
    struct access made;

    lend_with_maps();
    fresh_unit(KT11B_CELLS_8);
    check(kt11b_fresh(garbled, KT11B_CELLS_8) == 0, "another unit is made");
    while (rounds--) {
        unsigned long kind = below(CALLS), reply;

        steered_access(&made);
        garble(&made);
        check_same_readings();
        length = below(16) ? WHOLE : LITTLE;
        reply = one_call(unit, memory, &made, kind);
        answers[checked_answer(reply)]++;
        check(one_call(garbled, expected, &made, kind) == reply, "the same reply");
        check_same_words();
    }
    for (answer = KT11B_DONE; answer <= KT11B_OFF_MAP; answer++) {
        check(answers[answer] > 0, "the run came to every answer");
    }
    length = WHOLE;
    give_back();
}

int main(int count, char **arguments)
{
    unsigned long rounds = count > 1 ? strtoul(arguments[1], NULL, 10) : 20000;

    seed = 24;
    making();
    every_number();
    every_counter();
    other_layouts();
    indices();
    number_stays(KT11B_CELLS_8, rounds);
    number_stays(KT11B_CELLS_24, rounds);
    garbage(rounds);
    return all_held();
}
