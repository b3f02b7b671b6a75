/*
 * A host that passes anything: random bytes as the unit, memories of every kind of length, every operation from 0 to 300.
 * Always an answer, and nothing touched that should not be.
 *
 * Usage: any_input [ROUNDS]. Fewer rounds are for valgrind.
 */
#define PROGRAM "any_input"
#include "any.h"

#define COMPARED_EVERY 64

static unsigned long number_of_cells(void)
{
    return KT11B_REPLY_DATA(kt11b_cells(unit));
}

static unsigned long either_number(void)
{
    return below(2) ? KT11B_CELLS_8 : KT11B_CELLS_24;
}

/* What a store that is done leaves in the expected memory. */
static void expect_store(const struct access *made, unsigned long reply)
{
    unsigned long place = KT11B_REPLY_PHYSICAL(reply);

    if (!KT11B_REPLY_HAS_PHYSICAL(reply) || place >= length) {
        return;
    }
    if (made->operation == KT11B_DATO) {
        expected[place] = (unsigned char) (made->data & 0377);
        expected[place + 1] = (unsigned char) (made->data >> 8);
    } else if (made->operation == KT11B_DATOB) {
        expected[place] = (unsigned char) (made->data & 0377);
    }
}

/* One access, with all that holds of every access. */
static int try_access(const struct access *made)
{
    unsigned long reply;
    int answer;

    remember();
    reply = kt11b_access(unit, memory, length, made->operation, made->state, made->width, made->address, made->data);
    answer = checked_answer(reply);
    if (answer == KT11B_DONE) {
        expect_store(made, reply);
    } else if (answer <= KT11B_UNPAGED_ODD || answer == KT11B_NO_UNIT) {
        check_words_unchanged("answers 1, 2, 3 and 70 of an access leave the unit");
    }
    return answer;
}

/* The other calls; each leaves the unit where it refuses. */
static void try_other_calls(unsigned long number)
{
    remember();
    if (checked_answer(kt11b_interrupt(unit)) != KT11B_DONE) {
        check_words_unchanged("a refused interrupt leaves the unit");
    }
    remember();
    if (checked_answer(kt11b_trap(unit, number)) != KT11B_DONE) {
        check_words_unchanged("a refused trap leaves the unit");
    }
}

static void try_readings(unsigned long number)
{
    int answer;

    remember();
    answer = checked_answer(kt11b_counter(unit));
    check(answer == checked_answer(kt11b_wait(unit)), "counter and wait are read or refused together");
    check(answer == checked_answer(kt11b_cells(unit)), "and so is the number of cells");
    if (answer == KT11B_DONE) {
        int listed = number >= KT11B_KTMR && number <= KT11B_KTEM;
        unsigned long cells = number_of_cells();

        check((checked_answer(kt11b_register(unit, number)) == KT11B_DONE) == listed, "registers by number");
        check(cells == KT11B_CELLS_8 || cells == KT11B_CELLS_24, "there are 8 cells, or 24");
        check((checked_answer(kt11b_cell_tag(unit, number)) == KT11B_DONE) == (number < cells), "tags by index");
        check((checked_answer(kt11b_cell_word(unit, number)) == KT11B_DONE) == (number < cells), "words by index");
    } else {
        check(answer == KT11B_NO_UNIT, "only words that don't hold a unit are refused");
        check(checked_answer(kt11b_register(unit, number)) == KT11B_NO_UNIT, "no register of words that don't hold a unit");
        check(checked_answer(kt11b_cell_tag(unit, number)) == KT11B_NO_UNIT, "no tag of words that don't hold a unit");
        check(checked_answer(kt11b_cell_word(unit, number)) == KT11B_NO_UNIT, "no cell word of words that don't hold a unit");
    }
    check_words_unchanged("reading changes nothing");
}

/* Random bytes as the unit. */
static void random_units(unsigned long rounds)
{
    struct access made;

    lend(512);
    while (rounds--) {
        random_words();
        random_access(&made);
        if (try_access(&made) == KT11B_NO_UNIT) {
            try_other_calls(below(32));
            check(checked_answer(kt11b_init(unit)) == KT11B_NO_UNIT, "INIT does not make words hold a unit");
            check_words_unchanged("INIT leaves words that don't hold a unit");
        }
        try_readings(below(40));
    }
    give_back();
}

/* A unit with one word written over is refused whole, or taken for another unit. */
static void scribbled_units(unsigned long rounds)
{
    struct access made;

    lend(4096);
    while (rounds--) {
        fresh_unit(either_number());
        unit[below(KT11B_UNIT_WORDS)] = (unsigned short) (next_random() >> below(64));
        random_access(&made);
        try_access(&made);
        try_readings(below(40));
        try_other_calls(below(040));
        try_access(&made);
    }
    give_back();
}

/* A unit in FCN 2, with this word in KTEM. It needs no memory. */
static void paging_unit(unsigned short ktem)
{
    fresh_unit(either_number());
    kt11b_access(unit, memory, length, KT11B_DATO, KT11B_EXECUTE, KT11B_WORD, 0177616, ktem);
    kt11b_access(unit, memory, length, KT11B_DATO, KT11B_EXECUTE, KT11B_WORD, 0177576, 2);
    check(KT11B_REPLY_DATA(kt11b_register(unit, KT11B_KTEM)) == ktem, "KTEM is stored");
    check(KT11B_REPLY_DATA(kt11b_register(unit, KT11B_KTCS)) == 2, "FCN 2 is stored");
}

/* One that waits for the first SERVICE DATO, after an odd word in exec page 0. */
static void waiting_unit(void)
{
    paging_unit(0);
    kt11b_access(unit, memory, length, KT11B_DATI, KT11B_EXECUTE, KT11B_WORD, 1, 0);
    check(KT11B_REPLY_DATA(kt11b_wait(unit)) == KT11B_WAIT_STATUS, "an odd word, paged, leaves the unit waiting");
}

/* One operation, state and width, with no memory at all, in a fresh unit and in one that waits. */
static void try_numbers(struct access *made)
{
    int listed = made->operation <= 3 && made->state <= 4 && made->width <= 1;
    int due = made->operation == KT11B_DATO && made->state == KT11B_SERVICE && made->width == KT11B_WORD;
    int answer;

    fresh_unit(either_number());
    answer = try_access(made);
    check(listed || answer == KT11B_MISSHAPEN, "a number outside its list is misshapen");
    check(answer == KT11B_MISSHAPEN || answer == KT11B_TIME_OUT, "no memory, unpaged: shape, or a time-out");
    waiting_unit();
    answer = try_access(made);
    check(listed || answer == KT11B_MISSHAPEN, "1 comes before 2");
    check((answer == KT11B_DONE) == due, "the access that is due is taken, and no other");
}

/*
 * The same at an address of exec page 0, which has no map word, and of exec page 1, whose map word is not there: neither in KTUM's
 * page, where N is 0, nor in KTEM's, where N is 127.
 */
static void try_paged(const struct access *made)
{
    struct access in_page_1 = *made;
    int answer, where_walked;

    in_page_1.address += 01000;
    paging_unit(0);
    answer = try_access(made);
    check(answer == KT11B_MISSHAPEN || answer == KT11B_TIME_OUT, "no memory, paged: shape, or no target");
    where_walked = answer == KT11B_TIME_OUT ? KT11B_OFF_MAP : answer;
    paging_unit(0);
    check(try_access(&in_page_1) == where_walked, "and where it is walked, no map word of the process");
    paging_unit(0177000);
    check(try_access(&in_page_1) == where_walked, "nor of the exec");
}

/* Every operation from 0 to 300, with every state and width and one beyond. */
static void every_operation(void)
{
    struct access made;

    lend(0);
    made.address = 0;
    made.data = 0123456;
    for (made.operation = 0; made.operation <= 300; made.operation++) {
        for (made.state = 0; made.state <= 5; made.state++) {
            for (made.width = 0; made.width <= 2; made.width++) {
                try_numbers(&made);
                try_paged(&made);
            }
        }
        try_readings(made.operation);
        try_other_calls(made.operation);
    }
    give_back();
}

/* Random calls over one length; only shape can refuse them all. */
static void one_length(unsigned long bytes, unsigned long cells, unsigned long rounds)
{
    struct access made;
    int fits = bytes % 2 == 0 && bytes <= KT11B_MEMORY_MOST;

    lend(bytes);
    fresh_unit(cells);
    while (rounds--) {
        int answer;

        random_access(&made);
        answer = try_access(&made);
        check(fits || answer == KT11B_MISSHAPEN, "a bad length is misshapen");
        if (rounds % COMPARED_EVERY == 0) {
            check(memcmp(memory, expected, length) == 0, "memory holds what was stored, and nothing else");
        }
        if (!below(30)) {
            try_other_calls(below(040));
        }
        if (!below(50)) {
            check(checked_answer(kt11b_init(unit)) == KT11B_DONE, "INIT is accepted");
        }
    }
    check(number_of_cells() == cells, "the unit has the cells that it was made with");
    give_back();
}

static void lengths(unsigned long rounds)
{
    static const unsigned long tried[] = {0, 1, 2, 3, 4, 5, 510, 511, 512, 513, 514, 1024, 65534, 65535, 65536, 65537,
        0757776, 0757777, 0760000, 0760001, 0760002, 01000000, 01000001};
    unsigned long index;

    for (index = 0; index < COUNT(tried); index++) {
        one_length(tried[index], KT11B_CELLS_8, rounds);
        one_length(tried[index], KT11B_CELLS_24, rounds);
    }
}

/* Lengths that no memory has, as of a host that passes -1: refused before memory is looked at. */
static void impossible_lengths(void)
{
    static const unsigned long tried[] = {1UL << 18, 1UL << 32, 1UL << 63, (1UL << 63) - 2, ~0UL, ~0UL - 1};
    static const struct access store = {KT11B_DATO, KT11B_EXECUTE, KT11B_WORD, 0, 0123456};
    unsigned long index;

    for (index = 0; index < COUNT(tried); index++) {
        lend(2);
        fresh_unit(either_number());
        length = tried[index];
        check(try_access(&store) == KT11B_MISSHAPEN, "an impossible length is misshapen");
        length = 2;
        give_back();
    }
}

/* "the page a map register names ..., or an empty part if it isn't wholly below L" */
static void map_pages(void)
{
    unsigned long bytes, page;

    for (page = 0; page < 512; page++) {
        for (bytes = 512 * page; bytes <= 512 * page + 1024; bytes += 128) {
            unsigned long place = kt11b_map_page(bytes, (unsigned short) (page | (next_random() & 0177000)));

            check(place == (512 * page + 512 <= bytes ? 512 * page : KT11B_NO_PAGE), "the map page's place");
        }
    }
}

int main(int count, char **arguments)
{
    unsigned long rounds = count > 1 ? strtoul(arguments[1], NULL, 10) : 20000;

    seed = 11;
    random_units(rounds);
    scribbled_units(rounds);
    every_operation();
    lengths(rounds / 4);
    impossible_lengths();
    map_pages();
    return all_held();
}
