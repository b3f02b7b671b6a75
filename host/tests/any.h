/*
 * A host that passes anything, for the tests of it. Each memory is a block of exactly its length, and words of a known value
 * stand on both sides of the unit, so that what strays is seen here or by valgrind. PROGRAM, the test's name, is defined before
 * this.
 */
#include <stdio.h>
#include <stdlib.h>
#include <string.h>
#include "kt11b.h"

#define GUARDS 4
#define GUARD 0125252
#define ALL_WORDS (GUARDS + KT11B_UNIT_WORDS + GUARDS)
#define REPLY_BITS (0xFFFFUL | 0x3FFFFUL << 16 | 1UL << 34 | 0xFFUL << 40)
#define COUNT(list) (sizeof(list) / sizeof((list)[0]))

static unsigned short words[ALL_WORDS], words_before[ALL_WORDS];
static unsigned short *const unit = words + GUARDS;

/* The memory lent, and what it should hold. */
static unsigned char *memory, *expected;
static unsigned long length;

static unsigned long seed;
static unsigned long checks;

/* One call's numbers. */
struct access {
    unsigned long operation, state, width;
    unsigned short address, data;
};

static void check(int holds, const char *what)
{
    checks++;
    if (!holds) {
        printf(PROGRAM ": wrong: %s (length %lo, seed %lx)\n", what, length, seed);
        exit(1);
    }
}

/* The last line of a test that held. */
static int all_held(void)
{
    printf(PROGRAM ": %lu checks, all as they should be\n", checks);
    return 0;
}

/* splitmix64 */
static unsigned long next_random(void)
{
    unsigned long mixed = seed += 0x9E3779B97F4A7C15UL;

    mixed = (mixed ^ mixed >> 30) * 0xBF58476D1CE4E5B9UL;
    mixed = (mixed ^ mixed >> 27) * 0x94D049BB133111EBUL;
    return mixed ^ mixed >> 31;
}

static unsigned long below(unsigned long bound)
{
    return (next_random() >> 16) % bound;
}

/* Lends a memory of random bytes, in a block of exactly this length. */
static void lend(unsigned long bytes)
{
    unsigned long place;

    length = bytes;
    memory = (unsigned char *) malloc(bytes ? bytes : 1);
    expected = (unsigned char *) malloc(bytes ? bytes : 1);
    if (!memory || !expected) {
        puts(PROGRAM ": no memory");
        exit(2);
    }
    for (place = 0; place < bytes; place++) {
        memory[place] = (unsigned char) next_random();
    }
    memcpy(expected, memory, bytes);
}

static void give_back(void)
{
    check(memcmp(memory, expected, length) == 0, "memory holds what was stored, and nothing else");
    free(memory);
    free(expected);
}

static void set_guards(void)
{
    int place;

    for (place = 0; place < GUARDS; place++) {
        words[place] = GUARD;
        words[ALL_WORDS - 1 - place] = GUARD;
    }
}

static void check_guards(void)
{
    int place;

    for (place = 0; place < GUARDS; place++) {
        check(words[place] == GUARD && words[ALL_WORDS - 1 - place] == GUARD, "the words beside the unit stay");
    }
}

/* A making that is done: "answer 0, data 0, no physical address". */
static void fresh_unit(unsigned long cells)
{
    set_guards();
    check(kt11b_fresh(unit, cells) == 0, "a unit is made");
    check_guards();
}

static void random_words(void)
{
    int place;

    set_guards();
    for (place = 0; place < KT11B_UNIT_WORDS; place++) {
        unit[place] = (unsigned short) next_random();
    }
}

static void remember(void)
{
    memcpy(words_before, words, sizeof words);
}

static void check_words_unchanged(const char *what)
{
    check(memcmp(words, words_before, sizeof words) == 0, what);
}

/*
 * The reply of a call or a reading has an answer of the list, and no bit besides its parts. "30 answers the making of a unit and
 * not a call".
 */
static int checked_answer(unsigned long reply)
{
    int answer = KT11B_REPLY_ANSWER(reply);

    check((reply & ~REPLY_BITS) == 0, "no other bit is set in a reply");
    check(answer <= KT11B_OFF_MAP || answer == KT11B_NO_UNIT, "the answer is one of the list");
    if (!KT11B_REPLY_HAS_PHYSICAL(reply)) {
        check(KT11B_REPLY_PHYSICAL(reply) == 0, "no physical address is 0");
    }
    if (answer != KT11B_DONE && answer != KT11B_IV) {
        check(KT11B_REPLY_DATA(reply) == 0 && !KT11B_REPLY_HAS_PHYSICAL(reply), "a refusal has no data and no address");
    }
    check_guards();
    return answer;
}

/* Numbers that mostly make sense, with 777572 to 777701 often as the address, so that paging begins by itself. */
static void random_access(struct access *made)
{
    made->operation = below(40) ? below(4) : next_random() >> below(64);
    made->state = below(40) ? below(5) : next_random() >> below(64);
    made->width = made->operation == KT11B_DATOB ? KT11B_BYTE : KT11B_WORD;
    if (made->operation <= KT11B_DATIP) {
        made->width = below(2);
    }
    if (!below(40)) {
        made->width = next_random() >> below(64);
    }
    made->address = (unsigned short) (below(3) ? next_random() : 0177572 + below(72));
    made->data = (unsigned short) next_random();
    if (!below(3)) {
        /* A register's word with small page numbers, or FCN alone. */
        made->data &= 0177003;
    }
}
