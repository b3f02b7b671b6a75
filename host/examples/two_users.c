/*
 * Two users and a monitor on one KT11-B. Each user stores its mark, 001 or 041, at the same virtual address, and each reads
 * its own back after the monitor has switched KTUM twice. Then user 001 stores into a page that is not in core: the monitor
 * finds out which, makes it resident, and has the instruction done again.
 *
 * The host's processor is played here by hand: each line printed is one bus access that a PDP-11/20 would make.
 */
#include <stdio.h>
#include "kt11b.h"

/* The registers' addresses in the processor's last page. */
#define KTCS 0177576
#define KTIC 0177600
#define KTSP 0177602
#define KTPC 0177604
#define KTPS 0177606
#define KTAD 0177610
#define KTUM 0177614
#define KTEM 0177616

#define MEMORY_BYTES 0200000UL
#define VIRTUAL_MARK 01010

static unsigned char memory[MEMORY_BYTES];
static unsigned short unit[KT11B_UNIT_WORDS];

/* What the monitor keeps of a user who is not running. */
struct user {
    const char *name;
    unsigned short map;         /* for KTUM: N, the last simple page, in the high 7 bits; the map's physical page in the low 9 */
    unsigned short pc, ps, sp;
    unsigned short r0;
};

static struct user user_001 = {"user 001", 020005, 0, 0, 0700, 0};
static struct user user_041 = {"user 041", 020006, 0, 0, 0700, 0};

/* A word of core, low byte first, written behind the unit's back: the loader's work. */
static void put_word(unsigned long place, unsigned word)
{
    memory[place] = (unsigned char) (word & 0377);
    memory[place + 1] = (unsigned char) (word >> 8 & 0377);
}

static unsigned word_at(unsigned long place)
{
    return memory[place] | (unsigned) memory[place + 1] << 8;
}

/* One row: who does what, and the reply. Address and data are text, "-" where there is none. */
static void show(const char *who, const char *does, const char *address, const char *data, unsigned long reply)
{
    char physical[8] = "-";
    unsigned ktcs = KT11B_REPLY_DATA(kt11b_register(unit, KT11B_KTCS));

    if (KT11B_REPLY_HAS_PHYSICAL(reply)) {
        sprintf(physical, "%06lo", KT11B_REPLY_PHYSICAL(reply));
    }
    printf("%-8s %-11s %-7s %-8s %d   %06o %-6s %06o\n", who, does, address, data, KT11B_REPLY_ANSWER(reply),
        (unsigned) KT11B_REPLY_DATA(reply), physical, ktcs);
}

/* A word access, shown; gives the word read. */
static unsigned short word_access(const char *who, const char *does, unsigned long operation, unsigned long state,
    unsigned address, unsigned data)
{
    char at[8], with[8] = "-";
    unsigned long reply = kt11b_access(unit, memory, MEMORY_BYTES, operation, state, KT11B_WORD,
        (unsigned short) address, (unsigned short) data);

    sprintf(at, "%06o", address & 0177777);
    if (operation == KT11B_DATO) {
        sprintf(with, "%06o", data & 0177777);
    }
    show(who, does, at, with, reply);
    return KT11B_REPLY_DATA(reply);
}

static unsigned short fetch(const char *who, unsigned address)
{
    return word_access(who, "fetches", KT11B_DATI, KT11B_FETCH, address, 0);
}

static unsigned short source(const char *who, unsigned address)
{
    return word_access(who, "reads", KT11B_DATI, KT11B_SOURCE, address, 0);
}

static unsigned short destination(const char *who, unsigned address)
{
    return word_access(who, "reads", KT11B_DATI, KT11B_DESTINATION, address, 0);
}

static void store(const char *who, unsigned address, unsigned data)
{
    word_access(who, "stores", KT11B_DATO, KT11B_DESTINATION, address, data);
}

/* The processor's two stores at a trap or an interrupt; the unit takes them for KTPS, KTSP and KTPC. */
static void service_stores(const struct user *user)
{
    word_access("service", "stores", KT11B_DATO, KT11B_SERVICE, user->sp - 2U, user->ps);
    word_access("service", "stores", KT11B_DATO, KT11B_SERVICE, user->sp - 4U, user->pc);
}

/* FCN 3 and the two reads of the monitor's RTI, which get KTPC and then KTPS. */
static void start(struct user *user)
{
    store("monitor", KTCS, 3);
    user->pc = word_access("monitor", "starts", KT11B_DATI, KT11B_EXECUTE, 0770, 0);
    user->ps = word_access("monitor", "starts", KT11B_DATI, KT11B_EXECUTE, 0772, 0);
}

/* The monitor lets a user go on where it was. */
static void start_from_saved(struct user *user)
{
    store("monitor", KTPC, user->pc);
    store("monitor", KTPS, user->ps);
    start(user);
}

static void interrupt(struct user *user)
{
    printf("\nThe clock interrupts; the monitor saves %s.\n", user->name);
    show("device", "interrupts", "-", "-", kt11b_interrupt(unit));
    service_stores(user);
    user->sp = (unsigned short) (source("monitor", KTSP) + 4);
    user->pc = source("monitor", KTPC);
    user->ps = source("monitor", KTPS);
}

static void switch_to(struct user *user)
{
    printf("\nKTUM is switched, and %s is started.\n", user->name);
    store("monitor", KTUM, user->map);
    start_from_saved(user);
}

/* MOV #mark,@#1010 */
static void store_mark(struct user *user)
{
    unsigned short mark, place;

    fetch(user->name, user->pc);
    mark = source(user->name, user->pc + 2U);
    place = destination(user->name, user->pc + 4U);
    store(user->name, place, mark);
    user->pc = (unsigned short) (user->pc + 6);
}

/* MOV @#1010,R0 */
static void read_mark(struct user *user)
{
    unsigned short place;

    fetch(user->name, user->pc);
    place = source(user->name, user->pc + 2U);
    user->r0 = source(user->name, place);
    user->pc = (unsigned short) (user->pc + 4);
}

/* MOV R0,@#2004 */
static void store_r0(struct user *user)
{
    unsigned short place;

    fetch(user->name, user->pc);
    place = destination(user->name, user->pc + 2U);
    store(user->name, place, user->r0);
    user->pc = (unsigned short) (user->pc + 4);
}

/* A user's program, in the physical page of its user page 0. */
static void load_program(unsigned long place, unsigned mark)
{
    put_word(place, 012737);            /* MOV #mark,@#1010 */
    put_word(place + 2, mark);
    put_word(place + 4, VIRTUAL_MARK);
    put_word(place + 6, 013700);        /* MOV @#1010,R0 */
    put_word(place + 010, VIRTUAL_MARK);
    put_word(place + 012, 010037);      /* MOV R0,@#2004 */
    put_word(place + 014, 02004);
}

/*
 * Map words: bit 15 resident, 14 public, 13 write-enabled, the physical page in 8-0. A page up to N has its word at
 * 512*M + 256 + 2*page, in the page M of its own register; an exec page beyond N at 512*M + 2*page, in KTUM's.
 */
static void load_maps(void)
{
    put_word(01412, 0120005);           /* exec page 5: user 001's map */
    put_word(01414, 0120006);           /* exec page 6: user 041's map */
    put_word(05376, 0120777);           /* exec page 127 while user 001's map is in KTUM: the registers */
    put_word(05400, 0120020);           /* user 001, page 0: physical page 20 */
    put_word(05402, 0120021);           /* page 1: physical page 21 */
    put_word(05404, 0020022);           /* page 2: physical page 22, not resident */
    put_word(06376, 0120777);           /* exec page 127 while user 041's map is in KTUM */
    put_word(06400, 0120030);           /* user 041, page 0: physical page 30 */
    put_word(06402, 0120031);           /* page 1: physical page 31 */
    load_program(020000, 001);
    load_program(030000, 041);
}

/* The monitor's way through a residency violation; the page's map word is in exec page 5. */
static void make_resident(struct user *user)
{
    unsigned page, map_word;

    puts("\nThe monitor asks why, makes the page resident, and starts user 001 again.");
    source("monitor", KTCS);
    page = source("monitor", KTAD) / 512U;
    user->pc = source("monitor", KTIC);
    map_word = source("monitor", 05400 + 2 * page);
    store("monitor", 05400 + 2 * page, 0100000 | map_word);
    store("monitor", KTPC, user->pc);
    start(user);
}

static void show_core_and_cells(void)
{
    unsigned long cell, cells = KT11B_REPLY_DATA(kt11b_cells(unit));

    puts("\nIn core now, and in the cells:");
    printf("core 021010 holds %06o\n", word_at(021010));
    printf("core 031010 holds %06o\n", word_at(031010));
    printf("core 022004 holds %06o\n", word_at(022004));
    printf("counter %o, waiting for %d\n", (unsigned) KT11B_REPLY_DATA(kt11b_counter(unit)),
        (int) KT11B_REPLY_DATA(kt11b_wait(unit)));
    for (cell = 0; cell < cells; cell++) {
        unsigned tag = KT11B_REPLY_DATA(kt11b_cell_tag(unit, cell));
        unsigned word = KT11B_REPLY_DATA(kt11b_cell_word(unit, cell));

        printf("cell %lo: tag %03o, word %06o\n", 010 + cell, tag, word);
    }
}

static void two_marks(void)
{
    puts("\nUser 001 is started.");
    start_from_saved(&user_001);
    puts("\nUser 001 stores its mark: MOV #1,@#1010.");
    store_mark(&user_001);
    interrupt(&user_001);
    switch_to(&user_041);
    puts("\nUser 041 stores its mark at the same address: MOV #41,@#1010.");
    store_mark(&user_041);
    interrupt(&user_041);
    switch_to(&user_001);
    puts("\nUser 001 reads its mark back: MOV @#1010,R0.");
    read_mark(&user_001);
    interrupt(&user_001);
    switch_to(&user_041);
    puts("\nUser 041 reads its mark back: MOV @#1010,R0.");
    read_mark(&user_041);
    interrupt(&user_041);
}

static void a_page_not_in_core(void)
{
    switch_to(&user_001);
    puts("\nUser 001 stores in a page that is not in core: MOV R0,@#2004.");
    store_r0(&user_001);
    service_stores(&user_001);
    make_resident(&user_001);
    puts("\nUser 001 does the whole instruction again.");
    store_r0(&user_001);
}

int main(void)
{
    if (KT11B_REPLY_ANSWER(kt11b_fresh(unit, KT11B_CELLS_8)) != KT11B_DONE) {
        puts("No unit was made.");
        return 1;
    }
    load_maps();
    puts("Two users, 001 and 041, with a map each. All numbers are octal.\n");
    puts("who      does        address data     ANS DATA   PHYS   KTCS\n");
    puts("The monitor names its own map and user 001's, and begins paging.");
    store("monitor", KTEM, 020001);
    store("monitor", KTUM, user_001.map);
    store("monitor", KTCS, 2);
    two_marks();
    a_page_not_in_core();
    show_core_and_cells();
    return 0;
}
