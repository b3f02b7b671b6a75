/*
 * What docs/HOSTS.md says an emulator has to do, done: its C blocks, taken out into hosts.c, are run here, and what they leave
 * is compared with the rules. Each test begins with a machine of its own.
 */
#include "hosts.c"

#define PROGRAM "guide"
#include "check.h"

#define DESTINATION KT11B_DESTINATION
#define EXECUTE KT11B_EXECUTE
#define SERVICE KT11B_SERVICE

/* How many cells the machine's unit is made with: the whole guide is gone through with either number. */
static unsigned long made_with;

static unsigned reg(unsigned long number)
{
    return KT11B_REPLY_DATA(kt11b_register(unit, number));
}

static int waits_for(void)
{
    return KT11B_REPLY_DATA(kt11b_wait(unit));
}

static int read_word(unsigned long state, unsigned short address)
{
    unsigned short word;

    return bus(KT11B_DATI, state, KT11B_WORD, address, 0, &word);
}

static int write_word(unsigned long state, unsigned short address, unsigned short data)
{
    unsigned short none;

    return bus(KT11B_DATO, state, KT11B_WORD, address, data, &none);
}

/*
 * A fresh machine. KTEM is 177001 (N=177, M=1), so every exec page is simple: exec page 0 is physical page 1, exec page 1 page 2,
 * exec page 2 the registers. KTUM is 100005 (N=100, M=5), so user pages 0 to 100 are: user page 0 is physical page 20, page 1 is
 * page 21, page 2 is page 22 and not resident, page 3 is page 21 and read-only. Vector 4 is 000200 and 000340, of the bare machine
 * and, in physical page 1, of the exec; vector 34 of the user is 000300 and 000357. All of these numbers are octal.
 */
static void new_machine(void)
{
    memset(core, 0, sizeof core);
    memset(r, 0, sizeof r);
    ps = 0;
    put_core_word(01402, 0160002), put_core_word(01404, 0160777);
    put_core_word(05400, 0120020), put_core_word(05402, 0120021), put_core_word(05404, 0020022);
    put_core_word(05406, 0100021);
    put_core_word(04, 0200), put_core_word(06, 0340);
    put_core_word(01004, 0200), put_core_word(01006, 0340);
    put_core_word(020034, 0300), put_core_word(020036, 0357);
    check(power_on(made_with) && running, "the machine is on");
    check(write_word(EXECUTE, 0177616, 0177001) == KT11B_DONE, "KTEM is stored");
    check(write_word(EXECUTE, 0177614, 0100005) == KT11B_DONE, "KTUM is stored");
}

static void exec_paged(void)
{
    new_machine();
    check(write_word(EXECUTE, 0177576, 2) == KT11B_DONE && ktcs() == 2, "FCN 2");
}

/* The monitor starts a user at 000100 with status 000017 and stack pointer 000700, by RTI. */
static void user_runs(void)
{
    new_machine();
    write_word(EXECUTE, 0177604, 0100);
    write_word(EXECUTE, 0177606, 0017);
    write_word(EXECUTE, 0177576, 3);
    ps = 0340;
    r[6] = 0674;
    check(rti() == KT11B_DONE, "the RTI that starts a user is done");
    check(r[7] == 0100 && ps == 0017 && r[6] == 0700, "it takes KTPC, the whole of KTPS, and 4 more for R6");
    check(ktcs() == 022, "UM and FCN 2");
}

/* "Reads give the whole word at the even address." */
static void one_access(void)
{
    unsigned short word;

    new_machine();
    put_core_word(02000, 0123456);
    check(bus(KT11B_DATI, EXECUTE, KT11B_WORD, 02000, 0, &word) == KT11B_DONE && word == 0123456, "a word is read");
    check(bus(KT11B_DATI, EXECUTE, KT11B_BYTE, 02001, 0, &word) == KT11B_DONE && word == 0123456, "of a byte too");
    check(byte_at(02001, word) == 0247 && byte_at(02000, word) == 0056, "the odd address has the high byte");
    check(bus(KT11B_DATO, EXECUTE, KT11B_BYTE, 02000, 0, &word) == KT11B_MISSHAPEN, "DATO of a byte");
    check(bus(KT11B_DATI, KT11B_FETCH, KT11B_BYTE, 02000, 0, &word) == KT11B_MISSHAPEN, "a fetch of a byte");
}

/* "A refusal ... 3 unpaged odd word ... nothing": no wait, the trap call first, and the stores go to the exec's own stack. */
static void unpaged_odd_word(void)
{
    new_machine();
    r[6] = 0700, r[7] = 0500, ps = 0011;
    check(read_word(EXECUTE, 0101) == KT11B_UNPAGED_ODD && !unit_waits(), "3 leaves the unit as it was");
    check(KT11B_REPLY_ANSWER(kt11b_trap(unit, 4)) == KT11B_DONE, "the trap call is taken");
    check(goes_on(KT11B_UNPAGED_ODD) == 0 && running, "the processor traps and runs");
    check(r[7] == 0200 && ps == 0340 && r[6] == 0674, "through 4");
    check(core_word(0676) == 0011 && core_word(0674) == 0500, "status and program counter are on the stack");
}

/* "unpaged: step 4, KTAD, KTDT": no wait. */
static void unpaged_time_out(void)
{
    new_machine();
    r[6] = 0700, r[7] = 0500;
    check(read_word(EXECUTE, 0160000) == KT11B_TIME_OUT && !unit_waits(), "an unpaged 9 does not wait");
    check(bus_error() && r[7] == 0200 && core_word(0674) == 0500, "and traps through 4 on the exec's stack");
}

/* After an unpaged 9 of a user the trap call is what begins the wait. */
static void unpaged_time_out_of_a_user(void)
{
    user_runs();
    put_core_word(05410, 0120777);
    check(write_word(EXECUTE, 04576, 0) == KT11B_DONE && ktcs() == 020, "a user that may stores FCN 0");
    r[6] = 0700, r[7] = 0102, ps = 0017;
    check(read_word(EXECUTE, 0160000) == KT11B_TIME_OUT && !unit_waits() && ktcs() == 020, "UM stays");
    check(bus_error() && r[7] == 0200, "the trap");
    check(reg(KT11B_KTPS) == 0017 && reg(KT11B_KTSP) == 0674 && reg(KT11B_KTPC) == 0102, "went to the registers");
    check(core_word(0674) == 0 && core_word(0676) == 0, "and not to memory");
}

/* One violation of a user, with the wait and the trap after it. */
static void violation(int answer, int expected, unsigned flag)
{
    check(answer == expected, "the violation that was worked out");
    check(waits_for() == KT11B_WAIT_STATUS && (ktcs() & 0174000) == flag, "the unit waits, with its flag");
    check(KT11B_REPLY_ANSWER(kt11b_trap(unit, 4)) == KT11B_NOT_DUE, "the trap call is not due");
    check(read_word(SERVICE, 4) == KT11B_NOT_DUE, "the vector before the stores is not due");
    r[6] = 0700, r[7] = 0104, ps = 0017;
    check(goes_on(answer) == 0 && running && r[7] == 0200 && ps == 0340, "the trap goes through the exec's vector");
    check(reg(KT11B_KTPS) == 0017 && reg(KT11B_KTSP) == 0674 && reg(KT11B_KTPC) == 0104, "KTPS, KTSP and KTPC");
    check(!unit_waits() && core_word(020674) == 0 && core_word(020676) == 0, "the user's stack is untouched");
}

static void paged_refusals(void)
{
    unsigned short none;

    user_runs();
    violation(read_word(EXECUTE, 0101), KT11B_AV, KT11B_KTCS_AV);
    user_runs();
    violation(read_word(EXECUTE, 02000), KT11B_RV, KT11B_KTCS_RV);
    user_runs();
    violation(write_word(EXECUTE, 03000, 1), KT11B_WV, KT11B_KTCS_WV);
    user_runs();
    put_core_word(05400, 0160020), put_core_word(020100, 012700);
    check(read_word(KT11B_FETCH, 0100) == KT11B_DONE, "a fetch from a public page");
    violation(read_word(EXECUTE, 01000), KT11B_PV, KT11B_KTCS_PV);
    user_runs();
    violation(bus(KT11B_DATI, KT11B_FETCH, KT11B_WORD, 0100, 0, &none), KT11B_IV, KT11B_KTCS_IV);
    user_runs();
    put_core_word(05410, 0120776);
    violation(read_word(EXECUTE, 04000), KT11B_TIME_OUT, 0);
}

/* User page 101 is the first that is not simple: its pointer, at 005602, names physical page 200, which is past core. */
static void user_with_a_wild_pointer(void)
{
    user_runs();
    put_core_word(05602, 0000200);
}

/* "10 takes 9's place at step 6": the trap is that of a violation, and the map registers tell where to look. */
static void off_the_map(void)
{
    user_with_a_wild_pointer();
    violation(read_word(EXECUTE, 0101010), KT11B_OFF_MAP, 0);
    check(reg(KT11B_KTAD) == 0101010, "KTAD has the virtual address");
    check(!past_core(KT11B_KTUM) && !past_core(KT11B_KTEM), "both maps are in core, so it was the pointer");

    exec_paged();
    check(write_word(EXECUTE, 02614, 0100200) == KT11B_DONE && write_word(EXECUTE, 02610, 01010) == KT11B_DONE,
        "a user map past core, and a window on user page 1");
    check(read_word(EXECUTE, 02572) == KT11B_OFF_MAP && reg(KT11B_KTAD) == 01010, "the inner walk: KTAD is its address");
    check(past_core(KT11B_KTUM) && !past_core(KT11B_KTEM), "and KTUM is to blame");

    new_machine();
    check(write_word(EXECUTE, 0177616, 0177200) == KT11B_DONE && write_word(EXECUTE, 0177576, 2) == KT11B_DONE,
        "an exec map past core");
    check(read_word(EXECUTE, 01010) == KT11B_OFF_MAP && past_core(KT11B_KTEM), "KTEM is to blame");
}

/*
 * A machine with these map registers. Each place of the maps names a physical page: 20 the exec's words, 21 the exec's words in the
 * user's map, 22 the user's words. 160022 is also a pointer, with n=160 and m=22: it leads to 022740, where the word names page 23.
 */
static void new_maps(unsigned exec_last, unsigned user_last)
{
    unsigned page;

    new_machine();
    for (page = 0; page <= 0177; page++) {
        put_core_word(01400 + 2 * page, 0160020);
        put_core_word(05000 + 2 * page, 0160021);
        put_core_word(05400 + 2 * page, 0160022);
    }
    put_core_word(022740, 0160023);
    check(write_word(EXECUTE, 0177616, (unsigned short) (exec_last << 9 | 1)) == KT11B_DONE, "KTEM is stored");
    check(write_word(EXECUTE, 0177614, (unsigned short) (user_last << 9 | 5)) == KT11B_DONE, "KTUM is stored");
}

/* The reply of a read at offset 10 of a page. */
static unsigned long read_page(unsigned page)
{
    return kt11b_access(unit, core, sizeof core, KT11B_DATI, EXECUTE, KT11B_WORD, (unsigned short) (page << 9 | 010), 0);
}

static unsigned long place_of(unsigned page)
{
    unsigned long reply = read_page(page);

    check(KT11B_REPLY_ANSWER(reply) == KT11B_DONE && KT11B_REPLY_HAS_PHYSICAL(reply), "a page of the maps is read");
    return KT11B_REPLY_PHYSICAL(reply);
}

static void begin_paging(void)
{
    check(write_word(EXECUTE, 0177576, 2) == KT11B_DONE && ktcs() == 2, "the exec is paged");
}

static void begin_user(void)
{
    check(write_word(EXECUTE, 0177576, 3) == KT11B_DONE, "FCN 3");
    check(read_word(EXECUTE, 0) == KT11B_DONE && read_word(EXECUTE, 0) == KT11B_DONE && ktcs() == 022, "a user is started");
}

/* By the answers: where nothing is resident beyond N, page N is read all the same, and page N + 1 is answered 5. */
static void refused_beyond(unsigned last)
{
    check(KT11B_REPLY_ANSWER(read_page(last)) == KT11B_DONE, "page N is simple");
    check(last == 0177 || KT11B_REPLY_ANSWER(read_page(last + 1)) == KT11B_RV, "page N + 1 is beyond");
}

/* "exec pages by KTEM's N": KTUM's is as far from the other end. Exec page 0 is not walked. */
static void exec_boundary(unsigned last)
{
    unsigned page;

    new_maps(last, 0177 - last);
    begin_paging();
    check(place_of(0) == 01010, "exec page 0 is page M of KTEM");
    for (page = 1; page <= 0177; page++) {
        check(place_of(page) == (page <= last ? 020010UL : 021010UL), "exec pages up to N are simple, others the process's");
    }
    memset(core + 05000, 0, 0400);
    reset();
    begin_paging();
    refused_beyond(last);
}

/* "user pages by KTUM's N", page 0 among them. */
static void user_boundary(unsigned last)
{
    unsigned page;

    new_maps(0177 - last, last);
    begin_user();
    for (page = 0; page <= 0177; page++) {
        check(place_of(page) == (page <= last ? 022010UL : 023010UL), "user pages up to N are simple, others shared");
    }
    put_core_word(022740, 0);
    reset();
    begin_user();
    refused_beyond(last);
}

/* "Pages 0 to N are simple .. N = 0 is one page (page 0). N = 127 is all pages": 127 is 177. */
static void boundaries(void)
{
    static const unsigned lasts[] = {0, 1, 4, 0100, 0176, 0177};
    unsigned long index;

    for (index = 0; index < sizeof lasts / sizeof lasts[0]; index++) {
        exec_boundary(lasts[index]);
        user_boundary(lasts[index]);
    }
}

/* A stack whose map word is past core: exec page 177 is not simple by KTEM 100001, so its word is in KTUM's page. */
static void stack_off_the_map(void)
{
    exec_paged();
    check(write_word(EXECUTE, 02616, 0100001) == KT11B_DONE && write_word(EXECUTE, 02614, 0100200) == KT11B_DONE,
        "the maps are stored");
    r[6] = 0177700, r[7] = 0500, ps = 0011;
    check(trap(030) && r[7] == 0200 && ps == 0340, "the trap through 4 takes the place of EMT's");
    check(reg(KT11B_KTAD) == 0177676 && reg(KT11B_KTPC) == 0500, "its stores go to the registers");
}

/* "bus errors on bus errors" halt the processor. */
static void second_bus_error(void)
{
    new_machine();
    r[6] = 0701;
    check(read_word(EXECUTE, 0160000) == KT11B_TIME_OUT, "a time-out");
    check(goes_on(KT11B_TIME_OUT) == 0 && !running, "an odd stack pointer in the trap through 4 halts");
    new_machine();
    r[6] = 0701;
    check(trap(030) == 0, "so does the trap through 4 after one in the trap of EMT");
    exec_paged();
    r[6] = 0701;
    check(trap(4) && r[7] == 0200 && (ktcs() & KT11B_KTCS_AV), "the first one in an illegal instruction's trap is served");
}

/* What `state` the store of MOV R0,(R1)+ has decides whether a monitor that goes by DS takes R1 back. */
static unsigned restarted_store(unsigned long state)
{
    user_runs();
    put_core_word(020100, 010021);
    r[0] = 0123, r[1] = 02000;
    check(read_word(KT11B_FETCH, 0100) == KT11B_DONE, "the instruction is fetched");
    check(goes_on(mov_r0_to_r1_stepping(state)) == 0 && running, "its store is stopped");
    check(reg(KT11B_KTIC) == 0100 && (ktcs() & KT11B_KTCS_RV), "KTIC has the instruction");
    r[1] -= ktcs() & KT11B_KTCS_DS ? 2 : 0;
    check(write_word(EXECUTE, 02604, 0100) == KT11B_DONE, "KTPC takes KTIC for the restart");
    put_core_word(05404, 0120022);
    r[6] = (unsigned short) reg(KT11B_KTSP);
    check(write_word(EXECUTE, 02576, 3) == KT11B_DONE && rti() == KT11B_DONE && r[7] == 0100, "the user is restarted");
    check(read_word(KT11B_FETCH, 0100) == KT11B_DONE && mov_r0_to_r1_stepping(state) == KT11B_DONE, "the store is done");
    return core_word(022000) == 0123 ? 0 : core_word(022002) == 0123 ? 2 : 1;
}

static void state_of_a_store(void)
{
    check(restarted_store(DESTINATION) == 0, "with DESTINATION the restarted store lands where it should");
    check(restarted_store(EXECUTE) == 2, "with EXECUTE it lands one word further on");
}

/* "FCN 3: interrupt, trap" give 2; so does an interrupt in the wait. */
static void held_interrupt(void)
{
    new_machine();
    check(may_interrupt(), "a fresh machine can be interrupted");
    write_word(EXECUTE, 0177576, 3);
    check(!may_interrupt() && interrupt(0100) == 0, "in FCN 3 it is held");
    check(trap(030) == 0 && write_word(SERVICE, 0676, 0) == KT11B_NOT_DUE, "a trap in FCN 3 has no way on");
    check(read_word(EXECUTE, 0) == KT11B_DONE && !may_interrupt(), "between the START reads it is held");
    check(read_word(EXECUTE, 0) == KT11B_DONE && may_interrupt(), "and after them it is taken");
    check(read_word(EXECUTE, 0101) == KT11B_AV && !may_interrupt() && interrupt(0100) == 0, "in the wait it is held");
}

/* "Interrupt: IU takes UM; from user mode UM clears, ... and the same wait begins." */
static void end_of_a_turn(void)
{
    user_runs();
    put_core_word(01100, 0400), put_core_word(01102, 0300);
    check(interrupt(0100) && r[7] == 0400 && ps == 0300, "the clock's vector is the exec's");
    check(ktcs() == 042 && reg(KT11B_KTPC) == 0100 && reg(KT11B_KTPS) == 0017, "the user's words are in the registers");
    check(reg(KT11B_KTSP) == 0674, "KTSP is the user's stack pointer less 4");
    check(write_word(EXECUTE, 02614, 0100006) == KT11B_DONE && reg(KT11B_KTUM) == 0100006, "another user's map");
    check(KT11B_REPLY_DATA(kt11b_counter(unit)) == 010, "empties the cells");
}

/* A user's RTI and a user's own TRAP leave the priority, and TRAP leaves the T bit. */
static void priority_of_a_user(void)
{
    user_runs();
    put_core_word(020700, 0110), put_core_word(020702, 0377);
    check(rti() == KT11B_DONE && r[7] == 0110 && ps == 0037 && r[6] == 0704, "a user's RTI");

    user_runs();
    put_core_word(020100, 0104400);
    check(read_word(KT11B_FETCH, 0100) == KT11B_DONE, "a user's TRAP");
    r[7] = 0102, ps = 0020;
    check(trap(034) && ktcs() == (022 | KT11B_KTCS_SS | KT11B_KTCS_DS), "stays in user mode");
    check(r[7] == 0300 && ps == 0037 && core_word(020676) == 0020, "goes through the user's vector, T bit as it was");

    put_core_word(020300, 0104777), put_core_word(01034, 0600), put_core_word(01036, 0340);
    check(read_word(KT11B_FETCH, 0300) == KT11B_DONE && trap(034), "a second TRAP in a row");
    check(r[7] == 0600 && ps == 0340 && ktcs() == 042, "goes to the monitor, with the whole status");
}

/* "INIT clears KTCS": the next fetch is unpaged. */
static void reset_of_a_monitor(void)
{
    unsigned short word;

    exec_paged();
    put_core_word(01010, 5), put_core_word(012, 0240), put_core_word(01012, 0241);
    check(bus(KT11B_DATI, KT11B_FETCH, KT11B_WORD, 010, 0, &word) == KT11B_DONE && word == 5, "a paged RESET is fetched");
    reset();
    check(bus(KT11B_DATI, KT11B_FETCH, KT11B_WORD, 012, 0, &word) == KT11B_DONE && word == 0240, "then unpaged");
}

/* "9 has none", and nor has 10: the monitor's first fetch takes KTIC, SS and DS. */
static void left_without_a_flag(unsigned short address, int expected)
{
    int answer;

    user_with_a_wild_pointer();
    put_core_word(05410, 0120776), put_core_word(020100, 012700);
    read_word(KT11B_FETCH, 0100);
    answer = read_word(DESTINATION, address);
    check(answer == expected && goes_on(answer) == 0 && (ktcs() & KT11B_KTCS_DS), "DS is set at step 4");
    check(read_word(KT11B_FETCH, r[7]) == KT11B_DONE, "the monitor's first fetch");
    check(reg(KT11B_KTIC) == 0200 && !(ktcs() & KT11B_KTCS_DS), "takes KTIC and clears DS");
}

/* With a flag it takes neither. */
static void what_is_left(void)
{
    left_without_a_flag(004000, KT11B_TIME_OUT);
    left_without_a_flag(0101000, KT11B_OFF_MAP);

    user_runs();
    put_core_word(020100, 012700);
    read_word(KT11B_FETCH, 0100);
    check(goes_on(read_word(DESTINATION, 02000)) == 0, "a violation");
    check(read_word(KT11B_FETCH, r[7]) == KT11B_DONE, "and the monitor's first fetch");
    check(reg(KT11B_KTIC) == 0100 && (ktcs() & KT11B_KTCS_DS), "leave KTIC and DS");
}

/* A device's access leaves the unit as an access to KTMR in the same page does, and the device has its data. */
static void device_registers(void)
{
    unsigned short word;

    new_machine();
    ps = 0345;
    check(bus_with_devices(KT11B_DATI, EXECUTE, KT11B_WORD, 0177776, 0, &word) == KT11B_DONE && word == 0345, "unpaged");
    check(reg(KT11B_KTAD) == 0, "no time-out was left behind");
    check(bus_with_devices(KT11B_DATI, EXECUTE, KT11B_WORD, 0177560, 0, &word) == KT11B_TIME_OUT, "nobody is there");
    check(reg(KT11B_KTAD) == 0177560, "and that is a time-out");

    exec_paged();
    check(bus_with_devices(KT11B_DATO, DESTINATION, KT11B_WORD, 02776, 0340, &word) == KT11B_DONE && ps == 0340, "paged");
    check(ktcs() == (2 | KT11B_KTCS_DS) && !unit_waits(), "DS is set by step 4, and no violation is left");
    check(KT11B_REPLY_DATA(kt11b_cell_word(unit, 0)) == 0160777 && reg(KT11B_KTMR) == 011 * 256, "the walk is kept");
    check(bus_with_devices(KT11B_DATOB, DESTINATION, KT11B_BYTE, 02777, 1, &word) == KT11B_DONE && ps == 0740, "a byte");
    check(bus_with_devices(KT11B_DATI, DESTINATION, KT11B_WORD, 02560, 0, &word) == KT11B_TIME_OUT, "nobody, paged");
    check(waits_for() == KT11B_WAIT_STATUS, "is a violation");

    user_runs();
    put_core_word(05410, 0120777);
    check(bus_with_devices(KT11B_DATO, EXECUTE, KT11B_WORD, 04776, 0357, &word) == KT11B_DONE, "a user's store into it");
    check(ps == 0017, "leaves the priority");
}

/* An access at exec 002776, whose page has this map word, after the fetch of an instruction. */
static void access_after(unsigned short fetched, unsigned short map_word, unsigned long operation, unsigned long state)
{
    unsigned short word;
    unsigned long width = operation == KT11B_DATOB ? KT11B_BYTE : KT11B_WORD;

    exec_paged();
    put_core_word(01404, map_word), put_core_word(01100, fetched);
    check(read_word(KT11B_FETCH, 0100) == KT11B_DONE, "the instruction is fetched");
    check(bus_with_devices(operation, state, width, 02776, 0123, &word) == KT11B_DONE, "the access is done");
}

/* After a device's access the unit is, word for word, what it is after the same access to memory, but for the map word in its cell. */
static void device_as_memory(unsigned short fetched)
{
    unsigned short after_device[KT11B_UNIT_WORDS];
    unsigned long operation, state;

    for (operation = KT11B_DATI; operation <= KT11B_DATOB; operation++) {
        for (state = KT11B_SOURCE; state <= KT11B_SERVICE; state++) {
            int place, differing = 0;

            access_after(fetched, 0160777, operation, state);
            memcpy(after_device, unit, sizeof unit);
            access_after(fetched, 0160100, operation, state);
            for (place = 0; place < KT11B_UNIT_WORDS; place++) {
                differing += after_device[place] != unit[place];
            }
            check(differing == 1, "a device's access is as one to memory");
        }
    }
}

/* What the copy can't do is answered as without it: 9, and 10 where a map word is missing. */
static void devices_out_of_reach(void)
{
    unsigned short word;

    exec_paged();
    put_core_word(01406, 0160776);
    check(bus_with_devices(KT11B_DATI, DESTINATION, KT11B_WORD, 03776, 0, &word) == KT11B_TIME_OUT, "page 776");
    exec_paged();
    check(bus_with_devices(KT11B_DATI, KT11B_FETCH, KT11B_WORD, 02776, 0, &word) == KT11B_TIME_OUT, "a fetch");
    exec_paged();
    put_core_word(05412, 0120777);
    check(write_word(EXECUTE, 02610, 05776) == KT11B_DONE, "KTAD is the user's way to 777776");
    check(bus_with_devices(KT11B_DATI, EXECUTE, KT11B_WORD, 02572, 0, &word) == KT11B_TIME_OUT, "through the window");
    exec_paged();
    check(write_word(EXECUTE, 02616, 0177777) == KT11B_DONE, "the exec's map in the registers' page");
    check(bus_with_devices(KT11B_DATI, DESTINATION, KT11B_WORD, 01776, 0, &word) == KT11B_OFF_MAP, "no map word is a device's");
    check(waits_for() == KT11B_WAIT_STATUS && reg(KT11B_KTAD) == 01776, "and the 10 is left as it is");
}

static void a_question(void)
{
    unsigned short before[KT11B_UNIT_WORDS], word;

    exec_paged();
    put_core_word(02004, 0123);
    memcpy(before, unit, sizeof before);
    check(examine(01004, &word) && word == 0123, "the word at exec 001004");
    check(!examine(03000, &word), "exec page 3 is not resident");
    check(memcmp(before, unit, sizeof before) == 0, "nothing has changed");
    check(read_word(EXECUTE, 0101) == KT11B_AV && !examine(01004, &word), "in the wait it is not asked");
    new_machine();
    write_word(EXECUTE, 0177576, 3);
    check(!examine(01004, &word) && waits_for() == KT11B_WAIT_NOTHING, "in FCN 3 it is not asked");
}

/* A store of 000123 at 002000 by the instruction at 000100, which is stopped: host/test knows the line that this prints. */
static void a_trace(void)
{
    user_runs();
    put_core_word(020100, 010021);
    read_word(KT11B_FETCH, 0100);
    r[7] = 0102;
    check(goes_on(write_word(DESTINATION, 02000, 0123)) == 0 && running, "a violation is served");
    print_violation();
}

/* "Every other number gives 30 and no unit"; "leaves the host's words as they were, .. also a unit that stood there" */
static void making(void)
{
    unsigned short before[KT11B_UNIT_WORDS];

    exec_paged();
    memcpy(before, unit, sizeof before);
    check(!power_on(16) && !running, "a machine with 16 cells does not come on");
    check(memcmp(before, unit, sizeof before) == 0, "and the unit that stood there is as it was");
    check(power_on(made_with) && running && ktcs() == 0, "a new unit is made in its place");
    check(KT11B_REPLY_DATA(kt11b_cells(unit)) == made_with, "with the cells that were asked for");
}

/* Thirty pages, more than there are cells: from exec page 3 on, whose map word stands at 001406. Page 2 is the registers. */
static void cells_of_the_unit(void)
{
    unsigned walks, page;

    exec_paged();
    check(cells_in_use() == 0, "the cells are empty");
    for (walks = 1; walks <= 30; walks++) {
        page = 2 + walks;
        put_core_word(01400 + 2 * page, 0120001);
        check(read_word(EXECUTE, (unsigned short) (01000 * page)) == KT11B_DONE, "a page is read");
        check(cells_in_use() == (walks < made_with ? walks : made_with), "and takes a cell, until all are in use");
    }
    check(write_word(EXECUTE, 02616, 0177001) == KT11B_DONE && cells_in_use() == 0, "a store into KTEM empties them all");
}

/* 777640 to 777677 are nowhere for a unit with 8 cells, and registers of one with 24; 777700 on is nowhere for both. */
static void last_scratchpad_words(void)
{
    int there = made_with == KT11B_CELLS_24 ? KT11B_DONE : KT11B_TIME_OUT;

    new_machine();
    check(read_word(EXECUTE, 0177636) == KT11B_DONE, "777636 is a register");
    check(read_word(EXECUTE, 0177640) == there && read_word(EXECUTE, 0177676) == there, "777640 and 777676");
    check(read_word(EXECUTE, 0177700) == KT11B_TIME_OUT, "777700 is nowhere");
}

static void save_and_restore(void)
{
    struct saved kept, other;

    user_runs();
    save(&kept);
    check(read_word(EXECUTE, 0101) == KT11B_AV, "the unit goes on");
    check(restore(&kept) && ktcs() == 022 && !unit_waits(), "and is put back");
    other = kept;
    other.version = KT11B_VERSION + 1;
    check(!restore(&other) && ktcs() == 022, "a later version is refused");
    for (other.version = 1; other.version < KT11B_VERSION; other.version++) {
        check(!restore(&other) && ktcs() == 022, "an older version is refused");
    }
    other = kept;
    other.words[0] ^= 1;
    check(!restore(&other) && ktcs() == 022, "another layout is refused");
    check(power_on(KT11B_CELLS_8 + KT11B_CELLS_24 - made_with) && restore(&kept) && ktcs() == 022, "over the other number");
    check(KT11B_REPLY_DATA(kt11b_cells(unit)) == made_with, "a unit has the cells that it was saved with");
}

/*
 * A unit as version 3 left it: KTEM's N is 1, and the cell of exec page 1 has the word from KTUM's page, which names page 3. It is
 * put into the cell by way of the bus: in FCN 1 EXECUTE is paged, and SOURCE is not.
 */
static void saved_by_version_3(struct saved *kept)
{
    new_machine();
    put_core_word(05002, 0160003);
    check(write_word(EXECUTE, 0177616, 0001001) == KT11B_DONE && write_word(EXECUTE, 0177576, 1) == KT11B_DONE, "N=1 and FCN 1");
    check(place_of(1) == 02010, "page 1 is simple now");
    check(write_word(KT11B_SOURCE, 0177620, core_word(05002)) == KT11B_DONE, "and was not then");
    save(kept);
    kept->version = 3;
}

/* "such a page would go on by the older rule": so the session is begun again, by INIT. */
static void an_older_session(void)
{
    struct saved kept;

    saved_by_version_3(&kept);
    check(place_of(1) == 03010, "taken on as they stand, the words go by the cell");
    for (kept.version = 2; kept.version <= 3; kept.version++) {
        check(!restore(&kept) && cells_in_use() == 1, "they are not restored");
        check(begin_again(&kept) && ktcs() == 0 && cells_in_use() == 0, "INIT empties the cells, and paging is off");
        check(reg(KT11B_KTEM) == 0001001 && reg(KT11B_KTUM) == 0100005, "the map registers stay");
        check(write_word(EXECUTE, 0177576, 1) == KT11B_DONE && place_of(1) == 02010, "page 1 is walked, and is simple");
    }
}

/* A line says of which version the words are, or that they are none. */
static void what_the_user_is_told(void)
{
    struct saved kept;
    char why[80];

    saved_by_version_3(&kept);
    check(cannot_restore(&kept, why) && strstr(why, "saved by version 3,") != NULL, "the version is told");
    kept.words[0] ^= 1;
    check(!begin_again(&kept) && ktcs() == 1, "words that don't hold a unit are not begun with");
    kept.version = KT11B_VERSION;
    check(cannot_restore(&kept, why) && strstr(why, "don't hold a unit") != NULL, "nor restored");
    kept.words[0] ^= 1;
    check(!cannot_restore(&kept, why) && !begin_again(&kept) && ktcs() == 1, "those of this version are restored alone");
    kept.version = 1;
    check(!begin_again(&kept) && ktcs() == 1, "those of version 1 have another layout");
}

static void whole_guide(void)
{
    making();
    cells_of_the_unit();
    last_scratchpad_words();
    one_access();
    unpaged_odd_word();
    unpaged_time_out();
    unpaged_time_out_of_a_user();
    paged_refusals();
    off_the_map();
    boundaries();
    stack_off_the_map();
    second_bus_error();
    state_of_a_store();
    held_interrupt();
    end_of_a_turn();
    priority_of_a_user();
    reset_of_a_monitor();
    what_is_left();
    device_registers();
    device_as_memory(0012700);
    device_as_memory(0000002);
    device_as_memory(0104400);
    devices_out_of_reach();
    a_question();
    save_and_restore();
    an_older_session();
    what_the_user_is_told();
    a_trace();
}

int main(void)
{
    made_with = KT11B_CELLS_8;
    whole_guide();
    made_with = KT11B_CELLS_24;
    whole_guide();
    return all_held();
}
