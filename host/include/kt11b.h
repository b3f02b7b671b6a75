/*
 * The KT11-B paging unit as a static library, libkt11b.a, for C and C++ on x86-64 Linux.
 *
 * The unit lives in KT11B_UNIT_WORDS words that the host owns. It holds no pointer, so the words can be copied, saved and
 * restored as they are, and there can be as many units as the host wants. The host lends its memory anew with each access:
 * bytes, low byte first, as many as the access is told. Nothing is kept of it between calls, nothing is allocated, and no
 * function has state of its own; two threads may call at once where neither the unit nor the memory is shared.
 *
 * Every call answers, for every number and for every content of the words and of the memory. Words that don't hold a unit
 * (never made by kt11b_fresh, or written over) are answered KT11B_NO_UNIT, and then neither the words nor the memory change.
 * What is tested: the first and the last word, which say that a unit lies between them, and each field that has fewer values
 * than a word (KTCS's bits that read 0, the wait, the two counts, the public flag, the number of cells, and the counter, which
 * names one of them). What is not: a register, a cell's tag or a scratchpad word that was changed into another 16-bit word makes
 * another unit, and is taken for it.
 *
 * A unit has 8 or 24 associative cells, and as many words for both. In those of a unit with 8 there is room for the 16 cells that
 * it hasn't got: words 26 to 41, counted from 0, for their tags and words 50 to 65 for their scratchpad words. kt11b_fresh sets
 * them to 0, and so they stay. They are not tested, and no answer and no reading depends on them: what a host writes there changes
 * no answer, and a call may leave it or set it to 0.
 *
 * What the pointers must be is C's business and is tested by nothing: `unit` points to KT11B_UNIT_WORDS words, `memory` to
 * `length` bytes, neither is null (where length is 0, `memory` is any pointer that is not null), and the two do not overlap.
 */
#ifndef KT11B_H
#define KT11B_H

#ifdef __cplusplus
extern "C" {
#endif

/* The library takes and gives 64-bit numbers as unsigned long and 16-bit words as unsigned short. */
typedef char kt11b_long_has_64_bits[sizeof(unsigned long) == 8 ? 1 : -1];
typedef char kt11b_short_has_16_bits[sizeof(unsigned short) == 2 ? 1 : -1];

/*
 * The version of this interface. It rises with each change of a function, of an answer, of the unit's words or of what a call
 * makes of them. Words that were saved are for the same version alone. Those of versions 2 and 3 have the layout of version 4 and
 * its first word, so the library takes them for a unit; but version 4 moved the boundary of the simple pages by one, a cell may
 * hold what was read by the older one, and a page that is in a cell is not walked. So with such words kt11b_init comes before any
 * other call. Words of another layout begin with another word and are answered KT11B_NO_UNIT.
 */
#define KT11B_VERSION 4

/* The unit, with either number of cells: unsigned short unit[KT11B_UNIT_WORDS]; */
#define KT11B_UNIT_WORDS 67

/* The numbers of associative cells that a unit can be made with. kt11b_cells gives a unit's own. */
#define KT11B_CELLS_8 8UL
#define KT11B_CELLS_24 24UL

/* The most memory that can be lent, in bytes; the length is even. Other lengths are answered KT11B_MISSHAPEN. */
#define KT11B_MEMORY_MOST 0760000UL

/* Operations of the Unibus. */
#define KT11B_DATI 0UL
#define KT11B_DATIP 1UL
#define KT11B_DATO 2UL
#define KT11B_DATOB 3UL

/* The processor's states. */
#define KT11B_FETCH 0UL
#define KT11B_SOURCE 1UL
#define KT11B_DESTINATION 2UL
#define KT11B_EXECUTE 3UL
#define KT11B_SERVICE 4UL

/* Widths. */
#define KT11B_WORD 0UL
#define KT11B_BYTE 1UL

/*
 * Answers. 4 to 8 are the violations; they, 10 and a paged 9 put the unit into exec and leave it waiting for two SERVICE DATOs.
 * KT11B_TIME_OUT and KT11B_OFF_MAP say what was not there: 9 the target itself, 10 a word of the maps on the way to it, so that
 * there was no target yet. KT11B_OTHER_COUNT answers the making of a unit, and no call.
 */
#define KT11B_DONE 0            /* done */
#define KT11B_MISSHAPEN 1       /* a number that is none of those listed, a memory of a bad length, or an access of a bad shape */
#define KT11B_NOT_DUE 2         /* the unit waits for another access, or FCN is 3 */
#define KT11B_UNPAGED_ODD 3     /* a word at an odd address, unpaged */
#define KT11B_AV 4              /* address violation: a word at an odd address, paged */
#define KT11B_RV 5              /* residency violation */
#define KT11B_WV 6              /* write violation */
#define KT11B_PV 7              /* privacy violation */
#define KT11B_IV 8              /* instruction violation */
#define KT11B_TIME_OUT 9        /* nothing answers at the target's address */
#define KT11B_OFF_MAP 10        /* the walk ran off memory: no map word or pointer at that address; look at KTUM, KTEM or the
                                   pointer */
#define KT11B_OTHER_COUNT 30    /* a unit is made with 8 or 24 cells, and with no other number */
#define KT11B_NO_UNIT 70        /* the words don't hold a unit */

/*
 * Registers, by their place in the table of addresses from 777572 (octal) on. KTWN, place 0, is a window and is not read here.
 * In KTUM and KTEM the low 9 bits are the physical page of the map, and the high 7 bits the number of the last simple page.
 */
#define KT11B_KTMR 1UL
#define KT11B_KTCS 2UL
#define KT11B_KTIC 3UL
#define KT11B_KTSP 4UL
#define KT11B_KTPC 5UL
#define KT11B_KTPS 6UL
#define KT11B_KTAD 7UL
#define KT11B_KTDT 8UL
#define KT11B_KTUM 9UL
#define KT11B_KTEM 10UL

/* KTCS's fields, as masks. */
#define KT11B_KTCS_FCN 0000003U         /* function: 0 unpaged, 1 destination-only paging, 2 normal paging, 3 start user */
#define KT11B_KTCS_SS 0000004U          /* source state */
#define KT11B_KTCS_DS 0000010U          /* destination state */
#define KT11B_KTCS_UM 0000020U          /* user mode */
#define KT11B_KTCS_IU 0000040U          /* interrupted user */
#define KT11B_KTCS_RV 0004000U          /* residency violation */
#define KT11B_KTCS_PV 0010000U          /* privacy violation */
#define KT11B_KTCS_WV 0020000U          /* write violation */
#define KT11B_KTCS_AV 0040000U          /* address violation */
#define KT11B_KTCS_IV 0100000U          /* instruction violation */

/* What the unit waits for, as kt11b_wait gives it. */
#define KT11B_WAIT_NOTHING 0
#define KT11B_WAIT_STATUS 1             /* the first SERVICE DATO, which brings the processor's status */
#define KT11B_WAIT_PROGRAM_COUNTER 2    /* the second SERVICE DATO, which brings its program counter */
#define KT11B_WAIT_SECOND_READ 3        /* the second START read, which takes KTPS */

/* What kt11b_map_page gives where the page is not wholly in memory. */
#define KT11B_NO_PAGE 0xFFFFFFFFFFFFFFFFUL

/*
 * A reply is one number. Bits 0 to 15: the data, 0 where there is none. Bits 16 to 33: the physical address, and bit 34: set
 * if there is one. Bits 40 to 47: the answer. All others are 0. These take it apart.
 */
#define KT11B_REPLY_DATA(reply) ((unsigned short) ((reply) & 0xFFFFUL))
#define KT11B_REPLY_PHYSICAL(reply) (((reply) >> 16) & 0x3FFFFUL)
#define KT11B_REPLY_HAS_PHYSICAL(reply) ((int) (((reply) >> 34) & 1UL))
#define KT11B_REPLY_ANSWER(reply) ((int) (((reply) >> 40) & 0xFFUL))

/*
 * Makes a fresh unit, all zero and then INIT, with so many cells: KT11B_CELLS_8 or KT11B_CELLS_24. It is made over whatever was in
 * the words, all of them are set, and the answer is KT11B_DONE. Every other number is answered KT11B_OTHER_COUNT and leaves the
 * words as they were, also a unit that stood there. Nothing else sets the number of cells: no call changes it.
 */
unsigned long kt11b_fresh(unsigned short *unit, unsigned long cells);

/*
 * One access of the processor's: an operation, its state and width, the 16-bit address and the data of a store. The reply
 * has the word read (0 for a store) and, with KT11B_DONE and KT11B_IV of an access that is no sequence access, the physical
 * address; a read gives the whole word at the even address.
 * Answers 1, 2, 3 and KT11B_NO_UNIT leave unit and memory as they were. Answers 4 to 10 leave memory as it was and change the
 * unit as its rules say. Memory changes only by a store that is answered KT11B_DONE, in the word or byte at that address.
 */
unsigned long kt11b_access(unsigned short *unit, unsigned char *memory, unsigned long length, unsigned long operation,
    unsigned long state, unsigned long width, unsigned short address, unsigned short data);

/* A device interrupts. KT11B_NOT_DUE (while waiting, or in FCN 3) and KT11B_NO_UNIT leave the unit as it was. */
unsigned long kt11b_interrupt(unsigned short *unit);

/*
 * The processor traps through a vector: 4, 10, 14, 20, 24, 30 or 34 (octal). KT11B_MISSHAPEN for any other number,
 * KT11B_NOT_DUE and KT11B_NO_UNIT leave the unit as it was.
 */
unsigned long kt11b_trap(unsigned short *unit, unsigned long vector);

/* The bus signal INIT. It is always accepted, but for KT11B_NO_UNIT, which leaves the words as they were. */
unsigned long kt11b_init(unsigned short *unit);

/*
 * For a front panel or a debugger. These change nothing; the reply's data is what is asked for. KT11B_NO_UNIT if the words
 * don't hold a unit; KT11B_MISSHAPEN where the number is none of the registers' (KT11B_KTMR to KT11B_KTEM) or the index not
 * below the unit's own number of cells, which kt11b_cells gives. Cell i, from 0 on, is the one that the counter names at 10 + i
 * (octal), and the bus has its scratchpad word at 777620 + 2i (octal).
 */
unsigned long kt11b_cells(const unsigned short *unit);
unsigned long kt11b_register(const unsigned short *unit, unsigned long number);
unsigned long kt11b_cell_tag(const unsigned short *unit, unsigned long index);
unsigned long kt11b_cell_word(const unsigned short *unit, unsigned long index);
unsigned long kt11b_counter(const unsigned short *unit);
unsigned long kt11b_wait(const unsigned short *unit);

/*
 * Where the page lies that a map register's word (KTUM's or KTEM's, as kt11b_register gives it) names, in a memory of this
 * length: the offset of its first byte, of 512; KT11B_NO_PAGE where not all of it is below the length.
 */
unsigned long kt11b_map_page(unsigned long length, unsigned short word);

#ifdef __cplusplus
}
#endif

#endif
