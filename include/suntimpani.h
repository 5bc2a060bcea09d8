/* Suntimpani: reads `.sframe` unwind tables and walks a crashed program's stack, with every answer proved.
 *
 * You lend it the bytes of an `.sframe` section (SFrame version 2 with errata 1; AMD64, and AArch64 in both byte
 * orders), registers, a stack window and a buffer. It says whether the section is sound (suntimpani_check), where the
 * function with an index lies (suntimpani_function_at) and what its rows are, one by one (suntimpani_rows_of,
 * suntimpani_next_row), which function and row cover a PC (suntimpani_lookup, and suntimpani_ask without a check of the
 * whole section), what one caller's registers are (suntimpani_caller), and what the whole trace is (suntimpani_trace).
 * Any bytes and any numbers may be handed in: nothing outside what is lent is read, every call ends, and an answer that
 * cannot be given is a refusal with a number and a rule.
 *
 *     cc program.c -lsuntimpani
 *
 * The archive is there for x86-64 Linux and, of the same proved module, for AArch64: Linux and Android. Which machine it
 * runs on and which machine's sections it reads have nothing to do with each other.
 *
 * SPDX-License-Identifier: MIT
 *
 *
 * What is lent
 *
 * Nothing is allocated, nothing is kept after a call returns, and there is no state. So all eight functions may be
 * called in a signal handler, on a small alternate stack, and from several threads at once. What you lend stays yours;
 * only the buffer of suntimpani_trace is written to.
 *
 * A pointer with a length above 0 points to that many bytes that can be read; the buffer to that many words that can be
 * written, aligned for uint64_t and overlapping neither the section nor the stack. No other thread writes to them
 * during the call. With length 0 any pointer will do, also NULL. Sections and stacks need no alignment.
 *
 * The section is `.sframe` as it lies in a loaded program or in its file, with exactly its own length. On Linux a
 * program finds its own by dl_iterate_phdr, as the segment of type 0x6474e554 (PT_GNU_SFRAME). GNU ld 2.44 makes that
 * segment longer than the section where it merged several; the section's length is then 28, plus byte 7, plus 20 times
 * the number of 4 bytes at 8, plus the number of 4 bytes at 16.
 *
 * The stack window is the live stack of the thread that crashed. On AMD64 let it begin 128 bytes below SP, with the red
 * zone, or at the stack's lowest address where that is above: at the end of a function a row may place FP below SP. Let
 * it end where the thread's stack does; each thread asks pthread_getattr_np for that before the crash, since no signal
 * handler may.
 *
 * A lookup, a caller and a trace each check the section first, and a trace checks it once. A check reads every row of
 * every function, so its time grows with them. Functions may share rows, so a section that was made to be slow can ask
 * for far more time than its length tells. suntimpani_function_at and suntimpani_rows_of make no check: they try rules
 * 1 to 8 and read one entry. suntimpani_next_row reads one row alone. So the time of these three does not grow with
 * the section. suntimpani_ask makes none either: it tries rules 1 to 8 and reads at most 20 entries and the rows of one
 * function, so that its time grows with these rows alone.
 *
 *
 * What a recorder meets
 *
 * A trace that is full (31) is not gone on with by another trace, which would begin with the first-frame mark again: RA
 * would be looked up as it is, and CFA could be SP. Go on by suntimpani_caller. The registers behind a frame are PC =
 * its RA, SP = its CFA, FP = its FP, `lr` of the crash, and `first` 0.
 *
 * A PC in no function of the section is 21, and where it is the first there is no frame at all. After a call through a
 * null pointer RA is the word at SP (AArch64: LR): go on from there with PC = RA, SP + 8 (AArch64: SP) and `first` 0.
 * Of a crash in another module, the C library too, that module's section tells, if it has one. One section is lent at a
 * time: have a table of them before the crash, take the one for the PC that is looked up, and walk by
 * suntimpani_caller.
 *
 * GNU ld 2.44 drops `.sframe` under --gc-sections, which rustc passes: link with --no-gc-sections, or with a script of
 * `SECTIONS { .sframe : { KEEP(*(.sframe)) } } INSERT AFTER .eh_frame;` by -T. The archive has no unwind data of its
 * own, so that a sample taken inside one of its functions is 21. docs/INTEGRATING.md of the repository says more.
 *
 *
 * Signed return addresses
 *
 * On AArch64 a program may sign its return addresses (pointer authentication): bits that a user's address leaves 0 then
 * hold a signature, and a row says so by its signed bit. `mask` of suntimpani_process has these bits. A caller and a
 * trace clear them from RA where the row has the signed bit, whether RA was a word of the stack or LR. What is left is
 * the caller's PC and the word written, and the walk goes on from it. A row without the bit leaves RA as it was read,
 * AMD64 always does, and nothing but RA is ever cleared. What to pass on Linux:
 *
 *     a process under ptrace    insn_mask of struct user_pac_mask (<asm/ptrace.h>), which PTRACE_GETREGSET gives for
 *                               NT_ARM_PAC_MASK (0x406, <elf.h>)
 *     a core file               the same, the second of the two words in its note of that type
 *     the own process           every bit above those of a user's address: 0xffff000000000000 where it has 48, and
 *                               0xffffff8000000000 where it has 39; the stack lies at their top, and so tells
 *     nothing is known          0: a row with the signed bit is refused with 24
 *
 * A process cannot trace itself, and need not know which of the bits above an address the signature takes: the others
 * are 0 in a user's address, also bit 55, which tells it from the kernel's. On a processor that does not sign ptrace
 * gives no mask and a core file has no such note, while rows say signed all the same. The bits above an address are 0
 * there, so that they are right as a mask too, where 0 would be refused.
 *
 * The mask is taken as it comes, like the addresses: nothing tells that it is wrong. With too few bits a part of the
 * signature stays in RA, which then mostly lies in no function, and a trace ends with 21. With too many, bits of the
 * address go, and RA is another address: mostly in no function either, but where it lies in one, the trace goes on
 * wrongly. With every bit set RA of a signed row is 0, and a trace ends there with 30.
 *
 *
 * Numbers
 *
 * Every answer has a number: 0 where what was asked for is given, else the rule that is the first broken one, in this
 * order of trying. An index without a function breaks no rule: its number is 0 too, and `known` tells. Rows one by one
 * have no number: they are told as they stand, and where none can be told there are no more. "Entry" is a function's
 * entry in the section's function table; indexes count from 0.
 *
 * By check, lookup, caller and trace, on the section; 1 to 8, on its header, by suntimpani_function_at and
 * suntimpani_ask too. 9 to 14 have the index of the entry that breaks the rule; the index of 1 to 8 and of 15 is 0.
 *
 *      1  the section has fewer than 28 bytes
 *      2  it has more than 16,777,216 bytes
 *      3  its magic is neither byte order's
 *      4  its version is not 2
 *      5  a flag outside 0x07 is set
 *      6  the ABI is not 1 (AArch64, big-endian), 2 (AArch64, little-endian) or 3 (AMD64), or disagrees with the byte
 *         order
 *      7  the fixed FP and RA offsets are not 0 and -8 (AMD64), or 0 and 0 (AArch64)
 *      8  the function table offset is not 0, or the row area offset is not 20 times the number of functions, or
 *         header, auxiliary header, function table and row bytes together are not the length
 *      9  an entry's info has bit 6 or 7 set, or a row type above 2
 *     10  an entry has repeated blocks (PCMASK) of size 0
 *     11  an entry's first row offset is above the row bytes, or one of its rows ends past them
 *     12  a row's info has offset size 3, or a count that is not allowed (AMD64: 1 or 2; AArch64: 1 to 3)
 *     13  a row's start is not above that of the row before it in the same function
 *     14  the sorted flag is set, and an entry's start is below the start plus size of the entry before it
 *     15  the row counts of all entries do not add up to the header's
 *
 * By lookup, caller and trace, on the PC that is looked up: by a lookup the PC handed in, by a caller PC of the
 * registers with the first-frame mark, and PC - 1 without it. There PC is a return address, which stands behind its
 * call, and where the call is the last instruction of its function, behind the function. A trace goes from caller to
 * caller.
 *
 *     21  no function covers it; by a caller also where PC is 0 without the mark, so that there is none to look up
 *     22  two or more functions cover it
 *     23  one function covers it, and none of its rows starts at or below it
 *
 * By suntimpani_ask, on the PC handed in, in this order after 1 to 8. The function landed on is the last of the entries
 * compared that starts at or below the PC:
 *
 *     45  the sorted flag is not set
 *     21  no function is landed on, or it does not cover the PC
 *     44  the function landed on covers the PC, and breaks one of 9 to 13
 *     23  the function landed on covers the PC, and none of its rows starts at or below it
 *
 * By caller and trace, on the registers, the stack and the mask. CFA is the value of SP in the caller, RA the return
 * address:
 *
 *     24  the return address is signed (AArch64), and the mask is 0
 *     25  CFA is outside 0 to 2^64 - 1
 *     26  CFA is below SP, or equal to SP without the first-frame mark
 *     27  RA has no place: the row leaves it in LR, and only the first frame has it there (AArch64)
 *     28  a word that is needed is not wholly inside the stack window
 *     41  the stack window ends above 2^64 (tried before anything else)
 *
 * By trace alone. 42 and 43 are tried right after 41, before the section; 30 and 31 are how a whole trace ends:
 *
 *     30  the last frame's RA is 0, cleared of the mask's bits where it is signed: it is the outermost frame
 *     31  the limit is full, and the last frame's RA is not 0
 *     42  the limit is above 256
 *     43  the buffer has fewer than 3 words for each frame of the limit; limit 0 asks for 384
 *
 *
 * Example: walk from the registers of a crash, under the usual limit, and print what was found.
 *
 *     uint64_t words[3 * SUNTIMPANI_USUAL_LIMIT];
 *     suntimpani_process process = { section_address, stack_address, 0 };
 *     suntimpani_registers crash = { pc, sp, fp, 0, 1 };
 *     suntimpani_traced traced = suntimpani_trace(section, length, stack, stack_length, process, crash,
 *                                                 SUNTIMPANI_USUAL_LIMIT, words, 3 * SUNTIMPANI_USUAL_LIMIT);
 *     for (uint64_t frame = 0; frame < traced.frames; frame++) {
 *         printf("CFA %" PRIx64 ", returns to %" PRIx64 "\n", words[3 * frame], words[3 * frame + 1]);
 *     }
 *     printf("%" PRIu64 " frames, ended by %" PRIu64 "\n", traced.frames, traced.ending);
 */
#ifndef SUNTIMPANI_H
#define SUNTIMPANI_H

#include <stddef.h>
#include <stdint.h>

/* The version of this header and of the archive beside it. */
#define SUNTIMPANI_VERSION "0.6.1"

/* How many frames a trace may have whose limit is 0. Who passes this name in place of 0, and has the size of the buffer
 * from it, lends enough whatever 0 means in the archive. */
#define SUNTIMPANI_USUAL_LIMIT 128

#ifdef __cplusplus
extern "C" {
#endif

/* What a check answers. */
typedef struct {
    uint64_t number; /* 0: accepted; or 1 to 15 */
    uint64_t index;  /* the entry's index for 9 to 14; otherwise 0 */
} suntimpani_verdict;

/* What is said of a function by its index. Where `known` is 0, every field but `number` is 0. */
typedef struct {
    uint64_t number;   /* 0: the header is sound; or 1 to 8 */
    uint64_t known;    /* 1 where the section has such a function, otherwise 0 */
    int64_t start;     /* where it starts, in bytes from the section's first byte; below 0 where it lies before it */
    uint64_t size;     /* how many bytes it has */
    uint64_t rows;     /* how many rows it has */
    uint64_t repeated; /* 1 where its rows are those of a block that is repeated (PCMASK), otherwise 0 */
    uint64_t repeat;   /* the size of that block; 0 where `repeated` is 0 */
} suntimpani_function;

/* Where a reader of rows stands. It is taken from suntimpani_rows_of or from the row before; any numbers may be handed
 * in. */
typedef struct {
    uint64_t abi;  /* 1 AArch64, big-endian; 2 AArch64, little-endian; 3 AMD64, as is any other number */
    uint64_t type; /* a row's start has 1, 2 or 4 bytes for 0, 1 or 2; for any other number there is no row */
    uint64_t at;   /* where the next row stands, in bytes from the section's first byte */
    uint64_t left; /* how many rows there are from there on */
} suntimpani_rows;

/* One row, and where the reader then stands. */
typedef struct {
    uint64_t more;  /* 1: a row; 0: there are no more, and every field but `rest` is 0 */
    uint64_t start; /* from here on as in suntimpani_answer */
    uint64_t base;
    int64_t cfa;
    uint64_t ra_place;
    int64_t ra;
    uint64_t fp_place;
    int64_t fp;
    uint64_t signed_ra;
    suntimpani_rows rest; /* past the row; where there are no more, the same with 0 in `left`. Its `abi` is 1, 2 or 3 */
} suntimpani_row;

/* What suntimpani_lookup and suntimpani_ask answer. A field that the list does not name for a number is 0.
 *
 *     0         every field but `second`
 *     1 to 8    none
 *     9 to 15   `function`, the index that a check gives; never by suntimpani_ask
 *     21        `compared`
 *     22        `function`, `second`, `compared`; never by suntimpani_ask
 *     23        `function`, `compared`
 *     44        `function`, `compared`; by suntimpani_ask alone
 *     45        none; by suntimpani_ask alone
 */
typedef struct {
    uint64_t number;    /* 0: found; or 1 to 15, 21, 22, 23; by suntimpani_ask 1 to 8, 21, 23, 44, 45 */
    uint64_t function;  /* the function's index; for 22 the lowest of those that cover the PC */
    uint64_t second;    /* for 22 the second lowest */
    uint64_t compared;  /* entries compared: all where the section is not sorted, at most 20 where it is */
    uint64_t row;       /* the row's number in the function, from 0 */
    uint64_t start;     /* where the row starts, in bytes from the function's start (or from its repeated block's) */
    uint64_t base;      /* what CFA counts from: 0 FP, 1 SP */
    int64_t cfa;        /* CFA is the base plus this */
    uint64_t ra_place;  /* where RA is: 0 in LR, 1 in the word at CFA plus `ra` (AMD64: always, with -8) */
    int64_t ra;         /* that offset; 0 where `ra_place` is 0 */
    uint64_t fp_place;  /* where the caller's FP is: 0 still in FP, 1 in the word at CFA plus `fp` */
    int64_t fp;         /* that offset; 0 where `fp_place` is 0 */
    uint64_t signed_ra; /* 1 where RA is signed (AArch64), otherwise 0 */
} suntimpani_answer;

/* What is known of the process that crashed, which need not be this one, beside its registers. Each field may have any
 * value; on AMD64 `mask` makes no difference. */
typedef struct {
    uint64_t section_address; /* of the section's first byte in its memory */
    uint64_t stack_address;   /* of the stack window's first byte there, the lowest address */
    uint64_t mask;            /* AArch64: the bits of a return address that hold its signature; 0: not known */
} suntimpani_process;

/* Registers; each may have any value. On AMD64 they are RIP, RSP and RBP, and `lr` is not read. */
typedef struct {
    uint64_t pc;
    uint64_t sp;
    uint64_t fp;
    uint64_t lr;    /* AArch64: X30 */
    uint64_t first; /* the first-frame mark: not 0 where the registers are the crashed function's own */
} suntimpani_registers;

/* What a step to the caller answers. */
typedef struct {
    suntimpani_registers registers; /* number 0: the caller's, `lr` as handed in and `first` 0; else as handed in */
    uint64_t number;                /* 0: a caller; or 1 to 15, 21 to 28, 41 */
    uint64_t index;                 /* the entry's index for 9 to 14; otherwise 0 */
} suntimpani_step;

/* What a trace answers besides the words of the buffer. */
typedef struct {
    uint64_t frames; /* how many were written; 0 for 1 to 15 and 41 to 43 */
    uint64_t ending; /* why it ended: 30 or 31; 21 to 28, which the next step met; 1 to 15; 41 to 43. Never 0. */
    uint64_t index;  /* the entry's index for 9 to 14; otherwise 0 */
} suntimpani_traced;

/* Is the section sound? A lookup, a caller and a trace ask this first by themselves. */
suntimpani_verdict suntimpani_check(const uint8_t *section, size_t length);

/* The function with an index, as a lookup names it: where to look for its symbol. Its address is that of the section's
 * first byte plus `start`. Indexes count from 0 in the order of the entries, so that every function is told by counting
 * up from 0 until `known` is 0.
 *
 * Rules 1 to 8 are tried, and one entry is read; nothing else of the section is looked at. So it speaks of the entry as
 * it stands, also in a section that a check refuses with 9 to 15: there its rows may lie anywhere or not be there, its
 * start may be out of order, and `repeat` may be 0 with `repeated` 1. */
suntimpani_function suntimpani_function_at(const uint8_t *section, size_t length, uint64_t index);

/* Where the rows of the function with an index begin, and how many there are. The same is tried and read as by
 * suntimpani_function_at, and it is told as the entry stands, also in a section that a check refuses with 9 to 15.
 * Where the header is refused, or there is no such function, `left` is 0, with `abi` 3, `type` 0 and `at` 0.
 *
 *     suntimpani_row row = suntimpani_next_row(section, length, suntimpani_rows_of(section, length, index));
 *     while (row.more) {
 *         printf("from %" PRIu64 " on CFA is %s%+" PRId64 "\n", row.start, row.base ? "SP" : "FP", row.cfa);
 *         row = suntimpani_next_row(section, length, row.rest);
 *     }
 */
suntimpani_rows suntimpani_rows_of(const uint8_t *section, size_t length, uint64_t index);

/* The next row, or that there are no more: asked again, it says so again. In a section that is accepted, the rows of a
 * function come once each, in order. Nothing but the row is looked at, so that a section that is not accepted has rows
 * too: there they end at the first that does not lie whole in the section, or that breaks rule 12 by offset size 3 or
 * by a count of 0. */
suntimpani_row suntimpani_next_row(const uint8_t *section, size_t length, suntimpani_rows rows);

/* The function and the row for a PC, in a section whose first byte lies at `address`. The PC is looked up as it is: ask
 * for a return address minus 1, as a caller does, where the function that called is meant. */
suntimpani_answer suntimpani_lookup(const uint8_t *section, size_t length, uint64_t address, uint64_t pc);

/* The same for one address of a huge section, which is not checked whole. Read are the header; the entries that are
 * compared in halving the sorted function table, at most 20; and where the function landed on covers the PC its rows,
 * all of them, up to the first that breaks a rule. The function landed on is the last of the entries compared that
 * starts at or below the PC; where each of them starts above it, there is none.
 *
 * In a sorted section that suntimpani_check accepts, the answer is that of suntimpani_lookup in every field. So a
 * sampling tool has a section checked once, leaves its bytes as they are, and asks for millions of addresses.
 *
 * In any other section an answer speaks of the function landed on alone. With 0 and 23 it covers the PC and breaks none
 * of 9 to 13; with 44 it covers the PC and breaks one; with 21 it does not cover the PC, or there is none. What is
 * wrong elsewhere is not seen: another function may cover the PC too, and after 21 one may all the same. So 9 to 15 and
 * 22 are never given. A section without the sorted flag cannot be asked (45), only looked up in.
 *
 * The PC is taken as it is, as by suntimpani_lookup: ask for a return address minus 1. */
suntimpani_answer suntimpani_ask(const uint8_t *section, size_t length, uint64_t address, uint64_t pc);

/* One caller. Hand `first` in as 1 for the registers of the crash, and take the answer's registers for the next step:
 * their `first` is 0. PC itself is looked up with `first`, and PC - 1 where it is 0. The caller's PC is RA all the
 * same: as it was read, or on a signed row with the mask's bits cleared. On a refusal the registers come back exactly
 * as they were, `first` included. */
suntimpani_step suntimpani_caller(const uint8_t *section, size_t length, const uint8_t *stack, size_t stack_length,
                                  suntimpani_process process, suntimpani_registers registers);

/* The whole trace from the registers of the crash, whatever their `first`: so it cannot go on where another ended.
 * Limit 0 means 128 (before version 0.5.0 it was 64); otherwise it is 1 to 256.
 *
 * The buffer has at least 3 words of 64 bits for each frame of the limit: 384 for limit 0, 768 for 256. `words` is how
 * many it has. Frame i is words 3i, 3i + 1 and 3i + 2: CFA, RA and the caller's FP. RA is as it was read, or on a
 * signed row with the mask's bits cleared. It may be the first byte behind the function that called, so that the next
 * frame is found at RA - 1. Every word behind the frames that the answer counts keeps what it held; after 1 to 15 and
 * 41 to 43 that is every word. */
suntimpani_traced suntimpani_trace(const uint8_t *section, size_t length, const uint8_t *stack, size_t stack_length,
                                   suntimpani_process process, suntimpani_registers registers, uint64_t limit,
                                   uint64_t *buffer, size_t words);

#ifdef __cplusplus
}
#endif

#endif
