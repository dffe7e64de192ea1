/* EAK 2000 capacity check: the calls for C and for every language that calls C functions.
 *
 * Link with libcapacity_c.a (x86-64 Linux); README.md has the lines. The library keeps nothing between calls, takes no memory but
 * the stack and calls nothing but memset, so calls in different threads do not disturb each other.
 *
 * Stack. A call takes less than EAK_STACK_BYTES (under 13,000 bytes measured by tests/stack.c, on every test vector). A program that
 * links dynamically takes more at its first call, where the loader looks for memset.
 *
 * Lent memory. A pointer and a number of elements, which the caller owns; the call reads or writes there during the call and
 * keeps no pointer. A call changes no lent memory beyond what it says. `rows` of eak_run must not overlap `job`, `bytes` of eak_page
 * must not overlap `rows`, `bytes` of eak_write_block must not overlap `sets`. Words are aligned: of rows (int64_t) to 8 bytes, of sets
 * (uint32_t) to 4. A size in bytes is at most PTRDIFF_MAX.
 * A pointer is never NULL, also where the number of elements is 0: pass the address of any object then, of an int64_t for `rows`, of a
 * uint32_t for `sets`. Nothing is read or written there. (A vector without elements may have NULL as its address: test for it.)
 * These are the only things asked of a caller: every byte of a job, every word of a row or a set, every number of rows, count and member
 * of a struct may have any value.
 *
 * Refusals. No call prints, aborts or sets errno: an answer has the number of the refusal, 0 where there is none. A refusal carries
 * offset 0 where no other is stated. docs/FORMAT.md has the causes and the remedies:
 *    1  command cut short, at its start; no end, at the job's length
 *    2  unknown command
 *    3  bytes after end, at the first
 *    4  the first command of a building not settings, or settings again
 *    5  operand out of range, in a job and from the eak_write calls; from eak_write_block also too few words; from eak_take_down kind
 *       or value out of range
 *    6  joint id not yet given, storey or block without wall base, basement member without its joint or wall base, footing without soil,
 *       each in the same building
 *    7  no longer given (before version 1.1.0: joint id given twice; a joint given again now replaces the earlier one)
 *    8  a 4,097th command of the file, end not counted; a block that would pass 4,096, as it counts as many commands as it has sets
 *    9  too few words for the rows, from eak_run and eak_page
 *   11  too few bytes: for the command, from the eak_write calls; for the page, from eak_page (10 is the programs': input too long)
 *   12  a value too wide for its column, from eak_page; no row that eak_run writes has one
 *   13  a 17th building, at the 0D that begins it
 */
#ifndef EAK_CAPACITY_H
#define EAK_CAPACITY_H

#include <stdbool.h>
#include <stddef.h>
#include <stdint.h>

#ifdef __cplusplus
extern "C" {
#endif

/* The version that this header belongs to, 4.2.0: 10,000 times the major number, 100 times the minor one, and the patch. With the major
 * number a call is changed or removed, or words of the rows of accepted jobs change; with the minor one a call is added, or jobs are
 * accepted that were refused. eak_version answers the library's.
 * From version 4.2.0 on, a job may have up to 16 buildings, each begun by command 0D, which eak_write_building writes; before, this byte
 * was refusal 2. Other jobs are as they were, and a program written for 4.1.0 need not be changed.
 * From version 4.1.0 on, a job may have basement members, command 0C, which eak_write_basement writes; before, this byte was refusal 2.
 * Other jobs are as they were, and a program written for 4.0.0 need not be changed. EAK_MOST_ROWS is 8,189; it was 8,188, so a program
 * that was compiled with the header of 4.0.0 and lends the words of 8,188 rows is refused with 9 where a job has a row more.
 * From version 4.0.0 on, eak_run answers the rows failed and the checks failed beside the rows, in a struct of its own, and eak_total is
 * gone, with its struct and its refusals. A program written for 3.1.0 is changed as follows:
 *    - eak_run answers a struct eak_run_answer; struct eak_job_answer is the answer of eak_size alone.
 *    - Leave out the call of eak_total and read `failed` and `checks` off the answer of eak_run.
 *    - For refusal 9 the rows needed are in `needed`; `rows` is 0 then, as in every refusal.
 *    - Compile it again: the struct is larger. A program compiled with the old header must not be linked with this library, which would
 *      write beyond the struct that the program has.
 * A program that totals fewer rows than a job has, or rows of its own making, counts them itself: a row failed where its word 7 is not
 * 0, and its checks failed are the one bits of that word. Jobs, rows and the refusals of a job are as they were. */
#define EAK_VERSION 40200

/* The words of a row. Word 0 is the command's offset in the job, word 1 its byte, word 7 the verdict, 0 for passed; docs/FORMAT.md has
 * the others. A storey of a block has the offset of its set's first byte in word 0 and 7, the byte of a storey, in word 1. A footing and
 * a basement member write two rows with the same words 0 and 1: a footing plus and then minus, a basement member shear and then moment.
 * From version 2.0.0 on, rows tell where the cap q holds the design shear: word 6 of a column and of a wall base, word 5 (plus) and
 * word 6 (minus) of a beam are 1 where the cap is strictly the smaller, or the ME of a wall base is 0, else 0. Before, these words were
 * 0. A 1 says that no greater resistance changes that shear; a 0 says that the shear is that of the resistances.
 * From version 3.0.0 on, the passive thrust P of a footing counts only where bit 2 of its flags (value 4) declares full contact with
 * undisturbed or compacted ground. A job written before, whose flags are 0 to 3, loses two fifths of P in word 6 of its footing rows,
 * and may get bit 8 by it, until its author adds 4 to the flags: docs/FORMAT.md, "What changed for authors of old files".
 * From version 3.1.0 on, a job may have storeys in blocks, command 0B; before, this byte was refusal 2. Other jobs are as they were. */
#define EAK_ROW_WORDS 8

/* No job has more rows: 4,096 commands at most, of which the settings write none, a wall base one and 4,094 basement members two each; a
 * block writes a row for each command that it counts as. A slice of EAK_MOST_ROWS times EAK_ROW_WORDS words is enough for every job. */
#define EAK_MOST_ROWS 8189

/* No command but a block has more bytes: a footing has 58. With so much room no write but a block's is refused with 11. */
#define EAK_COMMAND_BYTES 58

/* The most sets of a block, the words of a set for eak_write_block, and the bytes of a block of so many sets; `count` is an expression
 * from 1 to EAK_MOST_SETS, and EAK_BLOCK_BYTES(EAK_MOST_SETS), 1,538, suffice for every block. */
#define EAK_MOST_SETS 64
#define EAK_SET_WORDS 6
#define EAK_BLOCK_BYTES(count) (2 + 24 * (size_t)(count))

/* The bytes of the page of n rows: a line has 81, and a form feed stands after every 50 lines that a line follows. It is for the room
 * of eak_page, also as the size of an array: uint8_t page[EAK_PAGE_BYTES(1024)]. n is an expression without effects, from 0 up, and
 * is evaluated more than once; the value is a size_t and right for every n up to PTRDIFF_MAX / 82, so for the rows of every job. */
#define EAK_PAGE_BYTES(n) ((n) == 0 ? (size_t)0 : 81 * (size_t)(n) + ((size_t)(n) - 1) / 50)

/* A call takes less stack. */
#define EAK_STACK_BYTES 16384

/* The answer of eak_size, which never refuses with 9. */
struct eak_job_answer {
    bool accepted;   /* the same as number == 0 */
    uint32_t number; /* the refusal, 0 if accepted */
    size_t offset;   /* the byte offset of the refusal in the job, 0 if accepted */
    size_t rows;     /* the rows of an accepted job, 0 in a refusal */
};

/* The answer of eak_run. */
struct eak_run_answer {
    bool accepted;   /* the same as number == 0: the job is accepted and its rows were written */
    uint32_t number; /* the refusal, 0 if accepted */
    size_t offset;   /* the byte offset of the refusal in the job, 0 if accepted and for 9 */
    size_t rows;     /* the rows written, 0 in a refusal */
    uint64_t failed; /* of these, the rows whose verdict is not 0; 0 in a refusal */
    uint64_t checks; /* the checks failed: the one bits of all their verdicts; 0 in a refusal */
    size_t needed;   /* for 9 the rows needed; else 0 */
};

/* The answer of eak_fault. */
struct eak_fault_answer {
    uint32_t number;  /* as eak_size answers it: the refusal, 0 if accepted */
    size_t offset;    /* as eak_size answers it: the byte offset of the refusal, 0 if accepted */
    uint32_t command; /* the byte at that offset, for 3 the first byte after the end; 0 if accepted and where no byte is left */
    uint32_t operand; /* for 5 the operand at fault, counted from 0 in the order of docs/FORMAT.md, in a block its count as 0 and operand
                       * j of set i, both counted from 0, as 1 + 6 i + j; else 0 */
};

/* The answer of eak_take_down. */
struct eak_soil_answer {
    uint32_t number; /* the refusal, 5, or 0 */
    uint32_t offset; /* always 0 */
    uint32_t value;  /* the whole number, 0 in a refusal */
};

/* The answer of the eak_write calls. */
struct eak_write_answer {
    uint32_t number; /* the refusal, 5 or 11, or 0 */
    size_t offset;   /* always 0 */
    size_t bytes;    /* the bytes written, 0 in a refusal */
};

/* The answer of eak_page. */
struct eak_page_answer {
    uint32_t number; /* the refusal, 9, 12 or 11, or 0 */
    size_t offset;   /* always 0 */
    size_t rows;     /* for 9 the rows asked for, n; else 0 */
    size_t bytes;    /* the length of the page, 0 in a refusal */
};

/* The values of each command, in the file's order, for the eak_write calls; each member with its meaning, unit and range. A value out
 * of range is refusal 5 and is never cut to its width in the file: an id of 300 does not become 44. A number below zero that is stored
 * in a uint32_t is far above the range of every member but `j` and `j0`. */

/* 01 settings */
struct eak_settings {
    uint32_t q;  /* behaviour factor, hundredths, 100 to 400 */
    uint32_t gj; /* overstrength of joints, hundredths, 100 to 200 */
    uint32_t gf; /* overstrength of foundations, hundredths, 100 to 200 */
};

/* 02 joint */
struct eak_joint {
    uint32_t id; /* 0 to 255 */
    uint32_t rb; /* sum of the strengths of the beams, N m, 0 to 100,000,000 */
    uint32_t rc; /* sum of the strengths of the columns, N m, 0 to 100,000,000 */
    uint32_t eb; /* sum of the seismic moments of the beams, N m, 0 to 100,000,000 */
};

/* 03 column */
struct eak_column {
    uint32_t length;   /* mm, 500 to 100,000 */
    uint32_t r1_plus;  /* strength of end 1, plus direction, N m, 0 to 100,000,000 */
    uint32_t r2_plus;  /* strength of end 2, plus direction, N m, 0 to 100,000,000 */
    uint32_t r1_minus; /* strength of end 1, minus direction, N m, 0 to 100,000,000 */
    uint32_t r2_minus; /* strength of end 2, minus direction, N m, 0 to 100,000,000 */
    uint32_t ve;       /* seismic shear, N, 0 to 100,000,000 */
    uint32_t vr;       /* shear strength, N, 0 to 100,000,000 */
};

/* 04 beam */
struct eak_beam {
    uint32_t length;   /* mm, 500 to 100,000 */
    uint32_t r1_plus;  /* strength of end 1, plus direction, N m, 0 to 100,000,000 */
    uint32_t r2_plus;  /* strength of end 2, plus direction, N m, 0 to 100,000,000 */
    uint32_t r1_minus; /* strength of end 1, minus direction, N m, 0 to 100,000,000 */
    uint32_t r2_minus; /* strength of end 2, minus direction, N m, 0 to 100,000,000 */
    int32_t v0;        /* shear of the non-seismic loads, N, -100,000,000 to 100,000,000 */
    uint32_t ve;       /* seismic shear, N, 0 to 100,000,000 */
    uint32_t vr;       /* shear strength, N, 0 to 100,000,000 */
};

/* 05 member without hinges */
struct eak_hingeless {
    uint32_t length; /* mm, 500 to 100,000 */
    uint32_t id1;    /* id of the joint at end 1, 0 to 255 */
    uint32_t id2;    /* id of the joint at end 2, 0 to 255 */
    uint32_t me1;    /* seismic moment of end 1, N m, 0 to 100,000,000 */
    uint32_t me2;    /* seismic moment of end 2, N m, 0 to 100,000,000 */
    int32_t v0;      /* shear of the non-seismic loads, N, -100,000,000 to 100,000,000 */
    uint32_t vr;     /* shear strength, N, 0 to 100,000,000 */
};

/* 06 wall base */
struct eak_wall_base {
    uint32_t length;    /* of the section, mm, 100 to 10,000 */
    uint32_t thickness; /* of the section, mm, 100 to 10,000 */
    uint32_t mr;        /* moment strength, N m, 0 to 100,000,000 */
    uint32_t me;        /* seismic moment, N m, 0 to 100,000,000 */
    uint32_t ve;        /* seismic shear, N, 0 to 100,000,000 */
    uint32_t vr;        /* shear strength, N, 0 to 100,000,000 */
};

/* 07 storey of the latest wall */
struct eak_storey {
    uint32_t me; /* seismic moment, N m, 0 to 100,000,000 */
    uint32_t ve; /* seismic shear, N, 0 to 100,000,000 */
    uint32_t j;  /* inertia of this section, cm^4, 1 to j0 */
    uint32_t j0; /* inertia of the base section, cm^4, 1 to 4,294,967,295 */
    uint32_t vr; /* shear strength, N, 0 to 100,000,000 */
    uint32_t ms; /* moment strength, N m, 0 to 100,000,000 */
};

/* 08 soil. The value goes into the file with its 32 bits. -0.0, a NaN and an infinity are out of range. */
struct eak_soil {
    uint32_t kind;      /* 0 granular, 1 cohesive */
    float value;        /* kind 0: tangent of the friction angle, 0 to 2.0; kind 1: undrained strength, kPa, 0 to 1000.0 */
    uint32_t sensitive; /* 1 for seismically sensitive soil, else 0 */
};

/* 09 footing. V: of the non-seismic loads; E: of the seismic action. */
struct eak_footing {
    uint32_t b;     /* side B, mm, 500 to 20,000 */
    uint32_t l;     /* side L, mm, 500 to 20,000 */
    uint32_t mr;    /* moment strength of the element above, N m, 0 to 100,000,000 */
    uint32_t me;    /* seismic moment of the element above, N m, 0 to 100,000,000 */
    int32_t nv;     /* normal force, V, N, -100,000,000 to 100,000,000; pressing down is positive */
    int32_t ne;     /* normal force, E, N, -100,000,000 to 100,000,000 */
    int32_t xv;     /* moment along B, V, N m, -100,000,000 to 100,000,000 */
    int32_t xe;     /* moment along B, E, N m, -100,000,000 to 100,000,000 */
    int32_t yv;     /* moment along L, V, N m, -100,000,000 to 100,000,000 */
    int32_t ye;     /* moment along L, E, N m, -100,000,000 to 100,000,000 */
    int32_t hv;     /* horizontal force, V, N, -100,000,000 to 100,000,000 */
    int32_t he;     /* horizontal force, E, N, -100,000,000 to 100,000,000 */
    uint32_t u;     /* uplift, N, 0 to 100,000,000 */
    uint32_t p;     /* full passive thrust, N, 0 to 100,000,000; two fifths of it count where the contact is declared */
    uint32_t flags; /* 0 to 7: 1 for uncertainties minimised, plus 2 for strict tolerances, plus 4 for full contact with undisturbed or
                     * compacted ground */
};

/* 0A detail */
struct eak_detail {
    uint32_t place; /* 0 column, 1 beam, 2 wall base */
    uint32_t xu;    /* depth of the compression zone, ultimate state, thousandths of the section depth, 0 to 1000 */
    uint32_t xy;    /* depth of the compression zone, yield, thousandths of the section depth, 0 to 1000 */
    uint32_t mu;    /* ductility of curvature, hundredths, 1000 to 2000 */
    uint32_t lap;   /* 1 where the longitudinal bars are lapped here, else 0 */
};

/* 0B block: storeys of the latest wall, one behind the other. It has no struct: eak_write_block takes a count and words. */

/* 0C basement member: below the hinges, with the coefficient of the nearest one. V: of the non-seismic loads; E: of the seismic action,
 * as its size, for both directions are tried. */
struct eak_basement {
    uint32_t place; /* of the nearest possible hinge: 0 joint, 1 latest wall */
    uint32_t id;    /* id of the joint, 0 to 255; for a wall 0 */
    int32_t vv;     /* shear, V, N, -100,000,000 to 100,000,000 */
    uint32_t ve;    /* shear, E, N, 0 to 100,000,000 */
    int32_t mv;     /* moment, V, N m, -100,000,000 to 100,000,000 */
    uint32_t me;    /* moment, E, N m, 0 to 100,000,000 */
    uint32_t vr;    /* shear strength, N, 0 to 100,000,000 */
    uint32_t mr;    /* moment strength, N m, 0 to 100,000,000 */
};

/* The library's version; EAK_VERSION is the header's. */
uint32_t eak_version(void);

/* The number of rows of a job of `job_bytes` bytes, or its refusal. Reads the job. */
struct eak_job_answer eak_size(const uint8_t *job, size_t job_bytes);

/* The refusal of eak_size, with the command and, for 5, the operand. Reads the job. The operand is the first one outside its own
 * range; where each is within it, J of a storey whose J is above J0, the value of a soil that is not allowed for its kind, or the id,
 * other than 0, of a basement member under a wall. In a block it is the count, or that of the first set at fault, found as in a
 * storey. */
struct eak_fault_answer eak_fault(const uint8_t *job, size_t job_bytes);

/* Writes the rows of a job, EAK_ROW_WORDS words each, from rows[0] on, and answers their number, the rows failed and the checks failed.
 * `row_words` counts words, not rows or bytes; EAK_ROW_WORDS times the rows of eak_size is enough. Words after the last row stay as they
 * were. It tries the refusals of eak_size, then
 *    9  fewer words than EAK_ROW_WORDS times the rows of the job; `needed` has these rows
 * In a refusal the three numbers are 0 and every word stays as it was. */
struct eak_run_answer eak_run(const uint8_t *job, size_t job_bytes, int64_t *rows, size_t row_words);

/* A soil value taken down to a whole number: kind 0, a tangent from 0 to 2.0, times 10,000; kind 1, a strength in kPa from 0 to
 * 1000.0, times 1,000. Any kind and any value may be given, a NaN too: another kind, a set sign bit (also that of -0.0), a NaN,
 * an infinity or a value above the top is refusal 5. */
struct eak_soil_answer eak_take_down(uint8_t kind, float value);

/* Writing a job, one command a call: its values, then the bytes where it is to stand and how many there are. A call writes the command
 * from bytes[0] on and answers its bytes; where `room` is larger, the bytes after them stay as they were. It tries
 *    5  a value is out of range; where each is within its range, J is above J0, the kind does not allow the soil value, or the id of a
 *       basement member under a wall is not 0
 *   11  `room` is less than the command's bytes; exactly as many suffice
 * in this order, 5 whatever the room is; in a refusal every byte stays as it was. What depends on the commands before it (4, 6, 8, 13) is
 * not tried: eak_size of the finished job does that. Each command is written where the last one ended, and the end is the last:
 *    answer = eak_write_column(column, job + n, room - n);
 *    n += answer.bytes;
 */
struct eak_write_answer eak_write_settings(struct eak_settings values, uint8_t *bytes, size_t room);
struct eak_write_answer eak_write_joint(struct eak_joint values, uint8_t *bytes, size_t room);
struct eak_write_answer eak_write_column(struct eak_column values, uint8_t *bytes, size_t room);
struct eak_write_answer eak_write_beam(struct eak_beam values, uint8_t *bytes, size_t room);
struct eak_write_answer eak_write_hingeless(struct eak_hingeless values, uint8_t *bytes, size_t room);
struct eak_write_answer eak_write_wall_base(struct eak_wall_base values, uint8_t *bytes, size_t room);
struct eak_write_answer eak_write_storey(struct eak_storey values, uint8_t *bytes, size_t room);
struct eak_write_answer eak_write_soil(struct eak_soil values, uint8_t *bytes, size_t room);
struct eak_write_answer eak_write_footing(struct eak_footing values, uint8_t *bytes, size_t room);
struct eak_write_answer eak_write_detail(struct eak_detail values, uint8_t *bytes, size_t room);
struct eak_write_answer eak_write_basement(struct eak_basement values, uint8_t *bytes, size_t room);
struct eak_write_answer eak_write_building(uint8_t *bytes, size_t room); /* another building: its settings are the next command */
struct eak_write_answer eak_write_end(uint8_t *bytes, size_t room);

/* Writes a block of `count` storeys like the calls above. Their values stand in `sets`, a stretch of `words` words: EAK_SET_WORDS a
 * storey, in the order of struct eak_storey: me, ve, j, j0, vr, ms. `words` counts words, not sets or bytes. Reads the sets; words after
 * the first EAK_SET_WORDS times `count` are not looked at. It tries
 *    5  `count` is 0 or above EAK_MOST_SETS; there are fewer words; a value of a set is out of range, or its J is above J0
 *   11  `room` is less than EAK_BLOCK_BYTES(count); exactly as many suffice
 * in this order, 5 whatever the room is; in a refusal every byte stays as it was.
 *    uint32_t sets[2 * EAK_SET_WORDS] = {3100000, 1020000, 133333333, 133333333, 3000000, 8500000,
 *                                        2100000, 880000, 133333333, 133333333, 2500000, 6500000};
 *    answer = eak_write_block(2, sets, 2 * EAK_SET_WORDS, job + n, room - n);
 *    n += answer.bytes;
 */
struct eak_write_answer eak_write_block(uint32_t count, const uint32_t *sets, size_t words, uint8_t *bytes, size_t room);

/* Prints the first n rows, in a stretch of `row_words` words, as a page from bytes[0] on, and answers its length, which n alone fixes:
 * EAK_PAGE_BYTES(n). Each row is a line of 80 characters and a line feed: word 0 right-aligned in 7 characters, word 1 in 3, words 2
 * to 6 in 13 each, word 7 in 5, decimal, with blanks to the left and a minus directly before the first digit. A form feed stands after
 * every 50 lines, none at the end. There is no zero byte at the end. It tries
 *    9  fewer than 8 times n words; n may be any number
 *   12  a value of the first n rows needs more than its width less one character, its minus counted: more than 6, 2, 12 or 4
 *   11  `room` is less than the page's bytes; exactly as many suffice
 * in this order, each over the whole page. Where `room` is larger, the bytes after the page stay as they were; in a refusal every byte
 * does. Words after the first n rows are not looked at. A page of rows that eak_run wrote is never refused with 12:
 *    struct eak_run_answer ran = eak_run(job, job_bytes, rows, row_words);
 *    if (ran.accepted) answer = eak_page(rows, row_words, ran.rows, page, room);
 */
struct eak_page_answer eak_page(const int64_t *rows, size_t row_words, size_t n, uint8_t *bytes, size_t room);

#ifdef __cplusplus
}
#endif

#endif
