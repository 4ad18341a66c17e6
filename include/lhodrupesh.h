/*
 * Lhodrupesh: SHARC+ VISA kernels from rows of numbers. The C interface of the proved library
 * liblink.a, for x86-64 Linux.
 *
 * Every call takes any numbers, ends, and refuses bad ones by number. It allocates nothing, keeps no
 * pointer, and touches no memory but what its arguments lend.
 *
 * SLICES. A slice is a pointer and a length; every length is counted in elements. The caller sees
 * to this, and to nothing else:
 *   - the pointer isn't NULL and is aligned for its elements, also where the length is 0;
 *   - so many elements lie there, and nobody else writes to them during the call;
 *   - what a call writes to (parcels, labels, jumps, loops; bytes; rows, places; copy, changes)
 *     overlaps no other slice of it.
 * What is lent to be written to may hold anything before.
 *
 * ROWS. A row is seventeen numbers: a kind, then the fields, then zeros. Signed fields are two's
 * complement; enumerated values are numbered from 0; booleans are 0 or 1. The README of the
 * repository has the table of kinds. A row slice is rows one after the other, at most 4,194,304.
 *
 * NAMES. The names of labels and jumps are ranges (start, length) of one byte slice: any bytes,
 * possibly empty, equal when the bytes are.
 *
 * REFUSALS. The README has the table of refusal numbers and their details. The number 3 is unused: no
 * call answers it. Details that the table doesn't name are 0. Rows and parcels are numbered from 0.
 * The third detail says which row a call on a list refuses: the refused row itself, so the loop end for
 * 20 to 22 and 24 to 26, and the second of two labels for 11; for 23 the innermost loop start that is
 * still open; for 12, and for 9 of a jump to a label, the jump; for 33 the jump again. It is 0 for 1 and
 * for 36, and in the calls that take no list, so for 34 and 35 too.
 *
 * The third detail stands after the other details of each answer, and moved what follows: a program
 * that was compiled with a header without it has to be compiled anew.
 */
#ifndef LHODRUPESH_H
#define LHODRUPESH_H

#include <stddef.h>
#include <stdint.h>

#ifdef __cplusplus
extern "C" {
#endif

/* The numbers of a row, of a label entry (start, length, place), of a waiting jump (place, row) and of
 * a change (row, old kind). */
#define LHODRUPESH_ROW 17
#define LHODRUPESH_LABEL_ENTRY 3
#define LHODRUPESH_JUMP_ENTRY 2
#define LHODRUPESH_CHANGE 2

/* The most that a call uses, whatever is lent. */
#define LHODRUPESH_MOST_ROWS 4194304
#define LHODRUPESH_MOST_PARCELS 16777216
#define LHODRUPESH_MOST_LABELS 4096
#define LHODRUPESH_MOST_JUMPS 4096
#define LHODRUPESH_MOST_LOOPS 64

/* A record of the lent table of open loops. At rest it is zero. */
struct lhodrupesh_loop {
    uint32_t place; /* of the loop start */
    uint32_t first; /* the first body entry */
    uint32_t count; /* an immediate count; 65536 and the code of a register */
    uint32_t mode;  /* in declaration order */
};

/* What a call on a list answers. */
struct lhodrupesh_told {
    uint32_t number; /* 0: accepted. Else the refusal's number */
    uint32_t count;  /* accepted: parcels or instructions, 0 in the slot check. Refused: 0 */
    int64_t first;   /* the refusal's first detail */
    int64_t second;  /* the refusal's second detail */
    int64_t third;   /* the row that the refusal is about; 0 in refusal 1 */
    uint32_t start;  /* refusals 11, 12 and 28: the refused row's own name, */
    uint32_t length; /* as a range of the lent names. Else 0 and 0 */
};

/* What the one-instruction call answers. */
struct lhodrupesh_one {
    uint32_t number;    /* 0: accepted. Else the refusal's number */
    uint32_t count;     /* accepted: how many parcels, 1 to 6. Refused: 0 */
    int64_t first;      /* the refusal's first detail */
    int64_t second;     /* the refusal's second detail */
    int64_t third;      /* 0 */
    uint16_t places[6]; /* accepted: the parcels, then zeros. Refused: zeros */
};

/* What parcels to bytes answers. */
struct lhodrupesh_written {
    uint64_t bytes;  /* accepted: how many bytes were written. Refused: 0 */
    int64_t first;   /* refused: the bytes lent */
    int64_t third;   /* 0 */
    uint32_t number; /* 0: accepted. 34: bytes fewer than twice the parcels; nothing written */
    uint32_t spare;  /* 0 */
};

/* What reading parcels back answers. */
struct lhodrupesh_rows {
    uint64_t rows;   /* accepted: how many rows were written. Refused: 0 */
    int64_t first;   /* 35: the place of the unknown or cut form's first parcel. 36: the smaller room */
    int64_t second;  /* 0 */
    int64_t third;   /* 0 */
    uint32_t number; /* 0: accepted. 35: no known form starts there. 36: no room for another row */
    uint32_t spare;  /* 0 */
};

/* What widening answers. */
struct lhodrupesh_widened {
    uint32_t number;  /* 0: accepted. 1; 2, 4, 17, 18, 19 of a row; 36: no room in the copy or in the
                         changes. Nothing is written in a refusal */
    uint32_t changes; /* accepted: how many rows were changed. Refused: 0 */
    int64_t first;    /* the refusal's first detail; 36: the room, in rows or in changes */
    int64_t second;   /* the refusal's second detail */
    int64_t third;    /* the row that a row refusal is about; 0 in 1 and 36 */
    uint32_t paired;  /* accepted: 1 if loops pair; 0 if they don't, and then no row was changed.
                         Refused: 0 */
    uint32_t spare;   /* 0 */
};

/*
 * One instruction's parcels.
 *   row, row_len   a row. A slice that isn't 17 long is refusal 1, kinds 48 to 51 are 2
 */
struct lhodrupesh_one lhodrupesh_instruction(const uint32_t *row, size_t row_len);

/*
 * The build of a list: number 0 and the parcel count, or a refusal with count 0.
 *   rows, rows_len         the row slice. Not a multiple of 17, or over the limit: refusal 1
 *   names, names_len       the names that the rows' ranges lie in
 *   parcels, parcels_len   room for parcels
 *   labels, labels_len     room for label entries: the length over 3, rounded down
 *   jumps, jumps_len       room for waiting jumps: the length over 2, rounded down
 *   loops, loops_len       room for open loops, a record each
 *
 * Accepted: the parcels stand at the front; the labels (start, length, place) and jumps (place, row)
 * stand in item order at the front of theirs; the loop records that were used are zero. Refused:
 * zeros stand in the parcels, label entries and jump entries that the rows before the refused one
 * took (all rows for 23, 12 and a labelled jump's 9), and in the loop records up to their deepest
 * nesting. All else is unchanged.
 */
struct lhodrupesh_told lhodrupesh_build(const uint32_t *rows, size_t rows_len,
                                        const uint8_t *names, size_t names_len,
                                        uint16_t *parcels, size_t parcels_len,
                                        uint32_t *labels, size_t labels_len,
                                        uint32_t *jumps, size_t jumps_len,
                                        struct lhodrupesh_loop *loops, size_t loops_len);

/*
 * The same build by a second, plain engine, to learn from and to hold the first against. It goes over
 * the rows in two walks: the first places every item and finds every loop's end, the second writes each
 * parcel once. It is slower. It takes the same arguments, and for all input it answers the same and
 * leaves the same in all that is lent.
 */
struct lhodrupesh_told lhodrupesh_build_plain(const uint32_t *rows, size_t rows_len,
                                              const uint8_t *names, size_t names_len,
                                              uint16_t *parcels, size_t parcels_len,
                                              uint32_t *labels, size_t labels_len,
                                              uint32_t *jumps, size_t jumps_len,
                                              struct lhodrupesh_loop *loops, size_t loops_len);

/*
 * How many parcels a list takes. Refused: 1; in the first row that has either, the row refusal (2, 4,
 * and 17 to 19 from compute construction), then what keeps its instruction from encoding. The rules
 * of labels, jumps and loops are ignored.
 *   rows, rows_len     the row slice
 *   names, names_len   the names that the rows' ranges lie in
 */
struct lhodrupesh_told lhodrupesh_parcel_count(const uint32_t *rows, size_t rows_len,
                                               const uint8_t *names, size_t names_len);

/*
 * How many instructions a list has: labels and loop ends are none, a LeafReturn is four. Refused: 1
 * and row refusals.
 *   rows, rows_len     the row slice
 *   names, names_len   the names that the rows' ranges lie in
 */
struct lhodrupesh_told lhodrupesh_instruction_count(const uint32_t *rows, size_t rows_len,
                                                    const uint8_t *names, size_t names_len);

/*
 * Whether, labels left out, the next two items after each delayed JumpRelative and each CJump exist
 * and are instruction items (kinds 0 to 39) other than JumpRelative, CJump and LeafReturn. Any number
 * of labels may stand around them, also labels that the build refuses. Refused: 1, then the first row
 * refusal, then 33 for the first jump of which this isn't so, its row the first and the third detail.
 *   rows, rows_len     the row slice
 *   names, names_len   the names that the rows' ranges lie in
 */
struct lhodrupesh_told lhodrupesh_slot_check(const uint32_t *rows, size_t rows_len,
                                             const uint8_t *names, size_t names_len);

/*
 * Parcels to bytes, low byte first. Nothing is changed past twice the number of parcels.
 *   parcels, parcels_len   the parcels
 *   bytes, bytes_len       room for the bytes
 */
struct lhodrupesh_written lhodrupesh_bytes(const uint16_t *parcels, size_t parcels_len,
                                           uint8_t *bytes, size_t bytes_len);

/*
 * Reads finished parcels back: an instruction row for each form that a build can emit, from left to
 * right, with its place. A form is known by its parcels alone. Jumps come back as kind 28 with their
 * offset, loop starts as kind 50, which has no offset; the six parcels of a LeafReturn are one row. Of two
 * rows with the same parcels the one with the larger kind is given: LoadImmediate as 17, a push as
 * StoreImmediate I7, M7 (35), a compute alone as 32. Encoding a row that was given yields its parcels,
 * but for kind 50, whose word is checked by the reader: an immediate count isn't 0 and the offset is 3 to
 * 0x3fffff.
 *   parcels, parcels_len   the parcels; there is no limit to their number
 *   rows, rows_len         room for rows: the length over 17, rounded down
 *   places, places_len     room for the place of each row: its first parcel
 *
 * Accepted: the rows stand at the front of theirs, their places at the front of theirs. Refused: 35 for
 * a parcel that starts no known form, or one that is cut short, then 36 when rows or places are full;
 * zeros stand in the rows and places that were written. All else is unchanged.
 */
struct lhodrupesh_rows lhodrupesh_read_back(const uint16_t *parcels, size_t parcels_len,
                                            uint32_t *rows, size_t rows_len,
                                            uint64_t *places, size_t places_len);

/*
 * Widens loop tails, the usual cure of refusal 26: copies the rows and, in the last 11 instructions of
 * each loop body, turns Nop (38) into WideNop (39), and a DM move with post-modify or pre-modify (19 to
 * 22) into a memory move without compute (34) of the same direction, register, index, modifier and
 * update. Only rows that encode are changed. All else stays: kinds 16, 23 and 24 too, although they may
 * be short, so that 26 can remain. A list that the build accepts comes back unchanged. The instructions
 * are counted as the build counts them: loop starts, jumps, branches and rows that don't encode count,
 * labels and loop ends don't. Every loop of a list whose loops pair is treated, however deep, also one
 * that the build refuses for another reason; if loops don't pair, the rows are copied as they are.
 *   rows, rows_len         the row slice. Not a multiple of 17, or over the limit: refusal 1
 *   names, names_len       the names that the rows' ranges lie in
 *   copy, copy_len         room for rows: the length over 17, rounded down
 *   changes, changes_len   room for changes: the length over 2, rounded down
 *
 * Accepted: the rows stand at the front of the copy, each changed row with its old kind, in row order,
 * at the front of the changes. Refused: 1; then the first row refusal (2, 4, 17 to 19); then 36 when the
 * copy, and then when the changes have no room. Nothing is written then. All else is unchanged.
 */
struct lhodrupesh_widened lhodrupesh_widen(const uint32_t *rows, size_t rows_len,
                                           const uint8_t *names, size_t names_len,
                                           uint32_t *copy, size_t copy_len,
                                           uint32_t *changes, size_t changes_len);

#ifdef __cplusplus
}
#endif

#endif
