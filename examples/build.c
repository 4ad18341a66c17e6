/*
 * Builds a small kernel through the C interface and prints its parcels and bytes, and the rows that are
 * read back from them. Widens the tail of a loop, and builds what comes out. Builds a kernel whose jump
 * leads nowhere, and prints the refusal with its row and its name. Checks the slots of delayed jumps.
 * Builds two kernels by both engines, and compares what they answer and leave.
 */
#include <inttypes.h>
#include <stdio.h>
#include <string.h>

#include "lhodrupesh.h"

#define LENGTH(array) (sizeof(array) / sizeof((array)[0]))
#define NUMBERS(rows) (LENGTH(rows) * LHODRUPESH_ROW)
#define PARCELS 64

static const uint8_t names[] = "topend";

/* Count R1 down while it isn't zero, then go on. */
static const uint32_t count_down[][LHODRUPESH_ROW] = {
    {48, 0, 3},    /* label "top" */
    {25, 1, 1},    /* IntegerSubOne: R1 = R1 - 1 */
    {49, 1, 0, 3}, /* jump to "top" unless equal */
    {38},          /* Nop */
};

/* A loop, and a jump to a label that isn't there. */
static const uint32_t astray[][LHODRUPESH_ROW] = {
    {50, 0, 16, 1}, /* loop start: 16 times, F1 */
    {39},           /* WideNop */
    {51},           /* loop end */
    {49, 5, 3, 3},  /* jump to "end" always */
};

/* A loop with short instructions in its tail: a build refuses it with 26. */
static const uint32_t short_tail[][LHODRUPESH_ROW] = {
    {50, 0, 16, 1}, /* loop start: 16 times, F1 */
    {19, 2, 4, 6},  /* LoadDmPostModify: R2 from I4, then I4 = I4 + M6 */
    {0, 3, 3, 2},   /* FloatAdd: F3 = F3 + F2 */
    {38},           /* Nop */
    {51},           /* loop end */
};

/* A delayed jump, with a label on its second slot. */
static const uint32_t labelled_slot[][LHODRUPESH_ROW] = {
    {38},          /* Nop */
    {28, 5, 5, 1}, /* JumpRelative: always, 5 parcels on, delayed */
    {38},          /* Nop, the first slot */
    {48, 3, 3},    /* label "end" */
    {38},          /* Nop, the second slot */
};

/* The same with a loop end there, which leaves the slot unfilled. */
static const uint32_t broken_slot[][LHODRUPESH_ROW] = {{38}, {28, 5, 5, 1}, {38}, {51}, {38}};

/* What a build is lent. */
struct lent {
    uint16_t parcels[PARCELS];
    uint32_t labels[8 * LHODRUPESH_LABEL_ENTRY];
    uint32_t jumps[8 * LHODRUPESH_JUMP_ENTRY];
    struct lhodrupesh_loop loops[4];
};

/* The type of both engines. */
typedef struct lhodrupesh_told engine(const uint32_t *, size_t, const uint8_t *, size_t, uint16_t *,
                                      size_t, uint32_t *, size_t, uint32_t *, size_t,
                                      struct lhodrupesh_loop *, size_t);

static struct lhodrupesh_told build(engine *by, const uint32_t *rows, size_t rows_len,
                                    struct lent *lent)
{
    return by(rows, rows_len, names, sizeof names - 1, lent->parcels, LENGTH(lent->parcels),
              lent->labels, LENGTH(lent->labels), lent->jumps, LENGTH(lent->jumps), lent->loops,
              LENGTH(lent->loops));
}

static void print_parcels(const uint16_t *parcels, uint32_t count)
{
    printf("%" PRIu32 " parcels:", count);
    for (uint32_t place = 0; place < count; place++)
        printf(" %04x", (unsigned)parcels[place]);
    printf("\n");
}

static void print_bytes(const uint16_t *parcels, uint32_t count)
{
    uint8_t bytes[2 * PARCELS];
    struct lhodrupesh_written written = lhodrupesh_bytes(parcels, count, bytes, sizeof bytes);

    printf("%" PRIu64 " bytes:", written.bytes);
    for (uint64_t place = 0; place < written.bytes; place++)
        printf(" %02x", (unsigned)bytes[place]);
    printf("\n");
}

static void print_counts(const uint32_t *rows, size_t rows_len)
{
    struct lhodrupesh_told parcel_count =
        lhodrupesh_parcel_count(rows, rows_len, names, sizeof names - 1);
    struct lhodrupesh_told instruction_count =
        lhodrupesh_instruction_count(rows, rows_len, names, sizeof names - 1);
    struct lhodrupesh_told slots = lhodrupesh_slot_check(rows, rows_len, names, sizeof names - 1);

    printf("%" PRIu32 " instructions in %" PRIu32 " parcels, slot check %" PRIu32 "\n",
           instruction_count.count, parcel_count.count, slots.number);
}

static void print_slots(const uint32_t *rows, size_t rows_len)
{
    struct lhodrupesh_told slots = lhodrupesh_slot_check(rows, rows_len, names, sizeof names - 1);

    if (slots.number == 0)
        printf("every slot is filled\n");
    else
        printf("slot check %" PRIu32 ": the jump in row %" PRId64 "\n", slots.number, slots.third);
}

static void print_refusal(struct lhodrupesh_told told)
{
    printf("refused %" PRIu32 " in row %" PRId64 ", details %" PRId64 " and %" PRId64
           ", name \"%.*s\"\n",
           told.number, told.third, told.first, told.second, (int)told.length,
           (const char *)names + told.start);
}

static void print_built(const uint32_t *rows, size_t rows_len)
{
    struct lent lent;
    struct lhodrupesh_told told = build(lhodrupesh_build, rows, rows_len, &lent);

    if (told.number != 0) {
        print_refusal(told);
        return;
    }
    print_parcels(lent.parcels, told.count);
    print_bytes(lent.parcels, told.count);
}

/* Builds a kernel and reads its parcels back: the kind and the place of each row; then what is refused. */
static void print_read_back(const uint32_t *rows, size_t rows_len)
{
    struct lent lent;
    uint32_t back[PARCELS][LHODRUPESH_ROW];
    uint64_t places[PARCELS];
    struct lhodrupesh_told told = build(lhodrupesh_build, rows, rows_len, &lent);
    struct lhodrupesh_rows read =
        lhodrupesh_read_back(lent.parcels, told.count, back[0], NUMBERS(back), places, PARCELS);

    printf("read back: %" PRIu64 " rows", read.rows);
    for (uint64_t row = 0; row < read.rows; row++)
        printf(", kind %" PRIu32 " at %" PRIu64, back[row][0], places[row]);
    printf("\n");

    read = lhodrupesh_read_back(lent.parcels, 5, back[0], NUMBERS(back), places, PARCELS);
    printf("cut to 5 parcels: number %" PRIu32 " at %" PRId64, read.number, read.first);
    read = lhodrupesh_read_back(lent.parcels, told.count, back[0], NUMBERS(back), places, 2);
    printf("; room for 2 rows: number %" PRIu32 " of %" PRId64 "\n", read.number, read.first);
}

/* Widens the tails of a list's loops: what a build answers before, what is changed, and what a build
 * answers after; then what is refused, and what loops that don't pair give. */
static void print_widened(const uint32_t *rows, size_t rows_len)
{
    struct lent lent;
    uint32_t copy[8][LHODRUPESH_ROW];
    uint32_t changes[8][LHODRUPESH_CHANGE];
    struct lhodrupesh_told told = build(lhodrupesh_build, rows, rows_len, &lent);
    struct lhodrupesh_widened widened =
        lhodrupesh_widen(rows, rows_len, names, sizeof names - 1, copy[0], NUMBERS(copy),
                         changes[0], LENGTH(changes) * LHODRUPESH_CHANGE);

    printf("number %" PRIu32 " at parcel %" PRId64 "; widened: %" PRIu32 " changes", told.number,
           told.first, widened.changes);
    for (uint32_t change = 0; change < widened.changes; change++)
        printf(", row %" PRIu32 " of kind %" PRIu32, changes[change][0], changes[change][1]);
    told = build(lhodrupesh_build, copy[0], rows_len, &lent);
    printf("; then number %" PRIu32 ", %" PRIu32 " parcels\n", told.number, told.count);

    widened = lhodrupesh_widen(rows, rows_len, names, sizeof names - 1, copy[0], NUMBERS(copy),
                               changes[0], LHODRUPESH_CHANGE);
    printf("room for 1 change: number %" PRIu32 " of %" PRId64, widened.number, widened.first);
    widened = lhodrupesh_widen(rows, rows_len - LHODRUPESH_ROW, names, sizeof names - 1, copy[0],
                               NUMBERS(copy), changes[0], 0);
    printf("; without its end: number %" PRIu32 ", %" PRIu32 " changes, loops %s\n", widened.number,
           widened.changes, widened.paired ? "pair" : "don't pair");
}

/* By both engines, over memory that holds the same before. */
static void print_engines(const uint32_t *rows, size_t rows_len)
{
    struct lent left[2];
    struct lhodrupesh_told told[2];

    memset(left, 0x55, sizeof left);
    told[0] = build(lhodrupesh_build, rows, rows_len, &left[0]);
    told[1] = build(lhodrupesh_build_plain, rows, rows_len, &left[1]);
    if (memcmp(&told[0], &told[1], sizeof told[0]) != 0)
        printf("the engines answer differently\n");
    else if (memcmp(&left[0], &left[1], sizeof left[0]) != 0)
        printf("the engines leave different memory\n");
    else
        printf("both engines: number %" PRIu32 ", %" PRIu32 " parcels, the same memory\n",
               told[0].number, told[0].count);
}

static void print_one(const uint32_t *row)
{
    struct lhodrupesh_one one = lhodrupesh_instruction(row, LHODRUPESH_ROW);

    printf("kind %" PRIu32 " alone: number %" PRIu32 ", %" PRIu32 " parcels, the first %04x\n",
           row[0], one.number, one.count, (unsigned)one.places[0]);
}

int main(void)
{
    print_one(count_down[1]);
    print_built(count_down[0], NUMBERS(count_down));
    print_counts(count_down[0], NUMBERS(count_down));
    print_counts(astray[0], NUMBERS(astray));
    print_read_back(count_down[0], NUMBERS(count_down));
    print_widened(short_tail[0], NUMBERS(short_tail));
    print_built(astray[0], NUMBERS(astray));
    print_slots(labelled_slot[0], NUMBERS(labelled_slot));
    print_slots(broken_slot[0], NUMBERS(broken_slot));
    print_engines(astray[0], NUMBERS(astray));
    print_engines(count_down[0], NUMBERS(count_down));
    return 0;
}
