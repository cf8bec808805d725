/* The other calls: a type error, one frame's verdict, a CALL's arguments and names, an expression's
 * references, how long a journal to lend; and a loop that is run. A session is in example.c. Build
 * and run from the repository's root:
 *   tools/staticlib
 *   cc -o target/calls crates/console_c/calls.c target/staticlib/libconsole_c.a && target/calls */
#include "console.h"

#include <inttypes.h>
#include <stdio.h>

/* Names are any numbers: a and n are regions, f an extern, x its parameter. A label is a name of
 * its own: this one has n's number too. */
enum { A = 0, N = 1, X = 5, F = 7, AGAIN = 1 };

/* DECLARE a BIT[2]; DECLARE n INTEGER[3] */
static const uint64_t regions[] = {A, CONSOLE_KIND_BIT, 2, N, CONSOLE_KIND_INTEGER, 3};
/* f returns an INTEGER and takes x, a mutable INTEGER: one parameter, from row 0 on */
static const uint64_t externs[] = {F, CONSOLE_KIND_INTEGER, 0, 1};
static const uint64_t parameters[] = {X, 1, CONSOLE_SHAPE_SCALAR, CONSOLE_KIND_INTEGER, 0};
static const uint64_t nodes[] = {
    /* n[1] + (-n[2]) * n[1] */
    CONSOLE_NODE_INFIX,   0, 0, /* its left child comes next, then its right one */
    CONSOLE_NODE_ADDRESS, N, 1,
    CONSOLE_NODE_INFIX,   0, 0,
    CONSOLE_NODE_PREFIX,  0, 0,
    CONSOLE_NODE_ADDRESS, N, 2,
    CONSOLE_NODE_ADDRESS, N, 1,
    /* pi / 2 */
    CONSOLE_NODE_INFIX,   0, 0,
    CONSOLE_NODE_PI,      0, 0,
    CONSOLE_NODE_NUMBER,  0x4000000000000000, 0, /* the bits of 2.0, no imaginary part */
};
/* n[0] for the return, n[2] for x */
static const uint64_t arguments[] = {
    CONSOLE_ARGUMENT_REFERENCE, N, 0,
    CONSOLE_ARGUMENT_REFERENCE, N, 2,
};
static const uint64_t instructions[] = {
    /* CALL f n[0] n[2]: two arguments, from row 0 on */
    CONSOLE_FAMILY_CALL, 0, F, 0, 2, 0, CONSOLE_SOURCE_NONE, 0, 0,
    /* ADD a[0] 1 */
    CONSOLE_FAMILY_ARITHMETIC, CONSOLE_OPERATOR_ADD, A, 0, 0, 0,
    CONSOLE_SOURCE_INTEGER_LITERAL, 1, 0,
    /* SET-PHASE 0 "xy" n[1] + (-n[2]) * n[1]: six nodes, from row 0 on */
    CONSOLE_FAMILY_FRAME, CONSOLE_OPERATOR_SET_PHASE, 0, 6, 0, 0, CONSOLE_SOURCE_NONE, 0, 0,
    /* SET-PHASE 0 "xy" pi/2: three nodes, from row 6 on */
    CONSOLE_FAMILY_FRAME, CONSOLE_OPERATOR_SET_PHASE, 6, 3, 0, 0, CONSOLE_SOURCE_NONE, 0, 0,
};
/* n[0] is counted down from 2 to 0. */
static const uint64_t loop[] = {
    /* MOVE n[0] 2 */
    CONSOLE_FAMILY_MOVE, 0, N, 0, 0, 0, CONSOLE_SOURCE_INTEGER_LITERAL, 2, 0,
    /* LABEL @again */
    CONSOLE_FAMILY_LABEL, 0, 0, 0, AGAIN, 0, CONSOLE_SOURCE_NONE, 0, 0,
    /* SUB n[0] 1 */
    CONSOLE_FAMILY_ARITHMETIC, CONSOLE_OPERATOR_SUBTRACT, N, 0, 0, 0,
    CONSOLE_SOURCE_INTEGER_LITERAL, 1, 0,
    /* GT a[0] n[0] 0 */
    CONSOLE_FAMILY_COMPARISON, CONSOLE_OPERATOR_GREATER_THAN, A, 0, N, 0,
    CONSOLE_SOURCE_INTEGER_LITERAL, 0, 0,
    /* JUMP-WHEN @again a[0] */
    CONSOLE_FAMILY_JUMP_WHEN, 0, A, 0, AGAIN, 0, CONSOLE_SOURCE_NONE, 0, 0,
};
enum { CALL_ROW = 0, BAD_FRAME_ROW = 2, GOOD_FRAME_ROW = 3 };
enum { CALL_ARGUMENTS = 2, NODES = 6 }; /* of row 0; of the first expression */

#define LENGTH(x) (sizeof(x) / sizeof((x)[0]))
/* the program of that many words of those rows */
#define TABLES_OF(rows, words)                                                                \
    regions, LENGTH(regions), externs, LENGTH(externs), parameters, LENGTH(parameters), nodes, \
        LENGTH(nodes), arguments, LENGTH(arguments), rows, words
#define TABLES TABLES_OF(instructions, LENGTH(instructions))
#define LOOP TABLES_OF(loop, LENGTH(loop))

static void print(const char *label, uint64_t number, const uint64_t *words, size_t count)
{
    printf("%s: %" PRIu64, label, number);
    for (size_t i = 0; i < count; i++)
        printf(" %" PRIu64, words[i]);
    printf("\n");
}

static void check(void)
{
    uint64_t error[CONSOLE_TYPE_ERROR_WIDTH] = {0};
    uint64_t number = console_check(TABLES, error);
    print("check", number, error, LENGTH(error));
}

/* Of the good frame all three nodes; of the bad one those up to n[1], which is no REAL. */
static void frame(void)
{
    uint64_t looked[1] = {0}, error[CONSOLE_TYPE_ERROR_WIDTH] = {0};
    uint64_t number = console_frame(TABLES, GOOD_FRAME_ROW, looked, error);
    print("frame looked", number, looked, LENGTH(looked));
    number = console_frame(TABLES, BAD_FRAME_ROW, looked, error);
    print("frame looked", number, looked, LENGTH(looked));
    print("frame error", number, error, LENGTH(error));
}

static void resolve(void)
{
    uint64_t rows[CONSOLE_ERROR_WIDTH * CALL_ARGUMENTS] = {0}, count[1] = {0};
    uint64_t number = console_resolve(TABLES, CALL_ROW, rows, LENGTH(rows), count);
    print("resolve", number, rows, CONSOLE_RESOLVED_WIDTH * count[0]);
}

static void access(void)
{
    uint64_t reads[CALL_ARGUMENTS] = {0}, writes[CALL_ARGUMENTS] = {0}, counts[2] = {0};
    uint64_t number = console_access(TABLES, CALL_ROW, reads, LENGTH(reads), writes,
                                     LENGTH(writes), counts);
    print("access reads", number, reads, counts[0]);
    print("access writes", number, writes, counts[1]);
}

/* All references in one call. A list of 2,048 words has room for those of any expression. */
static void references(void)
{
    uint64_t rows[CONSOLE_REFERENCE_WIDTH * CONSOLE_REFERENCE_LIMIT];
    uint64_t place[1] = {0}, count[1] = {0};
    uint64_t number =
        console_references(nodes, LENGTH(nodes), 0, NODES, place, rows, LENGTH(rows), count);
    print("references", number, rows, CONSOLE_REFERENCE_WIDTH * count[0]);
}

/* The same by a list of two rows, going on from the place until the list is not full. */
static void references_by_two(void)
{
    uint64_t rows[CONSOLE_REFERENCE_WIDTH * 2], place[1] = {0}, count[1];
    do {
        count[0] = 0;
        uint64_t number =
            console_references(nodes, LENGTH(nodes), 0, NODES, place, rows, LENGTH(rows), count);
        print("references by two", number, rows, CONSOLE_REFERENCE_WIDTH * count[0]);
    } while (count[0] == 2);
}

/* One at a time. Each call looks at all nodes anew, so this is for short expressions. */
static void reference(void)
{
    uint64_t place[1] = {0}, found[CONSOLE_FOUND_WIDTH] = {0};
    do {
        uint64_t number = console_reference(nodes, LENGTH(nodes), 0, NODES, place, found);
        print("reference", number, found, LENGTH(found));
    } while (found[0] == 1);
}

/* Of the CALL alone its entries, of all rows the ADD's type error. */
static void journal_length(void)
{
    uint64_t entries[1] = {0}, error[CONSOLE_TYPE_ERROR_WIDTH] = {0};
    uint64_t number = console_journal_length(TABLES_OF(instructions, CONSOLE_INSTRUCTION_WIDTH),
                                             entries, error);
    print("journal_length", number, entries, LENGTH(entries));
    number = console_journal_length(TABLES, entries, error);
    print("journal_length", number, error, LENGTH(error));
}

/* With a jump that count is not always enough: the loop's is 10, and its 9 steps use 14 entries. A
 * journal of 12 is full before the second GT: there the run stops, and keeps the steps taken. */
static void run(void)
{
    static uint64_t memory[CONSOLE_CELL_WIDTH * 5], journal[CONSOLE_ENTRY_WIDTH * 12];
    uint64_t position[CONSOLE_POSITION] = {0}, ran[CONSOLE_RAN_WIDTH] = {0};
    uint64_t entries[1] = {0}, error[CONSOLE_TYPE_ERROR_WIDTH] = {0};
    uint64_t number = console_journal_length(LOOP, entries, error);
    print("loop's journal_length", number, entries, LENGTH(entries));
    number = console_open(LOOP, memory, LENGTH(memory), journal, LENGTH(journal), position, error);
    print("loop's position", number, position, LENGTH(position));
    number = console_run(LOOP, memory, LENGTH(memory), journal, LENGTH(journal), position, 5, ran);
    print("run of 5", number, ran, LENGTH(ran));
    print("loop's position", number, position, LENGTH(position));
    number = console_run(LOOP, memory, LENGTH(memory), journal, LENGTH(journal), position, 99, ran);
    print("run of 99", number, ran, LENGTH(ran));
    print("loop's position", number, position, LENGTH(position));
    number = console_back(LOOP, memory, LENGTH(memory), journal, LENGTH(journal), position);
    print("back", number, position, LENGTH(position));
}

int main(void)
{
    check();
    frame();
    resolve();
    access();
    references();
    references_by_two();
    reference();
    journal_length();
    run();
    return 0;
}
