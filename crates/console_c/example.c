/* A student's session: MOVE n[0] 7 and CALL f n[0] n[1], forward twice and back once. A loop and a
 * run are in calls.c. Build and run from the repository's root:
 *   tools/staticlib
 *   cc -o target/example crates/console_c/example.c target/staticlib/libconsole_c.a && target/example */
#include "console.h"

#include <inttypes.h>
#include <stdio.h>

enum { N = 1, X = 5, F = 7 }; /* names are any numbers: a region n, an extern f, its parameter x */

static const uint64_t regions[] = {N, CONSOLE_KIND_INTEGER, 3}; /* DECLARE n INTEGER[3] */
/* f returns an INTEGER and takes x, a mutable INTEGER: one parameter, from row 0 on */
static const uint64_t externs[] = {F, CONSOLE_KIND_INTEGER, 0, 1};
static const uint64_t parameters[] = {X, 1, CONSOLE_SHAPE_SCALAR, CONSOLE_KIND_INTEGER, 0};
static const uint64_t nodes[] = {0}; /* no expressions: lent with length 0 */
/* n[0] for the return, n[1] for x */
static const uint64_t arguments[] = {CONSOLE_ARGUMENT_REFERENCE, N, 0,
                                     CONSOLE_ARGUMENT_REFERENCE, N, 1};
static const uint64_t instructions[] = {
    CONSOLE_FAMILY_MOVE, 0, N, 0, 0, 0, CONSOLE_SOURCE_INTEGER_LITERAL, 7, 0,
    CONSOLE_FAMILY_CALL, 0, F, 0, 2, 0, CONSOLE_SOURCE_NONE, 0, 0, /* 2 arguments, from row 0 on */
};

enum { CELLS = 3, ENTRIES = 67 }; /* journal entries: enough in every order of keys, see main */
static uint64_t memory[CONSOLE_CELL_WIDTH * CELLS], journal[CONSOLE_ENTRY_WIDTH * ENTRIES];
static uint64_t position[CONSOLE_POSITION];

#define LENGTH(x) (sizeof(x) / sizeof((x)[0]))
#define TABLES                                                                                  \
    regions, LENGTH(regions), externs, LENGTH(externs), parameters, LENGTH(parameters), nodes, 0, \
        arguments, LENGTH(arguments), instructions, LENGTH(instructions)
#define SESSION memory, LENGTH(memory), journal, LENGTH(journal), position

static uint64_t show(const char *what, uint64_t number)
{
    printf("%s: %" PRIu64 " %s; ", what, number, console_cause(number));
    printf("row %" PRIu64 "; n:", position[0]);
    for (size_t word = 1; word < LENGTH(memory); word += CONSOLE_CELL_WIDTH)
        printf(" %" PRId64, (int64_t)memory[word]);
    printf("\n");
    return number;
}

int main(void)
{
    uint64_t error[CONSOLE_TYPE_ERROR_WIDTH], entries[1];
    if (show("check", console_check(TABLES, error)) ||
        console_journal_length(TABLES, entries, error) || entries[0] > ENTRIES ||
        show("open", console_open(TABLES, SESSION, error)))
        return 1;
    /* f's reply puts 9 into its argument 1, x; as an OCTET it does not fit, and nothing changes */
    const uint64_t reply[] = {1, 0, CONSOLE_KIND_INTEGER, 9};
    const uint64_t unfit[] = {1, 0, CONSOLE_KIND_OCTET, 9};
    show("MOVE", console_forward(TABLES, SESSION, reply, 0));
    show("CALL, unfit", console_forward(TABLES, SESSION, unfit, LENGTH(unfit)));
    show("CALL", console_forward(TABLES, SESSION, reply, LENGTH(reply)));
    show("back", console_back(TABLES, SESSION));
    return 0;
}
