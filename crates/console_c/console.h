/* The console's calls for C. The library is libconsole_c.a (tools/staticlib).
 *
 * A slice is a pointer and a length in 64-bit words; an empty one still needs a pointer that is
 * not null and is aligned to 8. A fixed array is a pointer, never null. Lent buffers must not
 * overlap. Rows are counted from 0.
 * CONSOLE_TABLES is six slices, in the order regions, externs, parameters, nodes, arguments, instructions.
 *
 * Each call returns 0 or the refusal's number. No call asks anything of the words it is lent.
 * Out-arrays and lists are written only where stated; every other word, and on any other answer
 * all of them, keep what they held. */
#ifndef CONSOLE_H
#define CONSOLE_H

#include <stddef.h>
#include <stdint.h>

#ifdef __cplusplus
extern "C" {
#endif

#define CONSOLE_TABLES                                                                             \
    const uint64_t *regions, size_t regions_length, const uint64_t *externs, size_t externs_length, \
        const uint64_t *parameters, size_t parameters_length, const uint64_t *nodes,               \
        size_t nodes_length, const uint64_t *arguments, size_t arguments_length,                    \
        const uint64_t *instructions, size_t instructions_length

/* A position's words: row, steps not taken back, entries used. */
#define CONSOLE_POSITION 3

/* ---- Words of the tables */

/* Kinds of regions, cells, parameters and returns. */
enum {
    CONSOLE_KIND_BIT = 0,     /* word 0 or 1 */
    CONSOLE_KIND_INTEGER = 1, /* any word, in two's complement */
    CONSOLE_KIND_OCTET = 2,   /* word 0 to 255 */
    CONSOLE_KIND_REAL = 3,    /* any word, the bits of a binary64 */
    CONSOLE_NO_RETURN = 4     /* an extern's return kind where it has no return */
};

/* A region: name, kind, length. */
#define CONSOLE_REGION_WIDTH 3
#define CONSOLE_REGION_LIMIT 64
/* An extern: name, return kind, first parameter row, parameter count. */
#define CONSOLE_EXTERN_WIDTH 4
#define CONSOLE_EXTERN_LIMIT 32
/* A parameter: name, mutable 0 or 1, shape, kind, length (0 unless a fixed vector). */
#define CONSOLE_PARAMETER_WIDTH 5
#define CONSOLE_PARAMETER_LIMIT 256
/* A node: tag, two words. A parent stands before its children, the left one first. */
#define CONSOLE_NODE_WIDTH 3
#define CONSOLE_NODE_LIMIT 2048
/* An argument: form, two words. */
#define CONSOLE_ARGUMENT_WIDTH 3
#define CONSOLE_ARGUMENT_LIMIT 1024
/* An instruction: family, operator, first name, index, second name, index, source form, its two
 * words. */
#define CONSOLE_INSTRUCTION_WIDTH 9
#define CONSOLE_INSTRUCTION_LIMIT 512

/* Shapes of parameters. */
enum {
    CONSOLE_SHAPE_SCALAR = 0,
    CONSOLE_SHAPE_FIXED_VECTOR = 1,   /* a whole region of the parameter's kind and length */
    CONSOLE_SHAPE_VARIABLE_VECTOR = 2 /* a whole region of the parameter's kind */
};

/* Tags of nodes, with their two words; unused ones are 0. */
enum {
    CONSOLE_NODE_ADDRESS = 0,       /* name, index */
    CONSOLE_NODE_FUNCTION_CALL = 1, /* one child */
    CONSOLE_NODE_INFIX = 2,         /* two children */
    CONSOLE_NODE_NUMBER = 3,        /* bits of the real part, of the imaginary part */
    CONSOLE_NODE_PI = 4,
    CONSOLE_NODE_PREFIX = 5,  /* one child */
    CONSOLE_NODE_VARIABLE = 6 /* name */
};

/* Forms of arguments, with their two words. */
enum {
    CONSOLE_ARGUMENT_IDENTIFIER = 0, /* name, 0 */
    CONSOLE_ARGUMENT_REFERENCE = 1,  /* name, index */
    CONSOLE_ARGUMENT_IMMEDIATE = 2   /* bits of the real part, of the imaginary part */
};

/* Families of instructions, each with its four operand words; then the source forms it takes. A
 * label is a name of its own: it may be a region's or an extern's number too. */
enum {
    CONSOLE_FAMILY_ARITHMETIC = 0,   /* destination name, index, 0, 0; any but none */
    CONSOLE_FAMILY_COMPARISON = 1,   /* destination name, index, left name, index; any but none */
    CONSOLE_FAMILY_BINARY_LOGIC = 2, /* destination name, index, 0, 0; integer literal, reference */
    CONSOLE_FAMILY_UNARY = 3,        /* name, index, 0, 0; none */
    CONSOLE_FAMILY_MOVE = 4,         /* destination name, index, 0, 0; any but none */
    CONSOLE_FAMILY_EXCHANGE = 5,     /* left name, index, right name, index; none */
    CONSOLE_FAMILY_LOAD = 6,         /* destination name, index, region, 0; reference: the offset */
    CONSOLE_FAMILY_STORE = 7,        /* region, 0, offset name, index; any but none */
    CONSOLE_FAMILY_FRAME = 8,        /* first node, node count, 0, 0: exactly one tree; none */
    CONSOLE_FAMILY_CALL = 9,         /* extern name, first argument, argument count, 0; none */
    CONSOLE_FAMILY_OTHER = 10,       /* 0, 0, 0, 0; none */
    CONSOLE_FAMILY_JUMP = 11,        /* 0, 0, label, 0; none */
    CONSOLE_FAMILY_JUMP_WHEN = 12,   /* condition name, index, label, 0; none */
    CONSOLE_FAMILY_JUMP_UNLESS = 13, /* condition name, index, label, 0; none */
    CONSOLE_FAMILY_LABEL = 14,       /* 0, 0, label, 0; none */
    CONSOLE_FAMILY_HALT = 15,        /* 0, 0, 0, 0; none */
    CONSOLE_FAMILY_CONVERT = 16      /* destination name, index, 0, 0; reference */
};

/* Operators, family by family; in the other families the word is 0. */
enum {
    /* arithmetic */
    CONSOLE_OPERATOR_ADD = 0,
    CONSOLE_OPERATOR_SUBTRACT = 1, /* SUB */
    CONSOLE_OPERATOR_DIVIDE = 2,   /* DIV */
    CONSOLE_OPERATOR_MULTIPLY = 3, /* MUL */

    /* comparison */
    CONSOLE_OPERATOR_EQUAL = 0,                 /* EQ */
    CONSOLE_OPERATOR_GREATER_THAN_OR_EQUAL = 1, /* GE */
    CONSOLE_OPERATOR_GREATER_THAN = 2,          /* GT */
    CONSOLE_OPERATOR_LESS_THAN_OR_EQUAL = 3,    /* LE */
    CONSOLE_OPERATOR_LESS_THAN = 4,             /* LT */

    /* binary logic */
    CONSOLE_OPERATOR_AND = 0,
    CONSOLE_OPERATOR_IOR = 1,
    CONSOLE_OPERATOR_XOR = 2,
    CONSOLE_OPERATOR_SHL = 3,
    CONSOLE_OPERATOR_SHR = 4,
    CONSOLE_OPERATOR_ASHR = 5,

    /* unary */
    CONSOLE_OPERATOR_NEG = 0,
    CONSOLE_OPERATOR_NOT = 1,

    /* frame */
    CONSOLE_OPERATOR_SET_FREQUENCY = 0,
    CONSOLE_OPERATOR_SET_PHASE = 1,
    CONSOLE_OPERATOR_SET_SCALE = 2,
    CONSOLE_OPERATOR_SHIFT_FREQUENCY = 3,
    CONSOLE_OPERATOR_SHIFT_PHASE = 4,

    /* other */
    CONSOLE_OPERATOR_NOP = 0,
    CONSOLE_OPERATOR_ANY_OTHER = 1 /* any instruction that the console does not step */
};

/* Forms of an instruction's source, with their two words. A MOVE or STORE of an integer literal
 * outside a BIT's 0 to 1 or an OCTET's 0 to 255 passes check and open, and its step is 24; AND, IOR
 * and XOR take the literal's low bits. */
enum {
    CONSOLE_SOURCE_INTEGER_LITERAL = 0, /* the literal, 0 */
    CONSOLE_SOURCE_REAL_LITERAL = 1,    /* its bits, 0 */
    CONSOLE_SOURCE_REFERENCE = 2,       /* name, index */
    CONSOLE_SOURCE_NONE = 3             /* 0, 0 */
};

/* ---- Words of the other buffers */

/* A cell: kind, word. All regions together have at most so many. */
#define CONSOLE_CELL_WIDTH 2
#define CONSOLE_CELL_LIMIT 4096
/* A journal entry: cell, old kind, old word; after a step's entries one of change count, row left,
 * 0. */
#define CONSOLE_ENTRY_WIDTH 3
#define CONSOLE_ENTRY_LIMIT 2048
/* A reply's row: argument, offset, kind, word. The argument is a resolved row's number, from 0. */
#define CONSOLE_REPLY_WIDTH 4
#define CONSOLE_REPLY_LIMIT 64
/* A resolved row: what it is, and four words. */
#define CONSOLE_RESOLVED_WIDTH 5
/* An error row: whose, the parameter's index (0 for the return), the error, four detail words. */
#define CONSOLE_ERROR_WIDTH 7
/* A type error: its kind, row, spot of the operand, spot of `src` or 0, two codes. */
#define CONSOLE_TYPE_ERROR_WIDTH 6
/* What console_run tells: steps taken, why no more, the refusal's number or 0. */
#define CONSOLE_RAN_WIDTH 3
/* What console_reference finds: 1, name, index; or at the end 0, 0, 0. */
#define CONSOLE_FOUND_WIDTH 3
/* A row of console_references: name, index. No expression has more than so many. */
#define CONSOLE_REFERENCE_WIDTH 2
#define CONSOLE_REFERENCE_LIMIT 1024

/* A resolved row's first word, with the four after it. */
enum {
    CONSOLE_RESOLVED_VECTOR = 0,    /* name, kind, length, mutable */
    CONSOLE_RESOLVED_REFERENCE = 1, /* name, index, kind, mutable */
    CONSOLE_RESOLVED_IMMEDIATE = 2  /* bits of the real part, of the imaginary part, kind, 0 */
};

/* Why a run stopped. */
enum {
    CONSOLE_STOP_ALLOWANCE = 0, /* all steps of its allowance are taken */
    CONSOLE_STOP_END = 1,       /* at the program's end */
    CONSOLE_STOP_CALL = 2,      /* before a CALL */
    CONSOLE_STOP_REFUSAL = 3    /* at a row that console_forward refuses, with that number */
};

/* An error row's first word: whose argument is in error. */
enum { CONSOLE_ERROR_OF_RETURN = 0, CONSOLE_ERROR_OF_PARAMETER = 1 };

/* An error row's error, with its details; unused ones are 0. */
enum {
    CONSOLE_ARGUMENT_ERROR_UNDECLARED = 1,           /* name */
    CONSOLE_ARGUMENT_ERROR_VECTOR = 2,               /* expected kind, length, found kind, length */
    CONSOLE_ARGUMENT_ERROR_SCALAR = 3,               /* expected kind, found kind */
    CONSOLE_ARGUMENT_ERROR_NO_VECTOR = 4,            /* the argument's three words */
    CONSOLE_ARGUMENT_ERROR_IMMEDIATE_RETURN = 5,     /* the argument's three words */
    CONSOLE_ARGUMENT_ERROR_IMMEDIATE_FOR_MUTABLE = 6 /* the parameter's name */
};

/* Kinds of type errors, with their two codes. */
enum {
    CONSOLE_TYPE_ERROR_UNDEFINED = 1,     /* not declared: absent, absent */
    CONSOLE_TYPE_ERROR_DATA_TYPE = 2,     /* kinds differ: those of the two spots */
    CONSOLE_TYPE_ERROR_REAL_REQUIRED = 3, /* in a frame: found, absent */
    CONSOLE_TYPE_ERROR_OPERAND = 4        /* not for this operator: found, required */
};

/* Spots of operands. */
enum {
    CONSOLE_SPOT_NONE = 0, /* where an error has no `src` */
    CONSOLE_SPOT_FIRST = 1,
    CONSOLE_SPOT_SECOND = 2,
    CONSOLE_SPOT_SOURCE = 3,
    CONSOLE_SPOT_NODE = 4 /* in a frame: this plus the node's place in its tree, from 0 */
};

/* A type error's codes: the kinds 0 to 3, and these. */
enum {
    CONSOLE_CODE_INTEGER_LITERAL = 4,
    CONSOLE_CODE_REAL_LITERAL = 5,
    CONSOLE_CODE_IMAGINARY = 6, /* a number whose imaginary part is above 2^-52 in size */
    CONSOLE_CODE_VARIABLE = 7,
    CONSOLE_CODE_ABSENT = 8,
    CONSOLE_CODE_REAL_OR_INTEGRAL = 9, /* required: INTEGER or REAL */
    CONSOLE_CODE_INTEGRAL = 10,        /* required: no REAL; of an offset: INTEGER */
    CONSOLE_CODE_BIT_ONLY = 11         /* required: BIT */
};

/* ---- Answers */

/* 0, and the refusals, by who can mend them. Each one's cause in words: console_cause. */
enum {
    CONSOLE_ACCEPTED = 0,

    /* the loader */
    CONSOLE_REFUSAL_TABLE_SHAPE = 1,
    CONSOLE_REFUSAL_WORD_NOT_ALLOWED = 2,
    CONSOLE_REFUSAL_NAME_TWICE = 3,
    CONSOLE_REFUSAL_BUFFER_SIZE = 4,

    /* the program's author */
    CONSOLE_REFUSAL_TYPE_ERROR = 5,
    CONSOLE_REFUSAL_EXTERN_NOT_FOUND = 6,
    CONSOLE_REFUSAL_ARGUMENT_COUNT = 7,
    CONSOLE_REFUSAL_ARGUMENT_ERRORS = 8,
    CONSOLE_REFUSAL_OTHER_INSTRUCTION = 9,
    CONSOLE_REFUSAL_TOO_MANY_CELLS = 10,

    /* the student */
    CONSOLE_REFUSAL_AT_END = 11,
    CONSOLE_REFUSAL_NOTHING_TO_TAKE_BACK = 12,
    CONSOLE_REFUSAL_JOURNAL_FULL = 13,

    /* the running program */
    CONSOLE_REFUSAL_INDEX_PAST_LENGTH = 14,
    CONSOLE_REFUSAL_ZERO_DIVISOR = 15,
    CONSOLE_REFUSAL_NEGATIVE_SHIFT_COUNT = 16,

    /* the extern routine */
    CONSOLE_REFUSAL_UNFIT_REPLY = 17,

    /* a foreign writer: whatever wrote memory, journal or position other than these calls */
    CONSOLE_REFUSAL_NO_RULE = 18,
    CONSOLE_REFUSAL_FOREIGN_POSITION = 19,

    /* the program's author */
    CONSOLE_REFUSAL_UNFIT_LABELS = 20,
    CONSOLE_REFUSAL_CONDITION_NOT_BIT = 21,
    CONSOLE_REFUSAL_UNFIT_CONVERSION = 22,

    /* the running program */
    CONSOLE_REFUSAL_OUTSIDE_INTEGER = 23,

    /* the program's author */
    CONSOLE_REFUSAL_UNFIT_LITERAL = 24
};

/* The cause of an answer in words, a string that is not to be freed. A number that no call returns
 * has one too. */
static inline const char *console_cause(uint64_t number)
{
    switch (number) {
    case CONSOLE_ACCEPTED:
        return "accepted";
    case CONSOLE_REFUSAL_TABLE_SHAPE:
        return "a table is not whole rows, or has more rows than its limit";
    case CONSOLE_REFUSAL_WORD_NOT_ALLOWED:
        return "a word is not allowed where it stands, a range lies outside its table or is not "
               "exactly one tree, or the chosen row is absent or of another family";
    case CONSOLE_REFUSAL_NAME_TWICE:
        return "two regions or two externs have one name";
    case CONSOLE_REFUSAL_BUFFER_SIZE:
        return "a lent buffer is too short, or the journal is not whole entries or too long";
    case CONSOLE_REFUSAL_TYPE_ERROR:
        return "the program has a type error";
    case CONSOLE_REFUSAL_EXTERN_NOT_FOUND:
        return "a CALL names an extern that is not declared";
    case CONSOLE_REFUSAL_ARGUMENT_COUNT:
        return "a CALL has more or fewer arguments than its extern takes";
    case CONSOLE_REFUSAL_ARGUMENT_ERRORS:
        return "arguments of a CALL do not fit their parameters";
    case CONSOLE_REFUSAL_OTHER_INSTRUCTION:
        return "an instruction is none that the console steps";
    case CONSOLE_REFUSAL_TOO_MANY_CELLS:
        return "the regions have more than 4,096 cells";
    case CONSOLE_REFUSAL_AT_END:
        return "the program is at its end";
    case CONSOLE_REFUSAL_NOTHING_TO_TAKE_BACK:
        return "there is no step to take back";
    case CONSOLE_REFUSAL_JOURNAL_FULL:
        return "the journal is full: the step's changes and one entry more do not fit";
    case CONSOLE_REFUSAL_INDEX_PAST_LENGTH:
        return "an index is negative, or at or past the length of its region";
    case CONSOLE_REFUSAL_ZERO_DIVISOR:
        return "an INTEGER is divided by zero";
    case CONSOLE_REFUSAL_NEGATIVE_SHIFT_COUNT:
        return "a shift count is negative";
    case CONSOLE_REFUSAL_UNFIT_REPLY:
        return "the reply does not fit the CALL, or there is one and the row is no CALL";
    case CONSOLE_REFUSAL_NO_RULE:
        return "a cell that is read has no rule: its kind or its word is foreign; or a name is not "
               "declared";
    case CONSOLE_REFUSAL_FOREIGN_POSITION:
        return "the position lies past its tables or has more steps than entries, or the journal "
               "cannot be read";
    case CONSOLE_REFUSAL_UNFIT_LABELS:
        return "a label stands on two LABEL rows, or a jump goes to a label that stands on none";
    case CONSOLE_REFUSAL_CONDITION_NOT_BIT:
        return "the condition of a jump is not declared, or not BIT";
    case CONSOLE_REFUSAL_UNFIT_CONVERSION:
        return "a CONVERT is not between INTEGER and REAL, or one of its names is not declared";
    case CONSOLE_REFUSAL_OUTSIDE_INTEGER:
        return "a REAL to convert is a NaN, an infinity, or outside -2^63 to 2^63-1 after its "
               "fraction is dropped";
    case CONSOLE_REFUSAL_UNFIT_LITERAL:
        return "an integer literal is outside its target's kind: 0 to 1 for a BIT, 0 to 255 for "
               "an OCTET";
    default:
        return "no answer of this library";
    }
}

/* ---- The calls */

/* The type check: 1, 2, 3, 5. error on 5: kind, row, spot, src spot, two codes. */
uint64_t console_check(CONSOLE_TABLES, uint64_t error[CONSOLE_TYPE_ERROR_WIDTH]);

/* The type check of the frame in that row, whatever type errors other rows have: 1, 2, 3, 5. It
 * ends at the first node that fails. looked on 0 and on 5: how many nodes it looked at, on 0 all of
 * the frame's, on 5 the failing one's place in its tree, from 0, plus 1. error on 5, as
 * console_check has it where this row is the first bad one. */
uint64_t console_frame(CONSOLE_TABLES, uint64_t row, uint64_t looked[1],
                       uint64_t error[CONSOLE_TYPE_ERROR_WIDTH]);

/* The resolved arguments of the CALL in that row: 1, 2, 3, 6, 7, 4, 8. rows takes 7 words an
 * argument. On 0 it holds count resolved rows of 5 words, on 8 count error rows of 7 words; count
 * is written on both. */
uint64_t console_resolve(CONSOLE_TABLES, uint64_t row, uint64_t *rows, size_t rows_length,
                         uint64_t count[1]);

/* The names that the CALL in that row reads and writes, ascending: 1, 2, 3, 6, 4. Each list takes
 * a word an argument. counts on 0: names read, names written. */
uint64_t console_access(CONSOLE_TABLES, uint64_t row, uint64_t *reads, size_t reads_length,
                        uint64_t *writes, size_t writes_length, uint64_t counts[2]);

/* The next reference of the expression of node_count nodes from first on: 1, 2. place is how many
 * of its nodes were passed, 0 at first. On 0 place is the new place, and found is 1, name, index;
 * or at the end, for good, place is node_count, and found is 0, 0, 0. */
uint64_t console_reference(const uint64_t *nodes, size_t nodes_length, uint64_t first,
                           uint64_t node_count, uint64_t place[1],
                           uint64_t found[CONSOLE_FOUND_WIDTH]);

/* The next references of that expression, as many as rows has room for: 1, 2. place as in
 * console_reference. rows takes two words a reference, name and index; an odd last word stays, and
 * a list of no room gets none. On 0 rows holds count references, and place is the place to go on
 * from. The end is told by a count below the room, for good, and place is then node_count. */
uint64_t console_references(const uint64_t *nodes, size_t nodes_length, uint64_t first,
                            uint64_t node_count, uint64_t place[1], uint64_t *rows,
                            size_t rows_length, uint64_t count[1]);

/* How many journal entries are enough for a program without jumps: 1, 2, 3, 10, 5, 9, 20, 21, 22,
 * then 6, 7, 8 by row, as console_open without its buffers. entries on 0: the sum over all rows, 1
 * for NOP and a frame, 3 for EXCHANGE, 65 for a CALL, 2 for any other; a journal of n entries is
 * CONSOLE_ENTRY_WIDTH * n words. After an accepted console_open, where nothing else writes the
 * session and no row is a JUMP, JUMP_WHEN or JUMP_UNLESS, no more entries are ever in use, and with
 * a journal of at least so many no console_forward is 13. With jumps a row may be done many times,
 * each time with at most 65 entries. The sum may be above 2,048, the most that console_open takes:
 * then 13 may come with some keys and replies. error on 5, as console_check. */
uint64_t console_journal_length(CONSOLE_TABLES, uint64_t entries[1],
                                uint64_t error[CONSOLE_TYPE_ERROR_WIDTH]);

/* Zeroes the cells of all regions, each with its declared kind: 1, 2, 3, 10, 4, 5, 9, 20, 21, 22,
 * then 6, 7, 8 by row. memory takes two words a cell, kind and word; words past the cells stay.
 * journal takes three words an entry, at most 2,048 entries; none is read or written. position on
 * 0: all words 0. error on 5, as console_check. A refusal leaves memory as it was. */
uint64_t console_open(CONSOLE_TABLES, uint64_t *memory, size_t memory_length,
                      const uint64_t *journal, size_t journal_length,
                      uint64_t position[CONSOLE_POSITION],
                      uint64_t error[CONSOLE_TYPE_ERROR_WIDTH]);

/* One step forward, the row at position: 1, 2, 3, 10, 4, 19, 11, 9, 20, then for a CALL 6, 7, 8,
 * 14, 17, 13, else 17, 18, 14, 18, 14, 18, 24, 15, 16, 23, 13. memory takes 2 words a cell, a
 * journal entry 3 words. position on 0 is the new one: its row is the next, a taken jump's LABEL
 * row, or after HALT the number of rows. reply is at most 64 rows of 4 words where the row is a
 * CALL, else empty: argument, offset, kind, word. On any other answer memory and journal keep what
 * they held. */
uint64_t console_forward(CONSOLE_TABLES, uint64_t *memory, size_t memory_length, uint64_t *journal,
                         size_t journal_length, uint64_t position[CONSOLE_POSITION],
                         const uint64_t *reply, size_t reply_length);

/* Steps forward with no reply, at most allowance of them: 1, 2, 3, 10, 4, 19. On 0 ran is the steps
 * taken, why no more (CONSOLE_STOP_..), and the number for which console_forward would refuse the
 * next step where that is the reason, else 0; memory, journal and position are what so many
 * console_forward leave, with an allowance of 0 what they were. Before each step come allowance,
 * end, CALL, refusal, in this order: where one stops the run those after it are not looked for. */
uint64_t console_run(CONSOLE_TABLES, uint64_t *memory, size_t memory_length, uint64_t *journal,
                     size_t journal_length, uint64_t position[CONSOLE_POSITION],
                     uint64_t allowance, uint64_t ran[CONSOLE_RAN_WIDTH]);

/* The last step taken back from the journal: 1, 2, 3, 10, 4, 19, 12, 19. position on 0 is the one
 * before that step, its row the one that the closing entry has as left. On any other answer memory
 * keeps what it held. */
uint64_t console_back(CONSOLE_TABLES, uint64_t *memory, size_t memory_length,
                      const uint64_t *journal, size_t journal_length,
                      uint64_t position[CONSOLE_POSITION]);

#ifdef __cplusplus
}
#endif

#endif
