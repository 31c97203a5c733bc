/* Linnetshelf: reads a matching rule, runs it, checks a plan for it and writes the fused circuit,
 * byte for byte as document 01 fixes it, with C-11 (circuit files from the other house are read and
 * run), C-12 (argument order), C-13 (working figures), C-15 (groups in one order), C-17 (eight
 * conditions) and C-18 (no pick between equal wires) of document 02.
 * Every function here is proved to answer and to write what the definitions of crates/<crate>/specs
 * give, for any bytes at all.
 *
 * Link with crates/linnet/out/liblinnet.a, which `rt lib` writes in crates/linnet (x86-64).
 *
 * What is lent. A pointer and the count after it are one array: so many elements, bytes or words,
 * not more. No pointer is NULL, also where the count is 0. An array that an operation writes to
 * overlaps no other array of the call. Nothing is kept after the call, no memory is allocated, and any
 * number of threads may call at once.
 *
 * Results. The kind of a variable is 00 word, 01 bit, 02 working word or 03 working bit. A run takes V
 * inputs and writes V results, one for each variable: its figure at the end, and 0 for a working
 * variable. In a circuit file the output of a working variable is FF FF, which names no wire.
 *
 * Versions. A circuit file is written as version 00 02, whose guards have up to 8 wires and a table of
 * 32 bytes. Files of version 00 01 are read too: their guards have up to 6 wires and a table of 8 bytes.
 * Rules and plans are of version 00 01. Files that were written before C-18, with a pick between equal
 * wires, are read and run as before.
 *
 * Refusals. An operation either succeeds, with number 0 and place 0, or refuses, with a number, a
 * place and every count 0. A refusal writes to no array. Rule comes before plan, plan before inputs
 * or buffer, a circuit file before inputs. A rule is read up to its first wrong byte. In a plan, a
 * circuit file or inputs each number is looked at over the whole before the next, in the order below,
 * and the first that applies is answered: for a plan, 32 comes after 26 and before 27. docs/GUIDE.md,
 * "The refusals", has for each number what it means, the smallest file that gets it and what to do;
 * `./shelf explain NUMBER` prints that. In its short words:
 *
 *   rule     1 size (6 to 4,096 bytes)        2 mark or version        3 variables or a kind byte
 *            4 a byte is wanted past the end  5 unknown code           6 no such variable
 *            7 wrong kind                     8 too deep               9 bytes after the end
 *           10 over 256 gates                11 over 8 conditions
 *   plan    20 size (9 to 1,024 bytes)       21 mark or version       22 gate count differs
 *           23 groups do not end with the file   24 a group below 2   25 no such gate, or not rising
 *           26 gate in two groups            32 groups not in order   27 member not costly
 *           28 operations differ             29 members do not exclude each other
 *           30 a group waits in a circle
 *   inputs  40 not V of them                 41 a bit above 1         42 fewer than V result places
 *   buffer  50 shorter than the file
 *   circuit file
 *           60 size, mark, version, variables or wires (8 to 16,384 bytes, 1 to 32 variables, at
 *              most 640 wires)
 *           61 records not laid out: an unknown code, records or outputs that do not end with the
 *              file, a bit constant above 1, a guard of over 8 wires (over 6 in version 1), a
 *              pick of no pair
 *           62 records do not fit together: inputs that are not just the first V records in order, a
 *              wire that is not earlier or of the wrong kind, a table bit from 2^d up in a guard of d
 *              wires, an output that is neither FF FF nor a wire of its variable's kind
 *   batch   75 no whole batch: `./shelf month` alone answers it, and no function here
 *
 * The place is the offending byte for 2, 3 and 5 to 9, the rule's length for 4, 10 and 11, else 0. */
#ifndef LINNET_H
#define LINNET_H

#include <stddef.h>
#include <stdint.h>

#ifdef __cplusplus
extern "C" {
#endif

/* The seven numbers that every operation answers with. A count that it does not work out is 0. */
struct linnet_answer {
    uint8_t number; /* 0, or the refusal */
    size_t place;   /* the refusal's place */
    size_t gates;   /* gates of the plain circuit */
    size_t wires;   /* wires of the fused circuit, or of the circuit file */
    size_t bytes;   /* bytes of the fused circuit's file, or of the circuit file */
    size_t before;  /* cost of the plain circuit */
    size_t after;   /* cost of the fused circuit */
};

/* A plain circuit. Gate g has rows[4 * g] to rows[4 * g + 3] and needs[4 * g] to needs[4 * g + 3]; zeros
 * after the last gate, and everywhere for a refused rule. A row is the code that the gate's record of a circuit
 * file begins with (00, 01 starting values of words and bits, working ones too, 11, 12 constants, 20
 * to 27, 30 a choice), then the variable of a starting value, the figure of a constant, or the argument
 * gates in the order in which the gate takes them; 0 where there is none. The four words of needs are the
 * gate's precondition, 256 bits, the lowest word first: bit j % 64 of needs[4 * g + j / 64] is 1 when
 * setting j needs the gate. */
struct linnet_shown {
    struct linnet_answer answer;
    uint32_t rows[1024];
    uint64_t needs[1024];
};

/* The part of an array from start on, so many elements. */
struct linnet_part {
    size_t start;
    size_t length;
};

/* 01 Reads a rule. Answers gates and cost before. Writes nothing. */
struct linnet_answer linnet_read_rule(
    const uint8_t *rule, size_t rule_count);

/* 02 Runs a rule directly on V inputs. Answers as 01. Writes each variable's figure at the end of
 * the run, 0 for a working variable, to the first V results, and nothing after. */
struct linnet_answer linnet_run_rule(
    const uint8_t *rule, size_t rule_count,
    const uint32_t *inputs, size_t inputs_count,
    uint32_t *results, size_t results_count);

/* 03 Checks a plan for a rule. Answers gates and cost before. Writes nothing. Two plans that are accepted
 * for a rule and form the same groups are the same bytes. */
struct linnet_answer linnet_check_plan(
    const uint8_t *rule, size_t rule_count,
    const uint8_t *plan, size_t plan_count);

/* 04 Writes the file of the fused circuit to the start of out, and nothing after. Answers all five
 * counts. 16,384 bytes always suffice. Where all members of a group have the same wire at an argument
 * place there is no pick, and a group without a pick has no guards: where no member is needed its wire
 * holds what its argument wires give. */
struct linnet_answer linnet_write_fused(
    const uint8_t *rule, size_t rule_count,
    const uint8_t *plan, size_t plan_count,
    uint8_t *out, size_t out_count);

/* 05 Runs the fused circuit on V inputs. Answers all five counts. Writes as 02. */
struct linnet_answer linnet_run_fused(
    const uint8_t *rule, size_t rule_count,
    const uint8_t *plan, size_t plan_count,
    const uint32_t *inputs, size_t inputs_count,
    uint32_t *results, size_t results_count);

/* 06 Shows the plain circuit of a rule, with each gate's precondition. Its answer is that of 01.
 * Writes nothing. */
struct linnet_shown linnet_show_plain(
    const uint8_t *rule, size_t rule_count);

/* 07 Reads a circuit file of either version, of whichever house. Answers its wires and bytes. Writes nothing. */
struct linnet_answer linnet_read_circuit(
    const uint8_t *file, size_t file_count);

/* 08 The part of a circuit file that holds the record of a wire; start 0 and length 0 for a file that
 * 07 refuses and for a number that is no wire of it. Writes nothing. */
struct linnet_part linnet_record(
    const uint8_t *file, size_t file_count,
    size_t wire);

/* 09 Runs a circuit file on V inputs, V and kinds being those of its input records. A pick with several
 * guards at 1 gives the sum of their values, modulo 2 for bits. Answers as 07. Writes each variable's
 * figure, 0 where its output is FF FF, to the first V results, and nothing after. */
struct linnet_answer linnet_run_circuit(
    const uint8_t *file, size_t file_count,
    const uint32_t *inputs, size_t inputs_count,
    uint32_t *results, size_t results_count);

#ifdef __cplusplus
}
#endif

#endif
