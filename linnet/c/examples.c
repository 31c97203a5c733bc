/* Calls every operation of linnet.h on examples of document 01, on one with a working variable and on a
 * file as another house may write it; the exit status is 0 when each answer, byte and untouched place is
 * as documents 01 and 02 (C-11, C-13, C-15, C-17, C-18) say. */
#include <stdio.h>
#include <string.h>

#include "linnet.h"

static const uint8_t R1[29] = {
    0x52, 0x55, 0x4C, 0x00, 0x01, 0x03, 0x01, 0x00, 0x00, 0x03, 0x10, 0x00, 0x01, 0x01, 0x22,
    0x10, 0x01, 0x10, 0x02, 0x00, 0x01, 0x01, 0x22, 0x10, 0x02, 0x10, 0x02, 0x00, 0x00};

static int failures = 0;

static void hold(int holds, const char *what) {
    if (!holds) {
        printf("does not hold: %s\n", what);
        failures++;
    }
}

static int is(struct linnet_answer a, uint8_t number, size_t place, size_t gates, size_t wires,
              size_t bytes, size_t before, size_t after) {
    return a.number == number && a.place == place && a.gates == gates && a.wires == wires &&
           a.bytes == bytes && a.before == before && a.after == after;
}

static void read_rule(void) {
    hold(is(linnet_read_rule(R1, 29), 0, 0, 6, 0, 0, 33, 0), "R1 is accepted");
    hold(is(linnet_read_rule(R1, 28), 4, 28, 0, 0, 0, 0, 0), "R1 cut by one byte: 4 at 28");
    hold(is(linnet_read_rule(R1, 0), 1, 0, 0, 0, 0, 0, 0), "no bytes: 1");
}

static void run_rule(void) {
    const uint32_t inputs[3] = {1, 6, 7};
    const uint32_t wrong[3] = {2, 6, 7};
    uint32_t results[4] = {9, 9, 9, 9};
    hold(is(linnet_run_rule(R1, 29, wrong, 3, results, 4), 41, 0, 0, 0, 0, 0, 0), "2 for a bit: 41");
    hold(is(linnet_run_rule(R1, 29, inputs, 2, results, 4), 40, 0, 0, 0, 0, 0, 0), "two inputs: 40");
    hold(is(linnet_run_rule(R1, 29, inputs, 3, results, 2), 42, 0, 0, 0, 0, 0, 0), "two places: 42");
    hold(results[0] == 9 && results[1] == 9 && results[2] == 9, "a refusal writes nothing");
    hold(is(linnet_run_rule(R1, 29, inputs, 3, results, 4), 0, 0, 6, 0, 0, 33, 0), "R1 runs");
    hold(results[0] == 1 && results[1] == 42 && results[2] == 7, "R1 gives 1, 42, 7");
    hold(results[3] == 9, "nothing after the results");
}

static void show_plain(void) {
    struct linnet_shown shown = linnet_show_plain(R1, 29);
    hold(is(shown.answer, 0, 0, 6, 0, 0, 33, 0), "R1 is shown");
    const uint32_t choice[4] = {0x30, 0, 3, 4};
    hold(memcmp(&shown.rows[20], choice, sizeof choice) == 0, "gate 5 is the choice");
    for (int word = 0; word < 4; word++) {
        hold(shown.needs[12 + word] == 0xAAAAAAAAAAAAAAAA, "gate 3's precondition");
        hold(shown.needs[16 + word] == 0x5555555555555555, "gate 4's precondition");
    }
    hold(shown.rows[24] == 0 && shown.needs[24] == 0, "zeros after the gates");
}

static const uint8_t P1[14] = {
    0x50, 0x4C, 0x4E, 0x00, 0x01, 0x00, 0x06, 0x00, 0x01, 0x02, 0x00, 0x03, 0x00, 0x04};

static void check_plan(void) {
    hold(is(linnet_check_plan(R1, 29, P1, 14), 0, 0, 6, 0, 0, 33, 0), "P1 is accepted");
    hold(is(linnet_check_plan(R1, 29, P1, 13), 23, 0, 0, 0, 0, 0, 0), "P1 cut by one byte: 23");
}

/* The groups of a plan stand in rising order of their smallest members. The rule and the second plan are
 * those of the guide's row 32: five ands, none of them needed, and groups {1, 2} and {3, 4}. */
static void groups_in_order(void) {
    const uint8_t rule[27] = {
        0x52, 0x55, 0x4C, 0x00, 0x01, 0x01, 0x03, 0x01, 0x00, 0x25, 0x25, 0x25, 0x10, 0x00,
        0x10, 0x00, 0x25, 0x10, 0x00, 0x10, 0x00, 0x25, 0x10, 0x00, 0x10, 0x00, 0x00};
    const uint8_t rising[19] = {
        0x50, 0x4C, 0x4E, 0x00, 0x01, 0x00, 0x06, 0x00, 0x02,
        0x02, 0x00, 0x01, 0x00, 0x02, 0x02, 0x00, 0x03, 0x00, 0x04};
    const uint8_t falling[19] = {
        0x50, 0x4C, 0x4E, 0x00, 0x01, 0x00, 0x06, 0x00, 0x02,
        0x02, 0x00, 0x03, 0x00, 0x04, 0x02, 0x00, 0x01, 0x00, 0x02};
    hold(is(linnet_check_plan(rule, 27, rising, 19), 0, 0, 6, 0, 0, 5, 0), "groups in order are accepted");
    hold(is(linnet_check_plan(rule, 27, falling, 19), 32, 0, 0, 0, 0, 0, 0), "the same groups turned: 32");
}

static void write_fused(void) {
    const uint8_t end[18] = {
        0x22, 0x00, 0x05, 0x00, 0x02, 0x30, 0x00, 0x00, 0x00, 0x06, 0x00, 0x06,
        0x00, 0x00, 0x00, 0x07, 0x00, 0x02};
    uint8_t out[128];
    memset(out, 0xEE, sizeof out);
    hold(is(linnet_write_fused(R1, 29, P1, 14, out, 113), 50, 0, 0, 0, 0, 0, 0), "113 bytes: 50");
    hold(out[0] == 0xEE && out[112] == 0xEE, "a refusal writes nothing");
    hold(is(linnet_write_fused(R1, 29, P1, 14, out, 128), 0, 0, 6, 8, 114, 33, 24), "114 bytes");
    hold(out[3] == 0 && out[4] == 2, "version 00 02");
    hold(memcmp(&out[96], end, sizeof end) == 0, "the product reads one pick and v2; at last the outputs");
    hold(out[114] == 0xEE, "nothing after the file");
}

static void run_fused(void) {
    const uint32_t inputs[3] = {0, 6, 7};
    uint32_t results[4] = {9, 9, 9, 9};
    hold(is(linnet_run_fused(R1, 29, P1, 14, inputs, 3, results, 4), 0, 0, 6, 8, 114, 33, 24), "R1, P1");
    hold(results[0] == 0 && results[1] == 49 && results[2] == 7, "R1 and P1 give 0, 49, 7");
    hold(results[3] == 9, "nothing after the results");
}

/* R1 with v2 made a working word. */
static void working(void) {
    const uint32_t inputs[3] = {1, 6, 7};
    uint32_t results[4] = {9, 9, 9, 9};
    uint8_t rule[29], file[114];
    memcpy(rule, R1, sizeof rule);
    rule[8] = 2;
    hold(is(linnet_run_rule(rule, 29, inputs, 3, results, 4), 0, 0, 6, 0, 0, 33, 0), "v2 working runs");
    hold(results[0] == 1 && results[1] == 42 && results[2] == 0, "v2 working gives 1, 42, 0");
    hold(results[3] == 9, "nothing after the results");
    hold(is(linnet_write_fused(rule, 29, P1, 14, file, 114), 0, 0, 6, 8, 114, 33, 24), "v2 working, P1");
    hold(file[111] == 7 && file[112] == 0xFF && file[113] == 0xFF, "v2 working has no output");
    results[2] = 9;
    hold(is(linnet_run_circuit(file, 114, inputs, 3, results, 4), 0, 0, 0, 8, 114, 0, 0), "the file runs");
    hold(results[1] == 42 && results[2] == 0, "the file gives 0 for v2");
    rule[8] = 4;
    hold(is(linnet_read_rule(rule, 29), 3, 8, 0, 0, 0, 0, 0), "kind 04: 3 at 8");
}

/* The same file in version 1: each table has 8 bytes instead of 32. */
static void version_1(const uint8_t *file) {
    const uint32_t inputs[3] = {1, 6, 7};
    uint32_t results[3] = {9, 9, 9};
    uint8_t before[66];
    memcpy(before, file, 18);
    memcpy(&before[18], &file[42], 12);
    memcpy(&before[30], &file[78], 36);
    hold(is(linnet_read_circuit(before, 66), 61, 0, 0, 0, 0, 0, 0), "tables too short for version 2: 61");
    before[4] = 1;
    hold(is(linnet_run_circuit(before, 66, inputs, 3, results, 3), 0, 0, 0, 8, 66, 0, 0), "version 1 runs");
    hold(results[0] == 1 && results[1] == 42 && results[2] == 7, "version 1 gives 1, 42, 7");
    before[4] = 3;
    hold(is(linnet_read_circuit(before, 66), 60, 0, 0, 0, 0, 0, 0), "version 00 03: 60");
}

/* The same file as it was written before C-18, with a pick at the second place too. */
static void before_equal(const uint8_t *file) {
    const uint8_t rest[28] = {
        0x31, 0x02, 0x00, 0x03, 0x00, 0x02, 0x00, 0x04, 0x00, 0x02, 0x22, 0x00, 0x05, 0x00, 0x06,
        0x30, 0x00, 0x00, 0x00, 0x07, 0x00, 0x07, 0x00, 0x00, 0x00, 0x08, 0x00, 0x02};
    const uint32_t inputs[3] = {1, 6, 7};
    uint32_t results[3] = {9, 9, 9};
    uint8_t before[124];
    memcpy(before, file, 96);
    memcpy(&before[96], rest, sizeof rest);
    before[7] = 9;
    hold(is(linnet_run_circuit(before, 124, inputs, 3, results, 3), 0, 0, 0, 9, 124, 0, 0), "a file of before C-18 runs");
    hold(results[0] == 1 && results[1] == 42 && results[2] == 7, "a file of before C-18 gives 1, 42, 7");
}

static void circuit_files(void) {
    const uint32_t inputs[3] = {0, 6, 7};
    const uint32_t wrong[3] = {2, 6, 7};
    uint32_t results[4] = {9, 9, 9, 9};
    uint8_t file[114];
    linnet_write_fused(R1, 29, P1, 14, file, 114);
    hold(is(linnet_read_circuit(file, 114), 0, 0, 0, 8, 114, 0, 0), "our own file is read");
    hold(is(linnet_read_circuit(file, 7), 60, 0, 0, 0, 0, 0, 0), "7 bytes: 60");
    hold(is(linnet_read_circuit(file, 113), 61, 0, 0, 0, 0, 0, 0), "113 bytes: 61");
    hold(is(linnet_run_circuit(file, 114, inputs, 2, results, 4), 40, 0, 0, 0, 0, 0, 0), "two inputs: 40");
    hold(is(linnet_run_circuit(file, 114, wrong, 3, results, 4), 41, 0, 0, 0, 0, 0, 0), "2 for a bit: 41");
    hold(is(linnet_run_circuit(file, 114, inputs, 3, results, 2), 42, 0, 0, 0, 0, 0, 0), "two places: 42");
    hold(results[0] == 9 && results[1] == 9 && results[2] == 9, "a refusal writes nothing");
    hold(is(linnet_run_circuit(file, 114, inputs, 3, results, 4), 0, 0, 0, 8, 114, 0, 0), "our own file runs");
    hold(results[0] == 0 && results[1] == 49 && results[2] == 7, "the file gives 0, 49, 7");
    hold(results[3] == 9, "nothing after the results");
    struct linnet_part part = linnet_record(file, 114, 6);
    hold(part.start == 96 && part.length == 5 && file[96] == 0x22, "wire 6 is the product");
    part = linnet_record(file, 114, 8);
    hold(part.start == 0 && part.length == 0, "8 is no wire");
    version_1(file);
    before_equal(file);
    file[17] = 1;
    hold(is(linnet_read_circuit(file, 114), 62, 0, 0, 0, 0, 0, 0), "a guard reads a word: 62");
    part = linnet_record(file, 114, 7);
    hold(part.start == 0 && part.length == 0, "a refused file has no records");
}

/* examples/other-house/charges.cir: a pick of two words by two bits, both of which may be 1. */
static const uint8_t CHARGES[34] = {
    0x43, 0x49, 0x52, 0x00, 0x01, 0x04, 0x00, 0x05, 0x01, 0x00, 0x01, 0x01, 0x00, 0x02, 0x00, 0x03, 0x31,
    0x02, 0x00, 0x00, 0x00, 0x02, 0x00, 0x01, 0x00, 0x03, 0x00, 0x00, 0x00, 0x01, 0x00, 0x04, 0x00, 0x03};

static void other_house(void) {
    const uint32_t inputs[4] = {1, 1, 500, 250};
    uint32_t results[4];
    struct linnet_part part = linnet_record(CHARGES, 34, 4);
    struct linnet_answer answer = linnet_run_circuit(CHARGES, 34, inputs, 4, results, 4);
    hold(part.start == 16 && part.length == 10 && CHARGES[16] == 0x31, "wire 4 is the pick");
    hold(is(answer, 0, 0, 0, 5, 34, 0, 0), "another house's file runs");
    hold(results[0] == 1 && results[1] == 1 && results[3] == 250, "the other variables");
    hold(results[2] == 750, "two guards at 1: the sum");
}

int main(void) {
    read_rule();
    run_rule();
    show_plain();
    check_plan();
    groups_in_order();
    write_fused();
    run_fused();
    working();
    circuit_files();
    other_house();
    return failures != 0;
}
