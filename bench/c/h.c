/* Runs H from C: its list, the bad result and its schedule, and the refusal of a bad block. Prints what it finds and ends with 1 if that is wrong. */
#include <stdio.h>
#include <string.h>

#include "../../include/womm.h"

static int wrong;

static void expect(const char *what, size_t found, size_t expected) {
    printf("%s: %zu\n", what, found);
    if (found != expected) {
        printf("    but should be %zu\n", expected);
        wrong = 1;
    }
}

/* Two processors, two locations; registers 0 and 1 of each hold 0 and 1. */
static void fill(uint8_t *block) {
    static const uint8_t instructions[2][12] = {
        {2, 0, 0, 1, 0, 0, 2, 0, 1, 1, 0, 0}, /* 1 to location 0, 1 to location 1 */
        {1, 2, 1, 0, 0, 0, 1, 3, 0, 0, 0, 0}, /* location 1 into register 2, location 0 into register 3 */
    };
    memset(block, 0, WOMM_BLOCK);
    block[0] = block[1] = block[4] = block[5] = 2;
    block[8] = block[9] = 3;
    block[14] = block[30] = 1;
    memcpy(block + 92, instructions[0], 12);
    memcpy(block + 164, instructions[1], 12);
}

int main(void) {
    uint8_t block[WOMM_BLOCK], records[16 * WOMM_RECORD], schedule[WOMM_SCHEDULE], result[WOMM_RESULT];
    size_t position, usual, count, cut, steps, place;
    const struct womm_clause lost[2] = {{1, 2, 1, 1}, {1, 3, 1, 0}};

    fill(block);
    expect("sealing", womm_write(block, sizeof block, &position), WOMM_OK);
    expect("reading", womm_read(block, sizeof block, &position, &usual), WOMM_OK);
    expect("listing", womm_outcomes(block, sizeof block, 8, records, sizeof records, &count, &cut, &position), WOMM_OK);
    expect("results", count, 4);
    expect("cut", cut, 0);
    for (size_t i = 0; i < count; i++) {
        const uint8_t *registers = records + WOMM_RECORD * i + 24;
        printf("    p1: register 2 is %d, register 3 is %d\n", registers[8], registers[11]);
    }
    expect("listing on TSO", womm_board(WOMM_TSO, block, sizeof block, 4, records, sizeof records, &count, &cut, &position), WOMM_OK);
    expect("results on TSO", count, 3);

    struct womm_answer answer = womm_ask(block, sizeof block, 8, lost, 2, schedule, sizeof schedule);
    expect("asking for 1, then 0", answer.code, WOMM_OK);
    expect("possible", answer.yes, 1);
    expect("bytes of its schedule", answer.length, 32);
    expect("replaying it", womm_replay(block, sizeof block, schedule, answer.length, result, sizeof result, &steps, &place, &position), WOMM_OK);
    expect("steps", steps, 8);
    expect("register 3 of p1", result[24 + 11], 0);

    block[95] = 9;
    expect("sealing a bad register", womm_write(block, sizeof block, &position), WOMM_INSTRUCTION);
    expect("its byte", position, 95);
    return wrong;
}
