/* The proved library libwomm.a: which results a small case can have on WOMM, a weak operational memory model, and on three store-buffer machines.
 *
 * Nothing is required of a caller but that each pointer goes with its own length: every input of every length has one answer, and what each byte lent
 * then holds is proved. A number handed back has the width of size_t; a mark is 0 or 1. A pointer must not be null, also where its length is 0, and
 * what is handed back must not overlap anything else that is lent. Calls share nothing: any number of threads may make them.
 *
 * Stack: a list or a question takes about 11 kB for each step of its bound, a little over 1.1 MB at 96. Give a thread that makes one 2 MB.
 *
 * The block, the text, the machine and the codes are told whole in docs/MODEL.md.
 */
#ifndef WOMM_H
#define WOMM_H

#include <stddef.h>
#include <stdint.h>

#ifdef __cplusplus
extern "C" {
#endif

/* Sizes in bytes: a block, one result, what a replay leaves, the longest schedule, what each processor waits for, the longest text. */
#define WOMM_BLOCK 512
#define WOMM_RECORD 96
#define WOMM_RESULT 104
#define WOMM_SCHEDULE 384
#define WOMM_CAUSES 4
#define WOMM_TEXT 1369

/* Codes, each the first that applies; 0 is none of them. */
enum womm_code {
    WOMM_OK = 0,
    /* Of a block; 3 to 7 and 19 carry the position of the lowest bad byte, 1 and 2 carry 0. */
    WOMM_LENGTH = 1,            /* it has not 512 bytes */
    WOMM_CHECK = 2,             /* its check is wrong */
    WOMM_SIZES = 3,             /* bytes 0 to 3: processors, locations, old usual bound, zero */
    WOMM_COUNTS = 4,            /* over 12 instructions, or some of an absent processor */
    WOMM_NOT_ZERO = 5,          /* a byte of 8 to 91 that must be zero */
    WOMM_INSTRUCTION = 6,       /* a bad op, register, label or unused field */
    WOMM_UNUSED = 7,            /* a byte that must be zero in an unused slot or in 380 to 509 */
    WOMM_NOBODY_SETS = 19,      /* an instruction reads a register that nothing sets */
    /* Of a call. */
    WOMM_SCHEDULE_LENGTH = 8,   /* not a multiple of 4, or over 384 */
    WOMM_RESULT_LENGTH = 9,     /* the buffer has not the length that the call asks for */
    WOMM_BOUND = 10,            /* over 96 steps, or over 48 instructions on a board */
    WOMM_ROOM = 11,             /* more results than the buffer holds */
    WOMM_CLAUSES = 12,          /* over 8, or one names an absent processor or a register over 7 */
    WOMM_SCHEDULE_ROOM = 13,    /* the schedule's buffer has not 384 bytes */
    WOMM_NOT_EMPTY = 14,        /* a queue is not empty where it must be */
    WOMM_PLAN = 15,             /* a plan that is not one of a hand-off */
    WOMM_NOT_A_TEXT = 17,       /* a text that is not one case's text */
    WOMM_TEXT_ROOM = 18,        /* the text's buffer is shorter than the text */
    /* Of a step. */
    WOMM_BAD_STEP = 20,         /* neither an issue nor a commit of a present processor */
    WOMM_PLACE_UNDEFINED = 21,  /* issue behind a branch that has not committed */
    WOMM_AT_END = 22,           /* issue at the end of the program */
    WOMM_TOO_MANY_ACTIONS = 23, /* 48 actions are issued already */
    WOMM_ADDRESS_UNDEFINED = 24,
    WOMM_ADDRESS_RANGE = 25,    /* the address is no location */
    WOMM_NO_SUCH_ACTION = 26,   /* not in this processor's queue */
    WOMM_SOURCE_GIVEN = 27,     /* a source item, and no read */
    WOMM_HELD_BACK = 28,        /* an earlier action of its processor must commit first */
    WOMM_REGISTER_UNDEFINED = 29,
    WOMM_LOCK_RANGE = 30,       /* acquire or release of no location */
    WOMM_LOCK_STATE = 31,       /* acquire while another holds it, release while this one does not */
    WOMM_NOT_VISIBLE = 32       /* the source item is not visible to the read */
};

/* Reads a block.
 *   position: of the lowest bad byte with 3 to 7 and 19, else 0.
 *   usual: 1 if an accepted block has an old usual bound in byte 2, which is dropped; else 0.
 * Codes 1 to 7, 19. */
uint32_t womm_read(const uint8_t *block, size_t block_length, size_t *position, size_t *usual);

/* Seals a block: bytes 0 to 509 hold a case; byte 2 becomes 0 and 510, 511 the check.
 *   block: the sealed block; refused, all zeros.
 *   position: as womm_read's.
 * Codes 1, 3 to 7, 19. */
uint32_t womm_write(uint8_t *block, size_t block_length, size_t *position);

/* Reads a text.
 *   block: 512 bytes. The block of the text's case; refused, all zeros, whatever its length.
 *   line: with 17 and 19 the number, from 1, of the first line that is wrong; else 0.
 *   usual: 1 if an accepted text has an old usual bound of 1 to 96 in its first line, which is dropped; else 0.
 * Codes 17, 19, 1 (the buffer for the block has not 512 bytes). */
uint32_t womm_read_text(const uint8_t *text, size_t text_length, uint8_t *block, size_t block_length, size_t *line, size_t *usual);

/* Writes the text of a block's case; WOMM_TEXT bytes are always enough.
 *   text: the text, then zeros; refused, all zeros.
 *   length: of the text; refused, 0. position: as womm_read's.
 * Codes 1 to 7, 19, 18. */
uint32_t womm_write_text(const uint8_t *block, size_t block_length, uint8_t *text, size_t text_length, size_t *length, size_t *position);

/* Replays a schedule, four bytes a step.
 *   result: 104 bytes. Registers, processor p and register k at 24p + 3k: 0, 0, 0 if undefined, else 1, high byte, low byte. At 96 + p the place
 *     counter, 255 if undefined; at 100 + p the queue's length. Bytes of absent processors are 0. After a refused step: the state before it. Refused
 *     whole (codes below 20): all zeros.
 *   steps: taken; place: of the refused step's instruction with 23 to 25 and 27 to 32, else 255; position: as womm_read's.
 * Codes 1 to 7, 19, 8, 9, 20 to 32. */
uint32_t womm_replay(const uint8_t *block, size_t block_length, const uint8_t *schedule, size_t schedule_length, uint8_t *result,
                     size_t result_length, size_t *steps, size_t *place, size_t *position);

/* Says why each processor waits after a schedule, or after its steps before a refused one.
 *   causes: 4 bytes, of the oldest queued action of each processor. 0 nothing is queued, 1 it may commit, 2 it reads an undefined register, 3 it is an
 *     acquire or release of no location, 4 an acquire of one that another holds, 5 a release of one that it does not hold. Refused whole: all zeros.
 *   steps, place, position: as womm_replay's.
 * Codes as womm_replay's; 9 if causes has not 4 bytes. */
uint32_t womm_why(const uint8_t *block, size_t block_length, const uint8_t *schedule, size_t schedule_length, uint8_t *causes,
                  size_t causes_length, size_t *steps, size_t *place, size_t *position);

/* Gives the first race of a schedule after which every queue is empty: two different reads or writes of one location, at least one a write, neither of
 * which stands before the other.
 *   first, second: the numbers of the two actions, the earlier first; of all such pairs the lowest earlier one, then the lowest later one. Both 255 where
 *     there is none, and where the call is refused.
 *   steps, place, position: as womm_replay's.
 * Codes 1 to 7, 19, 8, 20 to 32, 14. */
uint32_t womm_race(const uint8_t *block, size_t block_length, const uint8_t *schedule, size_t schedule_length, size_t *first,
                   size_t *second, size_t *steps, size_t *place, size_t *position);

/* Lists every result of every finished run within a bound of steps, 0 to 96.
 *   records: 96 bytes each, laid out as the first 96 of womm_replay's result, each once, in byte order from the start; all other bytes 0.
 *   count: of records; cut: 1 if some run of exactly the bound's steps is not finished, so that a larger bound may add results; position: as
 *     womm_read's. Refused: count 0, cut 0, all bytes 0.
 * Codes 1 to 7, 19, 10, 11. */
uint32_t womm_outcomes(const uint8_t *block, size_t block_length, uint32_t bound, uint8_t *records, size_t records_length, size_t *count,
                       size_t *cut, size_t *position);

/* The store-buffer machines. */
enum womm_machine {
    WOMM_SC = 0,  /* a store reaches memory at once */
    WOMM_TSO = 1, /* one first-in first-out buffer a processor */
    WOMM_PSO = 2  /* one a processor and location; every number from 2 on */
};

/* Lists every result on a store-buffer machine within a bound of instructions, 0 to 48; drains are not counted. Answers as womm_outcomes does; cut: 1 if
 * some run of exactly the bound's instructions has a processor that is not at its end. */
uint32_t womm_board(uint32_t machine, const uint8_t *block, size_t block_length, uint32_t bound, uint8_t *records, size_t records_length,
                    size_t *count, size_t *cut, size_t *position);

/* What a register is to end as. */
struct womm_clause {
    uint8_t processor;
    uint8_t register_number;
    uint8_t defined; /* 1: as value; 0: undefined, and value is not looked at; nothing else may stand here */
    uint16_t value;
};

/* The answer to womm_ask. */
struct womm_answer {
    uint32_t code;
    size_t yes;      /* 1 if some finished run within the bound meets every clause */
    size_t length;   /* of the schedule, in bytes; 0 with no */
    size_t cut;      /* with no: the list's own cut mark */
    size_t position; /* as womm_read's */
};

/* Asks whether one result is possible.
 *   schedule: 384 bytes. With yes the schedule that is lowest in byte order among those that reach such a result, then zeros; else all zeros.
 * Codes 1 to 7, 19, 10, 12, 13. */
struct womm_answer womm_ask(const uint8_t *block, size_t block_length, uint32_t bound, const struct womm_clause *clauses,
                            size_t clauses_length, uint8_t *schedule, size_t schedule_length);

/* Judges a boot hand-off. A plan has 0 to 4 bytes: 0 to 3 touch that word, 4 takes the lock, 5 frees it; word 3 is the ready flag.
 *   verdict: 0 safe, 1 stale, 2 stuck; 0 if refused.
 *   schedule: 384 bytes. With stale the lowest schedule to a stale result, then zeros; else all zeros. length: of it, in bytes.
 * Codes 15, 13. */
uint32_t womm_handoff(const uint8_t *sending, size_t sending_length, const uint8_t *receiving, size_t receiving_length, uint8_t *schedule,
                      size_t schedule_length, size_t *verdict, size_t *length);

#ifdef __cplusplus
}
#endif

#endif
