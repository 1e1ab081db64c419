/*
 * The workflow runtime, for a program in C that links libhost.a.
 *
 * Buffers. Every buffer is lent: a pointer and its length in bytes. The library keeps no pointer, allocates nothing, opens
 * no file and starts no thread; a call has no state but the buffers. During a call no buffer may overlap another, and no
 * other thread may write to one that is lent, or read one that is not `const`. A pointer to an empty buffer (length 0) may
 * be any pointer but NULL.
 *
 *   pack    the workflows, as document 01 lays them out; only read
 *   store   SARTHULE_STORE_BYTES(P, C) bytes for P partitions (1 to 8) of C rows (5 to 256); first filled by sarthule_create
 *   slots   SARTHULE_SLOTS_BYTES bytes, eight agent records; 384 zero bytes are eight empty slots
 *   list    at least SARTHULE_LIST_BYTES bytes, the worklist; 132 zero bytes are an empty one. What is behind is neither
 *           read nor written
 *   answer  SARTHULE_ANSWER_BYTES bytes (sarthule_open: SARTHULE_OPEN_BYTES, sarthule_figures: SARTHULE_FIGURES_BYTES),
 *           written by every call; what is behind stays
 *
 * A record in `slots` is 48 bytes, twelve words of 4 bytes, each low byte first:
 *
 *   word 0        in use: 0 or 1
 *   word 1        id of the request
 *   word 2        position, the number of the next instruction: at most 65,535
 *   word 3        step number, how many blocks are done: at most 65,535
 *   words 4 - 11  registers 0 to 7
 *
 * Slot s starts at byte 48 * s. An empty slot is all zero. Bytes that are no record (another word 0, a word 2 or 3 that is
 * too great) are refused with 14 by every call that puts question 14, and stay as they are.
 *
 * In `list` word 0 is the number of entries, at most 16, and each entry is two words, in the order of entry:
 *
 *   word 1 + 2 * i   id of the request at place i
 *   word 2 + 2 * i   its mark, SARTHULE_MARK_WAITING (0) or SARTHULE_MARK_TAKEN (1)
 *
 * A call writes the number and the entries and nothing behind the last of them: what stands there is left over, and is not
 * read. A list that is not so (a greater number, an id twice, another mark) is refused with 25 by every call that puts
 * question 25, and stays as it is.
 *
 * Rows. In `store` the used rows of each partition and of the book come first, by rising stored key, so log rows stand
 * before data rows; the unused rows are zero. Two stores of the same P and C with equal contents are equal bytes, whichever
 * calls led to them. An earlier library left rows in the order in which they came: such a store is put in order once, by
 * sarthule_order; until then every other call that puts question 11 refuses it with 11.
 *
 * The floor is kept in the store as one row more of the book: stored key SARTHULE_FLOOR_KEY, value the floor. No other key of
 * the book is as great, so it is the last used row there, and the book's used count includes it. A store without it has floor
 * 0, as every store had before sarthule_retire first raised it.
 *
 * Answers. A call returns one of these numbers, and writes three words into `answer` (sarthule_word reads them):
 *
 *   returned              word 0     word 1     word 2
 *   SARTHULE_DONE         0          0          0
 *   SARTHULE_MOVED        0          0          0            turn only: an instruction or a whole block is done
 *   SARTHULE_REPLY        id         value      0            turn: the workflow has ended, its slot is empty; sarthule_reply
 *   SARTHULE_REFUSED      question   workflow   instruction  workflow and instruction with 4 to 8 only, otherwise 0
 *   SARTHULE_TAKEN        id         0          0            take only: this id was the first one waiting
 *   SARTHULE_NOT_YET      0          0          0            sarthule_reply only: the id is not logged through
 *   SARTHULE_BAD_ANSWER   -          -          -            `answer` is too short: not even `answer` is written
 *   SARTHULE_BAD_SLOTS    -          -          -            `slots` has not 384 bytes; not even `answer` is written
 *   SARTHULE_BAD_LIST     -          -          -            `list` has fewer than 132 bytes; not even `answer` is written
 *
 * Where a call is refused, store, slots and list are byte for byte as they were. The last three numbers are this library's
 * own, and are looked at in that sequence: `answer` first.
 *
 * Questions. The first no is the number of the refusal; sarthule_question below has them, in the order in which they are
 * put: 25 to 29 stand behind 14, and 24 and 30 between 16 and 17.
 *
 * The check puts 1 to 8. Open and figures put 1 to 8 and 17. Create puts 9 and 10. Order puts 9 to 12, of 11 all but the rising keys.
 * Add puts 1 to 14, 25, 26 and 20; take and done put 1 to 14, 25 and 27; retire puts 1 to 14, 25, 28 and 29; sarthule_reply
 * puts 1 to 13 and 20. Restart puts none. Arrival, retry, turn and crash put 1 to 21, 24 and 30, save those marked for calls
 * that they aren't; none of them gets the list.
 *
 * The worklist. An id that is booked may be put on the list (add), so that a terminal is told it is accepted, and be finished
 * later: a worker takes the first id that waits (take), starts an agent for it (retry), and when it has replied takes it off
 * the list (done). Done is refused until the id is logged through: starting from the booked request, with each block's result
 * taken from its log row, the log leads to RETURN. So no listed request vanishes before its reply can be worked out from the
 * log (sarthule_reply), which it can until it is retired. A restart, where all agents are gone, has all entries waiting again.
 *
 * Retiring. A book has room for C / 5 requests, and each leaves its log rows. Retiring removes the book and log rows of every
 * id below a floor, and these rows may be used again; what the retired requests did to the data stays. The floor stays in the
 * store and only rises, and an arrival of a smaller id is refused with 30 from then on, so that a late repeat does not act
 * again. New requests therefore need ids that rise, and a host retires only what no terminal will ask for any more: a retired
 * request has no reply.
 */
#ifndef SARTHULE_H
#define SARTHULE_H

#include <stddef.h>
#include <stdint.h>

#ifdef __cplusplus
extern "C" {
#endif

#define SARTHULE_SLOTS 8
#define SARTHULE_SLOT_BYTES 48
#define SARTHULE_SLOTS_BYTES 384
#define SARTHULE_LISTED 16
#define SARTHULE_LIST_BYTES 132
#define SARTHULE_ANSWER_BYTES 12
#define SARTHULE_OPEN_BYTES 28
#define SARTHULE_FIGURES_BYTES 48
#define SARTHULE_STORE_BYTES(P, C) (3 + 2 * ((size_t)(P) + 1) + 12 * (size_t)(C) * ((size_t)(P) + 1))
#define SARTHULE_FLOOR_KEY ((uint64_t)1 << 40)

#define SARTHULE_DONE 0u
#define SARTHULE_MOVED 1u
#define SARTHULE_REPLY 2u
#define SARTHULE_REFUSED 3u
#define SARTHULE_TAKEN 4u
#define SARTHULE_NOT_YET 5u
#define SARTHULE_BAD_ANSWER 100u
#define SARTHULE_BAD_SLOTS 101u
#define SARTHULE_BAD_LIST 102u

/* The marks of a listed id. */
#define SARTHULE_MARK_WAITING 0u
#define SARTHULE_MARK_TAKEN 1u

/* The i-th word of 4 bytes of a buffer: of `answer`, of `list`, or with i = 12 * slot + word of `slots`. */
static inline uint32_t sarthule_word(const uint8_t *bytes, size_t i)
{
    return (uint32_t)bytes[4 * i] | (uint32_t)bytes[4 * i + 1] << 8 | (uint32_t)bytes[4 * i + 2] << 16
        | (uint32_t)bytes[4 * i + 3] << 24;
}

/* The question of a refusal, by its number; an empty text for a number that no call here puts. */
static inline const char *sarthule_question(uint32_t number)
{
    switch (number) {
    case 1: return "Is there a count, 1 to 16?";
    case 2: return "Are all sizes there, each 1 to 256, sum at most 2,048?";
    case 3: return "Is the length 1 + 2m + 5T?";
    case 4: return "Is the operation 0 to B and bit 3 clear?";
    case 5: return "Are w (a jump's target included), and d where fixed, in range?";
    case 6: return "Does it stand, and its jump land, on the right side?";
    case 7: return "Is it at most the 16th PUT of its block?";
    case 8: return "Is the last instruction RETURN?";
    case 9: return "Are there three bytes, P 1 to 8, C 5 to 256?";
    case 10: return "Is the store's length right?";
    case 11: return "Is each used count at most C, each used key of a form of its partition and unlike the others there, "
                    "each unused row zero, and are the used keys rising?";
    case 12: return "Has each booked id all five rows, and is none below the floor?";
    case 13: return "Is each booked workflow below m, each BEGIN's partition below P?";
    case 14: return "Is each slot empty or sound?";
    case 25: return "Has the list at most 16 ids, none twice, each waiting or taken (add, take, done, retire)?";
    case 26: return "If the id isn't listed, are fewer than 16 listed (add)?";
    case 27: return "Is an id waiting (take), or the id taken and logged through (done)?";
    case 28: return "Is each smaller booked id logged through, in no slot and not on the worklist (retire)?";
    case 29: return "Is a smaller id booked (retire)?";
    case 15: return "Is the slot 0 to 7?";
    case 16: return "Is it empty (arrival, retry) or in use (turn, crash)?";
    case 24: return "Is the id other than 0 (arrival)?";
    case 30: return "Is the id not below the floor (arrival)?";
    case 17: return "Is the workflow below m (arrival, opening, figures)?";
    case 18: return "If the id is known, are workflow and arguments those booked (arrival)?";
    case 19: return "If it is new, are five book rows free (arrival)?";
    case 20: return "Is the id booked (retry, add, reply)?";
    case 21: return "Has a block that isn't logged enough free rows: one, plus one per different new key it PUTs (turn)?";
    default: return "";
    }
}

/* Is this a pack that calls may be given? Done, or refused with 1 to 8. */
uint32_t sarthule_check(const uint8_t *pack, size_t pack_len, uint8_t *answer, size_t answer_len);

/*
 * Where the parts of one workflow stand in the pack. Done, or refused with 1 to 8 or 17. `answer` has 28 bytes here: behind
 * its three words stand the offset of the workflow's operation bytes in the pack, their number, the offset of its operand
 * bytes and their number; 0 four times where it is refused.
 */
uint32_t sarthule_open(const uint8_t *pack, size_t pack_len, uint32_t workflow, uint8_t *answer, size_t answer_len);

/*
 * How much one workflow will take, for those who choose C: over all routes through it, where a jump may go either way, the
 * most turns, and for each partition the most rows, one for each block there and one for each PUT. Each figure may have its
 * own route. Done, or refused with 1 to 8 or 17. `answer` has 48 bytes here: behind its three words stand the turns, then the
 * rows of partition 0 to 7, whatever P is; 0 nine times where it is refused. A request that an arrival books where each
 * partition has that many rows free, and no log row of its id, is never refused with 21, as long as no block of another
 * request runs and each call gets the same pack and what the last one left.
 */
uint32_t sarthule_figures(const uint8_t *pack, size_t pack_len, uint32_t workflow, uint8_t *answer, size_t answer_len);

/*
 * Writes a fresh store, with no row used, over the whole buffer. Done, or refused with 9 (the numbers) or 10 (store_len is
 * not SARTHULE_STORE_BYTES(partitions, rows)).
 */
uint32_t sarthule_create(uint8_t *store, size_t store_len, size_t partitions, size_t rows, uint8_t *answer,
    size_t answer_len);

/*
 * Puts a store of an earlier library in order: the same rows, those of each partition and of the book by rising stored key.
 * It is given neither pack nor slots, and agents in the slots go on as before. A store in order stays byte for byte
 * as it is, so the call may be made whenever a store is opened. Done, or refused with 9 to 12; of 11 it asks all but the
 * rising keys.
 */
uint32_t sarthule_order(uint8_t *store, size_t store_len, uint8_t *answer, size_t answer_len);

/*
 * A request arrives: a new id is booked, with its workflow and four arguments, and an agent is started in the slot, which
 * must be empty. A known id with the same workflow and arguments only starts an agent. Done, or refused. Id 0, which a
 * handheld sends until it is paired, is never accepted: 24, also where an older store has it booked. An id below the floor is
 * not accepted any more: 30, whether it was ever booked or not.
 */
uint32_t sarthule_arrival(const uint8_t *pack, size_t pack_len, uint8_t *store, size_t store_len, uint8_t *slots,
    size_t slots_len, size_t slot, uint32_t id, uint32_t workflow, uint32_t argument0, uint32_t argument1,
    uint32_t argument2, uint32_t argument3, uint8_t *answer, size_t answer_len);

/*
 * Starts an agent for a booked id in the slot, which must be empty: after a crash, or to have a reply again. What it has
 * logged is not done a second time. Done, or refused; a retired id is not booked, 20. A 0 that an older store has booked is
 * retried like any other id.
 */
uint32_t sarthule_retry(const uint8_t *pack, size_t pack_len, const uint8_t *store, size_t store_len, uint8_t *slots,
    size_t slots_len, size_t slot, uint32_t id, uint8_t *answer, size_t answer_len);

/*
 * The agent in the slot does one instruction, or at BEGIN its whole block, with all rows of it and its log row; at RETURN
 * it replies and its slot is emptied. Moved, reply, or refused. An agent of a workflow of n instructions replies after at
 * most n turns. In a block, GET of a key that is absent leaves its register as it was (it becomes 0 no more); what a block
 * came to that an older library has logged stays as it is.
 */
uint32_t sarthule_turn(const uint8_t *pack, size_t pack_len, uint8_t *store, size_t store_len, uint8_t *slots,
    size_t slots_len, size_t slot, uint8_t *answer, size_t answer_len);

/* The agent in the slot is gone: the slot is emptied. Done, or refused. */
uint32_t sarthule_crash(const uint8_t *pack, size_t pack_len, const uint8_t *store, size_t store_len, uint8_t *slots,
    size_t slots_len, size_t slot, uint8_t *answer, size_t answer_len);

/*
 * All agents are gone: 384 zero bytes, and each id of the list waits, also one that was taken. Done; it asks nothing, whatever
 * the slots held. A list that question 25 would refuse is left as it is.
 */
uint32_t sarthule_restart(uint8_t *slots, size_t slots_len, uint8_t *list, size_t list_len, uint8_t *answer,
    size_t answer_len);

/*
 * Puts a booked id at the end of the list, waiting. One that is listed changes nothing: it keeps its place and its mark. Done,
 * or refused; 26, where a new id finds 16 listed, comes before 20.
 */
uint32_t sarthule_add(const uint8_t *pack, size_t pack_len, const uint8_t *store, size_t store_len, const uint8_t *slots,
    size_t slots_len, uint8_t *list, size_t list_len, uint32_t id, uint8_t *answer, size_t answer_len);

/*
 * Gives the first id that waits, and marks it as taken. It starts no agent: a retry does. Taken, or refused; 27 where none
 * waits.
 */
uint32_t sarthule_take(const uint8_t *pack, size_t pack_len, const uint8_t *store, size_t store_len, const uint8_t *slots,
    size_t slots_len, uint8_t *list, size_t list_len, uint8_t *answer, size_t answer_len);

/*
 * Removes a taken id whose log leads through to RETURN; those behind it move up. Whether an agent of it is still in a slot is
 * not asked. Done, or refused; 27 where the id is not listed as taken, or is not logged through.
 */
uint32_t sarthule_done(const uint8_t *pack, size_t pack_len, const uint8_t *store, size_t store_len, const uint8_t *slots,
    size_t slots_len, uint8_t *list, size_t list_len, uint32_t id, uint8_t *answer, size_t answer_len);

/*
 * Retires every request with an id below the floor: its book rows and its log rows in every partition are removed, and log rows
 * of smaller ids that are not booked too, so that these rows are free again. Data rows stay. The floor is kept in the store, in
 * a row of the book that the first retire adds and each later one overwrites: a book that was full then has five rows free for
 * each retired request, less the one of the first retire. Done, or refused; 28 where a smaller booked id is not logged through,
 * or is in a slot in use or on the list, waiting or taken; 29 where none is booked, which a floor 0 meets, and one that is not
 * above the last. So a floor of 1 more than the greatest booked id retires all, and 4294967295, the greatest id, is never
 * retired. Slots and list are only read.
 */
uint32_t sarthule_retire(const uint8_t *pack, size_t pack_len, uint8_t *store, size_t store_len, const uint8_t *slots,
    size_t slots_len, const uint8_t *list, size_t list_len, uint32_t floor, uint8_t *answer, size_t answer_len);

/*
 * The reply of a booked id, worked out from the log alone: what every agent of it replies, and what a retry would have it reply
 * again. Listed or not, with an agent or without. Reply, not yet where the log does not lead through to RETURN, or refused. It
 * changes nothing but `answer`.
 */
uint32_t sarthule_reply(const uint8_t *pack, size_t pack_len, const uint8_t *store, size_t store_len, uint32_t id,
    uint8_t *answer, size_t answer_len);

#ifdef __cplusplus
}
#endif

#endif
