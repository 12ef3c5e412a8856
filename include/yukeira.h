/*
 * Yukeira: the check and the scan of a logger's tables, as document 01 defines them.
 *
 * Everything is lent by the caller: there is no heap and no state of the library's own. A buffer is a pointer and a
 * length in elements. A pointer is never null, also where its length is 0, and what is lent to one call does not
 * overlap. Nothing else is asked: any text, record, state, number and buffer contents at all may be handed in. Every
 * call ends and touches only what it was lent.
 *
 * Every call answers a number:
 *
 *   0         done; of a check: passed
 *   1 to 22   of a check alone: the fault, as document 01 numbers them
 *   30        the record is one that the check refuses
 *   31        a buffer has another length than it must have
 *   32        the state or the counts cannot be: a position at or past the ring's length, more words filled than the
 *             ring has, an array id over 399, or a sample count over 16,777,215
 *   33        the table is neither 1 nor 2, the day is not 1 to 366, or the time not 0 to 6,911,999
 *   34        the keyed location is 0 or above I, its value is not finite, or the keyed flag is not 1 to 8
 *
 * A record, state or cursor buffer of another size than given below is 31 before everything else, since nothing can be
 * read from it; then 30 to 34 come in that order. A call that answers 30 to 34 has changed nothing that it was lent.
 * Where they are not refused, yukeira_list answers 0, 1 or 2, and yukeira_next 0, 1 or 3.
 */
#ifndef YUKEIRA_H
#define YUKEIRA_H

#include <stddef.h>
#include <stdint.h>

#ifdef __cplusplus
extern "C" {
#endif

/*
 * The record of a program is two buffers: `numbers`, 2,385 of uint16_t, and `values`, 594 of float.
 *
 * numbers[0]      I, the count of Input Locations
 * numbers[1]      M, the count of Intermediate sums
 * numbers[2], [3] V of Table 1 in eightieths of a second: modulo 65,536, and divided by 65,536
 * numbers[4], [5] V of Table 2, in the same way
 * numbers[6..8]   how many entries Tables 1, 2 and 3 have; a number over 255 is read as 255
 *
 * Entry e (1 to 99) of table t (1 to 3) has the slot s = 99 (t - 1) + e - 1: the eight numbers from numbers[9 + 8 s]
 * on, and the two values values[2 s] and values[2 s + 1]. The first number of a slot is the instruction's own; its
 * parameters follow in the order in which they are keyed. A location is two numbers: its number, and 0, or 1 where it
 * is indexed (`--`). What is not used is written as 0, a value as 0.0.
 *
 *   numbers                                          values
 *   1   reps range channel location                  multiplier, offset   channel 1 to 196, through all cards
 *   2   reps range channel location                  multiplier, offset   channel 1 to 98, through all cards
 *   30  location                                     F
 *   31  location location
 *   32  location
 *   33, 35, 36, 38  location location location
 *   34, 37          location location (X, Z)         F
 *   70 to 74        reps location
 *   77  code (10, 100 or 110)
 *   85  number of the subroutine
 *   86  command
 *   87  delay count
 *   88  location relation location command
 *   89  location relation command                    F
 *   91  flag high command                            high: 0 where low is tested, 1 where high is
 *   92  into interval command
 *   94, 95  alone
 *
 * A relation is 1 to 4, as keyed. A command is 256 x kind + argument: kind 0 to the end of the table, 1 call
 * (subroutine), 2 raise (flag), 3 lower (flag), 4 Then Do, 5 exit the loop if true, 6 exit it if false, 7 port high
 * (port), 8 port low (port); an argument that a kind does not have is written as 0 and not looked at.
 *
 * Any numbers may stand in a record that is handed in. Where 0 or 1 is written, any other number is read as 1. Reps,
 * range, channel, flag and the number of a subroutine are read as 255 where they are over 255. A slot whose
 * instruction is none of these is fault 3. A slot whose relation, code or kind of command is none of these is read as
 * `85 0`, which is fault 2. The check refuses what so cannot be. Slots behind a table's last entry are not looked at;
 * a text's record has 95 in them.
 */
#define YUKEIRA_RECORD_NUMBERS 2385
#define YUKEIRA_RECORD_VALUES 594

/*
 * The run state is one buffer of 25 of uint16_t:
 *
 * state[0..9]     flags 0 to 9: 0 is low, any other number high; 0 or 1 is written
 * state[10..17]   ports 1 to 8, in the same way
 * state[18]       the ring's position: the next word to write
 * state[19]       how many of its words are filled: they lie just before the position, going round
 * state[20]       the array id last raised
 * state[21], [22] the day of the last scan of Tables 1 and 2; 0: there was none
 * state[23], [24] the minute of the day of that scan
 */
#define YUKEIRA_STATE_NUMBERS 25

/*
 * The cursor of a listing is one buffer of 3 of uint16_t, all 0 before the first array:
 *
 * cursor[0]       how many of the filled words, oldest first, come before where the listing goes on
 * cursor[1], [2]  the ring's position and filled count when the cursor was given
 */
#define YUKEIRA_CURSOR_NUMBERS 3

/* What else a scan is lent: readings and sample counts, exactly so many; the ring, from 1 word to so many. */
#define YUKEIRA_READINGS 196
#define YUKEIRA_COUNTS 297
#define YUKEIRA_LONGEST_RING 32768

/* Bytes of the longest text that can pass. */
#define YUKEIRA_LONGEST_TEXT 16384

/*
 * The check of a keyed text.
 * 0: passed. The record is in `numbers` and `values`, the stated counts of Tables 1 and 2 are in `*first` and
 * `*second`; `*table` and `*entry` are 0.
 * 1 to 22: the first fault. Its place is in `*table` and `*entry`; `*first` and `*second` are 0, and the record is the
 * empty one: all numbers 0 but 95 as the instruction of every slot, all values 0.0.
 * 31: refused.
 */
uint8_t yukeira_check_text(const uint8_t *text, size_t text_len, uint16_t *numbers, size_t numbers_len, float *values,
                           size_t values_len, uint8_t *table, uint8_t *entry, uint32_t *first, uint32_t *second);

/*
 * The check of a record, which can have the faults 2, 3, 5, 6 and 10 to 22; the four numbers as above.
 * 31: refused.
 */
uint8_t yukeira_check_record(const uint16_t *numbers, size_t numbers_len, const float *values, size_t values_len,
                             uint8_t *table, uint8_t *entry, uint32_t *first, uint32_t *second);

/*
 * The state of a fresh start: all low, empty and 0, no scan yet. A fresh start also has 0 in the locations, sums,
 * counts and ring, which the caller sets.
 * 31: refused.
 */
uint8_t yukeira_fresh(uint16_t *state, size_t state_len);

/*
 * One run of Table 1 or 2, with the subroutines that it calls, at a tick: a day, and a time in eightieths of a second
 * since midnight. Where V is 0 or does not divide the time the table is not due: that is no refusal, and nothing that
 * was lent changes, bit by bit.
 * Lengths: `locations` I, `sums` M, `counts` 297, `readings` 196, `ring` 1 to 32,768.
 * 30, 31, 32, 33: refused.
 */
uint8_t yukeira_scan(const uint16_t *numbers, size_t numbers_len, const float *values, size_t values_len, uint8_t table,
                     uint32_t day, uint32_t time, uint16_t *state, size_t state_len, const float *readings,
                     size_t readings_len, float *locations, size_t locations_len, float *sums, size_t sums_len,
                     uint32_t *counts, size_t counts_len, uint16_t *ring, size_t ring_len);

/*
 * Sets location n (1 to I) to the finite value v. `locations` has the length I.
 * 30, 31, 34: refused.
 */
uint8_t yukeira_key_location(const uint16_t *numbers, size_t numbers_len, const float *values, size_t values_len,
                             uint32_t n, float v, float *locations, size_t locations_len);

/*
 * Turns flag f (1 to 8) over.
 * 30, 31, 34: refused.
 */
uint8_t yukeira_key_flag(const uint16_t *numbers, size_t numbers_len, const float *values, size_t values_len, uint8_t f,
                         uint16_t *state, size_t state_len);

/*
 * Item j of array k of Final Storage, both from 0, oldest array first; item 0 is the array's id.
 * 0: there is no such item; nothing is written.
 * 1: `*number` is the id; `*places` and `*negative` are 0.
 * 2: a value: its digits are in `*number`, so many of them behind the point as `*places` says; `*negative` is 0 or 1.
 * 31, and 32 for the position and the filled count alone: refused. `ring` has 1 to 32,768 words.
 */
uint8_t yukeira_list(const uint16_t *state, size_t state_len, const uint16_t *ring, size_t ring_len, size_t k, size_t j,
                     uint16_t *number, uint8_t *places, uint8_t *negative);

/*
 * The listing array by array: with a cursor of zeros the first whole array that is shown, and with the cursor as the
 * last call left it the next one, oldest first. Over a whole listing each word of the ring is looked at a bounded
 * number of times, where yukeira_list starts from the oldest word in each call. `values` has the ring's length.
 * 0: there are no more arrays; nothing is written.
 * 1: an array. Its id is in `*id`, the count of its values in `*count` (0 or more), their words in order in the first
 * `*count` of `values`; the others stay. The cursor is moved behind the array.
 * 3: the ring has moved on: its position or filled count is not the cursor's, since words were stored after it
 * was given, or the cursor stands at no array that is shown. Nothing is written; with a cursor of zeros the listing
 * begins again.
 * 31, and 32 as for yukeira_list: refused.
 *
 * A value word is 32,768 if the value is negative, plus 8,192 x places, plus digits: of a word w the digits are
 * w % 8192, so many of them behind the point as the places w / 8192 % 4 say, and w / 32768 is 1 if it is negative.
 *
 * Any cursor may be handed in; where cursor[0] is 0 the other two are not looked at. A call leaves the cursor behind
 * an array; a cursor is taken where an array that is shown now ends or begins at word cursor[0], the filled words
 * numbered from 0, oldest first, and any other is 3. Every array that is answered is one of the listing of the ring as
 * it is at the call, with its own id and all its values: the first that begins at word cursor[0] or behind it. What no
 * cursor can know is that the ring has gone round by just its length between two calls, for its position and filled
 * count are then the same: if an array ends or begins at its word again, arrays may have been passed over or come
 * twice, but what is answered is still a whole array of the ring as it is.
 */
uint8_t yukeira_next(const uint16_t *state, size_t state_len, const uint16_t *ring, size_t ring_len, uint16_t *cursor,
                     size_t cursor_len, uint16_t *values, size_t values_len, uint16_t *id, size_t *count);

#ifdef __cplusplus
}
#endif

#endif
