/* folvkin.h: the interface of Folvkin for other languages.
 *
 * Link with libfolvkin.a (`tools/staticlib.sh` writes it to
 * target/staticlib; it is x86-64 code for Linux). Plans, situations, events,
 * questions, slots and sheet lines cross it as the bytes of document 01,
 * "Scope and exact rules: integrated line block papers", with requests 01 to
 * 05 of document 02; docs/RECORDS.md has every byte of them.
 *
 *   plan       the record LB, 4 bytes, for the rules of 2024, or LC, 5 bytes,
 *              for those of 2012, as it stands in a question; it says the
 *              edition that a call judges by
 *   situation  the record SI, 21 bytes, or SJ, 23 bytes, where a mark is set
 *              or a count runs, as it stands in a question
 *   event      two bytes, code and argument
 *   reading    two bytes, kind and argument
 *   question   the records LB or LC, SI or SJ, EV, RD, LN end to end: the plan,
 *              the situation and the rest laid one after the other
 *   slot       six bytes, a sequence of events: its length, then their places
 *              in EV from 1, then zeros
 *
 * What holds of every function:
 *
 *   - It takes any numbers and any bytes: what they say has not to be checked
 *     before.
 *   - A slice is a pointer and then its length in bytes. The pointer must be
 *     to so many bytes that may be read (and written, for a room); it may not
 *     be null, even with length 0. A room may not overlap another slice.
 *   - It is written to read and write nothing but what it is lent, to keep no
 *     pointer, to allocate nothing and to have no state, so that calls from
 *     several threads at once are fine as long as they do not write to the
 *     same memory.
 *   - Bytes of a room past what was written keep their values.
 *   - Where it refuses, the refusal's number comes back, all other fields of
 *     the result are zero, but for the name beside 9 and 13 (below), and no
 *     byte of the room is changed.
 *   - A result of several fields has the refusal in its lowest byte: compare
 *     `r & 0xff` with a refusal, not `r`. Every field but the last is a byte,
 *     so `r >> 8 & 0xff` is the second.
 *
 * Refusals (0 is accepted; own is the station that the event's argument names):
 *
 *    1  the plan: n or b out of range
 *    2  the situation is not sound; in 2012 also if an annulled station has
 *       BILC or BSLG, or a held signal in its area
 *    3  unknown event code
 *    4  the event's argument is out of range
 *    5  it is already so, or there is nothing to undo
 *    6  the link is down
 *    7  a SOBB is pending, or not the one needed
 *    8  the own station is annulled (in 2012 also for BILC and BSLB; BSLB's own
 *       is the station in whose area the signal's section is)
 *    9  an exit route is set; it names the station that holds it, 0 A or 1 B:
 *       own for AFBLI, AFBLE and BILC, for SOBB and COBB A where A has one,
 *       else B
 *   10  the own entry route is set
 *   11  BILC is set (in 2012 also for AFBLI and AFBLE)
 *   12  the own orientation does not allow it
 *   13  the own station is in, and a section is occupied or a count runs (the
 *       ten seconds after a stray occupation); it names the lowest occupied
 *       section by its number, 0 where a count runs alone
 *   14  the blocking reminder is on
 *   15  the own station is in, no section is occupied, no count runs and the
 *       other station has an exit route
 *   16  in 2012, for AFBLI and AFBLE: BSLG is set
 *   17  in 2012, for AFBLI and AFBLE: BSLB holds a signal, of either direction,
 *       in the own area
 *   20  a record with wrong letters, bytes missing or left over, an EV or RD
 *       count out of range, SJ with mark and count zero, LC with another last
 *       byte than 1; an event or a reading of another length than two
 *   21  LN above 5, an event listed twice, a reading out of range
 *   22  continuation or candidate's slot malformed, or not of six bytes
 *   23  numeric question or unit byte out of range
 *   24  too little room
 *
 * Every number but 9 and 13 has the name 0; beside 9 the name 0 is station A,
 * so test the refusal and not the name.
 *
 * Where several apply, the first in the order 20, 1, 2, 3 and 4 (event by
 * event), 21, 22, 24, then the event's own, which are numbered 5 to 17 and come
 * in the order of the event's row in document 01, 15 directly after 13, and
 * after them those of 2012: 11, 16, 17 of AFBLI and AFBLE, 8 of BILC and BSLB;
 * for numbers 23, then 24.
 */
#ifndef FOLVKIN_H
#define FOLVKIN_H

#include <stddef.h>
#include <stdint.h>

#ifdef __cplusplus
extern "C" {
#endif

/* Whether a plan is accepted: n sections, 2 to 16, and a frontier b, 1 to n-1.
 * Returns 0, or refusal 20 or 1. */
uint8_t folvkin_plan(const uint8_t *plan, size_t plan_length);

/* Whether a situation is sound.
 * Returns 0, or refusal 20, 1 or 2. */
uint8_t folvkin_situation(const uint8_t *plan, size_t plan_length, const uint8_t *situation,
                          size_t situation_length);

/* Has an event happen.
 *   room  takes the situation after, as its record, which with the length
 *         returned can be lent to the next call (with another room); less
 *         than 96 bytes is refused by 24, whatever the length written
 * Returns refusal + 2^8 name + 2^16 length. The name is the section (13) or the
 * station (9) that the refusal names, else 0; the length is how many bytes were
 * written, 0 where it refuses. Refusals 20, 1, 2, 3, 4, 24, then the event's
 * own, numbered 5 to 17. */
uint64_t folvkin_event(const uint8_t *plan, size_t plan_length, const uint8_t *situation,
                       size_t situation_length, const uint8_t *event, size_t event_length, uint8_t *room,
                       size_t room_length);

/* Shows the aspects of all signals: 0 red, 1 yellow, 2 green.
 *   room  takes 2n bytes: the aspects of signals 1..n, then of 129..128+n;
 *         less than 2n is refused by 24
 * Returns 0, or refusal 20, 1, 2 or 24. Where it returns 0, no section has both
 * its signals off red. */
uint8_t folvkin_aspects(const uint8_t *plan, size_t plan_length, const uint8_t *situation,
                        size_t situation_length, uint8_t *room, size_t room_length);

/* Reads a value off a situation.
 *   reading  kind and argument: 1 any signal's aspect, 2 orientation, 3
 *            annulment, 4 exit route (argument station), 5 line (argument 0;
 *            0 free, 1 not)
 * Returns refusal + 2^8 value. Refusals 20, 1, 2, and 21 for a kind or an
 * argument out of range. */
uint32_t folvkin_reading(const uint8_t *plan, size_t plan_length, const uint8_t *situation,
                         size_t situation_length, const uint8_t *reading, size_t reading_length);

/* Whether a question is accepted.
 * Returns 0, or refusal 20, 1, 2, 3, 4 or 21; 3 and 4 go event by event. */
uint8_t folvkin_question(const uint8_t *question, size_t question_length);

/* Writes a part of a question's key.
 *   after  the slot to continue after, an answer or not, with length and
 *          places within the question; or 255 and five zeros: from the start
 *   room   takes the next slots, six bytes each, as many as fit or remain;
 *          less than six bytes is refused by 24
 * Returns refusal + 2^8 more + 2^16 count: count slots were written; more is 1
 * if further ones remain, which a call after the last slot written gives.
 * Refusals 20, 1, 2, 3, 4, 21, 22, 24. */
uint64_t folvkin_key(const uint8_t *question, size_t question_length, const uint8_t *after,
                     size_t after_length, uint8_t *room, size_t room_length);

/* Runs a candidate's slot, which has length and places within the question. It
 * stops at the first refused event and tells its place and refusal and what
 * that names, or says whether all readings hold.
 * Returns refusal + 2^8 place + 2^16 event's refusal + 2^24 holds + 2^32 name.
 * The refusal is 0 also where an event is refused: that is a result. The place
 * is that within the slot, from 1, the event's refusal one of 5 to 17, the name
 * (r >> 32, in 64 bits) what that refusal names, and holds 0; where no event is
 * refused all three are 0, and holds is 1 if all readings hold at the end.
 * Refusals 20, 1, 2, 3, 4, 21, 22. */
uint64_t folvkin_run(const uint8_t *question, size_t question_length, const uint8_t *slot,
                     size_t slot_length);

/* Marks a number typed by a candidate.
 *   kind       1 seconds to run `amount` metres, 2 metres run in `amount`
 *              seconds
 *   amount     1 to 20,000 for kind 1, 1 to 10,000 for kind 2
 *   speed      km/h, 1 to 200
 *   tolerance  thousandths, 0 to 10,000
 *   unit       0 blank, 1 seconds, 2 metres
 *   pattern    the bits of the float typed (IEEE 754, 32 bits)
 *   room       takes the 13 bytes of the sheet line, low byte first: the
 *              number as given (4; zero where blank), the model value as a
 *              float (4), the verdict (1: 0 wrong, 1 right, 2 blank, 3 other
 *              unit, 4 no number), the signed error in thousandths (4, two's
 *              complement); less than 13 bytes is refused by 24
 * Returns 0, or refusal 23 (any of the numbers out of range), then 24. */
uint8_t folvkin_mark(uint8_t kind, uint32_t amount, uint32_t speed, uint32_t tolerance, uint8_t unit,
                     uint32_t pattern, uint8_t *room, size_t room_length);

#ifdef __cplusplus
}
#endif

#endif
