/* The coast station's library for C: the station with its events, the reader and writer of one channel 70 sequence, its finder in
 * what two receivers heard, and the reader and writer of its characters as they go on the air.
 * Link libcoast.a, built for x86-64: where tools/install put it, cc host.c $(pkg-config --cflags --libs coast).
 * coast_words.h has helpers over this header: actions taken apart, answers in words.
 *
 * All memory is the host's, lent for one call: a station's bytes, and a room, bytes for the library to write in, one for the
 * symbols of a sequence, the characters of a transmission or the actions of an event. A pointer must be good for the count of
 * bytes given after it, and may be null where that count is 0. What is read and what is written, and two things that are written,
 * must not overlap.
 *
 * Every input has an answer: any bytes, any lengths. 0 and 1 accept; every other answer is a refusal, after which all lent
 * bytes are as they were.
 *
 * What the library needs: memcpy, memmove and memset, and COAST_STACK_SIZE bytes of stack. It calls nothing else, allocates
 * nothing and keeps nothing from one call to the next. So any number of threads may call at once, each with bytes of its own; a
 * station is one thread's at a time. */
#ifndef COAST_H
#define COAST_H

#include <stddef.h>
#include <stdint.h>

#ifdef __cplusplus
extern "C" {
#endif

/* Names: COAST_ANSWER_.. is an answer, COAST_ACTION_.. the kind of an action, COAST_AT_.. a place in lent bytes,
 * COAST_.._SIZE a count of bytes. */

/* The library's version: MAJOR moves where a host has to be changed, MINOR where only something is added for it, PATCH where
 * only a fault is mended, or time or stack is saved. It is no version of the lent layout: COAST_LAYOUT_VERSION is that. A new
 * layout moves MINOR at least: a host need not be changed, but the stations that it kept are refused. So does a field that is
 * added behind the others of an action's payload: a host reads those that it knows, and does not mind a payload that is longer. */
#define COAST_VERSION "1.6.2"
#define COAST_VERSION_MAJOR 1
#define COAST_VERSION_MINOR 6
#define COAST_VERSION_PATCH 2

/* The deepest that any entry reaches into the stack, as measured, and 56 bytes more. */
#define COAST_STACK_SIZE 10992

/* A sequence has 21 to 28 symbols, one a byte. */
#define COAST_SHORTEST_SEQUENCE 21
#define COAST_LONGEST_SEQUENCE 28

/* A meaning, what a sequence says, is laid out in 32 bytes. An identity is a number in four bytes, the low byte first:
 * a ship 200000000 to 799999999, a coast station 2000000 to 7999999. One of the two identities is a ship's, the other a
 * coast station's. */
#define COAST_MEANING_SIZE 32
#define COAST_AT_ADDRESS 0      /* 4 bytes: whom the sequence calls */
#define COAST_AT_SENDER 4       /* 4 bytes: who sends it (self-identification) */
#define COAST_AT_FIRST 8        /* first telecommand: 100 simplex, 101 duplex, 104 unable, 105 end of call, 106 data */
#define COAST_AT_SECOND 9       /* second: 100 to 126 with 100, 101, 106; 100 to 109 or 126 with 104; 126 with 105 */
#define COAST_AT_FIELD_KIND 10  /* what the channel field holds: one of the three kinds below */
#define COAST_AT_FIELD 11       /* 3 bytes, by that kind */
#define COAST_AT_DIGIT_COUNT 14 /* count of the number's digits, 1 to 16 */
#define COAST_AT_END 15         /* end of sequence: 117 RQ, 122 BQ or 127 */
#define COAST_AT_DIGITS 16      /* 16 bytes: the digits 0 to 9, one a byte; those past the count are 0 */

#define COAST_FIELD_BLANK 0    /* 126 126 126, with any telecommand; bytes 0, 0, 0 */
#define COAST_FIELD_CHANNEL 1  /* with 100, 101, 106; bytes: channel 1 to 28 or 60 to 88, not 16 or 70; then 0, 0 */
#define COAST_FIELD_DURATION 2 /* with 105; bytes: hours 0 to 99, minutes 0 to 59, seconds 0 to 59 */

/* Answers. Where several would fit, the entries below say which is given.
 *
 * What a host does after those that have to do with time:
 *   31  The event is past the end of time, and so is all that follows: see COAST_LAST_TIME.
 *   32  The event came too late, or the host's clock went back. Hand it in once more at the station's clock: see coast_clock.
 *   33  The host's timer is late. Hand in ticks at the event's time, as coast_tick tells, and then the event once more. */
#define COAST_ANSWER_DONE 0
#define COAST_ANSWER_IGNORED 1            /* an event that does nothing but move the clock on */
#define COAST_ANSWER_BAD_LENGTH 11        /* fewer than 21 symbols, or more than 28 */
#define COAST_ANSWER_BAD_SYMBOL 12        /* a symbol over 127 */
#define COAST_ANSWER_BAD_CHECK 13         /* the last symbol is not the exclusive-or of all before it */
#define COAST_ANSWER_BAD_FORMAT 14        /* the format is not 123 */
#define COAST_ANSWER_BAD_IDENTITIES 15    /* not nine digits and a final 0, not one ship and one coast station; ashore: no ship */
#define COAST_ANSWER_BAD_CATEGORY 16      /* the category is not 100 */
#define COAST_ANSWER_BAD_TELECOMMANDS 17  /* the two telecommands do not go together; ashore: not 100 or 101 */
#define COAST_ANSWER_BAD_CHANNEL_FIELD 18 /* the channel field does not go with the first telecommand */
#define COAST_ANSWER_BAD_NUMBER 19        /* not 1 to 16 digits 0 to 9, or marked odd for even, or not 0 past the count */
#define COAST_ANSWER_BAD_END 20           /* the end of sequence is not 117, 122 or 127 */
#define COAST_ANSWER_ROOM_SHORT 21        /* the room for a sequence is under 28 bytes, or for a transmission under 148 */
#define COAST_ANSWER_MEANING_SHORT 22     /* the meaning's bytes are fewer than 32 */
#define COAST_ANSWER_WRONG_SIZE 23        /* the bytes to set a station up in are not 1791 */
#define COAST_ANSWER_NOT_SOUND 29         /* the station handed in is not sound, or its bytes are not 1791 of this version */
#define COAST_ANSWER_ACTIONS_SHORT 30     /* the room for actions is under 320 bytes */
#define COAST_ANSWER_TIME_TOO_LATE 31     /* the time is over 4,000,000,000 */
#define COAST_ANSWER_TIME_BEFORE_CLOCK 32 /* the time is before the station's clock */
#define COAST_ANSWER_WAIT_DUE 33          /* a wait is due by this time, and the event is no tick */
#define COAST_ANSWER_NO_SLOT 34           /* there is no slot of this number */
#define COAST_ANSWER_OPERATOR 35          /* takes a slot that is not free, or gives back one that is not taken */
#define COAST_ANSWER_BAD_SET_UP 36        /* not a coast station's identity, or not 1 to 16 different working channels */
#define COAST_ANSWER_NO_FREE_SLOT 37      /* a call from ashore, and no slot is free, or the call numbers are used up */
#define COAST_ANSWER_SHIP_ENGAGED 38      /* a call from ashore to a ship that has a slot, a held one too, or waits for one */
#define COAST_ANSWER_NO_PHASING 51        /* no phasing found in what the modem handed over */
#define COAST_ANSWER_COPIES_BAD 52        /* all copies of one symbol were received, and none is good */
#define COAST_ANSWER_ENDS_EARLY 53        /* of one symbol no copy is good, and one was not received any more */
#define COAST_ANSWER_NO_SEQUENCE 54       /* neither receiver's bytes hold a sequence: see coast_found_answer */

/* Times are in tenths of a second from the set-up on, up to this one: twelve years and eight months. A host that is to run
 * for longer sets its station up anew before then, at an hour without calls, and counts its time from 0 again. */
#define COAST_LAST_TIME 4000000000u

/* Reads the sequence of `count` symbols into the `size` bytes at `meaning`.
 * Returns 0 and fills the first 32 of those bytes; or returns the first of 22, 11, 12, 13, 14, 15, 16, 17, 18, 19, 20
 * that fits, in this order. Bytes after the first 32 are never touched.
 * Proved of this and the next: what was written is read back to the same 32 bytes, every one of them; what was read is
 * written to the same symbols; two different meanings never give one sequence, nor two different sequences one meaning. */
uint32_t coast_read_sequence(const uint8_t *symbols, size_t count, uint8_t *meaning, size_t size);

/* Writes the sequence that has the meaning laid out at `meaning` (`size` bytes, the first 32 of which count) into the
 * `room_size` bytes at `room`.
 * Returns an answer and a count in one number: coast_answer and coast_count take them apart. The answer is 0 and the
 * count, 21 to 28, is that of the symbols written at the front of the room; or the answer is the first of 21, 22, 15, 17,
 * 18, 19, 20 that fits, in this order, and the count is 0. (The field is refused, 18, also where its kind is over 2, or where
 * a byte of it that its kind does not use is not 0.) Bytes of the room after the sequence stay as they were, and no byte of
 * the room is read. The room must have 28 bytes even where the sequence is shorter. */
uint32_t coast_write_sequence(const uint8_t *meaning, size_t size, uint8_t *room, size_t room_size);

/* Two receivers on the mast: fading kills one aerial at a time. Finds the first sequence in the `first_size` bytes that the first
 * receiver heard, at `first`, or, where these hold none, in the `second_size` bytes of the second. A sequence is what
 * coast_read_sequence accepts, whoever is called by it. Each receiver's bytes are symbols in the order heard, with anything before,
 * between and behind the sequences; where a receiver lost a symbol, its host puts COAST_NO_SYMBOL or any other byte over 127. First is
 * the one that begins at the earliest place: at one place there is never a second. Where the first receiver heard one, what the second
 * heard does not count, even at an earlier place; and none is put together from both. Neither is changed, and the two may be the same
 * bytes.
 * Nothing is copied: one number tells where the sequence stands. coast_found_answer of it is 0, or 54 where neither holds one
 * (coast_answer is not for it); coast_found_length is the count of the sequence's bytes, coast_found_receiver 0 for the first and 1
 * for the second, coast_found_place where it begins in that receiver's bytes, from 0. With 54 these tell the empty stretch: 0 bytes
 * of the second receiver's, at place 0.
 * A host that wants all that was heard calls again and again, until 54, with what stands behind the last one found in that receiver's
 * bytes and with the other's as they were. One that both receivers heard is found in both, and the host hands it on once; what is found
 * need not be in the order heard. A sequence may begin in one second and end in the next: so of what it handed over last, the host
 * keeps the last 27 bytes of each receiver, and puts them in front of the next second's.
 * A place without a 123 costs one look, and no place more than eight readings, one for each length, so that the time grows with the
 * bytes and no faster. Of either receiver's bytes the first 2^48 are looked at.
 * Proved: what is found is read by coast_read_sequence; nothing before it in that receiver's bytes is, and where the second receiver is
 * told, nothing in the first's; what coast_write_sequence wrote is found wherever it stands in the first receiver's bytes, or one before
 * it there, and so in the second's where the first's hold none; and 54 says that no part of either is a sequence. */
uint64_t coast_find_sequence(const uint8_t *first, size_t first_size, const uint8_t *second, size_t second_size);

/* Characters: a symbol goes on the air in ten units, its character. A modem that sends and receives units takes and hands over
 * characters: each is a number 0 to 1023, its first unit the lowest bit, and stands in two bytes, the low byte first. Units 1 to 7
 * are the symbol, its low bit first; units 8 to 10 say how many of these seven are 0, the high bit first: symbol 0 is 896, 1 is 385,
 * 3 is 643 and 127 is 127. So 128 of the 1024 characters are symbols'; every other, and every number over 1023, is "none". A modem
 * that lost a character hands over COAST_NO_CHARACTER in its place. Where a character begins, the modem has to find. */
#define COAST_NO_SYMBOL 128
#define COAST_NO_CHARACTER 1024
#define COAST_CHARACTER_SIZE 2

/* The character of a symbol, or COAST_NO_CHARACTER where that is over 127; the symbol of a character, or COAST_NO_SYMBOL where that
 * is none. Neither returns an answer. Proved: each undoes the other, and a symbol's character with any one unit changed is none. */
uint32_t coast_write_character(uint32_t symbol);
uint32_t coast_read_character(uint32_t character);

/* A transmission is a sequence on the air: phasing, by which a receiver finds its place, and then every symbol twice, with four
 * characters between the two. A sequence of n symbols has 2 (n + 9) characters. The dot pattern before them is the modem's. */
#define COAST_SHORTEST_TRANSMISSION 60 /* characters, of 21 symbols */
#define COAST_LONGEST_TRANSMISSION 74  /* characters, of 28 symbols */
#define COAST_TRANSMISSION_SIZE 148    /* bytes of the longest */

/* Writes the transmission of the sequence of `count` symbols into the `room_size` bytes at `room`.
 * coast_answer of what is returned is 0, and coast_count, 60 to 74, is that of the characters written at the front of the room, two
 * bytes each; or the answer is the first of 21, 11, 12 that fits, in this order, and the count is 0. Nothing else of the sequence is
 * judged. Bytes of the room after the transmission stay as they were. The room must have 148 bytes even where the transmission is
 * shorter. */
uint32_t coast_write_transmission(const uint8_t *symbols, size_t count, uint8_t *room, size_t room_size);

/* Reads a transmission in what the modem handed over, the `size` bytes at `characters`, as symbols into the `room_size` bytes at
 * `room`. It may begin anywhere there, and up to eleven characters of its beginning may be missing. Where several begin, the one with
 * the most phasing characters in their places is read, of equals the first, and no other: so a host hands over one transmission at a
 * time, with whatever came before and behind it. Half a character at the end is not looked at.
 * coast_answer of what is returned is 0, and coast_count, 21 to 28, is that of the symbols written at the front of the room; or the
 * answer is the first of 21, 51, 52, 53 that fits, in this order, and the count is 0. Bytes of the room after the symbols stay as
 * they were. The room must have 28 bytes even where there are fewer symbols. What the symbols say is judged by coast_read_sequence, or
 * by the event that they are handed to. After 51 or 53, while the modem still receives, a host may hand over all once more with what
 * has come since.
 * Proved of every sequence that coast_read_sequence accepts: what was written is read back; so it is with up to five characters in
 * a row turned to none, anywhere, and with up to eleven lost at the beginning; a whole one is read with any other characters before
 * and behind it, unless another whole phasing stands before it. And nothing is read but what stood in good characters. */
uint32_t coast_read_transmission(const uint8_t *characters, size_t size, uint8_t *room, size_t room_size);

/* A station lives in 1791 bytes that the host lends; nobody but the library needs to look inside. Numbers stand low byte
 * first. `coast_set_up` fills them, and every event that is answered 0 or 1 leaves the next station there. They may be copied,
 * kept and handed in again, at any place. Bytes that the library did not leave are judged like any others.
 *
 *    0  1  the layout's version                  in each slot:
 *    1  4  clock, in tenths of a second             0  1  phase: 0 free, 1 offered, 2 ring-back, 3 ring-back repeated,
 *    5  4  the station's identity                         4 acknowledged, 5 dialling, 6 answered, 7 hold, 8 taken,
 *    9  1  count of slots                                 9 dialled out; of a call from ashore 10 called,
 *   10  1  count of waiting ships                         11 called again, 12 ringing
 *   11  4  the last call number given               1  4  due time (1 to 5, 7, 9 to 12), or when it was answered (6)
 *   15     16 slots of 49 bytes                     5  1  the ship's carrier (5, 6, 9): 0 present, 1 lost
 *  799     32 waiting ships of 31 bytes,            6  4  due time of a carrier that is lost
 *          the oldest first                        10  1  what was told (7): 0 nothing, 1 a duration
 *                                                  11  3  hours, minutes, seconds
 *  in each stored request:                         14  4  channel
 *    0  4  ship                                    18  4  call number, in the phases 1 to 7 and 9 to 12
 *    4  4  station called, or calling              22 27  request, in the phases 1 to 7 and 9 to 12
 *    8  1  mode: 0 simplex, 1 duplex
 *    9  1  second telecommand                    in each waiting ship:
 *   10  1  count of digits                          0  4  due time
 *   11 16  digits, one a byte;                      4 27  request
 *          0 past the count
 *
 * What the library leaves is 0 wherever nothing is named: in slots and waiting ships past the counts, and in the parts that
 * a phase does not use. What stands there in bytes that are handed in is not looked at. A station is not sound, 29, with a
 * phase over 12; with a carrier, a duration's mark or a mode over 1 where it is looked at; or with a digit past its count that
 * is not 0.
 *
 * A station is sound if document 01, with nos. 1, 2 and 4 of document 02, allows it: its identity, channels and stored requests
 * keep the rules, no ship stands twice, no call was answered after the clock, and each due time lies from the clock to the clock
 * plus its wait and a tenth. Call numbers may be any. All that the library leaves is sound. */
#define COAST_STATION_SIZE 1791

/* The version moves whenever the layout does, and stands at byte 0 in every layout. Every entry refuses a station of
 * another version, 29, but coast_set_up, which does not look at the bytes that it fills; and no entry turns it into one of
 * this version. So a rack is upgraded to a library of another version when its calls are over. With calls in hand, a host
 *   - hands in, to the old library, an on-hook on every slot, and does the actions: a call that is dialled or answered ends,
 *     and is charged if it was answered; a call from ashore that is not answered yet is dropped; on any other slot the on-hook
 *     is ignored. A slot so freed may ring back a waiting ship;
 *   - switches off the carrier of every slot. Ships that waited, or had a slot without a call yet, lose it, and call again;
 *   - sets a station up by the new library, counts its time from 0 again, and takes again the slots that were taken. */
#define COAST_LAYOUT_VERSION 4
#define COAST_AT_VERSION 0

/* Actions: an event lays at most eight at the front of its room, in the order in which they are to be done; coast_count of
 * what it returned says how many. The room must have 320 bytes even where there are fewer. */
#define COAST_ACTIONS_SIZE 320
#define COAST_ONE_ACTION_SIZE 40
#define COAST_AT_ACTION_KIND 0    /* one of the ten kinds below */
#define COAST_AT_ACTION_SLOT 1    /* the slot's number, or 255 in an answer that gives no slot */
#define COAST_AT_ACTION_LENGTH 2  /* count of the payload's bytes, 0 where the kind below names no payload */
#define COAST_AT_ACTION_PAYLOAD 4 /* the payload, at most 36 bytes; zeros behind it, and at byte 3 */

/* What a host lends for one station, in one piece; it may as well lend the two from different places. */
struct coast_lent {
    uint8_t station[COAST_STATION_SIZE];
    uint8_t room[COAST_ACTIONS_SIZE];
};

#define COAST_ACTION_CARRIER_ON 1
#define COAST_ACTION_CARRIER_OFF 2
#define COAST_ACTION_SEND_CHANNEL_70 3 /* payload: a sequence of 21 to 28 symbols, to send on channel 70 */
#define COAST_ACTION_SEND_WORKING 4    /* payload: a sequence, to send on the slot's working channel */
#define COAST_ACTION_DIAL 5            /* payload: the digits 0 to 9 to dial, one a byte; when done: coast_dialling_ended */
#define COAST_ACTION_RELEASE_LINE 6    /* the line that was dialled for the slot, or the caller's that was joined to it */
#define COAST_ACTION_CHARGE 7      /* payload: ship, start and stop in tenths, seconds, call number; four bytes each, low first */
#define COAST_ACTION_RINGING_ON 8  /* to the caller ashore: ringing tone, until .. */
#define COAST_ACTION_RINGING_OFF 9 /* .. this */
#define COAST_ACTION_BUSY_TONE 10  /* to the caller ashore: busy tone, for five seconds that the exchange counts */

/* Call numbers: each offer, each ring-back and each call from ashore that takes a slot gets the next one, from 1 on. The slot keeps
 * it through a repeated acknowledgement, a second sending and the ship's answer, to the end of the call and of its hold; an offer
 * made afresh takes a new one. The charge carries it. Proved: from one set-up on, no two charges have the same, so that an office can
 * tell two short calls of one ship apart, and knows a charge that reaches it twice. Many a number is never charged, since many an
 * offer is not taken up: a gap is no charge that was lost. Set up anew, a station counts from 1 again. So an office that has the
 * charges of several stations, or of one that was set up anew, must be told of which set-up each is.
 * The last number is 4,294,967,295: more than ten for each second until COAST_LAST_TIME. Once that has been given
 *   - a request that would be offered a slot, or its own slot afresh, that would wait, or would find no place, is answered with
 *     104 and 107 (equipment disabled), which the station tells for nothing else. But for the clock nothing changes: a slot that
 *     is offered or rung back, and a place in the queue, stay as they were;
 *   - no waiting ship is rung back: a slot that is freed stays free beside those that wait. A caller ashore is refused, 37;
 *   - all else is as ever: a ship that asks again for what it is offered is told so, and calls go on to their ends.
 * A host then sets its station up anew, at an hour without calls. */

/* What the entries below return is one number: coast_answer, coast_count, coast_waits, coast_due and coast_time take it apart.
 *
 * Sets a station up in the `size` bytes at `station`, with a slot for each of the `count` channels, one a byte: slot 0
 * for the first, and so on; all slots free, the clock at 0. Answers 0; or 23 where the size is not 1791, or else 36. */
uint64_t coast_set_up(uint32_t identity, const uint8_t *channels, size_t count, uint8_t *station, size_t size);

/* When the station must be handed a tick, at the latest: coast_waits and coast_due of what is returned. Answers 0, or 29.
 * Every event tells the same of the station that it leaves; this entry is for a station that was kept or copied. */
uint64_t coast_next_due(const uint8_t *station, size_t size);

/* The station's clock: coast_time of what is returned. It is the time of the last event that was accepted or, where that was a
 * tick which fired a wait, the time at which that wait fell due. Answers 0; refused, 29, coast_time means nothing.
 *
 * From its clock a station goes on when its host has stopped and comes back. All that the library knows stands in the lent bytes:
 * handed in again, they answer as if nothing had happened. A host that keeps them saves, after each event that is answered 0 or 1
 * and before it does the first action, the station and the actions together, whole in a file of another name, which it syncs
 * and then renames to the old one's. When it comes back, it
 *   - refuses a file that is damaged, by a check of its own: bytes that were changed may still be a sound station. Where
 *     coast_clock answers 29, they are no sound station, or one of another version;
 *   - does the actions that were saved, but for those that it knows to be done. A charge that is so done twice has the same
 *     call number, and no other charge has;
 *   - counts its time on from the clock, and adds what has passed meanwhile where it knows that;
 *   - sets its timer as coast_next_due tells, and hands in ticks for what has fallen due, as coast_tick tells. */
uint64_t coast_clock(const uint8_t *station, size_t size);

/* The events, each at a time. Each answers 0 (done) or 1 (ignored), leaves the next station in place of the one that came in,
 * and its actions at the front of the room; bytes behind the last action stay. Or it refuses with the first that fits of the
 * answers told below, in the order told; then the count is 0. coast_waits and coast_due tell the next due time of the station
 * as it then stands, after a refusal too; only where the station itself is refused, 29, they mean nothing. */

/* The time has come: the earliest wait that is due fires, one a call, at its own due time; with none due the clock moves on.
 * A host sets its timer for coast_due while coast_waits is 1, and when it rings hands in a tick; after each that is answered 0
 * another at the same time while coast_waits is 1 and coast_due is not past that time. After any other answer it stops: a wait
 * whose due time is past COAST_LAST_TIME never fires, and needs no timer. Answers 0; or 29, 30, 31, 32. */
uint64_t coast_tick(uint8_t *station, size_t size, uint32_t time, uint8_t *room, size_t room_size);

/* A sequence was heard on channel 70. Answers 0, 1; or 29, 30, 31, 32, 33, 11 to 20. */
uint64_t coast_heard_on_channel_70(
    uint8_t *station, size_t size, uint32_t time, const uint8_t *symbols, size_t count, uint8_t *room, size_t room_size);

/* A sequence was heard on a slot's working channel. Answers 0, 1; or 29, 30, 31, 32, 33, 34, 11 to 20. */
uint64_t coast_heard_on_slot(uint8_t *station, size_t size, uint32_t time, uint32_t slot, const uint8_t *symbols, size_t count,
    uint8_t *room, size_t room_size);

/* The ship's carrier on a slot's working channel comes, or goes. While a call from ashore rings, the first that comes answers it
 * (coast_call_from_ashore). Answers 0, 1; or 29, 30, 31, 32, 33, 34. */
uint64_t coast_carrier_up(uint8_t *station, size_t size, uint32_t time, uint32_t slot, uint8_t *room, size_t room_size);
uint64_t coast_carrier_down(uint8_t *station, size_t size, uint32_t time, uint32_t slot, uint8_t *room, size_t room_size);

/* The exchange has dialled the number of a slot's call. Dialling has a minute, and the called person has another one from here
 * on; when either is over, the coast ends the call. So a host that never calls this gives the two one minute together. On a slot
 * that is dialling it is done; a second one in a call, one after the answer, and one on any other slot is ignored. Off-hook may
 * come before it. The station cannot tell whose dialling ended: a host drops a report that comes after that call's line was
 * released. Answers 0, 1; or 29, 30, 31, 32, 33, 34. */
uint64_t coast_dialling_ended(uint8_t *station, size_t size, uint32_t time, uint32_t slot, uint8_t *room, size_t room_size);

/* Ashore the handset of a slot's line is lifted, or put down. Answers 0, 1; or 29, 30, 31, 32, 33, 34. */
uint64_t coast_off_hook(uint8_t *station, size_t size, uint32_t time, uint32_t slot, uint8_t *room, size_t room_size);
uint64_t coast_on_hook(uint8_t *station, size_t size, uint32_t time, uint32_t slot, uint8_t *room, size_t room_size);

/* Somebody ashore, the caller, calls a ship, in the mode 100 (simplex) or 101 (duplex), which holds for the call. The `count`
 * bytes at `digits` are the caller's own number, 1 to 16 digits, one a byte: the numbers 0 to 9, not the characters. The lowest
 * free slot is taken: its carrier comes on, and the ship is called on channel 70, once more after 5 s. The first action tells
 * which slot it is. The host joins the caller's line to that slot, and hands in an on-hook there when the caller hangs up, but
 * not after action 6 has released the line: the slot may then be another's. What comes of the call:
 *   - The ship's first BQ with 100 or 101 that names the slot's channel: it rings (8), for a minute at most.
 *   - The first carrier up while it rings is the ship's transmission, whoever sent it: the ringing ends (9), and the call is
 *     answered. It is charged from here on, and ends as any other does. The charge has no word of the caller: whose line it was,
 *     the host knows by the slot.
 *   - No BQ within 5 s of the second sending, no carrier within the minute, or the ship's BQ with 104, ringing or not: the call
 *     is dropped. The ringing ends if it rings (9), then carrier off (2), busy tone (10), release (6). The slot is freed at once:
 *     the tone's five seconds are the exchange's, which keeps the caller for so long and then clears the line.
 *   - The caller's on-hook before the answer: dropped, without the tone.
 * Until the answer these are ignored (1): every request from that ship, every sequence on the slot's working channel, a carrier
 * that goes, and one that comes before it rings. Such a carrier is no answer later either, even if it stays: one must come while
 * it rings. Off-hook and the end of dialling are ignored after the answer too: the caller's handset is off already, and nothing
 * was dialled.
 * Refused, no slot is taken and no action given. Where the time was refused, 32 or 33, the host hands the call in once more, as
 * told with the answers. Refused 15, 17, 19, 38 or 37, the caller is turned away: by a busy tone of the host's own where the ship
 * is engaged, 38, or no slot or call number is left, 37.
 * Answers 0; or 29, 30, 31, 32, 33, 15 where that is no ship, 17 where it is another mode, 19, 38, 37. */
uint64_t coast_call_from_ashore(uint8_t *station, size_t size, uint32_t time, uint32_t ship, uint32_t mode, const uint8_t *digits,
    size_t count, uint8_t *room, size_t room_size);

/* The operator takes a free slot, or gives a taken one back. Answers 0; or 29, 30, 31, 32, 33, 34, 35. */
uint64_t coast_take(uint8_t *station, size_t size, uint32_t time, uint32_t slot, uint8_t *room, size_t room_size);
uint64_t coast_give_back(uint8_t *station, size_t size, uint32_t time, uint32_t slot, uint8_t *room, size_t room_size);

/* The answer in what an entry returned (coast_read_sequence returns nothing else), but for coast_find_sequence. */
static inline uint32_t coast_answer(uint64_t returned) {
    return (uint32_t)(returned & 255u);
}

/* The count of actions laid, of the symbols that coast_write_sequence wrote or coast_read_transmission read, or of the characters
 * that coast_write_transmission wrote. */
static inline size_t coast_count(uint64_t returned) {
    return (size_t)(returned >> 8 & 255u);
}

/* What coast_find_sequence returned: how many bytes were found, in which receiver's, and at which place of them. */
static inline size_t coast_found_length(uint64_t returned) {
    return (size_t)(returned & 255u);
}

static inline int coast_found_receiver(uint64_t returned) {
    return (int)(returned >> 8 & 1u);
}

static inline size_t coast_found_place(uint64_t returned) {
    return (size_t)(returned >> 16);
}

/* COAST_ANSWER_DONE where a sequence was found, else COAST_ANSWER_NO_SEQUENCE. */
static inline uint32_t coast_found_answer(uint64_t returned) {
    return coast_found_length(returned) == 0 ? COAST_ANSWER_NO_SEQUENCE : COAST_ANSWER_DONE;
}

/* Whether a wait runs: 1, or 0. */
static inline int coast_waits(uint64_t returned) {
    return (int)(returned >> 16 & 1u);
}

/* The time at which the next wait falls due, where one runs. */
static inline uint32_t coast_due(uint64_t returned) {
    return (uint32_t)(returned >> 32);
}

/* The station's clock in what coast_clock returned. */
static inline uint32_t coast_time(uint64_t returned) {
    return (uint32_t)(returned >> 32);
}

#ifdef __cplusplus
}
#endif

/* Sizes that belong together. */
#if defined(__cplusplus)
#define COAST_HOLDS(claim) static_assert(claim, #claim)
#else
#define COAST_HOLDS(claim) _Static_assert(claim, #claim)
#endif
COAST_HOLDS(COAST_ACTIONS_SIZE == 8 * COAST_ONE_ACTION_SIZE);
COAST_HOLDS(COAST_AT_ACTION_PAYLOAD + COAST_LONGEST_SEQUENCE <= COAST_ONE_ACTION_SIZE);
COAST_HOLDS(COAST_AT_DIGITS + 16 == COAST_MEANING_SIZE);
COAST_HOLDS(COAST_SHORTEST_TRANSMISSION == 2 * (COAST_SHORTEST_SEQUENCE + 9));
COAST_HOLDS(COAST_LONGEST_TRANSMISSION == 2 * (COAST_LONGEST_SEQUENCE + 9));
COAST_HOLDS(COAST_TRANSMISSION_SIZE == COAST_CHARACTER_SIZE * COAST_LONGEST_TRANSMISSION);
#undef COAST_HOLDS

#endif
