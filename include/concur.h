/*
 * The CONCUR member board, for C and C++ programs.
 *
 * Every call answers a number: 0 means done. Any other number means that the call was refused, and then all that was lent to it is as
 * before. Where several grounds hold, the number is that of the first one that the call checks.
 *
 *   number  what was wrong
 *   ------  ---------------------------------------------------------------------------------------------------------------
 *        1  n, the number of members, is not 1 to 12; on an auction board, not 1 to 4
 *        2  the table, or the part of it that was lent, has the wrong length; from C also a value or a place for one; a
 *           log that is not of whole rows, or a verdict that is not one word
 *        3  a word of the table is out of range: a phase above 6, a crash mark above 1, a halt number not 0 or 21 to 27, a slot or
 *           member above n, a type above 2, the board's n not 1 to 12 (an empty table too), or a member in phase 1 to 5 whose slot
 *           or type is 0 or such as 7 refuses
 *        4  no such member
 *        5  no such slot
 *        6  the type is not 1 (read) or 2 (write)
 *        7  a write to another member's slot (any slot may be read, one's own too)
 *        8  begin: the member is not in phase 0 (idle), or has crashed
 *        9  begin: the member's count on this slot is spent (4,294,967,295; on an auction board 9,999 or more)
 *       10  deliver: nothing to deliver (phase 0 or 6), or the member has crashed and the message is for it; a half: it is in
 *           another phase than the message needs, or has crashed
 *       11  crash: the member has crashed already, or has halted
 *       12  message: under 4 bytes, or its length field is not the number of bytes that follow it
 *       13  message: the version is not 1
 *       14  message: the kind is not 1 (submit), 2 (reply), 3 (commit) or 4 (outcome)
 *       15  message: wrong length for its kind, wrong n, a member or slot not 1 to n, a type not 1 or 2, an outcome not 1 or 2; a
 *           half: also a seals value above 3
 *       16  message writer: the output is shorter than the message
 *       17  script: a line of another form
 *       34  log: more than 1,024 rows
 *
 * A halt is no refusal: the call answers 0, the member goes to phase 6 and takes nothing more, and its halt number says what it found in
 * the reply of the host. Below, m is the member and r the slot of its operation; the newest and the stored record are the reply's.
 *
 *     halt  what the member found
 *   ------  ---------------------------------------------------------------------------------------------------------------
 *       21  a signature (seal) did not hold
 *       22  the newest record is older than what m knows: in row r, some other member's count is below the known one
 *       23  the newest record's count of m in row r is not m's accepted count
 *       24  the stored record is not by the slot's owner
 *       25  the stored record's matrix is not below the newest one's, or they differ in row r at r
 *       26  in another row, what m knows and the newest record cannot be compared: the host has shown two histories
 *       27  in another row, the newest record's count of m exceeds m's accepted count there
 */
#ifndef CONCUR_H
#define CONCUR_H

#include <stddef.h>
#include <stdint.h>

#ifdef __cplusplus
extern "C" {
#endif

/* Messages: link target/staticlib/libmessages.a. */

/*
 * Would a board of n members take these bytes as a message? Answers 0, or 1, 12, 13, 14 or 15, which are checked in this order.
 * `bytes` points to `length` bytes that nothing changes during the call; it is not NULL, even where `length` is 0.
 */
uint32_t concur_message_check(const uint8_t *bytes, size_t length, uint32_t n);

/*
 * The board: link target/staticlib/libboard.a.
 *
 * A board is a table of concur_board_words(n) words, which the caller keeps and lends to each call. `table` points to `words` words. No two
 * things lent to one call may lie over each other, none of them is NULL, and nothing else changes them during the call.
 *
 * Each call but concur_board_words and the two openings checks the whole table first: 3 where it is empty or its n is not 1 to 12, 2 for
 * another length, 3 for a word out of range. Then an auction's begin asks for 1. Then a `value` or `returned` of another length is 2, also
 * for a read, which does not look at its value. Then come the numbers from 4 on.
 *
 * An auction board has at most 4 members, and is closed to a member on a slot after 9,999 operations. It has its own opening and begin,
 * concur_auction_open and concur_auction_begin; deliver and crash are the common ones. Nothing in the table says of which kind a board
 * is: keep to one kind of begin, since what is promised of whole runs is promised of runs whose opening and begins are of one kind.
 */

/* How many words the table of a board of n members has: 79 for 1, 9,781 for 12, and 0 where n is not 1 to 12. */
uint32_t concur_board_words(uint32_t n);

/* Opens a board: 0, or 1 or 2. None of the table's old words is looked at. */
uint32_t concur_board_open(uint32_t *table, size_t words, uint32_t n);

/*
 * A member begins an operation on a slot: type 1 a read, 2 a write of `value`, which has 8 words. Answers 0, or 3, 2, 4, 5, 6, 7, 8 or 9.
 * Four delivers then complete the operation.
 */
uint32_t concur_board_begin(uint32_t *table, size_t words, uint32_t member, uint32_t slot, uint32_t type, const uint32_t *value,
                            size_t value_words);

/* Opens an auction board, as concur_board_open opens one of n members: 0, or 1 where n is not 1 to 4, or 2. */
uint32_t concur_auction_open(uint32_t *table, size_t words, uint32_t n);

/*
 * Begin on an auction board, as concur_board_begin. Answers 0, or 3, 2, 1, 2, 4, 5, 6, 7, 8 or 9, in this order: 1 where the table's n is
 * above 4, then 2 for a value's length; 9 where the member's count on the slot is 9,999 or more.
 */
uint32_t concur_auction_begin(uint32_t *table, size_t words, uint32_t member, uint32_t slot, uint32_t type, const uint32_t *value,
                              size_t value_words);

/*
 * The next message to or from a member is delivered: 0, or 3, 2, 4 or 10. `returned` has 9 words: 1 and the value where one was returned,
 * which is at the fourth deliver of an accepted read, else 0 and eight zeros. A refusal leaves it untouched. The word at
 * table[1 + (member - 1) * b], b = 45 + 2 * n + 3 * n * n, is the member's phase: 0 idle, 1 submit sent, 2 reply sent, 3 commit sent,
 * 4 accepted sent, 5 aborted sent, 6 halted, for the reason that stands two words further on.
 */
uint32_t concur_board_deliver(uint32_t *table, size_t words, uint32_t member, uint32_t *returned, size_t returned_words);

/* A member crashes: nothing more is delivered to it. Answers 0, or 3, 2, 4 or 11. */
uint32_t concur_board_crash(uint32_t *table, size_t words, uint32_t member);

/* Logs: link target/staticlib/liblog_check.a. */

/*
 * Does this log of accepted operations, another vendor's for instance, hold as one of a board of n members? Answers 0, and then verdict[0]
 * is 1 for yes or 0 for no; or 1, 2 or 34, which are checked in this order, before any row is read, and leave `verdict` as it was. 2 is
 * for `words` that are not whole rows of 14, or `verdict_words` other than 1.
 *
 * `log` points to `words` words, which are only read. A row is member, type (1 read, 2 write), slot, the value's 8 words, and the positions
 * of begin, acceptance and end; an end of 0 is none. Yes means that of every row all of this is so:
 *   - member and slot are 1 to n, the type is 1 or 2, and a write is to the member's own slot;
 *   - the begin is not 0 and is below the acceptance, and the acceptance is below the end, if there is one;
 *   - the acceptance is above that of the row before;
 *   - the same member's last row before, if there is one, has an end, and the begin is above that end;
 *   - a read that has an end has the value of the last write to its slot in the rows before, whether that write has an end or not, or zeros
 *     where there is none. The value of a read without an end is not looked at.
 * A log of no rows is a yes.
 *
 * The log and the verdict do not lie over each other, neither is NULL, even where `words` is 0, and nothing else changes them during the
 * call.
 */
uint32_t concur_log_check(const uint32_t *log, size_t words, uint32_t n, uint32_t *verdict, size_t verdict_words);

#ifdef __cplusplus
}
#endif

#endif
