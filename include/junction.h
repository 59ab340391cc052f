/* The junction bound service, for C and C++: one call that answers one line on a lent block.
 *
 * Document 01 decides what a line, a block and a reply are. `./staticlib` makes the library, target/staticlib/libservice.a, for x86-64. */
#ifndef JUNCTION_H
#define JUNCTION_H

#include <stddef.h>
#include <stdint.h>

/* How many numbers a block has. A fresh block is all zeros. */
#define JUNCTION_BLOCK_NUMBERS 6676
/* The smallest reply buffer, in bytes. It holds every reply but the line of a save, kind 07, which may be longer, the records of kinds 0D and 0E, of 76 at most, and the
 * line of a dearest study, kind 0F, of 514 at most. Over train radio each of these three has two bytes more. */
#define JUNCTION_REPLY_BYTES 74
/* The longest line, in characters: a full load over train radio. A longer one is declined under number 2. */
#define JUNCTION_LINE_CHARACTERS 19836
/* The longest reply, in bytes: a saved line over train radio. A buffer of so many holds the reply to every line. */
#define JUNCTION_LONGEST_REPLY_BYTES JUNCTION_LINE_CHARACTERS

#ifdef __cplusplus
extern "C" {
#endif

/* Answers a line on a block, writes the reply to the front of a buffer, and returns how many bytes the reply has.
 *
 * The line has no line end. The reply has no line end and no zero byte behind it. The line is only read.
 *
 * What is proved, for every line, every block and every buffer, of any contents and any lengths (contract `Answers`, crates/requests/specs/Wrote.antt):
 * the result, the block afterwards and the whole buffer afterwards are those of the definition `answer` in crates/service/specs/Answer.antt. So:
 * - The first bytes of the buffer, as many as the result says, are the reply. Every byte behind them stays as it was.
 * - The block afterwards is the one that an accepted load, of kind 01 or of clauses (09), add, shift, tighten, directional round or order makes; certify,
 *   search, save, explain, the three kinds of plan records (0C to 0E) and the dearest study (0F) leave it as it was.
 * - A declined line is answered FF and the number, four characters, and leaves the block as it was.
 * - A line over train radio has 40, hexadecimal, added to its kind, 01 to 0F, and a further byte at its end that takes the sum of all its bytes, carried round at 256, to 0. It
 *   is answered as its plain form, for whose reply two bytes less of the buffer count, and leaves the block as that does. The reply has 40 added to its first byte, where that is not
 *   FF, and such a further byte too, which makes six characters where the line is declined. With another sum the line is number 25: FF19E8. Numbers 1, 2, 3 and 16 are answered plainly.
 * - A buffer below JUNCTION_REPLY_BYTES is number 17: the result is 0, and the buffer and the block stay as they were. So is a buffer that is shorter than
 *   the line that a save would answer with, where nothing else declines the save, or the record of kind 0D or 0E, or the line of kind 0F. Who saves lends
 *   JUNCTION_LONGEST_REPLY_BYTES.
 * - A block may hold any numbers. One of another length than JUNCTION_BLOCK_NUMBERS, or not well formed, is number 16: FF10.
 * - The reply and the block afterwards depend on the line, the block, whether the buffer has JUNCTION_REPLY_BYTES bytes and, of a save, a record or a dearest study, whether
 *   it holds the line or the record that is the reply, with its two additions where it goes over train radio, and on nothing else. Of buffers of JUNCTION_LONGEST_REPLY_BYTES or
 *   more not even their length counts.
 *
 * What the caller must see to, and nothing checks:
 * - Each pointer is valid for its length: `line` to read so many bytes, `block` to read and write so many numbers, `reply` so many bytes.
 * - No pointer is null, also where its length is 0.
 * - `block` is aligned as an int64_t must be.
 * - The three areas do not overlap.
 * - During the call nothing else writes to any of them, and nothing else reads the block or the buffer.
 *
 * Nothing is kept between calls, and the library has no variables of its own. So each study has a block of its own, a program may hold many, and
 * threads may call at the same time with different blocks and different buffers.
 *
 * Nothing is promised about time or memory. A search makes at most as many tries as its budget says, 10,000,000 at most. No memory is asked for but the
 * stack; a shift was measured to use 61 kB of it, the most of all kinds, and a line over train radio uses 20 kB more than its plain form. */
size_t junction_answer(const uint8_t *line, size_t line_length, int64_t *block, size_t block_length, uint8_t *reply, size_t reply_length);

#ifdef __cplusplus
}
#endif

#endif
