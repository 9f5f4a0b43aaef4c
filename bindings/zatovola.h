/* Zatovola's ledger for programs in C: eighteen functions on numbers and lent bytes, in crates/zatovola/out/libzatovola.a (rt lib in crates/zatovola).
 *
 * Each is proved for every input: there is no state but the room that the caller lends, nothing is allocated, nothing is kept between calls, and every
 * answer is a value. The caller owes what C asks of any function: a pointer, not null, to as many bytes as the length beside it says (below 2^63), valid for the
 * call; an aligned place for `used`, `value`, `written` and `words`; and no byte lent twice to one call. A batch takes some 15 kB of stack, every other call less
 * than 4 kB.
 */
#ifndef ZATOVOLA_H
#define ZATOVOLA_H

#include <stddef.h>
#include <stdint.h>

#ifdef __cplusplus
extern "C" {
#endif

/* The longest answer to a snapshot (07) or a migration (0a), and to any other frame, in bytes. As a line each takes twice as much, and a line feed. */
#define ZATOVOLA_LONGEST_ANSWER 14611
#define ZATOVOLA_LONGEST_OTHER_ANSWER 51

/* The longest frame, in bytes. */
#define ZATOVOLA_LONGEST_FRAME 14619

/* An answer in numbers: its number, and a word for each value that it carries, of which there are eight at most. */
#define ZATOVOLA_MOST_WORDS 9

/* How many bytes the room for so many names (1 to 256) and reservations (1 to 1,024) takes, or 0 where one of them is out of range. */
uint64_t zatovola_room_size(uint64_t names, uint64_t reservations);

/* A fresh ledger in the whole room: 0 (done); or 24 (UnsoundLedger) and nothing changed, where a number is out of range or the room is of another size. */
uint8_t zatovola_make(uint8_t *room, size_t room_length, uint64_t names, uint64_t reservations);

/* A frame's bytes to its answer's bytes: the answer number, then what it carries (docs/FRAMES.md). Any bytes may be lent as the room: what is no sound
 * ledger gets answer 24 and is not changed. More than ZATOVOLA_LONGEST_FRAME bytes get 23, as a longer line does. The result is how many bytes were written;
 * 0, and nothing changed, where the output is shorter than the longest answer to this frame. */
size_t zatovola_answer(uint8_t *room, size_t room_length, const uint8_t *frame, size_t frame_length, uint8_t *output, size_t output_length);

/* Whole lines of lowercase hexadecimal, each ended by a line feed, to their answer lines. Soundness is asked once. It stops before the first line that is not whole
 * or whose longest answer line has no room. The result is how many bytes of output were written; *used is how many bytes of input were answered. */
size_t zatovola_batch(uint8_t *room, size_t room_length, const uint8_t *input, size_t input_length, uint8_t *output, size_t output_length, size_t *used);

/* The reads, which change no byte of the room and draw no id (a snapshot draws one). Each returns its answer number. 0: the number asked for stands in *value. Any
 * other: *value is as it was. Any bytes may be lent as the room: what is no sound ledger gets 24 (UnsoundLedger). Amounts are never negative.
 *
 * Of one name: 3 (MissingTenant) where it has no account, but 0 is reserved then; 19 (NameTooLong) for more than 24 bytes. */
uint8_t zatovola_remaining(const uint8_t *room, size_t room_length, const uint8_t *name, size_t name_length, int64_t *value);
uint8_t zatovola_initial(const uint8_t *room, size_t room_length, const uint8_t *name, size_t name_length, int64_t *value);
uint8_t zatovola_committed(const uint8_t *room, size_t room_length, const uint8_t *name, size_t name_length, int64_t *value);
uint8_t zatovola_reserved(const uint8_t *room, size_t room_length, const uint8_t *name, size_t name_length, int64_t *value);

/* Of the whole ledger: what is committed in all, or 15 (AggregateOverflow) above 2^63 - 1; how many accounts there are; how many reservations are live; the last
 * version; and what is committed above the baseline, which a certificate of the ledger moves up and a restore sets. */
uint8_t zatovola_committed_total(const uint8_t *room, size_t room_length, int64_t *value);
uint8_t zatovola_accounts(const uint8_t *room, size_t room_length, uint64_t *value);
uint8_t zatovola_live_reservations(const uint8_t *room, size_t room_length, uint64_t *value);
uint8_t zatovola_last_version(const uint8_t *room, size_t room_length, uint64_t *value);
uint8_t zatovola_committed_since(const uint8_t *room, size_t room_length, int64_t *value);

/* The recorder, which takes no room: operations and answers as the lines that a batch reads and writes (docs/FRAMES.md), and answers read back. A line has no line feed
 * here.
 *
 * The operation with this code (1 to 14) as its line, and as its bytes. `number` is the id of 05 and 06 and the fence of 0a; `amount` that of 01 to 05 and the since of
 * 0c; `part` the name of 01 to 04 or the snapshot of 08, 09, 0a, 0c and 0e. What the operation has no field for is not looked at. 0: the line (the bytes) stands at the
 * front of the output, *written is how long it is, and what is behind it is as before. Else output and *written are as they were: 23 (BadFrame) for a code that is none
 * or a part that is no snapshot; then 19 (NameTooLong) for a name of more than 24 bytes, in a snapshot's row too; then 22 (OutputTooShort) where it does not fit.
 *
 *     uint8_t line[64];
 *     size_t written;
 *     zatovola_write_operation(4, 0, 300, (const uint8_t *)"Q1", 2, line, sizeof line, &written);
 *
 * gives 0 and 24 characters, 04025131000000000000012c.
 */
uint8_t zatovola_write_operation(uint8_t code, uint64_t number, int64_t amount, const uint8_t *part, size_t part_length,
    uint8_t *output, size_t output_length, size_t *written);
uint8_t zatovola_write_frame(uint8_t code, uint64_t number, int64_t amount, const uint8_t *part, size_t part_length,
    uint8_t *output, size_t output_length, size_t *written);

/* An answer in numbers: words[0] is its number, and behind it stands a word for each value that it carries, in order: an amount in two's complement, a yes or no as 1 or
 * 0, a name or a snapshot as how many bytes it has. No answer carries two of these; its bytes are the part.
 *
 * The answer's line, as an answer to the operation with this code. The words behind its values are not looked at, nor is the word of a name or a snapshot: the part's
 * length is taken. 0 and *written, as above; or output and *written are as they were: 23 where this operation never gets such an answer, for a field above 255, a yes or
 * no above 1, or a part that is no snapshot; then 19 for a name of more than 24 bytes, in a snapshot's row too; then 22 where it does not fit. */
uint8_t zatovola_write_answer(uint8_t code, const uint64_t words[ZATOVOLA_MOST_WORDS], const uint8_t *part, size_t part_length,
    uint8_t *output, size_t output_length, size_t *written);

/* A line read as an answer to the operation with this code; the values themselves are not judged. 0: the words are the answer's, 0 where they carry nothing, and its
 * bytes stand at the front of the lent ones, its name from byte 2 on, its snapshot from byte 1 on. 23: the line is no answer that this operation can get; the words are
 * as they were, and the lent bytes hold the pairs of digits at the line's front. 22: the lent bytes are fewer than half the line's characters, rounded up, and nothing
 * has changed.
 *
 *     uint8_t bytes[ZATOVOLA_LONGEST_OTHER_ANSWER];
 *     uint64_t words[ZATOVOLA_MOST_WORDS];
 *     zatovola_read_answer(4, (const uint8_t *)"0000000000000004b00000000000000001", 34, bytes, sizeof bytes, words);
 *
 * gives 0, and words[1] is what remains, 1,200, words[2] the id, 1.
 */
uint8_t zatovola_read_answer(uint8_t code, const uint8_t *line, size_t line_length, uint8_t *bytes, size_t bytes_length, uint64_t words[ZATOVOLA_MOST_WORDS]);

/* The same of an answer's bytes: 0, or 23 and the words are as they were. */
uint8_t zatovola_read_answer_bytes(uint8_t code, const uint8_t *bytes, size_t bytes_length, uint64_t words[ZATOVOLA_MOST_WORDS]);

#ifdef __cplusplus
}
#endif

#endif
