/* Any bytes as a room, any bytes as frames and lines, for as many seconds as asked: bindings/fuzz/run [SECONDS [SEED]].
 *
 * Every lent buffer ends just before a page that nothing may touch (or begins just after one), so that a single byte read or written outside of it ends the
 * program; this driver itself is compiled with the address and undefined-behaviour sanitizers. After each call it is asked:
 *   - that the count of bytes written is within the output, and output past it is as before;
 *   - that a refused call, answer 24 among them, has changed no byte of the room (6 and 15 may move the id counter);
 *   - that a room which was a sound ledger is one after the call;
 *   - that the same call on the same bytes gives the same answer, room and output.
 * On the room before each call the nine reads are made too, of names in it and others: it is asked that a read changes no byte of the room, that its number is one
 * that this read can have and 24 exactly where the room is no sound ledger, that a refusal leaves the lent place as it was, and that no amount is negative.
 * And the recorder's five functions are called, on any numbers and bytes: it is asked that a refusal has the first number of its order and leaves output and count as
 * they were; that a line is that of the bytes, and these are a frame; that an answer written is read back, by line and by bytes, and what is read is written as that
 * very line; and that the ledger's own answer to each frame is read as its number.
 */
#define _GNU_SOURCE
#include "../zatovola.h"
#include <stdio.h>
#include <stdlib.h>
#include <string.h>
#include <sys/mman.h>
#include <time.h>

/* The records of a room (docs/DECISIONS.md, 19), and the most names and reservations. */
enum { HEAD = 56, PLACE = 66, BOOKING = 18, MOST_NAMES = 256, MOST_RESERVATIONS = 1024 };
enum { PAGE = 4096, LARGEST_ROOM = HEAD + PLACE * MOST_NAMES + BOOKING * MOST_RESERVATIONS, LARGEST_INPUT = 32768, LARGEST_OUTPUT = 40000 };

static uint64_t chance_state;

static uint64_t chance(void) {
    uint64_t z = (chance_state += 0x9e3779b97f4a7c15u);
    z = (z ^ (z >> 30)) * 0xbf58476d1ce4e5b9u;
    z = (z ^ (z >> 27)) * 0x94d049bb133111ebu;
    return z ^ (z >> 31);
}

static uint64_t below(uint64_t n) { return n == 0 ? 0 : chance() % n; }

static void fail(const char *what) {
    fprintf(stderr, "fuzz: %s\n", what);
    abort();
}

/* Memory between two pages that nothing may touch. */
typedef struct {
    uint8_t *first;
    size_t size;
} Lent;

static Lent lent(size_t size) {
    size_t whole = (size + PAGE - 1) / PAGE * PAGE;
    uint8_t *memory = mmap(NULL, whole + 2 * PAGE, PROT_READ | PROT_WRITE, MAP_PRIVATE | MAP_ANONYMOUS, -1, 0);
    if (memory == MAP_FAILED || mprotect(memory, PAGE, PROT_NONE) != 0 || mprotect(memory + PAGE + whole, PAGE, PROT_NONE) != 0) fail("no memory");
    return (Lent){memory + PAGE, whole};
}

/* So many bytes of it: at its very end as a rule, at its very beginning at times. */
static uint8_t *part(Lent memory, size_t size) { return below(4) == 0 ? memory.first : memory.first + memory.size - size; }

static Lent rooms, inputs, outputs, places;
static uint8_t sound_room[LARGEST_ROOM], room_before[LARGEST_ROOM], room_after[LARGEST_ROOM];
static uint8_t output_before[LARGEST_OUTPUT], output_after[LARGEST_OUTPUT];
static size_t sound_size;
static uint64_t calls[25], batches, lines_answered, reads[25], recorded[25], read_back[25];

static const uint64_t WORDS[] = {0, 1, 2, 3, 5, 100, 1000, 0x7fffffffffffffffu, 0x7ffffffffffffffeu, 0x8000000000000000u, 0x8000000000000001u, 0xffffffffffffffffu};

static size_t put_word(uint8_t *to, uint64_t word) {
    for (int i = 0; i < 8; i++) to[i] = (uint8_t)(word >> (56 - 8 * i));
    return 8;
}

static uint64_t word(void) { return below(5) == 0 ? chance() : below(3) == 0 ? below(40) : WORDS[below(sizeof WORDS / sizeof *WORDS)]; }

static size_t put_name(uint8_t *to) {
    size_t size = below(12) == 0 ? below(40) : below(4);
    to[0] = (uint8_t)size;
    for (size_t i = 0; i < size; i++) to[1 + i] = below(9) == 0 ? (uint8_t)chance() : (uint8_t)('A' + below(3));
    return 1 + size;
}

static size_t put_snapshot(uint8_t *to) {
    size_t rows = below(6), at = put_word(to, below(2) == 0 ? 0x8000000000000000u + below(2000) : word());
    at += put_word(to + at, below(8) == 0 ? word() : 0);
    to[at++] = (uint8_t)(rows >> 8);
    to[at++] = (uint8_t)rows;
    for (size_t i = 0; i < rows; i++) {
        uint64_t remaining = below(900), committed = below(900);
        at += put_name(to + at);
        at += put_word(to + at, below(6) == 0 ? word() : remaining + committed);
        at += put_word(to + at, remaining);
        at += put_word(to + at, below(6) == 0 ? word() : 0);
        at += put_word(to + at, committed);
    }
    return at;
}

/* A frame of some operation, whole as a rule; or any bytes. */
static size_t put_frame(uint8_t *to, size_t most) {
    size_t at = 1, kind = below(20);
    to[0] = (uint8_t)(1 + below(15));
    if (kind == 0) {
        at = below(60);
        for (size_t i = 0; i < at; i++) to[i] = (uint8_t)chance();
        return at;
    }
    if (to[0] <= 4) at += put_name(to + at);
    if (to[0] <= 6 || to[0] == 10 || to[0] == 12) at += put_word(to + at, word());
    if (to[0] == 5) at += put_word(to + at, word());
    if (to[0] >= 8 && to[0] != 11 && to[0] != 13) at += put_snapshot(to + at);
    if (kind == 1) at = below(at + 1);
    if (kind == 2 && at < most) to[at++] = (uint8_t)chance();
    if (kind == 3) to[below(at)] ^= (uint8_t)(1u << below(8));
    return at;
}

static const char DIGITS[] = "0123456789abcdef";

static size_t put_digits(uint8_t *to, const uint8_t *bytes, size_t size) {
    for (size_t i = 0; i < size; i++) {
        to[2 * i] = (uint8_t)DIGITS[bytes[i] >> 4];
        to[2 * i + 1] = (uint8_t)DIGITS[bytes[i] & 15];
    }
    return 2 * size;
}

static size_t put_lines(uint8_t *to) {
    uint8_t frame[4096];
    size_t at = 0, lines = below(12);
    for (size_t line = 0; line < lines; line++) {
        size_t size = put_frame(frame, sizeof frame);
        if (at + 2 * size + 1 > LARGEST_INPUT) break;
        at += put_digits(to + at, frame, size);
        to[at++] = '\n';
    }
    if (below(4) == 0 && at > 0) to[below(at)] = (uint8_t)chance();
    if (below(4) == 0 && at > 0) at -= below(at);
    return at;
}

/* Sometimes a room of other sizes takes the place of the one that is worked on. */
static void fresh(void) {
    uint64_t names = 1 + below(below(3) == 0 ? MOST_NAMES : 6), reservations = 1 + below(below(3) == 0 ? MOST_RESERVATIONS : 6);
    sound_size = zatovola_room_size(names, reservations);
    if (sound_size != HEAD + PLACE * names + BOOKING * reservations) fail("another size");
    if (zatovola_make(sound_room, sound_size, names, reservations) != 0) fail("no room made");
}

/* The sound room; or with some bytes changed, or cut; or any bytes. */
static size_t put_room(uint8_t *to) {
    size_t size = sound_size, kind = below(8);
    memcpy(to, sound_room, size);
    if (kind == 0) for (uint64_t n = 1 + below(4); n > 0; n--) to[below(below(2) == 0 ? HEAD : size)] = (uint8_t)chance();
    if (kind == 1) to[below(size)] ^= (uint8_t)(1u << below(8));
    if (kind == 2) size = below(2) == 0 ? size - 1 : below(size);
    if (kind == 3 && below(8) == 0) for (size_t i = 0; i < size; i++) to[i] = (uint8_t)chance();
    return size;
}

static int is_sound(uint8_t *room, size_t size) {
    static const uint8_t FRAME[] = {6, 0, 0, 0, 0, 0, 0, 0, 0};
    uint8_t answer[ZATOVOLA_LONGEST_OTHER_ANSWER];
    if (zatovola_answer(room, size, FRAME, sizeof FRAME, answer, sizeof answer) != 1) fail("a release of id 0 carries something");
    return answer[0] != 24;
}

typedef size_t Call(uint8_t *room, size_t room_size, const uint8_t *input, size_t input_size, uint8_t *output, size_t output_size, size_t *used);

static size_t one_frame(uint8_t *room, size_t room_size, const uint8_t *input, size_t input_size, uint8_t *output, size_t output_size, size_t *used) {
    *used = input_size;
    return zatovola_answer(room, room_size, input, input_size, output, output_size);
}

/* Which answer of a frame may have moved something: done, Insufficient, and AggregateOverflow of a conservation proof. */
static int may_move(uint8_t answer, uint8_t operation) { return answer == 0 || answer == 6 || (answer == 15 && operation == 13); }

static void judge(Call *call, const uint8_t *input, size_t used, size_t input_size, size_t written, size_t output_size, size_t room_size, int was_sound) {
    int unmoved = memcmp(room_before, room_after, room_size) == 0;
    if (used > input_size || written > output_size) fail("a count past the end");
    if (memcmp(output_before + written, output_after + written, output_size - written) != 0) fail("output past the bytes written has changed");
    if (!was_sound && !unmoved) fail("memory that is no ledger has changed");
    if (call == one_frame) {
        if (written == 0 && (!unmoved || output_size >= ZATOVOLA_LONGEST_ANSWER)) fail("no answer");
        if (written > 0 && output_after[0] > 24) fail("an answer that document 01 does not know");
        if (written > 0 && !unmoved && !may_move(output_after[0], input[0])) fail("a refused frame changed the room");
        if (written > 0) calls[output_after[0]]++;
    } else {
        if (used > 0 && input[used - 1] != '\n') fail("half a line was answered");
        for (size_t i = 0; i < used; i++) lines_answered += input[i] == '\n';
        batches++;
    }
}

typedef uint8_t OfName(const uint8_t *room, size_t room_length, const uint8_t *name, size_t name_length, int64_t *value);
typedef uint8_t Amount(const uint8_t *room, size_t room_length, int64_t *value);
typedef uint8_t Number(const uint8_t *room, size_t room_length, uint64_t *value);

static OfName *const OF_NAME[] = {zatovola_remaining, zatovola_initial, zatovola_committed, zatovola_reserved};
static Amount *const AMOUNTS[] = {zatovola_committed_total, zatovola_committed_since};
static Number *const NUMBERS[] = {zatovola_accounts, zatovola_live_reservations, zatovola_last_version};

/* What a read came to: before it the place held `before`. */
static void judge_read(const uint8_t *room, size_t room_size, int was_sound, uint8_t number, int can_have, int64_t before, int64_t after) {
    if (memcmp(room, room_before, room_size) != 0) fail("a read changed the room");
    if ((number == 24) == was_sound) fail("24 for a sound ledger, or none for another");
    if (number != 0 && number != 24 && !can_have) fail("an answer that this read does not have");
    if (number != 0 && after != before) fail("a refused read changed the lent place");
    reads[number]++;
}

/* The nine reads of one room, the place for the value against a page that nothing may touch. */
static void ask_reads(const uint8_t *room, size_t room_size, int was_sound) {
    uint8_t scratch[64], number;
    size_t name_size = put_name(scratch) - 1;
    uint8_t *name = part(inputs, name_size);
    void *place = outputs.first + outputs.size - sizeof(uint64_t);
    memcpy(name, scratch + 1, name_size);
    for (size_t i = 0; i < 4; i++) {
        int64_t before = (int64_t)chance(), *value = place;
        *value = before;
        number = OF_NAME[i](room, room_size, name, name_size, value);
        judge_read(room, room_size, was_sound, number, name_size > 24 ? number == 19 : i < 3 && number == 3, before, *value);
        if (number == 0 && (*value < 0 || name_size > 24)) fail("no amount of this name");
    }
    for (size_t i = 0; i < 2; i++) {
        int64_t before = (int64_t)chance(), *value = place;
        *value = before;
        number = AMOUNTS[i](room, room_size, value);
        judge_read(room, room_size, was_sound, number, i == 0 && number == 15, before, *value);
        if (number == 0 && *value < 0) fail("an amount below 0");
    }
    for (size_t i = 0; i < 3; i++) {
        uint64_t before = chance(), *value = place;
        *value = before;
        number = NUMBERS[i](room, room_size, value);
        judge_read(room, room_size, was_sound, number, 0, (int64_t)before, (int64_t)*value);
        if (number == 0 && i < 2 && *value > MOST_RESERVATIONS) fail("more than there is room for");
    }
}

/* The recorder. Its own places stand against pages that nothing may touch; a word or count that is not to change is known by this value. */
enum { LARGEST_PART = 2048, LARGEST_TEXT = 2 * LARGEST_PART + 200 };
static const size_t UNCOUNTED = 0x5a5a5a5a5a5a5a5au;

static uint64_t *words_place(void) { return (uint64_t *)(places.first + places.size) - ZATOVOLA_MOST_WORDS; }

static size_t *count_place(void) { return (size_t *)places.first; }

/* A name, a snapshot, or any bytes. */
static size_t put_part(uint8_t *to) {
    uint8_t name[64];
    size_t size, kind = below(4);
    if (kind == 0) {
        size = put_name(name) - 1;
        memcpy(to, name + 1, size);
        return size;
    }
    size = kind == 1 ? below(60) : put_snapshot(to);
    if (kind == 1) for (size_t i = 0; i < size; i++) to[i] = (uint8_t)chance();
    if (below(8) == 0) size = below(size + 1);
    if (below(8) == 0) to[size++] = (uint8_t)chance();
    if (below(8) == 0 && size > 0) to[below(size)] ^= (uint8_t)(1u << below(8));
    return size;
}

/* An operation or an answer that is to be written. */
typedef struct {
    uint8_t code;
    uint64_t number;
    int64_t amount;
    uint64_t words[ZATOVOLA_MOST_WORDS];
    uint8_t part[LARGEST_PART];
    size_t part_size;
} Wanted;

typedef uint8_t Writer(const Wanted *wanted, const uint8_t *part, uint8_t *output, size_t output_size, size_t *written);

static uint8_t operation_line(const Wanted *w, const uint8_t *part, uint8_t *output, size_t output_size, size_t *written) {
    return zatovola_write_operation(w->code, w->number, w->amount, part, w->part_size, output, output_size, written);
}

static uint8_t operation_bytes(const Wanted *w, const uint8_t *part, uint8_t *output, size_t output_size, size_t *written) {
    return zatovola_write_frame(w->code, w->number, w->amount, part, w->part_size, output, output_size, written);
}

static uint8_t answer_line(const Wanted *w, const uint8_t *part, uint8_t *output, size_t output_size, size_t *written) {
    uint8_t number;
    memcpy(words_place(), w->words, sizeof w->words);
    number = zatovola_write_answer(w->code, words_place(), part, w->part_size, output, output_size, written);
    if (memcmp(words_place(), w->words, sizeof w->words) != 0) fail("a writer changed the words");
    return number;
}

/* One call with this much output: its number, and where that is 0 the text and its size. */
static uint8_t write_once(Writer *writer, const Wanted *wanted, size_t output_size, uint8_t *text, size_t *size) {
    uint8_t *lent_part = part(inputs, wanted->part_size), *output = part(outputs, output_size), fill = (uint8_t)chance(), number;
    memcpy(lent_part, wanted->part, wanted->part_size);
    memset(output, fill, output_size);
    *count_place() = UNCOUNTED;
    number = writer(wanted, lent_part, output, output_size, count_place());
    if (number != 0 && number != 19 && number != 22 && number != 23) fail("a writer's answer that it does not have");
    if (memcmp(lent_part, wanted->part, wanted->part_size) != 0) fail("a writer changed the part");
    if ((number == 0) == (*count_place() == UNCOUNTED) || (number == 0 && *count_place() > output_size)) fail("a writer's count");
    for (size_t i = number == 0 ? *count_place() : 0; i < output_size; i++) if (output[i] != fill) fail("a writer changed output behind its text, or under a refusal");
    if (number == 0) memcpy(text, output, *size = *count_place());
    recorded[number]++;
    return number;
}

/* The text with room enough; and with any room the same, or 22 exactly where it does not fit. */
static uint8_t write_both(Writer *writer, const Wanted *wanted, uint8_t *text, size_t *size) {
    uint8_t again[LARGEST_TEXT], number = write_once(writer, wanted, LARGEST_TEXT, text, size), other;
    size_t again_size = 0, room = number != 0 || below(3) == 0 ? below(200) : *size - below(2);
    if (number == 22) fail("no room in more than there can be");
    other = write_once(writer, wanted, room, again, &again_size);
    if (other != (number == 0 && room < *size ? 22 : number)) fail("a number out of its order");
    if (other == 0 && (again_size != *size || memcmp(again, text, *size) != 0)) fail("two texts of one thing");
    return number;
}

/* A digit's value, or 16. */
static unsigned digit(uint8_t character) {
    const char *found = character == 0 ? NULL : strchr(DIGITS, character);
    return found == NULL ? 16 : (unsigned)(found - DIGITS);
}

/* What was read is written as that line, and read the same of its bytes. */
static void judge_told(Wanted *told, const uint8_t *line, size_t size, const uint8_t *bytes) {
    uint8_t again[LARGEST_TEXT];
    size_t start = told->words[0] == 0 ? 1 : 2, again_size;
    told->part_size = told->words[1] <= size / 2 - 1 && start + told->words[1] <= size / 2 ? told->words[1] : 0;
    memcpy(told->part, bytes + start, told->part_size);
    memset(words_place(), 0x5a, sizeof told->words);
    if (zatovola_read_answer_bytes(told->code, bytes, size / 2, words_place()) != 0) fail("an answer's line, and its bytes are none");
    if (memcmp(words_place(), told->words, sizeof told->words) != 0) fail("other words by bytes than by line");
    if (write_both(answer_line, told, again, &again_size) != 0 || again_size != size || memcmp(again, line, size) != 0) fail("what was read is written as another line");
}

/* A line read by an operation's code: the lent bytes hold its pairs of digits up to the first that is none, or with 22 what they held. */
static uint8_t read_line(uint8_t code, const uint8_t *line, size_t size, Wanted *told) {
    size_t half = (size + 1) / 2, bytes_size = below(4) == 0 ? below(size + 2) : half + below(3), pairs = 0;
    uint8_t *lent_line = part(inputs, size), *bytes = part(outputs, bytes_size), after[LARGEST_TEXT + PAGE], number;
    memcpy(lent_line, line, size);
    memset(after, (int)below(256), bytes_size);
    memcpy(bytes, after, bytes_size);
    memset(words_place(), 0x5a, sizeof told->words);
    number = zatovola_read_answer(code, lent_line, size, bytes, bytes_size, words_place());
    if (memcmp(lent_line, line, size) != 0) fail("a reader changed the line");
    if ((number == 22) != (bytes_size < half) || (number != 0 && number != 22 && number != 23)) fail("a reader's answer that it does not have");
    for (; number != 22 && 2 * pairs + 1 < size && digit(line[2 * pairs]) < 16 && digit(line[2 * pairs + 1]) < 16; pairs++)
        after[pairs] = (uint8_t)(digit(line[2 * pairs]) << 4 | digit(line[2 * pairs + 1]));
    if (memcmp(bytes, after, bytes_size) != 0) fail("a reader left other bytes than the line's");
    for (size_t i = 0; number != 0 && i < ZATOVOLA_MOST_WORDS; i++) if (words_place()[i] != UNCOUNTED) fail("a refused reader changed the words");
    read_back[number]++;
    if (number != 0) return number;
    if (2 * pairs != size) fail("an answer that is no line");
    memcpy(told->words, words_place(), sizeof told->words);
    told->code = code;
    judge_told(told, line, size, after);
    return number;
}

static void record_operation(Wanted *wanted) {
    uint8_t line[LARGEST_TEXT], bytes[LARGEST_TEXT], digits[LARGEST_TEXT], answer[ZATOVOLA_LONGEST_ANSWER], number;
    size_t line_size = 0, size = 0;
    number = write_both(operation_line, wanted, line, &line_size);
    if (write_both(operation_bytes, wanted, bytes, &size) != number) fail("a line is refused, its bytes are not");
    if ((wanted->code == 0 || wanted->code > 14) && number != 23) fail("an operation that document 01 does not know");
    if (wanted->code >= 1 && wanted->code <= 4 && number != (wanted->part_size > 24 ? 19 : 0)) fail("a name's number");
    if (number != 0) return;
    if (put_digits(digits, bytes, size) != line_size || memcmp(digits, line, line_size) != 0) fail("a line that is not that of the bytes");
    if (bytes[0] != wanted->code || zatovola_answer(line, 0, bytes, size, answer, sizeof answer) == 0) fail("no answer to what was written");
    if (answer[0] == 19 || answer[0] == 23) fail("what was written is no frame");
}

/* What a restore of the part is refused with. */
static uint8_t snapshot_number(const Wanted *wanted) {
    uint8_t line[LARGEST_TEXT];
    size_t size;
    Wanted restore = *wanted;
    restore.code = 8;
    return write_both(operation_line, &restore, line, &size);
}

/* The same number, and each word as it was, 0 where it carries nothing, or the part's length. */
static int is_told(const Wanted *wanted, const Wanted *told) {
    for (size_t i = 1; i < ZATOVOLA_MOST_WORDS; i++)
        if (told->words[i] != 0 && told->words[i] != wanted->words[i] && (i > 1 || told->words[i] != wanted->part_size)) return 0;
    return told->words[0] == wanted->words[0];
}

static void record_answer(Wanted *wanted) {
    uint8_t line[LARGEST_TEXT], number;
    size_t size = 0;
    Wanted told;
    number = write_both(answer_line, wanted, line, &size);
    if ((wanted->words[0] > 24 || wanted->code == 0 || wanted->code > 14) && number != 23) fail("an answer that document 01 does not know");
    if (wanted->words[0] == 0 && (wanted->code == 7 || wanted->code == 10) && number != snapshot_number(wanted)) fail("a snapshot's number");
    if (number != 0) return;
    number = read_line(wanted->code, line, size, &told);
    if (number == 23 || (number == 0 && !is_told(wanted, &told))) fail("an answer that was written is not read back");
    if (below(2) == 0) line[below(size)] = (uint8_t)DIGITS[below(16)];
    read_line(below(2) == 0 ? wanted->code : (uint8_t)below(16), line, size, &told);
}

static void record(void) {
    static Wanted wanted, told;
    uint8_t bytes[LARGEST_PART], line[LARGEST_TEXT];
    size_t size;
    wanted.code = below(9) == 0 ? (uint8_t)chance() : (uint8_t)(1 + below(14));
    wanted.number = word();
    wanted.amount = (int64_t)word();
    for (size_t i = 0; i < ZATOVOLA_MOST_WORDS; i++) wanted.words[i] = below(2) == 0 ? below(3) : word();
    wanted.words[0] = below(9) == 0 ? word() : below(3) == 0 ? 0 : below(26);
    wanted.part_size = put_part(wanted.part);
    record_operation(&wanted);
    record_answer(&wanted);
    size = below(3) == 0 ? put_part(bytes) : put_frame(bytes, sizeof bytes);
    if (size > 0 && below(2) == 0) bytes[0] = (uint8_t)below(25);
    size = below(3) == 0 ? (memcpy(line, bytes, size), size) : put_digits(line, bytes, size);
    if (size > 0 && below(4) == 0) size--;
    read_line((uint8_t)below(16), line, size, &told);
}

/* The ledger's own answer to a frame. */
static void read_own(uint8_t code, const uint8_t *answer, size_t size) {
    uint8_t number, *bytes = part(inputs, size);
    memcpy(bytes, answer, size);
    number = zatovola_read_answer_bytes(code, bytes, size, words_place());
    if (number != (answer[0] == 23 ? 23 : 0)) fail("the ledger's own answer is none");
    if (number == 0 && words_place()[0] != answer[0]) fail("the ledger's own answer has another number");
}

static void once(Call *call) {
    uint8_t scratch[LARGEST_INPUT + 4096], start[LARGEST_ROOM];
    size_t room_size = put_room(start), input_size = call == one_frame ? put_frame(scratch, sizeof scratch) : put_lines(scratch);
    size_t output_size = below(3) == 0 ? below(200) : below(LARGEST_OUTPUT), used[2] = {0, 0}, written[2];
    uint8_t *room = part(rooms, room_size), *input = part(inputs, input_size), *output = part(outputs, output_size);
    int was_sound;
    memcpy(input, scratch, input_size);
    memcpy(room_before, start, room_size);
    memset(output_before, (int)below(256), output_size);
    for (int turn = 0; turn < 2; turn++) {
        memcpy(room, room_before, room_size);
        memcpy(output, output_before, output_size);
        written[turn] = call(room, room_size, input, input_size, output, output_size, &used[turn]);
        if (turn == 1 && (memcmp(room_after, room, room_size) != 0 || memcmp(output_after, output, output_size) != 0)) fail("twice the same call, two results");
        memcpy(room_after, room, room_size);
        memcpy(output_after, output, output_size);
    }
    if (used[0] != used[1] || written[0] != written[1] || memcmp(input, scratch, input_size) != 0) fail("twice the same call, two counts");
    memcpy(room, room_before, room_size);
    was_sound = is_sound(room, room_size);
    if (memcmp(room, room_before, room_size) != 0) fail("a release of id 0 changed the room");
    judge(call, input, used[0], input_size, written[0], output_size, room_size, was_sound);
    if (call == one_frame && written[0] > 0) read_own(input_size == 0 ? 0 : scratch[0], output_after, written[0]);
    ask_reads(room, room_size, was_sound);
    record();
    if (!was_sound) return;
    memcpy(room, room_after, room_size);
    if (!is_sound(room, room_size)) fail("a sound ledger is sound no more");
    memcpy(sound_room, room_after, room_size);
    sound_size = room_size;
}

int main(int count, char **words) {
    long seconds = count > 1 ? atol(words[1]) : 600;
    chance_state = count > 2 ? strtoull(words[2], NULL, 10) : 520;
    time_t end = time(NULL) + seconds;
    uint64_t total = 0;
    rooms = lent(LARGEST_ROOM);
    inputs = lent(LARGEST_INPUT + 4096);
    outputs = lent(LARGEST_OUTPUT);
    places = lent(PAGE);
    fresh();
    while (time(NULL) < end) {
        for (int i = 0; i < 200; i++, total++) once(below(4) == 0 ? zatovola_batch : one_frame);
        if (below(40) == 0) fresh();
    }
    printf("%lu calls in %ld seconds; %lu batches with %lu lines answered; answers of single frames:", (unsigned long)total, seconds, (unsigned long)batches, (unsigned long)lines_answered);
    for (int n = 0; n < 25; n++) printf(" %d: %lu", n, (unsigned long)calls[n]);
    printf("; of reads:");
    for (int n = 0; n < 25; n++) if (reads[n] > 0) printf(" %d: %lu", n, (unsigned long)reads[n]);
    printf("; of the recorder's writers:");
    for (int n = 0; n < 25; n++) if (recorded[n] > 0) printf(" %d: %lu", n, (unsigned long)recorded[n]);
    printf("; of its reader:");
    for (int n = 0; n < 25; n++) if (read_back[n] > 0) printf(" %d: %lu", n, (unsigned long)read_back[n]);
    printf("\nno crash, no room changed under a refusal, every sound ledger still sound, every answer read back\n");
    return 0;
}
