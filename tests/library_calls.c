/*
 * Answers the frames of tests/vector_frames.py through the functions of include/dezhakom.h: frames on standard input, a line for
 * each on standard output, as crates/vectors does. Frames 10 and 11 (tests/library_frames.py) are for what vectors has not.
 * It is compiled as C99 and as C++. A line that begins with "wrong" tells of a call that broke a rule of the header.
 */
#include "dezhakom.h"

#include <inttypes.h>
#include <stdio.h>
#include <stdlib.h>
#include <string.h>

/* The records are so many words, and each field is the word at its place. */
#define HOLDS(name, condition) typedef char name[(condition) ? 1 : -1]
#define WORDS(type, words) HOLDS(words_of_##type, sizeof(type) == 4 * (words))
#define FIELD(type, field, word) HOLDS(word_of_##type##_##field, offsetof(type, field) == 4 * (word))

WORDS(dezhakom_command, 9);
FIELD(dezhakom_command, byte, 0);
FIELD(dezhakom_command, team, 1);
FIELD(dezhakom_command, member, 2);
FIELD(dezhakom_command, lock, 3);
FIELD(dezhakom_command, site, 4);
FIELD(dezhakom_command, base, 5);
FIELD(dezhakom_command, stride, 6);
FIELD(dezhakom_command, count, 7);
FIELD(dezhakom_command, size, 8);
WORDS(dezhakom_triple, 3);
FIELD(dezhakom_triple, offset, 0);
FIELD(dezhakom_triple, span, 1);
FIELD(dezhakom_triple, interval, 2);
WORDS(dezhakom_label, 16);
FIELD(dezhakom_label, count, 0);
FIELD(dezhakom_label, triples, 1);
WORDS(dezhakom_access, 5);
FIELD(dezhakom_access, team, 0);
FIELD(dezhakom_access, member, 1);
FIELD(dezhakom_access, number, 2);
FIELD(dezhakom_access, site, 3);
FIELD(dezhakom_access, element, 4);
WORDS(dezhakom_race, 11);
FIELD(dezhakom_race, witness, 0);
FIELD(dezhakom_race, first, 1);
FIELD(dezhakom_race, second, 6);
WORDS(dezhakom_judgement, 16);
FIELD(dezhakom_judgement, chunks, 0);
FIELD(dezhakom_judgement, segments, 1);
FIELD(dezhakom_judgement, accesses, 2);
FIELD(dezhakom_judgement, races, 3);
FIELD(dezhakom_judgement, found, 4);
FIELD(dezhakom_judgement, least, 5);
WORDS(dezhakom_totals, 5);
FIELD(dezhakom_totals, chunks, 0);
FIELD(dezhakom_totals, segments, 1);
FIELD(dezhakom_totals, accesses, 2);
FIELD(dezhakom_totals, races, 3);
FIELD(dezhakom_totals, whole, 4);

enum { READ = 1, PUT, CHECK, FIND, LABEL, COMPARE, SHARED, JUDGE, NEXT, LIST, PUT_RECORD };

/* Before a call, what is lent for an answer holds this byte throughout. */
#define UNSET 0xa5

static void stop(const char *why) {
    fprintf(stderr, "library_calls: %s\n", why);
    exit(2);
}

static void *room(size_t bytes) {
    void *made = malloc(bytes ? bytes : 1);
    if (!made)
        stop("no memory");
    return made;
}

/* ------------------------------------------------------------ a frame's body */

typedef struct {
    const uint8_t *at;
    size_t left;
} body;

static const uint8_t *take(body *b, size_t length) {
    const uint8_t *taken = b->at;
    if (length > b->left)
        stop("a frame is too short");
    b->at += length;
    b->left -= length;
    return taken;
}

static uint64_t number(body *b, size_t width) {
    const uint8_t *bytes = take(b, width);
    uint64_t value = 0;
    while (width--)
        value = value << 8 | bytes[width];
    return value;
}

static uint32_t number8(body *b) { return (uint32_t)number(b, 1); }
static uint32_t number16(body *b) { return (uint32_t)number(b, 2); }
static uint32_t number32(body *b) { return (uint32_t)number(b, 4); }

/* ------------------------------------------------------------- lent memory */

/* A record between words that no call may change. */
typedef struct {
    uint32_t before[4];
    union {
        dezhakom_command command;
        dezhakom_label label;
        dezhakom_race race;
        dezhakom_judgement judgement;
        dezhakom_totals totals;
        uint32_t words[16];
    } is;
    uint32_t after[4];
} lent;

static lent unset(void) {
    lent record;
    memset(&record, UNSET, sizeof record);
    return record;
}

static int all_are(const void *memory, size_t length, int byte) {
    const uint8_t *bytes = (const uint8_t *)memory;
    while (length--)
        if (bytes[length] != byte)
            return 0;
    return 1;
}

/* Only a record of so many bytes has been written. */
static int held(const lent *record, size_t length) {
    return all_are(record->before, sizeof record->before, UNSET) && all_are(record->after, sizeof record->after, UNSET)
           && all_are((const uint8_t *)&record->is + length, sizeof record->is - length, UNSET);
}

static int refused_whole(uint32_t refusal, const lent *record, size_t length) {
    return !refusal || all_are(&record->is, length, 0);
}

/* What holds after every call. */
static void want(int condition, const char *rule) {
    if (!condition)
        printf("wrong: %s: ", rule);
}

static void want_record(uint32_t refusal, const lent *record, size_t length) {
    want(held(record, length), "more or less than the record is written");
    want(refused_whole(refusal, record, length), "refused, the record is not 0");
}

static int refused(uint32_t refusal, size_t place) {
    want(refusal || place == 0, "a place without a refusal");
    if (refusal)
        printf("refused %" PRIu32 " at %zu", refusal, place);
    return refusal != 0;
}

/* Memory in words that holds something before a call. */
typedef struct {
    size_t bytes;
    uint8_t *now, *before;
} filled;

static filled fill(size_t words, size_t width, uint32_t filler) {
    filled memory;
    size_t i;
    memory.bytes = words * width;
    memory.now = (uint8_t *)room(memory.bytes);
    memory.before = (uint8_t *)room(memory.bytes);
    for (i = 0; i < memory.bytes; i += 4)
        memcpy(memory.before + i, &filler, 4);
    memcpy(memory.now, memory.before, memory.bytes);
    return memory;
}

/* What the bytes from a place on are afterwards. */
static const char *state_from(const filled *memory, size_t from) {
    if (all_are(memory->now + from, memory->bytes - from, 0))
        return "zero";
    return memcmp(memory->now + from, memory->before + from, memory->bytes - from) ? "changed" : "kept";
}

static void drop(filled *memory) {
    free(memory->now);
    free(memory->before);
}

/* ------------------------------------------------------------------ answers */

static const char *command_name(uint32_t byte) {
    switch (byte) {
    case DEZHAKOM_MEMBER: return "member";
    case DEZHAKOM_END: return "end";
    case DEZHAKOM_CUT: return "cut";
    case DEZHAKOM_REGION: return "region";
    case DEZHAKOM_BARRIER: return "barrier";
    case DEZHAKOM_ACQUIRE: return "acquire";
    case DEZHAKOM_RELEASE: return "release";
    case DEZHAKOM_READ: return "read";
    case DEZHAKOM_WRITE: return "write";
    case DEZHAKOM_ATOMIC_READ: return "atomic-read";
    case DEZHAKOM_ATOMIC_WRITE: return "atomic-write";
    case DEZHAKOM_WIDE_READ: return "wide-read";
    case DEZHAKOM_WIDE_WRITE: return "wide-write";
    case DEZHAKOM_WIDE_ATOMIC_READ: return "wide-atomic-read";
    case DEZHAKOM_WIDE_ATOMIC_WRITE: return "wide-atomic-write";
    default: return NULL;
    }
}

/* The fields that a command has, in the order of its operands, with their widths in a frame's record, where every site has 4 bytes;
 * answers how many. */
static size_t fields_of(dezhakom_command *c, uint32_t **fields, size_t *widths) {
    size_t n = 0;
#define HAS(field, width) (fields[n] = &c->field, widths[n++] = (width))
    switch (c->byte) {
    case DEZHAKOM_MEMBER: HAS(team, 2), HAS(member, 1); break;
    case DEZHAKOM_REGION: HAS(team, 2), HAS(size, 1); break;
    case DEZHAKOM_ACQUIRE:
    case DEZHAKOM_RELEASE: HAS(lock, 1); break;
    case DEZHAKOM_END:
    case DEZHAKOM_CUT:
    case DEZHAKOM_BARRIER: break;
    default: HAS(site, 4), HAS(base, 4), HAS(stride, 2), HAS(count, 2), HAS(size, 1);
    }
#undef HAS
    return n;
}

static void print_command(dezhakom_command command) {
    uint32_t *fields[5];
    size_t widths[5], n, i;
    if (!command_name(command.byte)) {
        printf("wrong: no command");
        return;
    }
    n = fields_of(&command, fields, widths);
    printf("%s", command_name(command.byte));
    for (i = 0; i < n; i++) {
        printf(" %" PRIu32, *fields[i]);
        *fields[i] = 0;
    }
    command.byte = 0;
    want(all_are(&command, sizeof command, 0), "a field that the command has not");
}

static void answer_read(body b) {
    lent out = unset();
    size_t next = 1, place = 1, position = (size_t)number(&b, 8);
    uint32_t refusal = dezhakom_read_command(b.at, b.left, position, &out.is.command, &next, &place);
    want_record(refusal, &out, sizeof out.is.command);
    want(!refusal || next == 0, "refused, next is not 0");
    if (!refused(refusal, place)) {
        print_command(out.is.command);
        printf(" next %zu", next);
    }
}

static void put(const dezhakom_command *command, body b, size_t position) {
    dezhakom_command before = *command;
    uint8_t *buffer = (uint8_t *)room(b.left);
    size_t next = 1, place = 1, i;
    uint32_t refusal;
    memcpy(buffer, b.at, b.left);
    refusal = dezhakom_put_command(command, buffer, b.left, position, &next, &place);
    want(!memcmp(&before, command, sizeof before), "the command is changed");
    want(!refusal || next == 0, "refused, next is not 0");
    if (!refused(refusal, place))
        printf("put %zu", next);
    printf(" ");
    for (i = 0; i < b.left; i++)
        printf("%02x", buffer[i]);
    free(buffer);
}

/* The record of a frame is a command's byte and operands. What the command has not is filled with something. */
static void answer_put(body b) {
    dezhakom_command command;
    uint32_t *fields[5];
    size_t widths[5], n, i, position = (size_t)number(&b, 8);
    body record;
    record.at = take(&b, 14);
    record.left = 14;
    memset(&command, UNSET, sizeof command);
    command.byte = number8(&record);
    n = fields_of(&command, fields, widths);
    for (i = 0; i < n; i++)
        *fields[i] = (uint32_t)number(&record, widths[i]);
    put(&command, b, position);
}

static void answer_put_record(body b) {
    dezhakom_command c;
    size_t position = (size_t)number(&b, 8);
    c.byte = number32(&b);
    c.team = number32(&b);
    c.member = number32(&b);
    c.lock = number32(&b);
    c.site = number32(&b);
    c.base = number32(&b);
    c.stride = number32(&b);
    c.count = number32(&b);
    c.size = number32(&b);
    put(&c, b, position);
}

static void answer_check(body b) {
    size_t place = 1;
    uint32_t refusal = dezhakom_check(b.at, b.left, &place);
    if (!refused(refusal, place))
        printf("accepted");
}

static void answer_find(body b) {
    size_t start = 1, end = 1, place = 1;
    uint32_t team = number16(&b), member = number8(&b);
    uint32_t refusal = dezhakom_find_chunk(b.at, b.left, (uint16_t)team, (uint8_t)member, &start, &end, &place);
    want(!refusal || (start == 0 && end == 0), "refused, the part is not empty");
    if (!refused(refusal, place)) {
        want(start < end && end <= b.left, "the part is not in the bundle");
        printf("chunk ");
        while (start < end && start < b.left)
            printf("%02x", b.at[start++]);
    }
}

static void answer_label(body b) {
    lent out = unset();
    size_t place = 1, i, n;
    uint32_t team = number16(&b), member = number8(&b), segment = number32(&b);
    uint32_t refusal =
        dezhakom_label_of_segment(b.at, b.left, (uint16_t)team, (uint8_t)member, segment, &out.is.label, &place);
    const dezhakom_label *label = &out.is.label;
    want_record(refusal, &out, sizeof out.is.label);
    if (!refused(refusal, place)) {
        n = label->count < DEZHAKOM_MOST_TRIPLES ? label->count : DEZHAKOM_MOST_TRIPLES;
        want(label->count == n, "over 5 triples");
        want(all_are(label->triples + n, (DEZHAKOM_MOST_TRIPLES - n) * sizeof(dezhakom_triple), 0), "triples past the count");
        printf("label");
        for (i = 0; i < n; i++)
            printf(" %" PRIu32 " %" PRIu32 " %" PRIu32, label->triples[i].offset, label->triples[i].span,
                   label->triples[i].interval);
    }
}

static dezhakom_label take_label(body *b) {
    dezhakom_label label;
    size_t i;
    label.count = number32(b);
    for (i = 0; i < DEZHAKOM_MOST_TRIPLES; i++) {
        label.triples[i].offset = number32(b);
        label.triples[i].span = number32(b);
        label.triples[i].interval = number32(b);
    }
    return label;
}

static void answer_compare(body b) {
    dezhakom_label first = take_label(&b), second = take_label(&b);
    uint32_t order = 77, refusal;
    size_t place = 1;
    refusal = dezhakom_compare_labels(&first, &second, &order, &place);
    want(!refusal || order == 0, "refused, the order is not 0");
    if (!refused(refusal, place))
        printf("%s", order == DEZHAKOM_SAME         ? "same"
                     : order == DEZHAKOM_BEFORE     ? "before"
                     : order == DEZHAKOM_AFTER      ? "after"
                     : order == DEZHAKOM_CONCURRENT ? "concurrent"
                                                    : "wrong: no order");
}

static void answer_shared(body b) {
    uint32_t n[8], found = 77, byte = 77, element = 77, other_element = 77, refusal;
    size_t place = 1, i;
    static const size_t widths[4] = {4, 2, 2, 1};
    for (i = 0; i < 8; i++)
        n[i] = (uint32_t)number(&b, widths[i % 4]);
    refusal = dezhakom_lowest_shared_byte(n[0], (uint16_t)n[1], (uint16_t)n[2], (uint8_t)n[3], n[4], (uint16_t)n[5],
                                          (uint16_t)n[6], (uint8_t)n[7], &found, &byte, &element, &other_element, &place);
    want(!refusal || found == 0, "refused, found is not 0");
    want(found == 1 || (found == 0 && byte == 0), "a byte that is not found");
    want(found == 1 || (element == 0 && other_element == 0), "elements of a byte that is not found");
    if (!refused(refusal, place)) {
        if (found)
            printf("byte %" PRIu32 " elements %" PRIu32 " %" PRIu32, byte, element, other_element);
        else
            printf("none");
    }
}

static void print_race(const dezhakom_race *race) {
    const dezhakom_access *first = &race->first, *second = &race->second;
    printf("race %" PRIu32 " %" PRIu32 ".%" PRIu32 ".%" PRIu32 " %" PRIu32 " %" PRIu32 ".%" PRIu32 ".%" PRIu32 " %" PRIu32,
           race->witness, first->team, first->member, first->number, first->site, second->team, second->member,
           second->number, second->site);
    printf(" elements %" PRIu32 " %" PRIu32, first->element, second->element);
}

static void print_counts(uint32_t chunks, uint32_t segments, uint32_t accesses, uint32_t races) {
    printf("chunks %" PRIu32 " segments %" PRIu32 " accesses %" PRIu32 " races %" PRIu32, chunks, segments, accesses, races);
}

static filled take_area(body *b) {
    uint32_t words = number32(b), filler = number32(b);
    return fill(words, 4, filler);
}

static void answer_judge(body b) {
    filled area = take_area(&b);
    lent out = unset();
    size_t place = 1;
    const dezhakom_judgement *j = &out.is.judgement;
    uint32_t refusal = dezhakom_judge(b.at, b.left, (uint32_t *)(void *)area.now, area.bytes / 4, &out.is.judgement, &place);
    want_record(refusal, &out, sizeof out.is.judgement);
    if (!refused(refusal, place)) {
        want(j->found == 1 || (j->found == 0 && all_are(&j->least, sizeof j->least, 0)), "a race that is not found");
        print_counts(j->chunks, j->segments, j->accesses, j->races);
        printf(" ");
        if (j->found)
            print_race(&j->least);
        else
            printf("race-free");
    }
    printf(" area %s", state_from(&area, 0));
    drop(&area);
}

static void answer_next(body b) {
    filled area = take_area(&b);
    lent out = unset();
    size_t place = 1, i;
    uint32_t found = 77, refusal, witness = number32(&b), n[6];
    static const size_t widths[3] = {2, 1, 2};
    for (i = 0; i < 6; i++)
        n[i] = (uint32_t)number(&b, widths[i % 3]);
    refusal = dezhakom_next_race(b.at, b.left, witness, (uint16_t)n[0], (uint8_t)n[1], (uint16_t)n[2], (uint16_t)n[3],
                                 (uint8_t)n[4], (uint16_t)n[5], (uint32_t *)(void *)area.now, area.bytes / 4, &found,
                                 &out.is.race, &place);
    want_record(refusal, &out, sizeof out.is.race);
    want(found == 1 || (found == 0 && all_are(&out.is.race, sizeof out.is.race, 0)), "a race that is not found");
    want(!refusal || found == 0, "refused, found is not 0");
    if (!refused(refusal, place)) {
        if (found)
            print_race(&out.is.race);
        else
            printf("none");
    }
    printf(" area %s", state_from(&area, 0));
    drop(&area);
}

/* All races, read from the listing; then read again with the names of the first `known` accesses alone. */
static void print_listing(const uint64_t *names, size_t names_length, const uint64_t *numbers, size_t races, size_t known) {
    size_t turn, i;
    for (turn = 0; turn < 2; turn++)
        for (i = 0; i < races; i++) {
            lent out = unset();
            dezhakom_race_in(names, turn ? DEZHAKOM_NAME_WORDS * known : names_length, numbers[i], &out.is.race);
            want_record(0, &out, sizeof out.is.race);
            printf("; ");
            print_race(&out.is.race);
        }
}

static void answer_list(body b) {
    filled area = take_area(&b);
    uint32_t filler = number32(&b), lengths[3], known;
    filled names, numbers, spare;
    lent out = unset();
    size_t place = 1, i, used;
    const dezhakom_totals *t = &out.is.totals;
    uint32_t refusal;
    for (i = 0; i < 3; i++)
        lengths[i] = number32(&b);
    known = number32(&b);
    names = fill(lengths[0], 8, filler);
    numbers = fill(lengths[1], 8, filler);
    spare = fill(lengths[2], 8, filler);
    refusal = dezhakom_list_races(b.at, b.left, (uint32_t *)(void *)area.now, area.bytes / 4, (uint64_t *)(void *)names.now,
                                  lengths[0], (uint64_t *)(void *)numbers.now, lengths[1], (uint64_t *)(void *)spare.now,
                                  lengths[2], &out.is.totals, &place);
    want_record(refusal, &out, sizeof out.is.totals);
    if (!refused(refusal, place)) {
        print_counts(t->chunks, t->segments, t->accesses, t->races);
        printf(" whole %" PRIu32, t->whole);
    }
    used = DEZHAKOM_NAME_WORDS * (size_t)t->accesses;
    if (t->whole && used <= lengths[0] && t->races <= lengths[1])
        printf(" area %s names %s numbers %s spare %s", state_from(&area, 0), state_from(&names, 8 * used),
               state_from(&numbers, 8 * (size_t)t->races), state_from(&spare, 0));
    else
        printf(" area %s names %s numbers %s spare %s", state_from(&area, 0), state_from(&names, 0), state_from(&numbers, 0),
               state_from(&spare, 0));
    if (t->whole && t->races <= lengths[1])
        print_listing((const uint64_t *)(const void *)names.now, lengths[0], (const uint64_t *)(const void *)numbers.now,
                      t->races, known);
    drop(&area);
    drop(&names);
    drop(&numbers);
    drop(&spare);
}

/* ------------------------------------------------------------------- frames */

static void answer(uint32_t operation, body b) {
    switch (operation) {
    case READ: answer_read(b); break;
    case PUT: answer_put(b); break;
    case CHECK: answer_check(b); break;
    case FIND: answer_find(b); break;
    case LABEL: answer_label(b); break;
    case COMPARE: answer_compare(b); break;
    case SHARED: answer_shared(b); break;
    case JUDGE: answer_judge(b); break;
    case NEXT: answer_next(b); break;
    case LIST: answer_list(b); break;
    case PUT_RECORD: answer_put_record(b); break;
    default: stop("an unknown operation");
    }
    printf("\n");
}

int main(void) {
    size_t length = 0, most = 1 << 20, got;
    uint8_t *bytes = (uint8_t *)room(most);
    body all;
    while ((got = fread(bytes + length, 1, most - length, stdin)) > 0) {
        length += got;
        if (length == most) {
            most *= 2;
            bytes = (uint8_t *)realloc(bytes, most);
            if (!bytes)
                stop("no memory");
        }
    }
    all.at = bytes;
    all.left = length;
    while (all.left > 0) {
        body one;
        uint32_t operation = number8(&all);
        one.left = number32(&all);
        one.at = take(&all, one.left);
        answer(operation, one);
    }
    free(bytes);
    return ferror(stdin) || fflush(stdout) ? 2 : 0;
}
