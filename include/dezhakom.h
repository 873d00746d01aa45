/*
 * Dezhakom: reads the logs of OpenMP runs ("bundles") and tells whether a run had a data race.
 *
 * A logger writes commands with dezhakom_put_command (docs/LOGGING.md); a tool reads and judges bundles with the rest.
 * The format, the words used here and every refusal are in docs/FORMAT.md.
 *
 * For all functions:
 * - The answer is 0 where the function did what it was asked, else the number of a refusal (dezhakom_refusal). *place is then
 *   the place of the refusal, and 0 where nothing was refused.
 * - Every number or record that is lent for an answer is set by every call; where the call is refused, it is 0 throughout.
 * - Any bytes, numbers and lengths may be given: no input makes a function read or write outside of what it was lent, loop for
 *   ever or abort. What is lent for writing must not overlap anything else that is lent in the same call. A pointer is not null,
 *   also where its length is 0.
 * - There is no state between calls, and nothing is allocated: threads may call at the same time, each with memory of its own. A call
 *   uses less than 128 KB of stack.
 */
#ifndef DEZHAKOM_H
#define DEZHAKOM_H

#include <stddef.h>
#include <stdint.h>

#ifdef __cplusplus
extern "C" {
#endif

#define DEZHAKOM_VERSION "0.5.0"

/* The bytes of the commands. */
#define DEZHAKOM_MEMBER 0x01       /* team, member: opens a chunk, the whole log of one member of a team */
#define DEZHAKOM_END 0x02          /* closes the chunk */
#define DEZHAKOM_CUT 0x03          /* closes the chunk of a member that was stopped; locks may be held */
#define DEZHAKOM_REGION 0x10       /* team, size: the member forks that team and waits for its join */
#define DEZHAKOM_BARRIER 0x11      /* a barrier of the member's own team */
#define DEZHAKOM_ACQUIRE 0x20      /* lock */
#define DEZHAKOM_RELEASE 0x21      /* lock */
#define DEZHAKOM_READ 0x30         /* site, base, stride, count, size: an access, as the three below; the site has 2 bytes */
#define DEZHAKOM_WRITE 0x31
#define DEZHAKOM_ATOMIC_READ 0x32
#define DEZHAKOM_ATOMIC_WRITE 0x33
#define DEZHAKOM_WIDE_READ 0x38    /* the same with a site of 4 bytes; all accesses of a bundle are narrow, or all are wide */
#define DEZHAKOM_WIDE_WRITE 0x39
#define DEZHAKOM_WIDE_ATOMIC_READ 0x3a
#define DEZHAKOM_WIDE_ATOMIC_WRITE 0x3b

/* Limits. What passes one of them is refused with the number beside it. */
#define DEZHAKOM_MOST_BYTES 65536    /* of a bundle: 1 */
#define DEZHAKOM_MOST_SEGMENTS 512   /* of a bundle: 7 */
#define DEZHAKOM_MOST_ACCESSES 1024  /* of a bundle: 7 */
#define DEZHAKOM_MOST_RACES 523776   /* what 1,024 accesses can have: no bundle has more */
#define DEZHAKOM_MOST_TEAM 65535     /* the highest number of a team: 5 */
#define DEZHAKOM_MOST_MEMBERS 64     /* of a team; members are numbered from 0: 5 */
#define DEZHAKOM_MOST_DEPTH 4        /* of nested teams, below the root: 11 */
#define DEZHAKOM_MOST_LOCKS 64       /* locks are numbered from 0: 5 */
#define DEZHAKOM_MOST_SITE 65535     /* the highest site of a narrow access: 5 */
#define DEZHAKOM_MOST_WIDE_SITE 4294967295 /* the highest site of a wide one: every number of 32 bits is a site */
#define DEZHAKOM_MOST_TRIPLES 5      /* of a label: 15 */
#define DEZHAKOM_COMMAND_BYTES 14    /* the length of the longest command */
#define DEZHAKOM_WORK_WORDS 16384    /* the least length of a work area, in words of 32 bits: 13 */
#define DEZHAKOM_NAME_WORDS 2        /* the words of 64 bits in a listing's names, for each access */

/* The refusals, and what the place of each is. */
typedef enum dezhakom_refusal {
    DEZHAKOM_DONE = 0,                 /* nothing was refused */
    DEZHAKOM_BUNDLE_TOO_LONG = 1,      /* over 65,536 bytes; 0 */
    DEZHAKOM_UNKNOWN_COMMAND = 2,      /* a byte that is no command; its offset */
    DEZHAKOM_OPERANDS_CUT_OFF = 3,     /* the bytes end inside a command; its offset */
    DEZHAKOM_MISPLACED = 4,            /* not MEMBER outside a chunk, MEMBER inside one; its offset; or a chunk is not closed; the length */
    DEZHAKOM_OUT_OF_RANGE = 5,         /* an operand outside its range; the command's offset; of two ranges, 1 or 2 */
    DEZHAKOM_LOCK_MISUSED = 6,         /* a held lock acquired, one not held released, or one held at END; the command's offset */
    DEZHAKOM_TOO_MANY_ENTRIES = 7,     /* the 513th segment or the 1,025th access; the command's offset */
    DEZHAKOM_FORKED_BEFORE = 8,        /* a team is forked twice; the later REGION's offset */
    DEZHAKOM_STRAY_CHUNK = 9,          /* a chunk whose team is never forked, whose member is not below the size, or a second one; its offset */
    DEZHAKOM_MISSING_CHUNK = 10,       /* a member's chunk is missing; its team's REGION; 0 for the root's */
    DEZHAKOM_TOO_DEEP = 11,            /* a team is nested over 4 deep; its REGION's offset */
    DEZHAKOM_BARRIER_COUNT = 12,       /* a complete member's barriers are not as many as the lowest-numbered complete one's; its chunk's offset */
    DEZHAKOM_WORK_AREA_TOO_SMALL = 13, /* a work area under 16,384 words; 0 */
    DEZHAKOM_NONE_SUCH = 14,           /* no such member or segment; 0 */
    DEZHAKOM_BAD_LABEL = 15,           /* a label that no segment can have; 1 or 2 for the label */
    DEZHAKOM_UNEQUAL_SPANS = 16,       /* the first triples that differ have unequal spans; the triple, from 0 */
    DEZHAKOM_DOES_NOT_FIT = 17,        /* a command does not fit into the buffer; the position */
    DEZHAKOM_PAST_END = 18,            /* the position is at or past the end; the position */
    DEZHAKOM_CUT_AHEAD = 19,           /* a cut chunk has more barriers than a complete member of its team; its offset */
    DEZHAKOM_OTHER_GROUP = 20,         /* an access is wide and the bundle's first narrow, or the other way round; its offset */
    DEZHAKOM_SITE_TOO_LARGE = 21,      /* a site over 65,535 where narrow ones are wanted; the access's offset; by no function here */
    DEZHAKOM_TOO_FEW_RECORDS = 22,     /* fewer records lent than a bundle has interval rows; 0; by no function here */
    DEZHAKOM_WRONG_RECORD = 23         /* a missing, extra or differing interval row; its index; by no function here */
} dezhakom_refusal;

/* What comparing two labels answers: the first segment against the second. */
typedef enum dezhakom_order {
    DEZHAKOM_SAME = 0,
    DEZHAKOM_BEFORE = 1,
    DEZHAKOM_AFTER = 2,
    DEZHAKOM_CONCURRENT = 3
} dezhakom_order;

/* A command. What a command does not have is 0 when it is read, and is not looked at when it is put.
 * An access touches the bytes base + k * stride + j, with k below count and j below size. */
typedef struct dezhakom_command {
    uint32_t byte; /* DEZHAKOM_MEMBER .. DEZHAKOM_WIDE_ATOMIC_WRITE */
    uint32_t team; /* of a MEMBER, or that a REGION forks */
    uint32_t member;
    uint32_t lock;
    uint32_t site; /* a number for the source line; of a narrow access at most DEZHAKOM_MOST_SITE */
    uint32_t base;
    uint32_t stride; /* 0 exactly where the count is 1 */
    uint32_t count;
    uint32_t size; /* of a REGION's team, 1 to 64; of an access's element, 1, 2, 4 or 8 */
} dezhakom_command;

typedef struct dezhakom_triple {
    uint32_t offset;
    uint32_t span;
    uint32_t interval;
} dezhakom_triple;

/* The label of a segment. Triples past the count are 0 when a label is given, and are not looked at when labels are compared. */
typedef struct dezhakom_label {
    uint32_t count;
    dezhakom_triple triples[DEZHAKOM_MOST_TRIPLES];
} dezhakom_label;

/* An access of a race by its name (team, member, number in the member's chunk from 0), its site, and the lowest of its elements,
 * numbered from 0, that covers the witness: the turn of the loop, where a loop was logged as one access. */
typedef struct dezhakom_access {
    uint32_t team;
    uint32_t member;
    uint32_t number;
    uint32_t site;
    uint32_t element;
} dezhakom_access;

/* Two accesses that race, the lower name first, and the lowest byte that both touch. Races are ordered by witness, then first name,
 * then second name; sites and elements do not matter. */
typedef struct dezhakom_race {
    uint32_t witness;
    dezhakom_access first;
    dezhakom_access second;
} dezhakom_race;

/* The counts of a bundle; found is 0 where it is race-free, and 1 where least is its least race. */
typedef struct dezhakom_judgement {
    uint32_t chunks;
    uint32_t segments;
    uint32_t accesses;
    uint32_t races;
    uint32_t found;
    dezhakom_race least;
} dezhakom_judgement;

/* The counts of a bundle; whole is 1 where all of its races stand in the lent memory. A listing needs twice as many words in names as
 * there are accesses, as many numbers as there are races, and half as many spare: where one is shorter, whole is 0 and so are all
 * three. */
typedef struct dezhakom_totals {
    uint32_t chunks;
    uint32_t segments;
    uint32_t accesses;
    uint32_t races;
    uint32_t whole;
} dezhakom_totals;

/* The command that stands at a position of the bytes, and the position after it.
 * Refused with 18, 2, 3 or 5, tested in that order, at the position. */
uint32_t dezhakom_read_command(const uint8_t *bytes, size_t length, size_t position, dezhakom_command *command, size_t *next,
                               size_t *place);

/* Writes a command at a position of the buffer, and answers the position after it; no other byte changes.
 * Refused with 2 (byte is no command), 5 or 17, tested in that order, at the position; the buffer then stays as it was. */
uint32_t dezhakom_put_command(const dezhakom_command *command, uint8_t *buffer, size_t length, size_t position, size_t *next,
                              size_t *place);

/* Whether the bytes are a bundle: 0 where they are.
 * Refused with 1, then with 2, 3, 4, 20, 5, 6 or 7 at the first command that fails, then with the lowest of 8 to 12 and 19. */
uint32_t dezhakom_check(const uint8_t *bytes, size_t length, size_t *place);

/* Where the chunk of a member stands in a bundle: from start, its MEMBER, up to end, behind its END or CUT.
 * Refused as check, then with 14 where there is no such member. */
uint32_t dezhakom_find_chunk(const uint8_t *bytes, size_t length, uint16_t team, uint8_t member, size_t *start, size_t *end,
                             size_t *place);

/* The label of a member's segment; segments are numbered from 0.
 * Refused as check, then with 14 where there is no such member or segment. */
uint32_t dezhakom_label_of_segment(const uint8_t *bytes, size_t length, uint16_t team, uint8_t member, uint32_t segment,
                                   dezhakom_label *label, size_t *place);

/* How the segment of the first label lies to that of the second (dezhakom_order), both of one bundle; docs/SORTING.md sorts by labels.
 * Refused with 15 at 1 or 2 for a label that no segment can have, then with 16. */
uint32_t dezhakom_compare_labels(const dezhakom_label *first, const dezhakom_label *second, uint32_t *order, size_t *place);

/* The lowest byte that two ranges share, if any, and the lowest element of each that covers it: found is 1 where there is one, else
 * 0 as are byte, element and other_element. Refused with 5 at 1 or 2, for the first range that no access can have. */
uint32_t dezhakom_lowest_shared_byte(uint32_t base, uint16_t stride, uint16_t count, uint8_t size, uint32_t other_base,
                                     uint16_t other_stride, uint16_t other_count, uint8_t other_size, uint32_t *found,
                                     uint32_t *byte, uint32_t *element, uint32_t *other_element, size_t *place);

/* The judgement of a bundle: its counts, and its least race or race-free. All pairs of accesses are compared.
 * Refused with 13, and the work area stays as it was; then as check. After every other outcome the work area is 0. */
uint32_t dezhakom_judge(const uint8_t *bytes, size_t length, uint32_t *work, size_t words, dezhakom_judgement *judgement,
                        size_t *place);

/* The least race above a witness and two names, real or not, in the order of races: found is 1 where there is one, else 0.
 * Refused as dezhakom_judge, with the same work area. The races above (0, 0.0.0, 0.0.0) are all races of the bundle. */
uint32_t dezhakom_next_race(const uint8_t *bytes, size_t length, uint32_t witness, uint16_t first_team, uint8_t first_member,
                            uint16_t first_number, uint16_t second_team, uint8_t second_member, uint16_t second_number,
                            uint32_t *work, size_t words, uint32_t *found, dezhakom_race *race, size_t *place);

/* All races of a bundle, in order, in one judgement: numbers[0] to numbers[races - 1], which dezhakom_race_in reads by names, two
 * words for each access. Refused as dezhakom_judge, with the same work area; names, numbers and spare then stay as they were. */
uint32_t dezhakom_list_races(const uint8_t *bytes, size_t length, uint32_t *work, size_t words, uint64_t *names,
                             size_t names_length, uint64_t *numbers, size_t numbers_length, uint64_t *spare,
                             size_t spare_length, dezhakom_totals *totals, size_t *place);

/* The race that a number of a listing stands for, by the names of the same listing, in the memory that was lent to it.
 * It refuses nothing: a name that is not there is 0. */
void dezhakom_race_in(const uint64_t *names, size_t names_length, uint64_t number, dezhakom_race *race);

#ifdef __cplusplus
}
#endif

#endif
