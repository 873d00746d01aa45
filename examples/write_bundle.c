/*
 * A small OpenMP program that logs itself, makes one bundle of its log and has it judged.
 *
 * A team of threads fills the cells of a column of ground, meets a barrier, and adds up the settlement of the cells. Each thread
 * adds its own part to the common sum: built with -DLOCKED under a lock, else without one, which is a race.
 *
 *     cc -fopenmp write_bundle.c $(pkg-config --cflags --libs dezhakom) -o write_bundle && ./write_bundle [FILE]
 *
 * It prints what racelist prints: the counts, then each race or the word race-free. The sites are the lines of this file. With FILE the
 * bundle is written there too. The exit status is 0 if the run is race-free, 1 if it has races, 2 if something failed.
 * docs/LOGGING.md says when to write which command.
 */
#include <dezhakom.h>
#include <omp.h>
#include <stdio.h>
#include <stdlib.h>
#include <string.h>

enum { THREADS = 4, CELLS = 1000, SUM_LOCK = 0 };

/* All data that the threads share. An address in a log has 32 bits, so the log has offsets from the start of this. */
static struct {
    double cells[CELLS];
    double sum;
} shared;

/* ----------------------------------------------------------------- the log */

/* The chunk of one member: only its own thread writes it, so writing needs no lock. */
typedef struct {
    uint8_t bytes[1024];
    size_t length;
} chunk;

static void stop(const char *what) {
    fprintf(stderr, "write_bundle: %s\n", what);
    exit(2);
}

static void put(chunk *c, dezhakom_command command) {
    size_t place;
    uint32_t refusal = dezhakom_put_command(&command, c->bytes, sizeof c->bytes, c->length, &c->length, &place);
    if (refusal) {
        fprintf(stderr, "write_bundle: command 0x%02x refused %u at %zu\n", (unsigned)command.byte, (unsigned)refusal, place);
        exit(2);
    }
}

static void put_member(chunk *c, uint32_t team, uint32_t member) {
    put(c, (dezhakom_command){.byte = DEZHAKOM_MEMBER, .team = team, .member = member});
}

static void put_region(chunk *c, uint32_t team, uint32_t size) {
    put(c, (dezhakom_command){.byte = DEZHAKOM_REGION, .team = team, .size = size});
}

/* END or BARRIER. */
static void put_plain(chunk *c, uint32_t byte) { put(c, (dezhakom_command){.byte = byte}); }

#ifdef LOCKED
static void put_lock(chunk *c, uint32_t byte, uint32_t lock) { put(c, (dezhakom_command){.byte = byte, .lock = lock}); }
#endif

/* `count` elements from `first` on, of `size` bytes each, one behind the other: a loop over them is one access. */
static void put_access(chunk *c, uint32_t byte, int site, const void *first, uint32_t count, uint32_t size) {
    if (count == 0)
        return;
    put(c, (dezhakom_command){.byte = byte,
                              .site = (uint32_t)site,
                              .base = (uint32_t)((const char *)first - (const char *)&shared),
                              .stride = count == 1 ? 0 : size,
                              .count = count,
                              .size = size});
}

/* ------------------------------------------------------------- the program */

/* What a member of the team does, and its chunk. */
static void work(chunk *log, int member, int members) {
    const int from = CELLS * member / members, to = CELLS * (member + 1) / members;
    const int next = (member + 1) % members;
    const int next_from = CELLS * next / members, next_to = CELLS * (next + 1) / members;
    double part = 0;

    put_member(log, 1, (uint32_t)member);
    for (int i = from; i < to; i++)
        shared.cells[i] = 1.0 / (i + 1);
    put_access(log, DEZHAKOM_WRITE, __LINE__ - 1, &shared.cells[from], (uint32_t)(to - from), sizeof(double));

#pragma omp barrier
    put_plain(log, DEZHAKOM_BARRIER);

    for (int i = next_from; i < next_to; i++)
        part += shared.cells[i];
    put_access(log, DEZHAKOM_READ, __LINE__ - 1, &shared.cells[next_from], (uint32_t)(next_to - next_from), sizeof(double));

#ifdef LOCKED
#pragma omp critical(sum)
    {
        put_lock(log, DEZHAKOM_ACQUIRE, SUM_LOCK);
        shared.sum += part;
        put_access(log, DEZHAKOM_READ, __LINE__ - 1, &shared.sum, 1, sizeof(double));
        put_access(log, DEZHAKOM_WRITE, __LINE__ - 2, &shared.sum, 1, sizeof(double));
        put_lock(log, DEZHAKOM_RELEASE, SUM_LOCK);
    }
#else
    shared.sum += part;
    put_access(log, DEZHAKOM_READ, __LINE__ - 1, &shared.sum, 1, sizeof(double));
    put_access(log, DEZHAKOM_WRITE, __LINE__ - 2, &shared.sum, 1, sizeof(double));
#endif
    put_plain(log, DEZHAKOM_END); /* the join orders what comes after; the barrier at a region's end is not logged */
}

/* ------------------------------------------------------ bundle and verdict */

static uint8_t bundle[DEZHAKOM_MOST_BYTES];
static size_t length;

/* The chunks of a bundle may stand in any order. */
static void merge(const chunk *c) {
    if (c->length > sizeof bundle - length)
        stop("the log is longer than a bundle may be");
    memcpy(bundle + length, c->bytes, c->length);
    length += c->length;
}

static void save(const char *name) {
    FILE *file = fopen(name, "wb");
    if (!file || fwrite(bundle, 1, length, file) != length || fclose(file))
        stop("cannot write the bundle");
}

static void print_race(const dezhakom_race *race) {
    printf("race %08x %u.%u.%u %u %u.%u.%u %u\n", (unsigned)race->witness, (unsigned)race->first.team,
           (unsigned)race->first.member, (unsigned)race->first.number, (unsigned)race->first.site, (unsigned)race->second.team,
           (unsigned)race->second.member, (unsigned)race->second.number, (unsigned)race->second.site);
}

/* Judges the bundle and prints its races, each found above the one before. */
static int print_verdict(void) {
    static uint32_t work_area[DEZHAKOM_WORK_WORDS];
    dezhakom_judgement judgement;
    size_t place;
    uint32_t refusal = dezhakom_judge(bundle, length, work_area, DEZHAKOM_WORK_WORDS, &judgement, &place);
    if (refusal) {
        printf("refused %u at %zu\n", (unsigned)refusal, place);
        return 2;
    }
    printf("chunks %u segments %u accesses %u\n", (unsigned)judgement.chunks, (unsigned)judgement.segments,
           (unsigned)judgement.accesses);
    if (!judgement.found) {
        printf("race-free\n");
        return 0;
    }
    dezhakom_race race = judgement.least;
    for (uint32_t found = 1; found;) {
        print_race(&race);
        const dezhakom_access first = race.first, second = race.second;
        dezhakom_next_race(bundle, length, race.witness, (uint16_t)first.team, (uint8_t)first.member, (uint16_t)first.number,
                           (uint16_t)second.team, (uint8_t)second.member, (uint16_t)second.number, work_area,
                           DEZHAKOM_WORK_WORDS, &found, &race, &place);
    }
    printf("pairs %u\n", (unsigned)judgement.races);
    return 1;
}

int main(int words, char **word) {
    static chunk root, members[THREADS];
    int size = 1;

    put_member(&root, 0, 0);
    shared.sum = 0;
    put_access(&root, DEZHAKOM_WRITE, __LINE__ - 1, &shared.sum, 1, sizeof(double));

    omp_set_dynamic(0);
#pragma omp parallel num_threads(THREADS)
    {
        const int member = omp_get_thread_num();
        if (member == 0)
            size = omp_get_num_threads(); /* which may be less than was asked for */
        work(&members[member], member, omp_get_num_threads());
    }
    /* Between fork and join the root logs nothing, so its REGION can be written here, where the size is known. */
    put_region(&root, 1, (uint32_t)size);

    fprintf(stderr, "settlement %.3f\n", shared.sum);
    put_access(&root, DEZHAKOM_READ, __LINE__ - 1, &shared.sum, 1, sizeof(double));
    put_plain(&root, DEZHAKOM_END);

    for (int member = 0; member < size; member++)
        merge(&members[member]);
    merge(&root);
    if (words > 1)
        save(word[1]);
    return print_verdict();
}
