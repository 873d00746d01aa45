/* Prints the segments of the bundle on standard input as team.member.number with their labels, in an order in which no segment stands
 * behind one that it is before. The order is that of the keys of docs/SORTING.md. */
#include <dezhakom.h>
#include <stdio.h>
#include <stdlib.h>

typedef struct segment {
    uint16_t team;
    uint8_t member;
    uint32_t number;
    dezhakom_label label;
} segment;

/* Triple by triple the interval, then the offset; a label that ends comes before one that goes on. */
static int by_key(const void *first, const void *second) {
    const dezhakom_label *a = &((const segment *)first)->label, *b = &((const segment *)second)->label;
    for (uint32_t k = 0; k < a->count && k < b->count; k++) {
        const dezhakom_triple *s = &a->triples[k], *t = &b->triples[k];
        if (s->interval != t->interval)
            return s->interval < t->interval ? -1 : 1;
        if (s->offset != t->offset)
            return s->offset < t->offset ? -1 : 1;
    }
    return (a->count > b->count) - (a->count < b->count);
}

static int refused(unsigned number, size_t place) {
    printf("refused %u at %zu\n", number, place);
    return 1;
}

int main(void) {
    static uint8_t bundle[DEZHAKOM_MOST_BYTES + 1];
    static segment segments[DEZHAKOM_MOST_SEGMENTS];
    size_t place, length = fread(bundle, 1, sizeof bundle, stdin), position = 0, count = 0;
    unsigned refusal = dezhakom_check(bundle, length, &place);
    if (refusal)
        return refused(refusal, place);
    segment next = {0};
    while (position < length) { /* MEMBER, REGION and BARRIER each open a segment */
        dezhakom_command command;
        refusal = dezhakom_read_command(bundle, length, position, &command, &position, &place);
        if (refusal)
            return refused(refusal, place);
        if (command.byte == DEZHAKOM_MEMBER) {
            next.team = (uint16_t)command.team;
            next.member = (uint8_t)command.member;
            next.number = 0;
        } else if (command.byte == DEZHAKOM_REGION || command.byte == DEZHAKOM_BARRIER) {
            next.number++;
        } else {
            continue;
        }
        refusal = dezhakom_label_of_segment(bundle, length, next.team, next.member, next.number, &next.label, &place);
        if (refusal)
            return refused(refusal, place);
        segments[count++] = next;
    }
    qsort(segments, count, sizeof segments[0], by_key);
    for (size_t i = 0; i < count; i++) {
        printf("%u.%u.%u ", segments[i].team, segments[i].member, (unsigned)segments[i].number);
        for (uint32_t k = 0; k < segments[i].label.count; k++) {
            const dezhakom_triple *t = &segments[i].label.triples[k];
            printf("(%u,%u,%u)", (unsigned)t->offset, (unsigned)t->span, (unsigned)t->interval);
        }
        printf("\n");
    }
    return 0;
}
