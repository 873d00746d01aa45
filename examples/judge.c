#include <dezhakom.h>
#include <stdio.h>

int main(void) {
    static uint8_t bundle[DEZHAKOM_MOST_BYTES + 1];
    static uint32_t work[DEZHAKOM_WORK_WORDS];
    dezhakom_judgement judged;
    size_t place, length = fread(bundle, 1, sizeof bundle, stdin);
    unsigned refusal = dezhakom_judge(bundle, length, work, DEZHAKOM_WORK_WORDS, &judged, &place);
    if (refusal)
        printf("refused %u at %zu\n", refusal, place);
    else
        printf("%u races in %u accesses\n", (unsigned)judged.races, (unsigned)judged.accesses);
    return refusal || judged.found;
}
