/* Runs a candidate's sequence on a paper, then marks a number typed on standard input.
 *   tools/staticlib.sh
 *   gcc -Iinclude examples/candidate.c -Ltarget/staticlib -lfolvkin -o target/candidate
 *   target/candidate papers/marked-run.bin 1 2 4 3 */
#include <stdio.h>
#include <stdlib.h>
#include <string.h>
#include "folvkin.h"

/* A slot of the places given. What cannot be one is left to the library to refuse. */
static void write_slot(uint8_t slot[6], int count, char **places) {
    memset(slot, 0, 6);
    slot[0] = count > 5 ? 6 : count;
    for (int i = 0; i < count && i < 5; i++) {
        unsigned long place = strtoul(places[i], NULL, 10);
        slot[1 + i] = place > 255 ? 255 : place;
    }
}

static void run(const uint8_t *paper, size_t length, const uint8_t slot[6]) {
    uint64_t told = folvkin_run(paper, length, slot, 6);
    int refusal = told & 255, place = told >> 8 & 255;
    int event_refusal = told >> 16 & 255, holds = told >> 24 & 255, name = told >> 32;
    if (refusal) printf("refused %d\n", refusal);
    else if (event_refusal == 13) printf("event %d of the sequence is refused: 13, section %d is occupied\n", place, name);
    else if (event_refusal == 9) printf("event %d of the sequence is refused: 9, exit route at %c\n", place, 'A' + name);
    else if (place) printf("event %d of the sequence is refused: %d\n", place, event_refusal);
    else puts(holds ? "all readings hold" : "not all readings hold");
}

/* Seconds to run 1,500 m at 100 km/h, with a tolerance of 50 thousandths. What is no number is a blank. */
static void mark(const char *typed) {
    static const char *const verdicts[] = {"wrong", "right", "blank", "other unit", "no number"};
    uint8_t line[13];
    uint32_t pattern;
    int32_t error;
    char *end;
    float number = strtof(typed, &end);
    memcpy(&pattern, &number, sizeof pattern);
    uint8_t refusal = folvkin_mark(1, 1500, 100, 50, end == typed ? 0 : 1, pattern, line, sizeof line);
    if (refusal) { printf("refused %d\n", refusal); return; }
    memcpy(&error, line + 9, sizeof error);
    printf("%s, error %d thousandths\n", verdicts[line[8]], error);
}

int main(int count, char **words) {
    uint8_t paper[128], slot[6];
    char typed[64] = "";
    if (count < 2) return fprintf(stderr, "usage: candidate PAPER PLACE..\n"), 2;
    FILE *file = fopen(words[1], "rb");
    if (!file) return perror(words[1]), 2;
    size_t length = fread(paper, 1, sizeof paper, file);
    fclose(file);
    write_slot(slot, count - 2, words + 2);
    run(paper, length, slot);
    printf("seconds to run 1,500 m at 100 km/h? ");
    fflush(stdout);
    if (!fgets(typed, sizeof typed, stdin)) puts("");
    mark(typed);
    return 0;
}
