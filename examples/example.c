/* Prints the key of a paper: of the file named, or of the marked run of document 01.
 *   tools/staticlib.sh
 *   gcc -Iinclude examples/example.c -Ltarget/staticlib -lfolvkin -o target/example */
#include <stdio.h>
#include "folvkin.h"

int main(int count, char **words) {
    /* A question is its records laid end to end. */
    uint8_t paper[128] = "LB\4\2" "SI\1\0\0\0\0\0\0\0\0\0\0\0\0\0\0\0\0\0\0"
                         "EV\4\1\0\2\1\16\0\21\1" "RD\1\1\1\2" "LN\4";
    uint8_t after[6] = {255}, room[60];
    size_t length = 4 + 21 + 11 + 6 + 3;
    FILE *file = count > 1 ? fopen(words[1], "rb") : NULL;
    if (count > 1 && !file) return perror(words[1]), 2;
    if (file) length = fread(paper, 1, sizeof paper, file);
    for (uint64_t total = 0, more = 1; more;) {
        uint64_t returned = folvkin_key(paper, length, after, sizeof after, room, sizeof room);
        if (returned & 255) return printf("refused %d\n", (int)(returned & 255)), 1;
        for (uint64_t slot = 0; slot < returned >> 16; slot++) {
            for (int i = 0; i < 6; i++) after[i] = room[6 * slot + i];
            if (after[0] == 0) printf("-");
            for (int i = 1; i <= after[0]; i++) printf(i > 1 ? " %d" : "%d", after[i]);
            printf("\n");
        }
        total += returned >> 16, more = returned >> 8 & 255;
        if (!more) printf("total %llu\n", (unsigned long long)total);
    }
    return 0;
}
