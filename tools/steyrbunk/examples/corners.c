/* Reads an 8-bit PGM picture (P5) from standard input and prints its corners, and on standard error what became of its candidates. */
#include <ctype.h>
#include <stdio.h>
#include <stdlib.h>

#include "steyrbunk_easy.h"

enum { ROOM = 4096 }; /* corners */

/* A number of the opening, after white space and comments; -1 where there is none. */
static long number(void) {
    int c = getchar();
    while (c == '#' || isspace(c)) {
        if (c == '#')
            while (c != '\n' && c != EOF) c = getchar();
        else
            c = getchar();
    }
    long value = -1;
    for (; isdigit(c) && value < 1000000; c = getchar()) value = (value < 0 ? 0 : 10 * value) + (c - '0');
    ungetc(c, stdin);
    return value;
}

int main(void) {
    if (getchar() != 'P' || getchar() != '5') {
        fprintf(stderr, "not a binary PGM (P5)\n");
        return 2;
    }
    long width = number(), height = number(), most = number();
    if (width < 0 || height < 0 || most < 1 || most > 255 || !isspace(getchar())) {
        fprintf(stderr, "not an 8-bit PGM: its opening is damaged\n");
        return 2;
    }
    /* Sides that are too long are the library's to refuse; no pixels are read for them. */
    int long_side = width > (long)STEYRBUNK_GREATEST_SIDE || height > (long)STEYRBUNK_GREATEST_SIDE;
    size_t pixels = long_side ? 0 : (size_t)width * (size_t)height;

    steyrbunk_settings settings = steyrbunk_defaults();
    size_t bytes = steyrbunk_workspace((size_t)width, (size_t)height, &settings);
    uint8_t *image = malloc(pixels + 1);
    void *workspace = malloc(bytes + 1);
    float *list = malloc(3 * ROOM * sizeof(float));
    if (!image || !workspace || !list) {
        fprintf(stderr, "no memory\n");
        return 2;
    }
    size_t given = fread(image, 1, pixels, stdin), count, verdicts[STEYRBUNK_VERDICTS];
    uint32_t answer = steyrbunk_corners_in(
        image, given, (size_t)width, (size_t)height, &settings, workspace, bytes, list, 3 * ROOM, &count, verdicts);

    if (answer > 1) {
        /* No list: whoever waits for one must not be given an older one. */
        fprintf(stderr, "refused %u: %s\n", (unsigned)answer, steyrbunk_words(answer));
    } else {
        printf("%zu corners\n", count);
        for (size_t at = 0; at < count && at < ROOM; at++)
            printf("%.9g %.9g %.9g\n", list[3 * at], list[3 * at + 1], list[3 * at + 2]);
        if (answer == 1) fprintf(stderr, "the list is cut: there is room for %d corners\n", ROOM);
        for (size_t at = 0; at < STEYRBUNK_VERDICTS; at++)
            fprintf(stderr, "%zu %s\n", verdicts[at], steyrbunk_verdict_words(at));
    }
    free(image), free(workspace), free(list);
    return answer > 1;
}
