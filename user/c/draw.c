/* Draws a window of a log from standard input: draw A B W < LOG. A line of the log is one hour, its grams or a dash. */
#include <inttypes.h>
#include <stdio.h>
#include <stdlib.h>
#include <string.h>

#include "sagivelume.h"

enum { HOURS = SAGIVELUME_LARGEST_HOURS + 1, P = SAGIVELUME_MOST_COEFFICIENTS };

/* The hour of a line, or for any other line a number that is refused. */
static int32_t hour(const char *line) {
    char *end;
    long grams = strtol(line, &end, 10), most = SAGIVELUME_LARGEST_READING;
    if (!strcmp(line, "-\n")) return SAGIVELUME_GAP;
    return end > line && *end == '\n' && -most <= grams && grams <= most ? (int32_t)grams : INT32_MAX;
}

static int refused(size_t number, size_t place) {
#define CAUSE(word, numbered, cause) if (number == word) fprintf(stderr, "refused at %zu: %s\n", place, cause);
    SAGIVELUME_REFUSALS(CAUSE)
    return EXIT_FAILURE;
}

int main(int count, char **words) {
    static int32_t readings[HOURS], coefficients[P];
    static uint8_t codes[P / 2];
    char line[16];
    size_t n = 0;
    if (count != 4) return fputs("usage: draw A B W < LOG\n", stderr), EXIT_FAILURE;
    size_t a = strtoul(words[1], NULL, 10), b = strtoul(words[2], NULL, 10), w = strtoul(words[3], NULL, 10);
    while (n < HOURS && fgets(line, sizeof line, stdin)) readings[n++] = hour(line);
    if (ferror(stdin)) return perror("draw"), EXIT_FAILURE;

    struct sagivelume_told made = sagivelume_make(n, readings, HOURS, coefficients, P, codes, P / 2);
    if (made.number) return refused(made.number, made.place);
    struct sagivelume_told_column first = sagivelume_edges(n, a, b, w, 0);
    if (first.number) return refused(first.number, first.place);
    puts("column first last low high nodes");
    for (size_t column = 0; column < w; column++) {
        struct sagivelume_told_finished drawn = sagivelume_finished(n, coefficients, P, codes, P / 2, a, b, w, column);
        struct sagivelume_told_answer answer = drawn.answer;
        if (!answer.found) printf("%zu - - - - %zu\n", column, drawn.count);
        else printf("%zu %" PRId32 " %" PRId32 " %" PRId32 " %" PRId32 " %zu\n",
                    column, answer.first, answer.last, answer.low, answer.high, drawn.count);
    }
    return fflush(stdout) ? EXIT_FAILURE : EXIT_SUCCESS;
}
