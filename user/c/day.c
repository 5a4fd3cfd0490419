/* Two days on the scales: makes their table, stores its record in a file, reloads it, and draws the second day. */
#include <inttypes.h>
#include <stdio.h>

#include "sagivelume.h"

enum { N = 48, P = 64, BYTES = 7 + 3 * P + P / 2 };

static void print_column(size_t column, struct sagivelume_told_answer answer) {
    if (!answer.found) printf("%zu: no reading\n", column);
    else printf("%zu: first %" PRId32 ", last %" PRId32 ", low %" PRId32 ", high %" PRId32 "\n",
                column, answer.first, answer.last, answer.low, answer.high);
}

int main(void) {
    int32_t readings[N], coefficients[P];
    uint8_t codes[P / 2], record[BYTES];
    /* 30 grams of honey an hour; 600 grams of bees are out from 8 to 19 o'clock; the battery is flat from 30 to 35. */
    for (int32_t hour = 0; hour < N; hour++) {
        int32_t away = hour % 24 >= 8 && hour % 24 < 19 ? 600 : 0;
        readings[hour] = hour >= 30 && hour < 36 ? SAGIVELUME_GAP : 32000 + 30 * hour - away;
    }

    if (sagivelume_make(N, readings, N, coefficients, P, codes, P / 2).number) return 1;
    struct sagivelume_told_bytes stored = sagivelume_write_record(N, coefficients, P, codes, P / 2, record, BYTES);
    FILE *file = tmpfile();
    if (stored.number || !file || fwrite(record, 1, stored.bytes, file) != stored.bytes) return 1;
    rewind(file);
    size_t length = fread(record, 1, BYTES, file);

    struct sagivelume_told_record opened = sagivelume_open_record(record, length);
    struct sagivelume_told_coefficient lowest = sagivelume_ask(record, length, opened.places, 0);
    struct sagivelume_told_hours reloaded = sagivelume_read_record(record, length, coefficients, P, codes, P / 2);
    if (fclose(file) || opened.number || lowest.number || reloaded.number) return 1;
    printf("%zu bytes, %zu hours, lowest %" PRId32 "\n", length, reloaded.hours, lowest.coefficient);

    for (size_t column = 0; column < 6; column++) {
        struct sagivelume_told_finished drawn =
            sagivelume_finished(reloaded.hours, coefficients, P, codes, P / 2, 24, 48, 6, column);
        if (drawn.number) return 1;
        print_column(column, drawn.answer);
    }
    struct sagivelume_told_change change = sagivelume_day_change(reloaded.hours, coefficients, P, codes, P / 2, 1);
    if (change.number || !change.found) return 1;
    printf("change %" PRId32 "\n", change.grams);
    return 0;
}
