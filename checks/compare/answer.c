/*
 * Answers calls as `second answer` does, one a line, with the calls of the archive that it is linked with. The second
 * program's README says what the lines are, and they are taken to be so; a call that is not known here is a bad line.
 */
#include <inttypes.h>
#include <stdio.h>
#include <stdlib.h>
#include <string.h>

#include "sagivelume.h"

/* A buffer holds at most so many numbers, and a line at most so many characters of each. */
enum { MOST_NUMBERS = 1 << 20, MOST_DIGITS = 12, BUFFERS = 3 };

struct numbers {
    size_t length;
    int32_t held[MOST_NUMBERS];
};

struct counts {
    size_t length;
    uint16_t held[MOST_NUMBERS];
};

struct bytes {
    size_t length;
    uint8_t held[MOST_NUMBERS];
};

static char line[BUFFERS * MOST_NUMBERS * MOST_DIGITS];

/* What of the line is still to be taken. */
static char *rest;

/* The lent buffers, whatever a call has of them. */
static struct numbers readings, coefficients, hours;
static struct counts counts;
static struct bytes codes, flags, record;

/* A buffer whose numbers are still to become those of a narrower one. */
static struct numbers taken;

static void fail(const char *why)
{
    fprintf(stderr, "answer: %s\n", why);
    exit(EXIT_FAILURE);
}

/* A buffer as it is lent, its pointer and its length: null if it is empty, as an empty `std::vector` hands it over. */
#define LENT(buffer) (buffer).length ? (buffer).held : NULL, (buffer).length

/* Takes the bar before a buffer. */
static void take_bar(void)
{
    rest += strspn(rest, " ");
    if (*rest++ != '|')
        fail("a buffer is missing");
}

static size_t take_size(void)
{
    return strtoull(rest, &rest, 10);
}

static int32_t take_grams(void)
{
    return (int32_t)strtol(rest, &rest, 10);
}

/* Takes a buffer, in which `7*5` stands for five times 7. */
static void take_numbers(struct numbers *into)
{
    take_bar();
    into->length = 0;
    while (rest += strspn(rest, " "), *rest != '|' && *rest != '\n' && *rest != '\0') {
        int32_t number = take_grams();
        size_t times = 1;
        if (*rest == '*') {
            rest++;
            times = take_size();
        }
        if (times > MOST_NUMBERS - into->length)
            fail("a buffer is too long");
        while (times-- > 0)
            into->held[into->length++] = number;
    }
}

static void take_counts(struct counts *into)
{
    take_numbers(&taken);
    into->length = taken.length;
    for (size_t place = 0; place < taken.length; place++)
        into->held[place] = (uint16_t)taken.held[place];
}

static void take_bytes(struct bytes *into)
{
    take_numbers(&taken);
    into->length = taken.length;
    for (size_t place = 0; place < taken.length; place++)
        into->held[place] = (uint8_t)taken.held[place];
}

/* Takes an answer to be joined: six fields, all `-` if there is no reading. */
static struct sagivelume_told_answer take_answer(void)
{
    struct sagivelume_told_answer answer = {0};
    take_bar();
    if (strncmp(rest, " - ", 3) == 0) {
        rest += strcspn(rest, "|\n");
        return answer;
    }
    answer.found = 1;
    answer.first_hour = take_size();
    answer.first = take_grams();
    answer.last_hour = take_size();
    answer.last = take_grams();
    answer.low = take_grams();
    answer.high = take_grams();
    return answer;
}

/* Prints that a call is taken, or its refusal, and answers whether it is taken. */
static int tell(size_t number, size_t place)
{
    if (number == 0)
        printf("taken");
    else
        printf("refused %zu at %zu", number, place);
    return number == 0;
}

static void show_numbers(const int32_t *numbers, size_t length)
{
    printf(" |");
    for (size_t place = 0; place < length; place++)
        printf(" %" PRId32, numbers[place]);
}

static void show_bytes(const struct bytes *bytes)
{
    printf(" |");
    for (size_t place = 0; place < bytes->length; place++)
        printf(" %u", bytes->held[place]);
}

/* Low and high of a range, each `-` if it is absent. */
static void show_range(int32_t low, int32_t high)
{
    if (low == SAGIVELUME_GAP && high == SAGIVELUME_GAP)
        printf(" - -");
    else
        printf(" %" PRId32 " %" PRId32, low, high);
}

static void show_answer(struct sagivelume_told_answer answer)
{
    if (answer.found)
        printf(" %zu %" PRId32 " %zu %" PRId32 " %" PRId32 " %" PRId32, answer.first_hour, answer.first,
               answer.last_hour, answer.last, answer.low, answer.high);
    else
        printf(" - - - - - -");
}

static void places(void)
{
    printf("taken %zu", sagivelume_places(take_size()));
}

static void record_bytes(void)
{
    printf("taken %zu", sagivelume_record_bytes(take_size()));
}

static void make(void)
{
    size_t n = take_size();
    take_numbers(&readings), take_numbers(&coefficients), take_bytes(&codes);
    struct sagivelume_told told = sagivelume_make(n, LENT(readings), LENT(coefficients), LENT(codes));
    tell(told.number, told.place);
    show_numbers(LENT(coefficients));
    show_bytes(&codes);
}

static void turn_back(void)
{
    size_t n = take_size();
    take_numbers(&coefficients), take_bytes(&codes), take_numbers(&hours);
    struct sagivelume_told told = sagivelume_turn_back(n, LENT(coefficients), LENT(codes), LENT(hours));
    tell(told.number, told.place);
    show_numbers(LENT(hours));
}

static void rebuild(void)
{
    size_t n = take_size();
    int32_t start = take_grams();
    take_counts(&counts), take_bytes(&flags), take_numbers(&hours);
    struct sagivelume_told told = sagivelume_rebuild(n, LENT(counts), LENT(flags), start, LENT(hours));
    tell(told.number, told.place);
    show_numbers(LENT(hours));
}

static void level(void)
{
    size_t n = take_size(), j = take_size();
    take_numbers(&coefficients);
    struct sagivelume_stretch stretch = sagivelume_level(n, j, LENT(coefficients));
    printf("stretch %zu %zu", stretch.start, stretch.length);
    if (stretch.start > coefficients.length || stretch.length > coefficients.length - stretch.start)
        fail("a stretch is not within the coefficients");
    show_numbers(coefficients.held + stretch.start, stretch.length);
}

static void write_record(void)
{
    size_t n = take_size();
    take_numbers(&coefficients), take_bytes(&codes), take_bytes(&record);
    struct sagivelume_told_bytes told = sagivelume_write_record(n, LENT(coefficients), LENT(codes), LENT(record));
    if (tell(told.number, told.place))
        printf(" %zu", told.bytes);
    show_bytes(&record);
}

static void read_record(void)
{
    take_bytes(&record), take_numbers(&coefficients), take_bytes(&codes);
    struct sagivelume_told_hours told = sagivelume_read_record(LENT(record), LENT(coefficients), LENT(codes));
    if (tell(told.number, told.place))
        printf(" %zu", told.hours);
    show_numbers(LENT(coefficients));
    show_bytes(&codes);
}

static void open_record(void)
{
    take_bytes(&record);
    struct sagivelume_told_record told = sagivelume_open_record(LENT(record));
    if (tell(told.number, told.place))
        printf(" %zu %zu", told.hours, told.places);
}

/* Asks the record for the coefficient at a place, of so many places. */
static void ask_of(size_t places, size_t place)
{
    struct sagivelume_told_coefficient told = sagivelume_ask(LENT(record), places, place);
    if (tell(told.number, told.place))
        printf(" %" PRId32, told.coefficient);
}

static void ask(void)
{
    size_t place = take_size();
    take_bytes(&record);
    struct sagivelume_told_record opened = sagivelume_open_record(LENT(record));
    if (opened.number)
        tell(opened.number, opened.place);
    else
        ask_of(opened.places, place);
}

static void ask_view(void)
{
    size_t places = take_size(), place = take_size();
    take_bytes(&record);
    ask_of(places, place);
}

static void edges(void)
{
    size_t n = take_size(), a = take_size(), b = take_size(), w = take_size(), column = take_size();
    struct sagivelume_told_column told = sagivelume_edges(n, a, b, w, column);
    if (tell(told.number, told.place))
        printf(" %zu %zu", told.from, told.upto);
}

static void stopped(void)
{
    size_t n = take_size(), a = take_size(), b = take_size(), w = take_size(), column = take_size();
    size_t depth = take_size();
    take_numbers(&coefficients), take_bytes(&codes);
    struct sagivelume_told_ranges told = sagivelume_stopped(n, LENT(coefficients), LENT(codes), a, b, w, column, depth);
    if (!tell(told.number, told.place))
        return;
    show_range(told.outer_low, told.outer_high);
    show_range(told.inner_low, told.inner_high);
    printf(" %zu", told.count);
}

static void finished(void)
{
    size_t n = take_size(), a = take_size(), b = take_size(), w = take_size(), column = take_size();
    take_numbers(&coefficients), take_bytes(&codes);
    struct sagivelume_told_finished told = sagivelume_finished(n, LENT(coefficients), LENT(codes), a, b, w, column);
    if (!tell(told.number, told.place))
        return;
    show_answer(told.answer);
    printf(" %zu", told.count);
}

static void join(void)
{
    struct sagivelume_told_answer left = take_answer(), right = take_answer();
    printf("taken");
    show_answer(sagivelume_join(left, right));
}

static void day_change(void)
{
    size_t n = take_size(), day = take_size();
    take_numbers(&coefficients), take_bytes(&codes);
    struct sagivelume_told_change told = sagivelume_day_change(n, LENT(coefficients), LENT(codes), day);
    if (!tell(told.number, told.place))
        return;
    if (told.found)
        printf(" %" PRId32, told.grams);
    else
        printf(" -");
}

static const struct {
    const char *name;
    void (*answer)(void);
} calls[] = {
    {"places", places},
    {"record_bytes", record_bytes},
    {"make", make},
    {"turn_back", turn_back},
    {"rebuild", rebuild},
    {"level", level},
    {"write_record", write_record},
    {"read_record", read_record},
    {"open", open_record},
    {"ask", ask},
    {"ask_view", ask_view},
    {"edges", edges},
    {"stopped", stopped},
    {"finished", finished},
    {"join", join},
    {"day_change", day_change},
};

/* Answers the line by the call that it begins with. */
static void answer_line(void)
{
    size_t length = strcspn(line, " |\n");
    rest = line + length;
    for (size_t call = 0; call < sizeof calls / sizeof calls[0]; call++) {
        if (strlen(calls[call].name) == length && strncmp(line, calls[call].name, length) == 0) {
            calls[call].answer();
            return;
        }
    }
    printf("bad line");
}

int main(void)
{
    while (fgets(line, sizeof line, stdin)) {
        answer_line();
        putchar('\n');
    }
    return ferror(stdin) || fflush(stdout) ? EXIT_FAILURE : EXIT_SUCCESS;
}
