/*
 * Measures the stack: runs every call of the boundary on a stack of its own that was painted before, over many inputs,
 * and prints the deepest use of each as a Markdown table: down to the lowest byte that a call changed. What an empty
 * function takes is subtracted, so that the figure is that of the call with its answer and with the arguments that pass
 * in memory.
 */
#include <stdio.h>
#include <stdlib.h>
#include <string.h>
#include <ucontext.h>

#include "sagivelume.h"

enum { HOURS = SAGIVELUME_LARGEST_HOURS, RECORD = 7 + 3 * HOURS + HOURS / 2, WORDS = 4096 };

/* The stack, and what it is painted with. */
static uint64_t stack[WORDS] __attribute__((aligned(16)));
static const uint64_t PAINT = 0x5a61676976656c75;

static ucontext_t here, there;

/* Paints the stack from a word up to its top. */
static void paint(size_t from)
{
    for (size_t word = from; word < WORDS; word++)
        stack[word] = PAINT;
}

/* Runs a function on the stack, tells how many bytes it reached down, and paints the stack again. */
static size_t reach(void (*call)(void))
{
    getcontext(&there);
    there.uc_stack.ss_sp = stack;
    there.uc_stack.ss_size = sizeof stack;
    there.uc_link = &here;
    makecontext(&there, call, 0);
    swapcontext(&here, &there);
    size_t untouched = 0;
    while (untouched < WORDS && stack[untouched] == PAINT)
        untouched++;
    if (untouched == 0) {
        fputs("stack: a call needs more than there is\n", stderr);
        exit(EXIT_FAILURE);
    }
    paint(untouched);
    return (WORDS - untouched) * sizeof stack[0];
}

static void do_nothing(void)
{
}

/* What the calls are given, and the refusal that they answer. */
static size_t n, j, a, b, w, column, depth, day, table_places, place, refused;
static int32_t readings[HOURS], coefficients[HOURS], hours[HOURS], read_coefficients[HOURS], start;
static uint16_t counts[HOURS];
static uint8_t codes[HOURS / 2], read_codes[HOURS / 2], record[RECORD + 1], flags[HOURS];
static size_t readings_length, coefficients_length, codes_length, record_length, log_length;
static struct sagivelume_told_answer left, right;

static void places(void)
{
    refused = sagivelume_places(n) == 0;
}

static void record_bytes(void)
{
    refused = sagivelume_record_bytes(n) == 0;
}

static void make(void)
{
    refused = sagivelume_make(n, readings, readings_length, coefficients, coefficients_length, codes, codes_length)
                  .number;
}

static void turn_back(void)
{
    refused = sagivelume_turn_back(n, coefficients, coefficients_length, codes, codes_length, hours, readings_length)
                  .number;
}

static void rebuild(void)
{
    refused = sagivelume_rebuild(n, counts, log_length, flags, log_length, start, hours, readings_length).number;
}

static void level(void)
{
    refused = sagivelume_level(n, j, coefficients, coefficients_length).length == 0;
}

static void write_record(void)
{
    refused = sagivelume_write_record(n, coefficients, coefficients_length, codes, codes_length, record, record_length)
                  .number;
}

static void read_record(void)
{
    refused = sagivelume_read_record(record, record_length, read_coefficients, coefficients_length, read_codes,
                                     codes_length)
                  .number;
}

static void open_record(void)
{
    refused = sagivelume_open_record(record, record_length).number;
}

static void ask(void)
{
    refused = sagivelume_ask(record, record_length, table_places, place).number;
}

static void edges(void)
{
    refused = sagivelume_edges(n, a, b, w, column).number;
}

static void stopped(void)
{
    refused = sagivelume_stopped(n, coefficients, coefficients_length, codes, codes_length, a, b, w, column, depth)
                  .number;
}

static void finished(void)
{
    refused = sagivelume_finished(n, coefficients, coefficients_length, codes, codes_length, a, b, w, column).number;
}

static void join(void)
{
    refused = sagivelume_join(left, right).found == 0;
}

static void day_change(void)
{
    refused = sagivelume_day_change(n, coefficients, coefficients_length, codes, codes_length, day).number;
}

/* The calls with what was seen of each. */
static struct seen {
    const char *name;
    void (*call)(void);
    size_t calls, refusals, deepest;
} seen[] = {
    {"places", places, 0, 0, 0},
    {"record_bytes", record_bytes, 0, 0, 0},
    {"make", make, 0, 0, 0},
    {"turn_back", turn_back, 0, 0, 0},
    {"rebuild", rebuild, 0, 0, 0},
    {"level", level, 0, 0, 0},
    {"write_record", write_record, 0, 0, 0},
    {"read_record", read_record, 0, 0, 0},
    {"open_record", open_record, 0, 0, 0},
    {"ask", ask, 0, 0, 0},
    {"edges", edges, 0, 0, 0},
    {"stopped", stopped, 0, 0, 0},
    {"finished", finished, 0, 0, 0},
    {"join", join, 0, 0, 0},
    {"day_change", day_change, 0, 0, 0},
};
enum {
    PLACES,
    RECORD_BYTES,
    MAKE,
    TURN_BACK,
    REBUILD,
    LEVEL,
    WRITE,
    READ,
    OPEN,
    ASK,
    EDGES,
    STOPPED,
    FINISHED,
    JOIN,
    DAY_CHANGE,
    CALLS
};

static void run(int call)
{
    struct seen *of = &seen[call];
    size_t reached = reach(of->call);
    of->calls++;
    of->refusals += refused != 0;
    if (of->deepest < reached)
        of->deepest = reached;
}

/* Some number, the same ones at every run. */
static uint64_t draw(void)
{
    static uint64_t state = 16384;
    state = state * 6364136223846793005 + 1442695040888963407;
    return state >> 33;
}

/* Buffers that are as long as n needs them. */
static void fit(void)
{
    size_t p = 2;
    while (p < n && p < HOURS)
        p *= 2;
    readings_length = n < HOURS ? n : HOURS;
    coefficients_length = p;
    codes_length = p / 2;
    record_length = 7 + 3 * p + p / 2;
    log_length = readings_length;
    table_places = p;
}

/* All calls on a whole table, each buffer too short once. */
static void run_table(void)
{
    size_t *lengths[] = {&readings_length, &coefficients_length, &codes_length, &record_length};
    static const int calls[] = {TURN_BACK, WRITE, READ, OPEN};
    for (size_t call = 0; call < sizeof calls / sizeof calls[0]; call++)
        run(calls[call]);
    for (size_t length = 0; length < sizeof lengths / sizeof lengths[0]; length++) {
        --*lengths[length];
        for (size_t call = 0; call < sizeof calls / sizeof calls[0]; call++)
            run(calls[call]);
        ++*lengths[length];
    }
    for (place = 0; place <= table_places; place += 1 + table_places / 16)
        run(ASK);
    for (j = 0; j < 16; j++)
        run(LEVEL);
}

/* Every column of some windows, and one too many, finished and stopped at depths in turn; and every day. */
static void run_columns(void)
{
    size_t windows[][3] = {{0, n, 1}, {1, n - 1, 1}, {0, n, 3}, {1, n, 1024}, {n / 3, n, 4096}, {n / 2, n / 2 + 1, 1}};
    for (size_t window = 0; window < sizeof windows / sizeof windows[0]; window++) {
        a = windows[window][0], b = windows[window][1], w = windows[window][2];
        for (column = 0; column <= w; column++) {
            run(EDGES);
            run(FINISHED);
            for (depth = column % 8; depth <= 16; depth += w < 16 ? 1 : 8)
                run(STOPPED);
        }
    }
    w = SAGIVELUME_MOST_COLUMNS + 1, column = 0;
    run(EDGES), run(FINISHED), run(STOPPED);
    for (day = 0; day <= n / 24 + 1; day++)
        run(DAY_CHANGE);
}

/* The table damaged at drawn places, one at a time, and its record too. */
static void run_damaged(void)
{
    for (int damage = 0; damage < 64; damage++) {
        size_t at = draw() % coefficients_length, byte = draw() % record_length;
        int32_t before = coefficients[at];
        uint8_t code_before = codes[at / 2];
        if (damage % 2 == 0)
            coefficients[at] = (int32_t)(2000000 + draw() % 5);
        else
            codes[at / 2] = (uint8_t)(draw() % 6);
        run_table();
        a = 0, b = n, w = 1 + draw() % n, column = draw() % w, depth = 1, day = at / 24;
        run(FINISHED), run(STOPPED), run(DAY_CHANGE);
        coefficients[at] = before, codes[at / 2] = code_before;
        run(WRITE);
        record[byte] ^= (uint8_t)(1 + draw() % 255);
        run(READ), run(OPEN);
        run(WRITE);
    }
}

/* The log of an old scale, once in so many an hour that was not recorded; with a start from which weights may leave the
 * range of readings; with another start, with a bad flag, and too short. */
static void run_log(uint64_t gaps)
{
    start = -1;
    for (size_t hour = 0; hour < log_length; hour++) {
        counts[hour] = (uint16_t)(draw() % 32768);
        flags[hour] = draw() % gaps != 0;
        if (flags[hour] && start == -1)
            start = counts[hour];
    }
    run(REBUILD);
    start += 15 * 65536;
    run(REBUILD);
    start++;
    run(REBUILD);
    flags[log_length - 1] = 2;
    run(REBUILD);
    log_length--;
    run(REBUILD);
    log_length++;
}

/* A series of n hours, once in so many a gap; its table, sound and damaged; a reading that is none; and a log. */
static void run_series(uint64_t gaps)
{
    fit();
    run(PLACES), run(RECORD_BYTES);
    for (size_t hour = 0; hour < readings_length; hour++)
        readings[hour] = draw() % gaps == 0 ? SAGIVELUME_GAP : (int32_t)(draw() % 2000001) - SAGIVELUME_LARGEST_READING;
    run(MAKE);
    run_table();
    run_columns();
    run_damaged();
    readings[draw() % readings_length] = SAGIVELUME_GAP + 1;
    run(MAKE);
    run_log(gaps);
}

/* Answers with and without a reading. */
static void run_joins(void)
{
    for (size_t found = 0; found < 4; found++) {
        left = (struct sagivelume_told_answer){found / 2, 1, 2, 3, 4, 3, 4};
        right = (struct sagivelume_told_answer){found % 2, 5, 6, 7, 8, 7, 8};
        run(JOIN);
    }
}

/* A number below a million as a field of a table, its thousands set apart. */
static void print_number(size_t number)
{
    if (number < 1000)
        printf(" %zu |", number);
    else
        printf(" %zu,%03zu |", number / 1000, number % 1000);
}

int main(void)
{
    static const size_t lengths[] = {1, 2, 3, 5, 16, 100, 1000, 4097, 16383, 16384};
    paint(0);
    size_t empty = reach(do_nothing);
    for (size_t length = 0; length < sizeof lengths / sizeof lengths[0]; length++) {
        n = lengths[length];
        run_series(33);
        run_series(2);
    }
    n = HOURS + 1;
    fit();
    run(PLACES), run(RECORD_BYTES), run(MAKE), run(REBUILD);
    run_table();
    run_joins();
    puts("| call | runs | refused or empty | stack, bytes |\n|---|---:|---:|---:|");
    for (int call = 0; call < CALLS; call++) {
        printf("| %s |", seen[call].name);
        print_number(seen[call].calls);
        print_number(seen[call].refusals);
        print_number(seen[call].deepest - empty);
        putchar('\n');
    }
    return EXIT_SUCCESS;
}
