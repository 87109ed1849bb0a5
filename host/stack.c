/* Runs each operation, on the largest files and ledgers, in threads whose stack has as many KiB as the argument says (without
 * one: INTAKE_STACK), and prints how many KiB of it each operation touched at most. A call that needs more meets a page that
 * can't be written, which ends the program. */
#define _DEFAULT_SOURCE
#include "intake.h"

#include <inttypes.h>
#include <pthread.h>
#include <stdarg.h>
#include <stdbool.h>
#include <stdio.h>
#include <stdlib.h>
#include <string.h>
#include <sys/mman.h>

/* What a stack holds before a call. */
#define UNTOUCHED 165

/* The periods of a file of INTAKE_MOST_LINES lines: the others are FH, SH and FT. */
#define PERIODS (INTAKE_MOST_LINES - 3)

enum operation { CHECK, BOOK, TOTALS, FIND, DISPUTE, READ_DISPUTE, DAY, AMOUNT, CODE, OPERATIONS };

/* A file: Record IDs are first, first + 1 and so on, times step. */
struct shape {
    uint64_t first;
    uint64_t step;
    uint64_t cancels;      /* the first of the file whose periods are cancelled; 0 for none */
    const char *billing;   /* the current billing period */
    const char *total;     /* SH's charge total; charges are 0 */
    const char *last;      /* the charge total of the last TH */
    bool repeats;          /* whether the last TH has the Record ID of the first */
};

struct file {
    uint8_t *bytes;
    size_t length;
};

struct ledger {
    struct intake_entry *run;
    size_t used;
};

struct call {
    enum operation operation;
    const struct file *file;
    struct ledger *ledger;
    uint64_t number;
    uint64_t added;
};

/* A stack between its lowest byte and its end, with a page below that can't be written. */
struct stack {
    unsigned char *low;
    size_t length;
};

struct tester {
    struct stack stack;
    size_t touched[OPERATIONS];
};

static void stop(const char *what) {
    fprintf(stderr, "stack: %s\n", what);
    exit(2);
}

/* ---- files */

static void add(struct file *file, const char *format, ...) {
    va_list values;
    va_start(values, format);
    size_t room = INTAKE_MOST_BYTES - file->length;
    int length = vsnprintf((char *)file->bytes + file->length, room, format, values);
    va_end(values);
    if (length < 0 || (size_t)length >= room) {
        stop("a file is too long");
    }
    file->length += (size_t)length;
}

static uint64_t id(const struct shape *shape, uint64_t line) {
    return (shape->first + line) * shape->step;
}

static void add_period(struct file *file, const struct shape *shape, uint64_t line) {
    bool is_last = line == PERIODS + 1;
    add(file, "%" PRIu64 ",%" PRIu64 ",TH,0020000000001,20240101,20240131,", id(shape, is_last && shape->repeats ? 2 : line), id(shape, 1));
    if (shape->cancels == 0) {
        add(file, "N,,");
    } else {
        add(file, "Y,%" PRIu64 ",3030", (shape->cancels + line) * shape->step);
    }
    add(file, ",RATE1,E,0,KWH,%s\n", is_last ? shape->last : "0");
}

static struct file make_file(struct shape shape) {
    struct file file = {.bytes = malloc(INTAKE_MOST_BYTES)};
    if (file.bytes == NULL) {
        stop("no memory");
    }
    add(&file, "%" PRIu64 ",,FH,999999999,0040,EL,20240301120000,CYCLE01,\n", id(&shape, 0));
    add(&file, "%" PRIu64 ",%" PRIu64 ",SH,0020000000001,%s,0040,0001,0098,,CYCLE01,0,KWH,%s,,2070,,\n", id(&shape, 1), id(&shape, 0), shape.billing,
        shape.total);
    for (uint64_t line = 2; line < PERIODS + 2; line++) {
        add_period(&file, &shape, line);
    }
    add(&file, "%" PRIu64 ",%" PRIu64 ",FT,%d,0\n", id(&shape, PERIODS + 2), id(&shape, 0), INTAKE_MOST_LINES);
    return file;
}

/* ---- calls in a thread */

/* Of place 2: where a file of periods of the same days is booked, all but its first are held. The output is not on the stack. */
static uint64_t make_dispute(const struct ledger *ledger) {
    static uint8_t line[INTAKE_MOST_DISPUTE];
    const uint8_t *digits = (const uint8_t *)"20240301120000";
    return intake_dispute(999999999, (const uint8_t *)"0040", 4, ledger->run, INTAKE_MOST_PLACES, ledger->used, 2, digits, 14, digits, 14, digits, 14,
                          line, sizeof line);
}

static void *make_call(void *argument) {
    struct call *call = argument;
    const struct intake_entry *run = call->ledger->run;
    const uint8_t *distributors = (const uint8_t *)"0040";
    struct intake_booking booking;
    switch (call->operation) {
    case CHECK:
        call->number = intake_number(intake_check(999999999, distributors, 4, call->file->bytes, call->file->length));
        break;
    case BOOK:
        booking = intake_book(999999999, distributors, 4, call->file->bytes, call->file->length, call->ledger->run, INTAKE_MOST_PLACES, call->ledger->used);
        call->number = booking.number;
        call->added = booking.added;
        break;
    case TOTALS:
        call->number = intake_totals(run, INTAKE_MOST_PLACES, call->ledger->used).number;
        break;
    case FIND:
        call->number = intake_find(run, INTAKE_MOST_PLACES, call->ledger->used, 20000000001, 8780).number;
        break;
    case DISPUTE:
        call->number = intake_number(make_dispute(call->ledger));
        break;
    case READ_DISPUTE:
        call->number = intake_read_dispute((const uint8_t *)"TBD,1,999999999,0040,20240301120000,60,0020000000001,62,,,7004\n", 63).number;
        break;
    case DAY:
        call->number = intake_number(intake_day((const uint8_t *)"20991231", 8));
        break;
    case AMOUNT:
        call->number = intake_amount((const uint8_t *)"-12345678.25", 12, 11, 2).number;
        break;
    default:
        call->number = intake_number(intake_code(40));
        break;
    }
    return NULL;
}

static struct stack make_stack(size_t length) {
    size_t guard = 65536;
    unsigned char *pages = mmap(NULL, guard + length, PROT_NONE, MAP_PRIVATE | MAP_ANONYMOUS, -1, 0);
    if (pages == MAP_FAILED || mprotect(pages + guard, length, PROT_READ | PROT_WRITE) != 0) {
        stop("no memory for a stack");
    }
    return (struct stack){.low = pages + guard, .length = length};
}

static size_t touched(const struct stack *stack) {
    size_t at = 0;
    while (at < stack->length && stack->low[at] == UNTOUCHED) {
        at++;
    }
    return stack->length - at;
}

static void run_in_thread(const struct stack *stack, struct call *call) {
    pthread_attr_t attributes;
    pthread_t thread;
    memset(stack->low, UNTOUCHED, stack->length);
    if (pthread_attr_init(&attributes) != 0 || pthread_attr_setstack(&attributes, stack->low, stack->length) != 0 ||
        pthread_create(&thread, &attributes, make_call, call) != 0 || pthread_join(thread, NULL) != 0) {
        stop("no thread of that stack");
    }
    pthread_attr_destroy(&attributes);
}

/* A call that must be answered by a number, so that it is known to have come as far as that. */
static void try_call(struct tester *tester, enum operation operation, const struct file *file, struct ledger *ledger, uint64_t number) {
    struct call call = {.operation = operation, .file = file, .ledger = ledger};
    run_in_thread(&tester->stack, &call);
    if (call.number != number) {
        fprintf(stderr, "stack: operation %d answers %" PRIu64 " and not %" PRIu64 "\n", (int)operation, call.number, number);
        exit(1);
    }
    ledger->used += call.added;
    size_t bytes = touched(&tester->stack);
    tester->touched[operation] = bytes > tester->touched[operation] ? bytes : tester->touched[operation];
}

/* A file is checked, and booked if that is asked for. */
static void try_file(struct tester *tester, struct shape shape, struct ledger *ledger, uint64_t checked, uint64_t booked) {
    struct file file = make_file(shape);
    try_call(tester, CHECK, &file, ledger, checked);
    try_call(tester, BOOK, &file, ledger, booked);
    free(file.bytes);
}

static void try_ledger(struct tester *tester, struct ledger *ledger, uint64_t number, uint64_t disputed) {
    try_call(tester, TOTALS, NULL, ledger, number);
    try_call(tester, FIND, NULL, ledger, number);
    try_call(tester, DISPUTE, NULL, ledger, disputed);
}

/* Files of 4,096 lines into a run of 8,192 places: periods of one site and the same days, cancels of all of them, and files that
 * are refused. IDs that are multiples of 2^32 - 1 fall into one bucket of the library's tables. */
static void try_files(struct tester *tester, uint64_t step) {
    struct ledger ledger = {.run = calloc(INTAKE_MOST_PLACES, sizeof(struct intake_entry))};
    if (ledger.run == NULL) {
        stop("no memory");
    }
    const char *none = ",";
    const char *january = "20240101,20240131";
    try_ledger(tester, &ledger, 0, 108);
    try_file(tester, (struct shape){10000, step, 0, none, "0", "0", true}, &ledger, 9, 9);
    try_file(tester, (struct shape){10000, step, 0, january, "0", "0", false}, &ledger, 18, 18);
    try_file(tester, (struct shape){10000, step, 0, none, "1", "0", false}, &ledger, 30, 30);
    try_file(tester, (struct shape){10000, step, 0, none, "0", "1", false}, &ledger, 32, 32);
    try_file(tester, (struct shape){10000, step, 0, none, "0", "0", false}, &ledger, 0, 0);
    try_ledger(tester, &ledger, 0, 0);
    try_file(tester, (struct shape){20000, step, 20000, none, "0", "0", false}, &ledger, 0, 39);
    try_file(tester, (struct shape){10000, step, 0, none, "0", "0", false}, &ledger, 0, 8);
    try_file(tester, (struct shape){9999, step, 0, none, "0", "0", false}, &ledger, 0, 102);
    try_file(tester, (struct shape){20000, step, 10000, none, "0", "0", false}, &ledger, 0, 0);
    try_file(tester, (struct shape){30000, step, 0, none, "0", "0", false}, &ledger, 0, 101);
    try_ledger(tester, &ledger, 0, 108);
    ledger.run[ledger.used - 1].id = ledger.run[0].id;
    try_file(tester, (struct shape){30000, step, 0, none, "0", "0", false}, &ledger, 0, 105);
    try_ledger(tester, &ledger, 105, 105);
    free(ledger.run);
}

int main(int count, char **arguments) {
    size_t kib = count > 1 ? strtoul(arguments[1], NULL, 10) : INTAKE_STACK / 1024;
    struct tester tester = {.stack = make_stack(kib * 1024)};
    struct ledger empty = {0};
    static const char *const names[OPERATIONS] = {"check", "book", "totals", "find", "dispute", "read_dispute", "day", "amount", "code"};
    try_files(&tester, 1);
    try_files(&tester, 4294967295);
    try_call(&tester, READ_DISPUTE, NULL, &empty, 0);
    try_call(&tester, DAY, NULL, &empty, 0);
    try_call(&tester, AMOUNT, NULL, &empty, 0);
    try_call(&tester, CODE, NULL, &empty, 0);
    for (int i = 0; i < OPERATIONS; i++) {
        printf("%s %zu\n", names[i], (tester.touched[i] + 1023) / 1024);
    }
    return EXIT_SUCCESS;
}
