/* Calls that a host should not make, what they are answered, and that they touch nothing. Prints the sizes of the structs and the
 * offsets of their fields, as the compiler has them, and then a line for each call. While a call runs, its run can't be written,
 * and where the answer must come without reading it, it can't be read either; a guard follows its last entry. Exit status 1
 * where a byte of a run has changed. */
#define _DEFAULT_SOURCE
#include "intake.h"

#include <inttypes.h>
#include <stdbool.h>
#include <stdio.h>
#include <stdlib.h>
#include <string.h>
#include <sys/mman.h>
#include <unistd.h>

/* Each field with the offset that intake.h gives it. */
#define FIELDS(AT) \
    AT(intake_entry, sender, 0) AT(intake_entry, commodity, 8) AT(intake_entry, kind, 16) AT(intake_entry, id, 24) \
    AT(intake_entry, site, 32) AT(intake_entry, start, 40) AT(intake_entry, end, 48) AT(intake_entry, charge, 56) \
    AT(intake_entry, usage, 64) AT(intake_entry, state, 72) AT(intake_entry, cancels, 80) \
    AT(intake_booking, number, 0) AT(intake_booking, line, 8) AT(intake_booking, added, 16) AT(intake_booking, held, 24) \
    AT(intake_sums, number, 0) AT(intake_sums, live_charge, 8) AT(intake_sums, live_kwh, 16) AT(intake_sums, live_gj, 24) \
    AT(intake_sums, held_charge, 32) AT(intake_sums, held_kwh, 40) AT(intake_sums, held_gj, 48) \
    AT(intake_place, number, 0) AT(intake_place, found, 8) AT(intake_place, place, 16) \
    AT(intake_reading, number, 0) AT(intake_reading, filled, 8) AT(intake_reading, units, 16) \
    AT(intake_field, filled, 0) AT(intake_field, value, 8) AT(intake_code_field, filled, 0) AT(intake_code_field, value, 8) \
    AT(intake_dispute_fields, number, 0) AT(intake_dispute_fields, transaction, 8) AT(intake_dispute_fields, retailer, 24) \
    AT(intake_dispute_fields, distributor, 40) AT(intake_dispute_fields, created, 56) AT(intake_dispute_fields, file, 72) \
    AT(intake_dispute_fields, site, 88) AT(intake_dispute_fields, period, 104) AT(intake_dispute_fields, child, 120) \
    AT(intake_dispute_fields, charge, 136) AT(intake_dispute_fields, code, 152)

#define ASSERT_AT(name, field, offset) _Static_assert(offsetof(struct name, field) == (offset), #name "." #field);
#define PRINT_AT(name, field, offset) printf("%s.%s %zu\n", #name, #field, offsetof(struct name, field));

#define SIZES(OF) \
    OF(intake_entry, 88) OF(intake_booking, 32) OF(intake_sums, 56) OF(intake_place, 24) OF(intake_reading, 24) \
    OF(intake_field, 16) OF(intake_code_field, 16) OF(intake_dispute_fields, 168)
#define ASSERT_SIZE(name, size) _Static_assert(sizeof(struct name) == (size), #name);
#define PRINT_SIZE(name, size) printf("%s %zu\n", #name, sizeof(struct name));

FIELDS(ASSERT_AT)
SIZES(ASSERT_SIZE)

static const uint64_t retailer = 999999999;
static const uint64_t site = 20000000001;
static const uint64_t day = 8780;
static const char distributors[] = "0040";
static const char file[] = "60,,FH,999999999,0040,EL,20240301120000,CYCLE01,\n"
                           "61,60,SH,0020000000001,,,0040,0001,0098,,CYCLE01,0,KWH,25,,2020,,\n"
                           "62,61,OC,0020000000001,20240115,N,,,CONN,25,N\n"
                           "63,60,FT,4,25\n";

/* What a run holds, and what may be done with it while a call runs. */
enum content { ZEROS = 0, BYTES_165 = 165 };
enum access { HIDDEN = PROT_NONE, READ_ONLY = PROT_READ, LENT = PROT_READ | PROT_WRITE };

/* A run at the end of whole pages, with one more page behind them that can't be read, and a copy of what it held. */
struct area {
    unsigned char *pages;
    size_t length;
    size_t guard;
    struct intake_entry *run;
    struct intake_entry *copy;
    size_t places;
};

/* The three calls on a ledger. */
struct trial {
    const char *name;
    size_t places;
    size_t used;
    enum content content;
    enum access access;
    uint64_t retailer;
    const char *distributors;
    const char *file;
    uint64_t site;
    uint64_t day;
};

static void stop(const char *what) {
    perror(what);
    exit(2);
}

static size_t bytes_of(const struct area *area) {
    return area->places * sizeof *area->run;
}

static void protect(const struct area *area, enum access access) {
    if (area->length > 0 && mprotect(area->pages, area->length, (int)access) != 0) {
        stop("mprotect");
    }
}

/* A run of 0 places has a null pointer. */
static struct area make_area(size_t places, enum content content) {
    struct area area = {.places = places, .guard = (size_t)sysconf(_SC_PAGESIZE)};
    if (places == 0) {
        return area;
    }
    area.length = (bytes_of(&area) + area.guard - 1) / area.guard * area.guard;
    area.pages = mmap(NULL, area.length + area.guard, PROT_NONE, MAP_PRIVATE | MAP_ANONYMOUS, -1, 0);
    area.copy = malloc(bytes_of(&area));
    if (area.pages == MAP_FAILED || area.copy == NULL) {
        stop("memory");
    }
    protect(&area, LENT);
    area.run = (struct intake_entry *)(void *)(area.pages + area.length - bytes_of(&area));
    memset(area.run, (int)content, bytes_of(&area));
    memcpy(area.copy, area.run, bytes_of(&area));
    return area;
}

static void drop_area(const struct area *area) {
    if (area->places > 0) {
        munmap(area->pages, area->length + area->guard);
        free(area->copy);
    }
}

/* Whether the entries from a place on are as they were. */
static bool is_kept(const struct area *area, size_t from) {
    size_t count = area->places - from;
    return count == 0 || memcmp(area->run + from, area->copy + from, count * sizeof *area->run) == 0;
}

static const uint8_t *bytes(const char *text) {
    return (const uint8_t *)text;
}

static size_t length(const char *text) {
    return text == NULL ? 0 : strlen(text);
}

/* A refusal answers no value beside its number and line. */
static const char *with_values(bool has_values) {
    return has_values ? " with values" : "";
}

static void print_booking(struct intake_booking b) {
    if (b.number == 0) {
        printf("book accepted %" PRIu64 " %" PRIu64, b.added, b.held);
    } else {
        printf("book %" PRIu64 " %" PRIu64 "%s", b.number, b.line, with_values(b.added != 0 || b.held != 0));
    }
}

static void print_sums(struct intake_sums s) {
    bool has_values = s.live_charge != 0 || s.live_kwh != 0 || s.live_gj != 0 || s.held_charge != 0 || s.held_kwh != 0 || s.held_gj != 0;
    printf(", totals %" PRIu64 "%s", s.number, with_values(has_values));
}

static void print_place(struct intake_place p) {
    printf(", find %" PRIu64 "%s", p.number, with_values(p.found != 0 || p.place != 0));
}

static bool try_calls(const struct trial *trial) {
    struct area area = make_area(trial->places, trial->content);
    protect(&area, trial->access);
    struct intake_booking booking = intake_book(trial->retailer, bytes(trial->distributors), length(trial->distributors),
                                                bytes(trial->file), length(trial->file), area.run, area.places, trial->used);
    struct intake_sums sums = intake_totals(area.run, area.places, trial->used);
    struct intake_place place = intake_find(area.run, area.places, trial->used, trial->site, trial->day);
    protect(&area, READ_ONLY);
    bool kept = is_kept(&area, 0);
    drop_area(&area);

    printf("%s: ", trial->name);
    print_booking(booking);
    print_sums(sums);
    print_place(place);
    puts(kept ? "; the run is untouched" : "; the run has changed");
    return kept;
}

/* A file that is booked, so that the places past its entries keep what they held; and the same file again, which is refused. */
static bool try_acceptance(void) {
    struct area area = make_area(4, BYTES_165);
    struct intake_booking booking = intake_book(retailer, bytes(distributors), 4, bytes(file), length(file), area.run, 4, 0);
    bool kept = is_kept(&area, 2) && !is_kept(&area, 1);
    printf("run of 4 entries of bytes 165: ");
    print_booking(booking);
    puts(kept ? "; places 2 and 3 are untouched" : "; other places than 0 and 1 have changed");

    memcpy(area.copy, area.run, bytes_of(&area));
    protect(&area, READ_ONLY);
    booking = intake_book(retailer, bytes(distributors), 4, bytes(file), length(file), area.run, 4, 2);
    bool kept_again = is_kept(&area, 0);
    printf("the same file again: ");
    print_booking(booking);
    puts(kept_again ? "; the run is untouched" : "; the run has changed");
    drop_area(&area);
    return kept && kept_again;
}

static void print_answer(const char *name, uint64_t answer) {
    printf("%s: %" PRIu32 " %" PRIu32 "\n", name, intake_number(answer), intake_value(answer));
}

static void try_others(void) {
    print_answer("check, null distributors and null file", intake_check(retailer, NULL, 0, NULL, 0));
    print_answer("check, null file", intake_check(retailer, bytes(distributors), 4, NULL, 0));
    print_answer("check, retailer 2^64 - 1", intake_check(UINT64_MAX, bytes(distributors), 4, bytes(file), length(file)));
    print_answer("day, null date", intake_day(NULL, 0));
    print_answer("code of 0", intake_code(0));
    print_answer("code of 2^64 - 1", intake_code(UINT64_MAX));
}

/* A null field and the digit 1, of precisions and scales past those that have a value, and of the greatest that do. */
static void try_amounts(void) {
    static const struct { const char *name; uint64_t precision; uint64_t scale; } widths[] = {
        {"precision 0", 0, 0},
        {"precision 15", 15, 0},
        {"precision 15, scale 14", 15, 14},
        {"precision 15, scale 15", 15, 15},
        {"precision 15, scale 2^64 - 1", 15, UINT64_MAX},
        {"precision 16", 16, 0},
        {"precision 16, scale 15", 16, 15},
        {"precision 2^64 - 1", UINT64_MAX, 0},
        {"precision 2^64 - 1, scale 2^64 - 1", UINT64_MAX, UINT64_MAX},
    };
    for (size_t i = 0; i < sizeof widths / sizeof widths[0]; i++) {
        struct intake_reading null = intake_amount(NULL, 0, widths[i].precision, widths[i].scale);
        struct intake_reading one = intake_amount(bytes("1"), 1, widths[i].precision, widths[i].scale);
        printf("amount, %s: null field %" PRIu64 " %" PRIu64 " %" PRId64, widths[i].name, null.number, null.filled, null.units);
        printf(", \"1\" %" PRIu64 " %" PRIu64 " %" PRId64 "\n", one.number, one.filled, one.units);
    }
}

/* The bytes of an output before a dispute is written into it. */
enum { UNTOUCHED = 165, OUT_BYTES = INTAKE_MOST_DISPUTE + 8 };

/* A dispute of the entry at a place of a ledger. */
struct asked {
    const char *name;
    size_t used;
    size_t place;
    uint64_t retailer;
    const char *transaction;
    const char *created;
    const char *record;
    size_t out_len;
};

/* Whether the bytes of an output from a place on are as they were. */
static bool is_untouched(const uint8_t *out, size_t from) {
    for (size_t i = from; i < OUT_BYTES; i++) {
        if (out[i] != UNTOUCHED) {
            return false;
        }
    }
    return true;
}

/* A call that is refused touches no byte of the output, and one that is not none beyond the line; neither touches the run. */
static bool try_dispute(const struct area *area, const struct asked *asked) {
    uint8_t out[OUT_BYTES];
    memset(out, UNTOUCHED, sizeof out);
    uint64_t answer = intake_dispute(asked->retailer, bytes(distributors), 4, area->run, area->places, asked->used, asked->place,
                                     bytes(asked->transaction), length(asked->transaction), bytes(asked->created), length(asked->created),
                                     bytes(asked->record), length(asked->record), asked->out_len == 0 ? NULL : out, asked->out_len);
    size_t written = intake_number(answer) == 0 ? intake_value(answer) : 0;
    bool kept = is_untouched(out, written) && is_kept(area, 0);
    if (!kept) {
        printf("dispute %s: bytes have changed that must not\n", asked->name);
    } else if (intake_number(answer) != 0) {
        printf("dispute %s: refused %" PRIu32 "\n", asked->name, intake_number(answer));
    } else {
        printf("dispute %s: %.*s", asked->name, (int)written, (const char *)out);
    }
    return kept;
}

/* Of a ledger of a file's entry, a held period, a held one-time charge and a live one: a held one-time charge is sound, though no booking
 * makes one. */
static bool try_disputes(void) {
    const struct intake_entry entries[] = {
        {.sender = 40, .commodity = INTAKE_EL, .kind = INTAKE_FILE, .id = 60},
        {.sender = 40, .commodity = INTAKE_EL, .kind = INTAKE_PERIOD, .id = 62, .site = 7, .start = 0, .end = 30, .charge = 100, .state = INTAKE_HELD},
        {.sender = 40, .commodity = INTAKE_EL, .kind = INTAKE_ONE_TIME_CHARGE, .id = 63, .site = site, .charge = 5, .state = INTAKE_HELD},
        {.sender = 40, .commodity = INTAKE_EL, .kind = INTAKE_ONE_TIME_CHARGE, .id = 64, .site = site, .charge = 5, .state = INTAKE_LIVE},
    };
    const char *created = "20240301120000";
    const char *id = "000000000000001";
    const char *record = "60";
    const struct asked asked[] = {
        {"of a held period", 4, 1, 7, id, created, record, OUT_BYTES},
        {"of a held one-time charge", 4, 2, retailer, "0", created, record, OUT_BYTES},
        {"into just as many bytes", 4, 1, retailer, id, created, record, 63},
        {"into a byte less", 4, 1, retailer, id, created, record, 62},
        {"into a null output of 0 bytes", 4, 1, retailer, id, created, record, 0},
        {"of a live entry", 4, 3, retailer, id, created, record, OUT_BYTES},
        {"of a file entry", 4, 0, retailer, id, created, record, OUT_BYTES},
        {"of the used count", 2, 2, retailer, id, created, record, OUT_BYTES},
        {"of place 2^64 - 1", 4, SIZE_MAX, retailer, id, created, record, 0},
        {"with an ID of a minus", 4, 1, retailer, "-1", created, record, OUT_BYTES},
        {"with an ID of 16 digits", 4, 1, retailer, id, created, "1000000000000000", OUT_BYTES},
        {"with a null ID", 4, 3, retailer, NULL, created, record, 0},
        {"created at no time", 4, 3, retailer, id, "20240301240000", record, 0},
        {"of a used count past the length, created at no time", 5, 1, retailer, id, "", record, 0},
        {"for a retailer of ten digits, of a used count past the length", 5, 1, 1000000000, id, created, record, 0},
    };
    struct area area = make_area(4, ZEROS);
    memcpy(area.run, entries, sizeof entries);
    memcpy(area.copy, entries, sizeof entries);
    protect(&area, READ_ONLY);
    bool kept = true;
    for (size_t i = 0; i < sizeof asked / sizeof asked[0]; i++) {
        kept = try_dispute(&area, &asked[i]) && kept;
    }
    drop_area(&area);
    return kept;
}

#define SETTINGS .retailer = retailer, .distributors = distributors
#define BOOK SETTINGS, .file = file
#define FIND .site = site, .day = day

int main(void) {
    const struct trial trials[] = {
        {"used count past the length", 4, 5, BYTES_165, HIDDEN, BOOK, FIND},
        {"used count past the length of 8,192", 8192, 8193, BYTES_165, HIDDEN, BOOK, FIND},
        {"used count of 2^63", 4, (size_t)1 << 63, BYTES_165, HIDDEN, BOOK, FIND},
        {"used count of 2^64 - 1", 4, SIZE_MAX, BYTES_165, HIDDEN, BOOK, FIND},
        {"run of 8,193 entries", 8193, 0, BYTES_165, HIDDEN, BOOK, FIND},
        {"run of 9,000 entries", 9000, 0, BYTES_165, HIDDEN, BOOK, FIND},
        {"run of 9,000 entries, all used", 9000, 9000, BYTES_165, HIDDEN, BOOK, FIND},
        {"run of 9,000 entries, used count of 2^63", 9000, (size_t)1 << 63, BYTES_165, HIDDEN, BOOK, FIND},
        {"null run of 0 entries", 0, 0, ZEROS, HIDDEN, BOOK, FIND},
        {"null run of 0 entries, used count of 1", 0, 1, ZEROS, HIDDEN, BOOK, FIND},
        {"null run of 0 entries, used count of 2^63", 0, (size_t)1 << 63, ZEROS, HIDDEN, BOOK, FIND},
        {"one used entry of zeros", 4, 1, ZEROS, READ_ONLY, BOOK, FIND},
        {"one used entry of bytes 165", 4, 1, BYTES_165, READ_ONLY, BOOK, FIND},
        {"no room for the file", 1, 0, BYTES_165, READ_ONLY, BOOK, FIND},
        {"null distributors", 4, 0, BYTES_165, READ_ONLY, .retailer = retailer, .file = file, FIND},
        {"null file", 4, 0, BYTES_165, READ_ONLY, SETTINGS, FIND},
        {"null distributors, null file, null run", 0, 0, ZEROS, HIDDEN, .retailer = retailer, FIND},
        {"retailer of ten digits, used count past the length", 4, 5, BYTES_165, HIDDEN, .retailer = 1000000000,
         .distributors = distributors, .file = file, FIND},
        {"site of 14 digits, null file", 4, 0, BYTES_165, READ_ONLY, SETTINGS, .site = 10000000000000, .day = day},
        {"day 36,525, null file", 4, 0, BYTES_165, READ_ONLY, SETTINGS, .site = site, .day = 36525},
        {"site of 14 digits, used count past the length", 4, 5, BYTES_165, HIDDEN, BOOK, .site = 10000000000000, .day = day},
    };
    bool kept = true;
    SIZES(PRINT_SIZE)
    FIELDS(PRINT_AT)
    for (size_t i = 0; i < sizeof trials / sizeof trials[0]; i++) {
        kept = try_calls(&trials[i]) && kept;
    }
    kept = try_acceptance() && kept;
    kept = try_disputes() && kept;
    try_others();
    try_amounts();
    return kept ? EXIT_SUCCESS : EXIT_FAILURE;
}
