/* Keeps a ledger in memory, books the files named on the command line into it, one after the other, and prints the answers,
 * the totals and what is asked for by --entries, --find and --disputes. */
#include "intake.h"

#include <errno.h>
#include <inttypes.h>
#include <stdbool.h>
#include <stdio.h>
#include <stdlib.h>
#include <string.h>

/* One byte more than a file may have, so that a longer one is seen to be longer. */
#define READ_BYTES ((size_t)INTAKE_MOST_BYTES + 1)

/* The exit status, from the best to the worst. */
enum status { DONE = 0, REFUSED = 1, FAILED = 2 };

struct settings {
    uint64_t retailer;
    const char *distributors;
};

/* A site and a date that --find asks for. */
struct query {
    uint64_t site;
    const char *date;
};

/* What --disputes gives for the transactions: the ID of the first, counted up from there, and when they are created. */
struct disputes {
    uint64_t transaction;
    const char *created;
};

/* What the command line asks for. */
struct request {
    bool help;
    bool entries;
    bool disputes;
    struct disputes disputed;
    struct settings settings;
    uint64_t places;
    uint64_t used;
    const char **files;
    size_t file_count;
    struct query *queries;
    size_t query_count;
};

struct ledger {
    struct intake_entry *run;
    size_t places;
    size_t used;
};

/* The words of the command line that are still to be read. */
struct words {
    char **next;
    char **end;
};

static enum status worse(enum status one, enum status other) {
    return one < other ? other : one;
}

/* ---- the command line */

static void print_help(void) {
    fputs("usage: ledger [OPTION]... [--] [FILE]...\n"
          "\n"
          "Books tariff bill files into a ledger in memory, in the order in which they are named. Prints a line for each:\n"
          "  accepted ADDED HELD        booked: how many entries were added, and how many of them are held\n"
          "  rejected NUMBER CODE LINE  refused: docs/REFUSALS.md has the numbers\n"
          "then the totals of the live entries and of the held ones, and then what --entries and --find ask for.\n"
          "\n"
          "  --retailer N               our retailer number (999999999)\n"
          "  --distributors DDDD...     the distributor IDs whose files are taken, four digits each (0040)\n"
          "  --places N                 how many entries the ledger has room for (8192)\n"
          "  --used N                   the used count at the start, over entries of zeros, which are not sound (0)\n"
          "  --entries                  each used entry: its place and its fields, as host/intake.h counts them\n"
          "  --find SITE DATE           the live period of a site that has a day, YYYYMMDD; may be given several times\n"
          "  --help                     this text\n"
          "\n"
          "Exit status: 0; 1 where a file, the totals or a --find was refused; 2 for bad usage, and for a file that can't be\n"
          "read, after which none is booked.\n",
          stdout);
}

static bool bad_usage(const char *option, const char *what) {
    fprintf(stderr, "ledger: %s: %s (ledger --help shows the options)\n", option, what);
    return false;
}

/* Reads a number of decimal digits that fits 64 bits. */
static bool read_number(const char *text, uint64_t *number) {
    uint64_t value = 0;
    if (*text == '\0') {
        return false;
    }
    for (; *text != '\0'; text++) {
        if (*text < '0' || *text > '9') {
            return false;
        }
        uint64_t digit = (uint64_t)(*text - '0');
        if (value > (UINT64_MAX - digit) / 10) {
            return false;
        }
        value = value * 10 + digit;
    }
    *number = value;
    return true;
}

static bool take_text(struct words *words, const char *option, const char **text) {
    if (words->next == words->end) {
        return bad_usage(option, "a value is missing");
    }
    *text = *words->next++;
    return true;
}

static bool take_number(struct words *words, const char *option, uint64_t *number) {
    const char *text;
    if (!take_text(words, option, &text)) {
        return false;
    }
    return read_number(text, number) || bad_usage(option, "its value is not a number of 64 bits");
}

static bool take_query(struct words *words, const char *option, struct request *request) {
    struct query *query = &request->queries[request->query_count++];
    return take_number(words, option, &query->site) && take_text(words, option, &query->date);
}

static bool take_disputes(struct words *words, const char *option, struct request *request) {
    request->disputes = true;
    return take_number(words, option, &request->disputed.transaction) && take_text(words, option, &request->disputed.created);
}

static bool take_option(struct words *words, const char *option, struct request *request) {
    if (strcmp(option, "--help") == 0) {
        request->help = true;
        return true;
    }
    if (strcmp(option, "--entries") == 0) {
        request->entries = true;
        return true;
    }
    if (strcmp(option, "--retailer") == 0) {
        return take_number(words, option, &request->settings.retailer);
    }
    if (strcmp(option, "--distributors") == 0) {
        return take_text(words, option, &request->settings.distributors);
    }
    if (strcmp(option, "--places") == 0) {
        return take_number(words, option, &request->places);
    }
    if (strcmp(option, "--used") == 0) {
        return take_number(words, option, &request->used);
    }
    if (strcmp(option, "--find") == 0) {
        return take_query(words, option, request);
    }
    if (strcmp(option, "--disputes") == 0) {
        return take_disputes(words, option, request);
    }
    return bad_usage(option, "no such option");
}

/* A word that begins with a minus is an option, until a word of two minuses ends the options; all others are files. */
static bool take_words(struct words words, struct request *request) {
    bool options = true;
    while (words.next != words.end) {
        const char *word = *words.next++;
        if (options && strcmp(word, "--") == 0) {
            options = false;
        } else if (!options || word[0] != '-') {
            request->files[request->file_count++] = word;
        } else if (!take_option(&words, word, request)) {
            return false;
        }
    }
    return true;
}

/* ---- answers */

/* The A5.24 code of a refusal; 0 for house numbers. */
static uint32_t code_of(uint64_t number) {
    uint64_t answer = intake_code(number);
    return intake_number(answer) == 0 ? intake_value(answer) : 0;
}

static enum status print_booking(struct intake_booking booking) {
    if (booking.number == 0) {
        printf("accepted %" PRIu64 " %" PRIu64 "\n", booking.added, booking.held);
        return DONE;
    }
    printf("rejected %" PRIu64 " %" PRIu32 " %" PRIu64 "\n", booking.number, code_of(booking.number), booking.line);
    return REFUSED;
}

/* A refusal of Totals, Find, a date or a dispute, which has neither code nor line. */
static enum status print_refusal(const char *operation, uint64_t number) {
    printf("%s refused %" PRIu64 "\n", operation, number);
    return REFUSED;
}

/* An amount that is counted in units of its last place. */
static void print_amount(int64_t units, int places) {
    uint64_t size = units < 0 ? 0 - (uint64_t)units : (uint64_t)units;
    uint64_t whole = 1;
    for (int i = 0; i < places; i++) {
        whole *= 10;
    }
    printf("%s%" PRIu64 ".%0*" PRIu64, units < 0 ? "-" : "", size / whole, places, size % whole);
}

static void print_sums(const char *state, int64_t charge, int64_t kwh, int64_t gj) {
    printf("%s ", state);
    print_amount(charge, 2);
    printf(" dollars, ");
    print_amount(kwh, 4);
    printf(" KWH, ");
    print_amount(gj, 4);
    printf(" GJ\n");
}

/* Every fourth year from 2000 to 2099 is a leap year. */
static unsigned days_of_month(unsigned year, unsigned month) {
    static const unsigned days[12] = {31, 28, 31, 30, 31, 30, 31, 31, 30, 31, 30, 31};
    return days[month - 1] + (month == 2 && year % 4 == 0 ? 1 : 0);
}

/* The date of a day number, as the number YYYYMMDD. */
static unsigned date_of(uint64_t day) {
    unsigned year = 2000;
    unsigned month = 1;
    while (day >= days_of_month(year, month)) {
        day -= days_of_month(year, month);
        year += month == 12 ? 1 : 0;
        month = month == 12 ? 1 : month + 1;
    }
    return year * 10000 + month * 100 + (unsigned)day + 1;
}

static void print_entry(size_t place, const struct intake_entry *e) {
    printf("entry %zu: sender %" PRIu64 ", commodity %" PRIu64 ", kind %" PRIu64 ", record %" PRIu64 ", site %" PRIu64 ", days %" PRIu64
           " to %" PRIu64 ", charge %" PRId64 ", usage %" PRId64 ", state %" PRIu64 ", cancels %" PRIu64 "\n",
           place, e->sender, e->commodity, e->kind, e->id, e->site, e->start, e->end, e->charge, e->usage, e->state, e->cancels);
}

static void print_period(uint64_t place, const struct intake_entry *period) {
    printf("found at %" PRIu64 ": record %" PRIu64 ", %u to %u\n", place, period->id, date_of(period->start), date_of(period->end));
}

/* ---- the ledger */

static enum status show_totals(const struct ledger *ledger) {
    struct intake_sums sums = intake_totals(ledger->run, ledger->places, ledger->used);
    if (sums.number != 0) {
        return print_refusal("totals", sums.number);
    }
    print_sums("live", sums.live_charge, sums.live_kwh, sums.live_gj);
    print_sums("held", sums.held_charge, sums.held_kwh, sums.held_gj);
    return DONE;
}

static void show_entries(const struct ledger *ledger) {
    for (size_t place = 0; place < ledger->used; place++) {
        print_entry(place, &ledger->run[place]);
    }
}

static enum status show_period(const struct ledger *ledger, const struct query *query) {
    uint64_t day = intake_day((const uint8_t *)query->date, strlen(query->date));
    if (intake_number(day) != 0) {
        return print_refusal("date", intake_number(day));
    }
    struct intake_place found = intake_find(ledger->run, ledger->places, ledger->used, query->site, intake_value(day));
    if (found.number != 0) {
        return print_refusal("find", found.number);
    }
    if (found.found == 0) {
        puts("found none");
    } else {
        print_period(found.place, &ledger->run[found.place]);
    }
    return DONE;
}

/* The decimal digits of a number, and how many they are. */
static size_t digits_of(uint64_t number, char digits[static 21]) {
    return (size_t)snprintf(digits, 21, "%" PRIu64, number);
}

/* Prints the TBD transaction of the entry at a place, which stands in the tariff bill file of this Record ID. */
static enum status show_dispute(const struct ledger *ledger, const struct settings *settings, const struct disputes *disputes, size_t place,
                                uint64_t transaction_id, uint64_t file_id) {
    char transaction[21];
    char file[21];
    uint8_t line[INTAKE_MOST_DISPUTE];
    size_t transaction_len = digits_of(transaction_id, transaction);
    size_t file_len = digits_of(file_id, file);
    uint64_t answer = intake_dispute(settings->retailer, (const uint8_t *)settings->distributors, strlen(settings->distributors), ledger->run,
                                     ledger->places, ledger->used, place, (const uint8_t *)transaction, transaction_len,
                                     (const uint8_t *)disputes->created, strlen(disputes->created), (const uint8_t *)file, file_len, line,
                                     sizeof line);
    if (intake_number(answer) != 0) {
        return print_refusal("dispute", intake_number(answer));
    }
    fwrite(line, 1, intake_value(answer), stdout);
    return DONE;
}

/* A file's entries follow its own, so that the file entry before a held one is that of the file which brought it. The first refusal ends
 * the list. */
static enum status show_disputes(const struct ledger *ledger, const struct settings *settings, const struct disputes *disputes) {
    enum status status = DONE;
    uint64_t transaction = disputes->transaction;
    uint64_t file = 0;
    for (size_t place = 0; place < ledger->used && status == DONE; place++) {
        const struct intake_entry *entry = &ledger->run[place];
        if (entry->kind == INTAKE_FILE) {
            file = entry->id;
        } else if (entry->state == INTAKE_HELD) {
            status = show_dispute(ledger, settings, disputes, place, transaction++, file);
        }
    }
    return status;
}

static enum status failed(const char *what, int error) {
    fprintf(stderr, "ledger: %s: %s\n", what, strerror(error));
    return FAILED;
}

/* Reads at most READ_BYTES bytes. */
static enum status read_file(const char *path, uint8_t *bytes, size_t *length) {
    FILE *stream = fopen(path, "rb");
    if (stream == NULL) {
        return failed(path, errno);
    }
    *length = fread(bytes, 1, READ_BYTES, stream);
    int error = errno;
    bool broken = ferror(stream) != 0;
    fclose(stream);
    return broken ? failed(path, error) : DONE;
}

/* Books a file. Only here the used count moves. */
static enum status book_file(struct ledger *ledger, const struct settings *settings, const char *path, uint8_t *bytes) {
    size_t length;
    if (read_file(path, bytes, &length) != DONE) {
        return FAILED;
    }
    struct intake_booking booking = intake_book(settings->retailer, (const uint8_t *)settings->distributors,
                                                strlen(settings->distributors), bytes, length, ledger->run, ledger->places, ledger->used);
    ledger->used += booking.added;
    return print_booking(booking);
}

static enum status book_files(struct ledger *ledger, const struct request *request) {
    enum status status = DONE;
    uint8_t *bytes = malloc(READ_BYTES);
    if (bytes == NULL) {
        return failed("bytes of a file", ENOMEM);
    }
    for (size_t i = 0; i < request->file_count && status != FAILED; i++) {
        status = worse(status, book_file(ledger, &request->settings, request->files[i], bytes));
    }
    free(bytes);
    return status;
}

static enum status show_ledger(const struct ledger *ledger, const struct request *request) {
    enum status status = show_totals(ledger);
    /* Of a ledger that isn't sound the used count may pass the run. */
    bool sound = status == DONE;
    if (request->entries && sound) {
        show_entries(ledger);
    }
    for (size_t i = 0; i < request->query_count; i++) {
        status = worse(status, show_period(ledger, &request->queries[i]));
    }
    if (request->disputes && sound) {
        status = worse(status, show_disputes(ledger, &request->settings, &request->disputed));
    }
    return status;
}

/* A run of so many places, all zeros; none has a null pointer. */
static bool make_run(uint64_t places, struct intake_entry **run) {
    *run = NULL;
    if (places > SIZE_MAX / sizeof **run) {
        return false;
    }
    if (places > 0) {
        *run = calloc(places, sizeof **run);
    }
    return places == 0 || *run != NULL;
}

static enum status serve(const struct request *request) {
    struct ledger ledger = {.places = request->places, .used = request->used};
    if (!make_run(request->places, &ledger.run)) {
        return failed("--places", ENOMEM);
    }
    enum status status = book_files(&ledger, request);
    if (status != FAILED) {
        status = worse(status, show_ledger(&ledger, request));
    }
    free(ledger.run);
    return status;
}

/* What was printed may still wait to be written. */
static enum status close_output(void) {
    return fflush(stdout) == 0 && ferror(stdout) == 0 ? DONE : failed("standard output", errno);
}

static enum status answer(struct words words, struct request *request) {
    if (!take_words(words, request)) {
        return FAILED;
    }
    if (request->help) {
        print_help();
        return DONE;
    }
    return serve(request);
}

int main(int count, char **arguments) {
    size_t room = count > 0 ? (size_t)count : 1;
    struct words words = {.next = arguments + (count > 0 ? 1 : 0), .end = arguments + count};
    struct request request = {
        .settings = {.retailer = 999999999, .distributors = "0040"},
        .places = INTAKE_MOST_PLACES,
        .files = calloc(room, sizeof *request.files),
        .queries = calloc(room, sizeof *request.queries),
    };
    enum status status = FAILED;
    if (request.files == NULL || request.queries == NULL) {
        failed("arguments", ENOMEM);
    } else {
        status = answer(words, &request);
        status = worse(status, close_output());
    }
    free(request.files);
    free(request.queries);
    return status;
}
