/* Replays the bookings of a file that `compare --record FILE` writes (compare/src/recording.rs says how they stand there), and holds Book,
 * Totals and Find to the answers that stand beside them. Prints how many bookings agree; stops at the first that doesn't. */
#include "intake.h"

#include <stdio.h>
#include <stdlib.h>
#include <string.h>

enum { DIFFERS = 1, UNREADABLE = 2 };

/* What is called. The entries of a run that is lent anew, the distributor IDs and the file follow it. */
struct call {
    uint64_t places, used, is_lent_anew, retailer, distributors_len, file_len;
};

struct question {
    uint64_t site, day;
    struct intake_place place;
};

/* What is answered. */
struct answers {
    struct intake_booking booking;
    uint64_t checksum;
    struct intake_sums sums;
    struct question questions[2];
};

/* The run that calls are lent, one after the other. */
struct run {
    struct intake_entry *entries;
    uint64_t places;
};

static const char *path;
static FILE *histories;

static void unreadable(const char *why) {
    fprintf(stderr, "%s: %s\n", path, why);
    exit(UNREADABLE);
}

static void read_bytes(void *bytes, size_t length) {
    if (length > 0 && fread(bytes, 1, length, histories) != length) {
        unreadable("ends within a booking");
    }
}

/* So many bytes and no more, so that a tool that watches memory sees what is read or written past them; none are a null pointer. */
static void *exactly(size_t length) {
    void *bytes = length == 0 ? NULL : malloc(length);
    if (length > 0 && bytes == NULL) {
        unreadable("needs more memory than there is");
    }
    return bytes;
}

static uint8_t *read_exactly(size_t length) {
    uint8_t *bytes = exactly(length);
    read_bytes(bytes, length);
    return bytes;
}

/* FNV-1a, of 64 bits. */
static uint64_t checksum(const void *bytes, size_t length) {
    const uint8_t *byte = bytes;
    uint64_t sum = 0xcbf29ce484222325;
    for (size_t i = 0; i < length; i++) {
        sum = (sum ^ byte[i]) * 0x100000001b3;
    }
    return sum;
}

static void take_run(struct run *run, const struct call *call) {
    if (!call->is_lent_anew && call->places != run->places) {
        unreadable("has a run of another length than was lent");
    }
    if (call->is_lent_anew) {
        free(run->entries);
        run->places = call->places;
        run->entries = (struct intake_entry *)read_exactly(call->places * sizeof *run->entries);
    }
}

static struct intake_booking book(const struct run *run, const struct call *call) {
    uint8_t *distributors = read_exactly(call->distributors_len);
    uint8_t *file = read_exactly(call->file_len);
    struct intake_booking booking =
        intake_book(call->retailer, distributors, call->distributors_len, file, call->file_len, run->entries, run->places, call->used);
    free(distributors);
    free(file);
    return booking;
}

/* What differs from the answers, if anything does. */
static const char *difference(const struct run *run, uint64_t used, const struct intake_booking *booking, const struct answers *answers) {
    if (memcmp(booking, &answers->booking, sizeof *booking) != 0) {
        return "the answer of intake_book";
    }
    struct intake_sums sums = intake_totals(run->entries, run->places, used);
    if (memcmp(&sums, &answers->sums, sizeof sums) != 0) {
        return "the answer of intake_totals";
    }
    for (size_t i = 0; i < sizeof answers->questions / sizeof answers->questions[0]; i++) {
        const struct question *question = &answers->questions[i];
        struct intake_place place = intake_find(run->entries, run->places, used, question->site, question->day);
        if (memcmp(&place, &question->place, sizeof place) != 0) {
            return "the answer of intake_find";
        }
    }
    return checksum(run->entries, run->places * sizeof *run->entries) == answers->checksum ? NULL : "the run";
}

/* Whether the file has a booking more. */
static int has_more(void) {
    int byte = getc(histories);
    return byte != EOF && ungetc(byte, histories) != EOF;
}

static void replay(struct run *run, unsigned long agreed) {
    struct call call;
    read_bytes(&call, sizeof call);
    take_run(run, &call);
    struct intake_booking booking = book(run, &call);
    struct answers answers;
    read_bytes(&answers, sizeof answers);
    const char *differs = difference(run, call.used + booking.added, &booking, &answers);
    if (differs != NULL) {
        printf("%lu bookings agree; of the next %s differs\n", agreed, differs);
        exit(DIFFERS);
    }
}

int main(int count, char **arguments) {
    if (count != 2) {
        fprintf(stderr, "usage: %s FILE\n", arguments[0]);
        return UNREADABLE;
    }
    path = arguments[1];
    histories = fopen(path, "rb");
    if (histories == NULL) {
        perror(path);
        return UNREADABLE;
    }
    struct run run = {NULL, 0};
    unsigned long agreed = 0;
    for (; has_more(); agreed++) {
        replay(&run, agreed);
    }
    free(run.entries);
    fclose(histories);
    printf("%lu bookings agree\n", agreed);
    return agreed == 0 ? UNREADABLE : 0;
}
