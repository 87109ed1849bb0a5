/* Asks the library for the days, amounts and codes that stand in fields.expected, and has it read the disputes there. */
#include "intake.h"

#include <inttypes.h>
#include <stdio.h>
#include <string.h>

/* A field and its type, Number(precision, scale). */
struct amount {
    const char *field;
    uint64_t precision;
    uint64_t scale;
};

static void show(const char *what, uint64_t answer) {
    if (intake_number(answer) == 0) {
        printf("%s: %u\n", what, intake_value(answer));
    } else {
        printf("%s: refused %u\n", what, intake_number(answer));
    }
}

static void day(const char *date) {
    show(date, intake_day((const uint8_t *)date, strlen(date)));
}

static void amount(const struct amount *a) {
    struct intake_reading reading = intake_amount((const uint8_t *)a->field, strlen(a->field), a->precision, a->scale);
    printf("Number(%" PRIu64 ",%" PRIu64 ") \"%s\": ", a->precision, a->scale, a->field);
    if (reading.number != 0) {
        printf("refused %" PRIu64 "\n", reading.number);
    } else if (reading.filled == 0) {
        puts("missing");
    } else {
        printf("%" PRId64 "\n", reading.units);
    }
}

static void code(uint64_t test) {
    char what[32];
    snprintf(what, sizeof what, "test %llu", (unsigned long long)test);
    show(what, intake_code(test));
}

static void field(const char *name, uint64_t filled, int64_t value) {
    if (filled != 0) {
        printf(", %s %" PRId64, name, value);
    }
}

/* No value of a field passes 15 digits. */
static void dispute(const char *line) {
    struct intake_dispute_fields d = intake_read_dispute((const uint8_t *)line, strlen(line));
    printf("dispute %.*s: ", (int)strcspn(line, "\r\n"), line);
    if (d.number != 0) {
        printf("refused %" PRIu64 "\n", d.number);
        return;
    }
    printf("read");
    field("transaction", d.transaction.filled, (int64_t)d.transaction.value);
    field("retailer", d.retailer.filled, (int64_t)d.retailer.value);
    field("distributor", d.distributor.filled, (int64_t)d.distributor.value);
    field("created", d.created.filled, (int64_t)d.created.value);
    field("file", d.file.filled, (int64_t)d.file.value);
    field("site", d.site.filled, (int64_t)d.site.value);
    field("period", d.period.filled, (int64_t)d.period.value);
    field("child", d.child.filled, (int64_t)d.child.value);
    field("charge", d.charge.filled, (int64_t)d.charge.value);
    field("code", d.code.filled, d.code.value);
    putchar('\n');
}

int main(void) {
    static const char *const disputes[] = {
        "TBD,1,999999999,0040,20240301120000,60,0020000000001,62,,,7004\n",
        "TBD,1,999999999,0040,20240301120000,60,0020000000001,62,,,7004\r\n",
        "TBD,1,999999999,0040,20240301120000,60,0020000000001,62,,,7004",
        "TBD,1,999999999,0040,20240301120000,60,0020000000001,62,,,7004\r",
        "TBD,1,999999999,0040,20240301120000,60,0020000000001,62,,,7004\n\n",
        "TBD,,,,,,,,,,",
        "TBD,007,000000007,0040,20240301120000,60,0000000000007,,5,63,-12\n",
        "TBD,-1,999999999,0040,20240301120000,60,0020000000001,62,,,7004\n",
        "TBD,1,99999999,0040,20240301120000,60,0020000000001,62,,,7004\n",
        "TBD,1,999999999,0040,20240301126000,60,0020000000001,62,,,7004\n",
        "TBD,1,999999999,0040,20240301120000,60,0020000000001,62,,,70040\n",
        "TBR,1,999999999,0040,20240301120000,60,0020000000001,62,,,7004\n",
        "TBD,1,999999999,0040,20240301120000,60,0020000000001,62,,7004\n",
        "",
    };
    static const char *const dates[] = {
        "20000101", "20000229", "20010101", "20991231", "20010229", "21000101", "19991231", "2000010", "200001011", "2000-1-1", "20001301", "20000100",
    };
    static const struct amount amounts[] = {
        {"", 11, 2}, {"0", 11, 2}, {"-0", 11, 2}, {" ", 11, 2}, {"12.5", 11, 2}, {"-3.2500", 14, 4}, {"12.345", 11, 2},
        {"1.000000000000", 19, 12}, {"", 19, 12},
    };
    static const uint64_t tests[] = {0, 1, 2, 3, 6, 7, 18, 29, 30, 31, 32, 40, 41, 101, 102, UINT64_MAX};

    for (size_t i = 0; i < sizeof dates / sizeof dates[0]; i++) {
        day(dates[i]);
    }
    show("no bytes", intake_day(NULL, 0));
    static const uint8_t high[8] = {255, 48, 48, 48, 48, 49, 48, 49};
    show("a byte 255", intake_day(high, sizeof high));
    for (size_t i = 0; i < sizeof amounts / sizeof amounts[0]; i++) {
        amount(&amounts[i]);
    }
    for (size_t i = 0; i < sizeof tests / sizeof tests[0]; i++) {
        code(tests[i]);
    }
    for (size_t i = 0; i < sizeof disputes / sizeof disputes[0]; i++) {
        dispute(disputes[i]);
    }
    return 0;
}
