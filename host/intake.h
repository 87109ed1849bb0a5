/* The intake library, as a host program calls it: C11 or C++, on x86-64 with the System V calling convention.
 *
 * The library tests a distributor's tariff bill file (intake_check), books accepted files into a ledger that the host owns
 * (intake_book), sums the ledger (intake_totals), finds a period in it (intake_find), and writes the dispute of a held entry
 * (intake_dispute). It also reads a dispute (intake_read_dispute), and a date (intake_day) and an amount (intake_amount) as
 * they stand in a file, and has the code of a test (intake_code). What stands in quotation marks here stands in document 01,
 * the scope of the project, and what is said of test 6, of 108, 109 and of disputes in document 02, the requests to change it.
 * docs/HOST.md has the link line and a whole host; docs/REFUSALS.md says for each refusal what to ask the distributor for.
 *
 *
 * WHAT HOLDS OF EVERY CALL
 *
 * Answers. A call has no other effect than its answer and what intake_book writes into the run and intake_dispute into the
 * output. It answers the same whenever it is called with the same arguments and contents. Every refusal is a number in the
 * answer: no call sets errno, prints, reads or writes a file, raises a signal or ends the program.
 *
 * Arguments. Numbers may be any of their type. Bytes and runs are a pointer and a count: the pointer leads to so many bytes or
 * entries, which the host keeps in place until the call returns. Where the count is 0 the pointer may be null. Any other
 * pointer that doesn't lead to what its count says makes the call undefined, as does a run that isn't aligned as C aligns
 * struct intake_entry, or one that shares memory with the distributors or the file of the same call of intake_book, or an
 * output that shares memory with anything else that is passed to the same call of intake_dispute.
 *
 * Memory. The host owns all that it passes. The library writes nothing but the run of an accepted intake_book and the line of
 * an intake_dispute, keeps no pointer after a call, allocates no memory, and has no data of its own that changes. There is
 * nothing to open or to close.
 *
 * Stack. A call needs at most INTAKE_STACK bytes of stack. It doesn't test whether they are there: give a thread that calls
 * the library more than that.
 *
 * Threads. The library has no locks and needs none: calls may run at the same time in several threads, and calls on different
 * runs don't affect each other. While intake_book runs on a run, or the host writes to it, no other call may run on that run.
 * intake_totals, intake_find and intake_dispute only read the run, so that several of them may run on it at the same time.
 *
 *
 * REFUSALS
 *
 * The numbers from 2 to 40 are tests of Table 5-1 of AUC Rule 004; intake_code has their A5.24 codes. The numbers from 101, house
 * numbers, have no code and line 0. The sentence of a test other than 6, and that of 102, says what must hold; the others say when
 * the number is answered.
 *
 *   2    "every byte within a line is 32 to 126; field 3 is a known type; the field count is its table's. An empty line fails. A
 *        file of no bytes fails at line 1."
 *   3    "every field that isn't empty fits its type."
 *   4    "which type may follow which is a fixed table: FH: SH. SH: TH, OC. TH: DU, DD, DM, CH, TH, OC, SH, FT. DU: as TH. DD:
 *        DD, DM, CH, TH, OC, SH, FT. DM: DM, CH, TH, OC, SH, FT. CH: CH, TH, OC, SH, FT. OC: OC, SH, FT. FT: nothing. The first
 *        line is FH (otherwise line 1 fails) and the last FT (otherwise the last line fails). A4.4 prevails if it differs."
 *   5    "Mandatory fields are filled, but FH's Parent ID, called mandatory, must be empty."
 *   6    "It fails exactly where such a condition holds and the field is empty." (the condition of a field that Tables 4-2 to 4-10
 *        mark Conditional, where it "reads only fields of the same record or of its FH, SH or TH": TH 8 and 9, DU 9 to 15, DD 12
 *        and 13, OC 7 and 8)
 *   7    "Commodity Code is EL or NG; Usage UOM is KWH for EL and GJ for NG; Cancel Indicator and GST exemption are Y or N. Other
 *        codes pass."
 *   8    "no file entry of this sender has FH's Record ID. Rejected files leave no trace."
 *   9    "no Record ID repeats in the file (the later line fails)."
 *   10   "Parent ID is the Record ID of the nearest preceding FH (for SH, FT), SH (TH, OC) or TH (DU, DD, DM, CH)."
 *   11   "FH's retailer is ours"
 *   12   "its sender is listed in the settings."
 *   14   "no start date is after its end date, where both are filled."
 *   17   "DU, DD, DM and CH carry their TH's Cancel Indicator."
 *   18   "no two N periods of a site, both lying within the current billing period of one and the same SH of that site, share a
 *        day (the later line fails). An SH with an empty billing date chooses none."
 *   29   "for each SH, its usage total is the sum of Usage Amount, and its charge total the sum of Charge Amount in CH and OC,
 *        over all the file's records of that Site ID, including those under another SH." (the usage total)
 *   30   "for each SH, its usage total is the sum of Usage Amount, and its charge total the sum of Charge Amount in CH and OC,
 *        over all the file's records of that Site ID, including those under another SH." (the charge total)
 *   31   "TH's usage and charge totals are the sums over its own DU and CH." (the usage total)
 *   32   "TH's usage and charge totals are the sums over its own DU and CH." (the charge total)
 *   33   "FT's record count (as Table 4-10 counts) and the sum of Charge Amount in all CH and OC." (the record count)
 *   34   "FT's record count (as Table 4-10 counts) and the sum of Charge Amount in all CH and OC." (the sum)
 *   38   "the Site ID equals the parent's, wherever both have one."
 *   39   "a Y record's Reference ID (an empty one names none) names an entry of the same sender, commodity, kind, site and (for a
 *        period) days, live or held before this file, that no earlier Y record of the file names."
 *   40   "its charge and usage totals (for an OC, its Charge Amount) are the opposites of that entry's. The single CH of a TH
 *        aren't compared."
 *   101  "the used count plus 1 plus the number of TH and OC exceeds the run's length."
 *   102  "no FH, TH or OC Record ID is stored under this sender."
 *   103  "103 if the file exceeds its bytes or its lines" ("A file has at most 1,048,576 bytes and 4,096 lines.")
 *   104  "104 if the number exceeds 999,999,999 or the ID bytes aren't 1 to 32 whole groups of four digits"
 *   105  "105 (ledger not sound)" ("A ledger is sound if the run has at most 8,192 entries and the used count doesn't exceed it;
 *        senders have at most 4 digits, sites 13, IDs and amounts 15; commodities, kinds, states and days are in range, state 0
 *        being for file entries and no others; no start day is after its end day; what a kind lacks is 0, as is the cancelled ID
 *        outside state 4; no sender and Record ID pair repeats; live periods of a site share no day; cancels and cancelled
 *        entries pair off as 39 and 40 require, the cancelled one earlier.")
 *   106  "106 if the site number has over 13 digits or the day exceeds 36,524."
 *   107  "107 if the number isn't a Table 5-1 test listed here (101 and 102 aren't)."
 *   108  "108 if the place is no held entry"
 *   109  "109 if the output is shorter than the line"
 *
 * intake_dispute answers 3 "if a supplied field is empty or misses its type", and intake_read_dispute 2 and 3 of the line that
 * it reads. intake_day answers 3 where its bytes are no date, and intake_amount where its field is filled and has no value of
 * its type.
 */
#ifndef INTAKE_H
#define INTAKE_H

#include <stddef.h>
#include <stdint.h>

#ifdef __cplusplus
extern "C" {
#endif

/* Limits. A run may have more places than INTAKE_MOST_PLACES: each call on it then answers 105. A file may have more bytes or
 * lines: it is then refused with 103. */
#define INTAKE_MOST_PLACES 8192
#define INTAKE_MOST_BYTES 1048576
#define INTAKE_MOST_LINES 4096
#define INTAKE_MOST_DISTRIBUTORS 32
#define INTAKE_LAST_DAY 36524

/* The bytes that hold the line of every dispute. */
#define INTAKE_MOST_DISPUTE 103

/* The bytes of stack that a call needs at most. */
#define INTAKE_STACK (3 * 1024 * 1024)

enum intake_commodity { INTAKE_EL = 1, INTAKE_NG = 2 };

enum intake_kind { INTAKE_FILE = 1, INTAKE_PERIOD = 2, INTAKE_ONE_TIME_CHARGE = 3 };

/* A file entry has state 0. */
enum intake_state { INTAKE_LIVE = 1, INTAKE_HELD = 2, INTAKE_CANCELLED = 3, INTAKE_CANCEL = 4 };

/* An entry of the ledger: 88 bytes. The number before each comment is the field's offset.
 *
 * The ledger is a run of entries, which the host provides, and a used count, which the host keeps. The used entries are those
 * from place 0 on; what stands past them is anything. A new ledger is a used count of 0 over a run of any content. After an
 * accepted intake_book the host adds the answer's `added` to the used count; nothing else changes it. A host that writes used
 * entries itself, or lends a run and a count that aren't those that the call before left, loses what is promised of the ledger:
 * at best the next call answers 105.
 *
 * To keep a ledger, store its used entries and the used count together, as after one and the same call. The entries have no
 * pointers and no padding. */
struct intake_entry {
    uint64_t sender;    /* 0: the distributor ID that sent the file, by value: 0040 is 40 */
    uint64_t commodity; /* 8: enum intake_commodity */
    uint64_t kind;      /* 16: enum intake_kind: a file, a period (TH) or a one-time charge (OC) */
    uint64_t id;        /* 24: the Record ID of its FH, TH or OC */
    uint64_t site;      /* 32: the Site ID; 0 for a file */
    uint64_t start;     /* 40: the period's first day, as intake_day counts; 0 but for a period */
    uint64_t end;       /* 48: the period's last day, which belongs to it; 0 but for a period */
    int64_t charge;     /* 56: the charge in cents; for a file its trailer charge total */
    int64_t usage;      /* 64: the usage in ten-thousandths of a KWH (EL) or of a GJ (NG); 0 but for a period */
    uint64_t state;     /* 72: enum intake_state; 0 for a file */
    uint64_t cancels;   /* 80: the Record ID that a cancel cancels; 0 but for state 4 */
};

/* What intake_book answers: 32 bytes.
 *
 * number 0: the file is booked. added counts the entries that it added, at least 2, and held those of them in state 2; line is 0.
 * Any other number: the file is refused. line is that of the failing record, counted from 1, and 0 for a house number; added
 * and held are 0. */
struct intake_booking {
    uint64_t number; /* 0 */
    uint64_t line;   /* 8 */
    uint64_t added;  /* 16 */
    uint64_t held;   /* 24 */
};

/* What intake_totals answers: 56 bytes.
 *
 * number 0: the sums over the used entries in state 1 (live) and in state 2 (held), in the units of struct intake_entry: charges
 * of both commodities, usage of EL in ten-thousandths of a KWH, usage of NG in ten-thousandths of a GJ. No sum passes 64 bits.
 * number 105: the ledger is not sound, and all sums are 0. */
struct intake_sums {
    uint64_t number;     /* 0 */
    int64_t live_charge; /* 8 */
    int64_t live_kwh;    /* 16 */
    int64_t live_gj;     /* 24 */
    int64_t held_charge; /* 32 */
    int64_t held_kwh;    /* 40 */
    int64_t held_gj;     /* 48 */
};

/* What intake_find answers: 24 bytes.
 *
 * number 0 and found 1: place is that of the period, from 0. number 0 and found 0: there is none, and place is 0.
 * number 105 or 106: refused, and found and place are 0. */
struct intake_place {
    uint64_t number; /* 0 */
    uint64_t found;  /* 8 */
    uint64_t place;  /* 16 */
};

/* What intake_amount answers: 24 bytes.
 *
 * number 0 and filled 0: the field is empty, so that the amount is missing, and units is 0.
 * number 0 and filled 1: the amount has a value, which is units: a whole number of units of its last place. It may be 0.
 * number 3 and filled 1: the field misses its type, or its type has no value that is read, and units is 0. */
struct intake_reading {
    uint64_t number; /* 0 */
    uint64_t filled; /* 8 */
    int64_t units;   /* 16 */
};

/* A field that intake_read_dispute reads: 16 bytes. filled 1: value is the number that its digits write. filled 0: the field is
 * empty, and value is 0. */
struct intake_field {
    uint64_t filled; /* 0 */
    uint64_t value;  /* 8 */
};

/* The same of a Dispute Code, whose type takes a minus: 16 bytes. */
struct intake_code_field {
    uint64_t filled; /* 0 */
    int64_t value;   /* 8 */
};

/* What intake_read_dispute answers: 168 bytes.
 *
 * number 0: the fields 2 to 11 of Table 4-14, of which any may be empty. number 2 or 3: refused, and every field is empty. */
struct intake_dispute_fields {
    uint64_t number;                  /* 0 */
    struct intake_field transaction;  /* 8: Transaction ID */
    struct intake_field retailer;     /* 24: Sender ID, that of the retailer */
    struct intake_field distributor;  /* 40: Distributor ID */
    struct intake_field created;      /* 56: Date Created, the digits YYYYMMDDHHMMSS as one number */
    struct intake_field file;         /* 72: Tariff Bill File Record ID */
    struct intake_field site;         /* 88: Site ID */
    struct intake_field period;       /* 104: Tariff Bill Period Record ID */
    struct intake_field child;        /* 120: Record ID, that of a record under the period */
    struct intake_field charge;       /* 136: One-Time Charge Record ID */
    struct intake_code_field code;    /* 152: Dispute Code */
};

/* Check: the first refusal of a file, in the order 104, 103, 2 to 7, 9 to 38. It reads no ledger.
 *
 * retailer       our retailer number; more than 999999999 is 104
 * distributors   the bytes of the distributor IDs whose files are taken, four digits each, one after the other, without anything
 *                between; what isn't 1 to 32 IDs is 104
 * file           the file's bytes as they came; more than INTAKE_MOST_BYTES, or more than INTAKE_MOST_LINES lines, is 103
 *
 * Answers the number in the upper 32 bits and the line in the lower (see intake_number, intake_value): the line of the failing
 * record, counted from 1, and 0 for house numbers. 0 when all tests pass. Writes nothing. */
uint64_t intake_check(uint64_t retailer, const uint8_t *distributors, size_t distributors_len, const uint8_t *file, size_t file_len);

/* Book: tests a file as intake_check does, and against the ledger, and books it if nothing refuses it.
 *
 * retailer, distributors, file   as for intake_check; they may differ from call to call
 * run, places    the ledger's entries, used and unused: any number of places; more than INTAKE_MOST_PLACES is 105
 * used           the used count; more than places is 105
 *
 * The refusals, in order: 104, 105, 103, 2 to 7, 9 to 38, 8, 39, 40, 102, 101. The first that applies is answered.
 *
 * On a refusal nothing is written, and the used count stays. Where there are more than INTAKE_MOST_PLACES places, or the used
 * count is more than the places, the run isn't read either.
 *
 * On an acceptance the file's entries are added from place `used` on: the file entry, then its cancels in file order, then its
 * originals in file order. Entries that its cancels name turn into state 3; other fields of used entries keep their values.
 * Any place before used + added may be written, most of them with what stood there; all places from used + added on keep their
 * content. The host must then take used + added as the used count: the library doesn't keep it. */
struct intake_booking intake_book(uint64_t retailer, const uint8_t *distributors, size_t distributors_len, const uint8_t *file, size_t file_len,
                                  struct intake_entry *run, size_t places, size_t used);

/* Totals: the sums of the live entries and of the held ones. Writes nothing.
 *
 * run, places, used   as for intake_book, but the run is only read; a ledger that isn't sound is 105 */
struct intake_sums intake_totals(const struct intake_entry *run, size_t places, size_t used);

/* Find: the place of the live period of a site that has a day. There is at most one. Writes nothing.
 *
 * run, places, used   as for intake_totals; a ledger that isn't sound is 105, whatever the site and the day
 * site           the Site ID by value; more than 13 digits is 106
 * day            a day as intake_day counts; more than INTAKE_LAST_DAY is 106 */
struct intake_place intake_find(const struct intake_entry *run, size_t places, size_t used, uint64_t site, uint64_t day);

/* Dispute: writes one TBD transaction, "laid out as Table 4-14", of the held entry at a place: a line of eleven fields, at the
 * start of the output. Field 3 is the retailer of the settings, with nine digits, field 4 the entry's sender, with four, field
 * 7 its site, with thirteen. Its Record ID stands in field 8 for a period and in field 10 for a one-time charge; field 9 is
 * empty. Field 11 is 7004, A5.25's code of an overlap with earlier files. Byte 10 ends the line.
 *
 * retailer, distributors   the settings, as for intake_check; no distributor is read from them
 * run, places, used   as for intake_totals; a ledger that isn't sound is 105
 * place          the entry's place, from 0: one that isn't held, and one from the used count on, is 108
 * transaction    the Transaction ID: 1 to 15 digits; it is written without leading zeros
 * created        the Date Created: 14 digits YYYYMMDDHHMMSS of a day of 2000 to 2099
 * file           the Tariff Bill File Record ID, that of the FH of the file that brought the entry: 1 to 15 digits, written
 *                without leading zeros. Where intake_book alone wrote the ledger it is the id of the nearest file entry before
 *                the place
 * out            the output; one that is shorter than the line is 109. INTAKE_MOST_DISPUTE bytes hold every line
 *
 * The refusals, in order: 104, 105, 3, 108, 109. The first that applies is answered. On a refusal no byte of the output is
 * written; otherwise none beyond the line.
 *
 * Answers the number in the upper 32 bits and the line's length, with its byte 10, in the lower (see intake_number,
 * intake_value). */
uint64_t intake_dispute(uint64_t retailer, const uint8_t *distributors, size_t distributors_len, const struct intake_entry *run, size_t places,
                        size_t used, size_t place, const uint8_t *transaction, size_t transaction_len, const uint8_t *created,
                        size_t created_len, const uint8_t *file, size_t file_len, uint8_t *out, size_t out_len);

/* Reads one TBD transaction: its line, with its end, byte 10 or bytes 13 and 10, or without one. Writes nothing.
 *
 * line           the line's bytes. Number 2 where one of them is not 32 to 126, where the fields aren't eleven or the first
 *                isn't TBD, where there are no bytes, and where bytes follow the line's end; then number 3 where a field that
 *                is filled misses its type in Table 4-14. IDs take no minus; the Dispute Code, Number(4), does
 *
 * A line that intake_dispute wrote is read as its own fields. Whether a field that Table 4-14 calls mandatory is filled isn't
 * tested. */
struct intake_dispute_fields intake_read_dispute(const uint8_t *line, size_t line_len);

/* The day number of a date: its bytes, eight digits YYYYMMDD, of a day of 2000 to 2099. Answers the day in the lower 32 bits, 0
 * for 20000101 to INTAKE_LAST_DAY for 20991231; number 3 where the bytes are no date. */
uint64_t intake_day(const uint8_t *date, size_t date_len);

/* The amount in a field: missing where the field is empty, its value, or number 3. A field left blank and one that holds 0 are
 * told apart by filled alone: units is 0 in both. Writes nothing.
 *
 * field          the bytes of the field alone, without the commas around it or the line's end; no bytes where it is blank. A blank
 *                of spaces misses its type: number 3
 * precision, scale   those that the field's table in AUC Rule 004 gives it: 14 and 4 for Number(14,4), 4 and 0 for Number(4)
 *
 * "A Number(p,s) amount, with p at most 15, is an optional minus, 1 to p - s digits, then optionally a point and 1 to s digits."
 * So "12.5" as Number(11,2) has 1250 units, and "Minus zero is zero." A precision above 15 has no value: every filled field is
 * number 3 there, also one that intake_check takes. The same holds of a scale that isn't below its precision. An empty field is
 * missing, whatever the precision and the scale. */
struct intake_reading intake_amount(const uint8_t *field, size_t field_len, uint64_t precision, uint64_t scale);

/* The A5.24 code of a test of Table 5-1, in the lower 32 bits; number 107 where the number is no test that is run. For house
 * numbers, which have no code, that is 107 too. */
uint64_t intake_code(uint64_t test);

/* The refusal's number in an answer of intake_check, intake_dispute, intake_day or intake_code: 0 for none. */
static inline uint32_t intake_number(uint64_t answer) { return (uint32_t)(answer >> 32); }

/* The line, the length, the day or the code in such an answer. */
static inline uint32_t intake_value(uint64_t answer) { return (uint32_t)answer; }

#ifdef __cplusplus
}
#endif

#endif
