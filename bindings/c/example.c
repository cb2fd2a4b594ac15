/* Document 01's example through the calls and lookups, its dates through the calendar, a SUP that is late after a
   removal, the open bills of an account as they fall due, then the example through the table and streamed entry by entry;
   prints what the calendar found, what the SUP got, the order of the bills, the table of the journal and that of the
   ledger which the entries left. Any other answer than expected ends it with status 1. */
#include "clearing.h"

#include <assert.h>
#include <stdio.h>
#include <string.h>

static_assert(CLEARING_PLACE(CLEARING_BILLS) == CLEARING_WORDS, "the places fill the ledger");
static_assert(CLEARING_REMOVAL == CLEARING_PLACE_WORDS - 1, "the last word of a place");
static_assert(CLEARING_NOTICE_BYTES == 2 * CLEARING_RECORD_BYTES, "a header and a detail");
static_assert(CLEARING_FILE_BYTES == 200 * CLEARING_RECORD_BYTES, "200 records");
static_assert(CLEARING_TABLE_BYTES == 56 + 128 * 85 + 23 + 11, "heading, lines, total, stopped");

static uint64_t ledger[CLEARING_WORDS];
static uint8_t out[CLEARING_TABLE_BYTES];
static int64_t change;
static uint64_t counts[4];

static int expect(const char *what, uint64_t got, uint64_t wanted) {
    if (got != wanted) {
        fprintf(stderr, "%s: got %llu, expected %llu\n", what, (unsigned long long)got, (unsigned long long)wanted);
    }
    return got == wanted;
}

/* Puts text at a position counted from 1. */
static void put(uint8_t *record, int position, const char *text) {
    memcpy(record + position - 1, text, strlen(text));
}

/* An RSP for the example's bill: 85 Ccf, 4250 cents, all of it in tier 1. */
static void make_file(uint8_t file[CLEARING_NOTICE_BYTES]) {
    uint8_t *header = file, *detail = file + CLEARING_RECORD_BYTES;
    memset(file, ' ', CLEARING_NOTICE_BYTES);
    header[CLEARING_RECORD_BYTES - 1] = detail[CLEARING_RECORD_BYTES - 1] = 13;
    put(header, 1, "34ZZC4012345678001900000000101RSP20171113");
    put(header, 42, "0000000002017111601");
    put(detail, 1, "34ZZC4012345678001900000000102RSP20171113");
    put(detail, 42, "00072017111300100000000850000000004250");
    memset(detail + 79, '0', 233 - 79);
    put(detail, 80, "20171013");
    put(detail, 95, "00000000850000000004250");
}

/* The journal of the same calls; returns its length. */
static size_t make_journal(uint8_t *journal, const uint8_t *file) {
    static const char fresh[] = "20171113000000001000000001";
    static const char request[] = "ZZC401234567800190007B2017111320171013000000008520171116";
    size_t length = 0;
    const struct { const void *body; size_t length; } entries[3] = {
        {fresh, sizeof fresh - 1}, {request, sizeof request - 1}, {file, CLEARING_NOTICE_BYTES}};
    for (uint8_t tag = 0; tag < 3; tag++) {
        journal[length] = tag;
        journal[length + 1] = (uint8_t)(entries[tag].length / 256);
        journal[length + 2] = (uint8_t)(entries[tag].length % 256);
        memcpy(journal + length + 3, entries[tag].body, entries[tag].length);
        length += 3 + entries[tag].length;
    }
    return length;
}

/* The words by their names, once the file is taken. */
static int try_words(void) {
    static const struct { const char *name; int word; uint64_t value; } words[] = {
        {"account", CLEARING_ACCOUNT, 123456780019}, {"key", CLEARING_KEY, 7}, {"first", CLEARING_CODE, 'Z'},
        {"tens", CLEARING_CODE + 2, '4'}, {"ones", CLEARING_CODE + 3, '0'}, {"product", CLEARING_PRODUCT, 'B'},
        {"sequence", CLEARING_SEQUENCE, 1}, {"requests", CLEARING_REQUESTS, 1}, {"cancelled", CLEARING_CANCELLED, 0},
        {"Tracking ID", CLEARING_TRACKING, 1}, {"consumption", CLEARING_CONSUMPTION, 85},
        {"Billing Date", CLEARING_BILLING, 20171113}, {"From Date", CLEARING_FROM, 20171013},
        {"Scheduled Date", CLEARING_SCHEDULED, 20171116}, {"kind", CLEARING_KIND, 1},
        {"charge", CLEARING_CHARGE, 4250}, {"applied", CLEARING_APPLIED, 0}, {"owed", CLEARING_OWED, 0},
        {"removal date", CLEARING_REMOVAL, 0}};
    int good = expect("today", ledger[CLEARING_TODAY], 20171113)
        && expect("next Tracking ID", ledger[CLEARING_NEXT_TRACKING], 2)
        && expect("next Confirmation Number", ledger[CLEARING_NEXT_CONFIRMATION], 3)
        && expect("count", ledger[CLEARING_COUNT], 1);
    for (size_t i = 0; i < sizeof words / sizeof words[0]; i++) {
        good = good && expect(words[i].name, ledger[CLEARING_PLACE(0) + words[i].word], words[i].value);
    }
    return good;
}

static int try_calls(const uint8_t *file) {
    const uint8_t code[5] = {'Z', 'Z', 'C', '4', '0'};
    const uint64_t account = 123456780019;
    uint64_t place = 99, amounts[3] = {9, 9, 9};
    return expect("fresh", clearing_fresh(ledger, CLEARING_WORDS, 20171113, 1, 1, &change, counts), CLEARING_DONE)
        && expect("request",
                  clearing_request(ledger, CLEARING_WORDS, code, account, 7, 'B', 20171113, 20171013, 85, 20171116, out,
                                   CLEARING_NOTICE_BYTES, &change, counts),
                  CLEARING_DONE)
        && expect("bytes of the BIL", counts[0], CLEARING_NOTICE_BYTES)
        && expect("file",
                  clearing_file(ledger, CLEARING_WORDS, file, CLEARING_NOTICE_BYTES, out, CLEARING_NOTICE_BYTES,
                                &change, counts),
                  CLEARING_DONE)
        && expect("accepted", counts[1], 1) && expect("change", (uint64_t)change, 4250)
        && expect("open bill", clearing_open_bill(ledger, CLEARING_WORDS, account, &place), CLEARING_DONE)
        && expect("place", place, 0)
        && expect("amounts", clearing_amounts(ledger, CLEARING_WORDS, account, 7, amounts), CLEARING_DONE)
        && expect("charge", amounts[0], 4250) && expect("applied", amounts[1], 0) && expect("owed", amounts[2], 4250)
        && try_words()
        && expect("close", clearing_close(ledger, CLEARING_WORDS, 20171117, &change, counts), CLEARING_DONE)
        && expect("closed", counts[3], 1)
        && expect("cancel",
                  clearing_cancel(ledger, CLEARING_WORDS, account, 7, out, CLEARING_NOTICE_BYTES, &change, counts),
                  CLEARING_DONE)
        && expect("change", (uint64_t)-change, 4250);
}

/* The example's dates: from Monday 13 November 2017 three business days on, also with the Wednesday a holiday, and a
   request that leaves its Scheduled Date to that calendar. */
static int try_calendar(void) {
    const uint8_t code[5] = {'Z', 'Z', 'C', '4', '0'};
    const uint64_t holidays[2] = {20171115, 20171123}, falling[2] = {20171123, 20171115};
    uint64_t weekday = 9, next = 9, third = 9, later = 9;
    uint64_t *scheduled = &ledger[CLEARING_PLACE(0) + CLEARING_SCHEDULED];
    int good = expect("weekday", clearing_weekday(20171113, &weekday), CLEARING_DONE)
        && expect("next business day", clearing_next_business_day(20171114, holidays, 2, &next), CLEARING_DONE)
        && expect("business day", clearing_business_day(20171113, 3, holidays, 0, &third), CLEARING_DONE)
        && expect("business day, a holiday", clearing_business_day(20171113, 3, holidays, 2, &later), CLEARING_DONE)
        && expect("falling holidays", clearing_business_day(20171113, 0, falling, 2, &later), CLEARING_BAD_HOLIDAYS)
        && expect("no business day", clearing_business_day(29991231, 1, holidays, 2, &later), CLEARING_NO_BUSINESS_DAY)
        && expect("fresh", clearing_fresh(ledger, CLEARING_WORDS, 20171113, 1, 1, &change, counts), CLEARING_DONE)
        && expect("request by calendar",
                  clearing_request_by_calendar(ledger, CLEARING_WORDS, code, 123456780019, 7, 'B', 20171113, 20171013,
                                               85, 3, holidays, 2, out, CLEARING_NOTICE_BYTES, &change, counts),
                  CLEARING_DONE)
        && expect("bytes of the BIL", counts[0], CLEARING_NOTICE_BYTES) && expect("Scheduled Date", *scheduled, later);
    printf("20171113: weekday %llu, three business days on %llu\n", (unsigned long long)weekday,
           (unsigned long long)third);
    printf("20171115 a holiday: after 20171114 comes %llu, three on from 20171113 is %llu\n", (unsigned long long)next,
           (unsigned long long)later);
    return good;
}

/* Closes the day and sends the example's group as a SUP. */
static int try_supplement(const uint8_t *file, uint64_t today) {
    uint8_t sent[CLEARING_NOTICE_BYTES];
    memcpy(sent, file, sizeof sent);
    put(sent, 31, "SUP");
    put(sent + CLEARING_RECORD_BYTES, 31, "SUP");
    put(sent + CLEARING_RECORD_BYTES, 54, "000");
    return expect("close", clearing_close(ledger, CLEARING_WORDS, today, &change, counts), CLEARING_DONE)
        && expect("file",
                  clearing_file(ledger, CLEARING_WORDS, sent, sizeof sent, out, sizeof sent, &change, counts),
                  CLEARING_DONE);
}

/* A removal: a SUP passes on day 60 after it and gets BR13 on day 61. */
static int try_removal(const uint8_t *file) {
    const uint8_t code[5] = {'Z', 'Z', 'C', '4', '0'};
    const uint64_t account = 123456780019;
    const char *rejected = (const char *)out + CLEARING_RECORD_BYTES + 259;
    int good = expect("fresh", clearing_fresh(ledger, CLEARING_WORDS, 20171113, 1, 1, &change, counts), CLEARING_DONE)
        && expect("removal, no bill", clearing_removal(ledger, CLEARING_WORDS, account, 20171101, &change, counts),
                  CLEARING_NO_SUCH_BILL)
        && expect("request",
                  clearing_request(ledger, CLEARING_WORDS, code, account, 7, 'B', 20171113, 20171013, 85, 20171116, out,
                                   CLEARING_NOTICE_BYTES, &change, counts),
                  CLEARING_DONE)
        && expect("removal", clearing_removal(ledger, CLEARING_WORDS, account, 20171101, &change, counts),
                  CLEARING_DONE)
        && expect("bytes of a removal", counts[0], 0)
        && expect("removal date", ledger[CLEARING_PLACE(0) + CLEARING_REMOVAL], 20171101)
        && try_supplement(file, 20171231) && expect("accepted", counts[1], 1)
        && try_supplement(file, 20180101) && expect("rejected", counts[2], 1);
    printf("removed on 20171101: a SUP passes on 20171231, on 20180101 it gets %.4s\n", rejected);
    return good;
}

/* Requests a bill of the example's account. */
static int request_due(uint64_t key, uint64_t scheduled) {
    const uint8_t code[5] = {'Z', 'Z', 'C', '4', '0'};
    return expect("request",
                  clearing_request(ledger, CLEARING_WORDS, code, 123456780019, key, 'B', 20171113, 20171013, 85,
                                   scheduled, out, CLEARING_NOTICE_BYTES, &change, counts),
                  CLEARING_DONE);
}

/* Three open bills, two of them due on the same day: each is cancelled once it was named, until there is none. */
static int try_due(void) {
    const uint64_t account = 123456780019, named[3] = {1, 2, 0};
    uint64_t place = 99;
    int good = expect("fresh", clearing_fresh(ledger, CLEARING_WORDS, 20171113, 1, 1, &change, counts), CLEARING_DONE)
        && request_due(7, 20171117) && request_due(8, 20171116) && request_due(9, 20171116);
    printf("due first:");
    for (size_t i = 0; i < 3; i++) {
        good = good
            && expect("open bill", clearing_open_bill(ledger, CLEARING_WORDS, account, &place), CLEARING_DONE)
            && expect("place", place, named[i])
            && expect("cancel",
                      clearing_cancel(ledger, CLEARING_WORDS, account, 7 + place, out, CLEARING_NOTICE_BYTES, &change,
                                      counts),
                      CLEARING_DONE);
        printf(" %04llu", (unsigned long long)ledger[CLEARING_PLACE(place) + CLEARING_KEY]);
    }
    printf("\n");
    return good
        && expect("no open bill", clearing_open_bill(ledger, CLEARING_WORDS, account, &place), CLEARING_NO_SUCH_BILL)
        && expect("place", place, 0);
}

/* Streams a journal, lending 100 bytes more of it where an entry is cut short. */
static int try_stream(const uint8_t *journal, size_t length) {
    uint64_t seen = 0, found[2] = {9, 9};
    size_t at = 0, lent = 0;
    memset(ledger, 0xff, sizeof ledger);
    while (at < length) {
        uint64_t answer = clearing_entry(ledger, CLEARING_WORDS, journal + at, lent - at, seen, out, sizeof out,
                                         &change, counts, found);
        if (answer == CLEARING_BAD_ENTRY && found[1] == 1 && lent < length) {
            lent = length - lent > 100 ? lent + 100 : length;
            continue;
        }
        if (!expect("entry", answer, CLEARING_DONE) || !expect("bytes after it", found[1], 0)) {
            return 0;
        }
        at += found[0];
        seen++;
    }
    return expect("entries", seen, 3) && expect("bytes of the ACF", counts[0], CLEARING_RECORD_BYTES)
        && expect("accepted", counts[1], 1) && expect("change", (uint64_t)change, 4250) && try_words()
        && expect("a second fresh",
                  clearing_entry(ledger, CLEARING_WORDS, journal, length, seen, out, sizeof out, &change, counts, found),
                  CLEARING_BAD_ENTRY)
        && expect("its bytes", found[0], 0) && expect("cut short", found[1], 0);
}

int main(void) {
    uint8_t file[CLEARING_NOTICE_BYTES], journal[1000];
    uint64_t result[2] = {9, 9}, written = 9;
    make_file(file);
    size_t length = make_journal(journal, file);
    if (!try_calls(file) || !try_calendar() || !try_removal(file) || !try_due()
        || !expect("notices", clearing_notices(journal, length, out, sizeof out, result), CLEARING_DONE)
        || !expect("bytes of the notices", result[0], 3 * CLEARING_RECORD_BYTES)
        || !expect("table", clearing_table(journal, length, out, sizeof out, result), CLEARING_DONE)
        || !expect("journal ended bad", result[1], 0)) {
        return 1;
    }
    fwrite(out, 1, result[0], stdout);
    if (!try_stream(journal, length)
        || !expect("ledger table", clearing_ledger_table(ledger, CLEARING_WORDS, out, sizeof out, &written),
                   CLEARING_DONE)) {
        return 1;
    }
    fwrite(out, 1, written, stdout);
    return 0;
}
