/*
 * clearing.h: the calls of the clearing ledger for Bill Ready and Prepay charges (document 01), its business-day
 * calendar and its removals (document 02, papers 1 and 2), proved and compiled to libclearing_c.a (`tools/library`, in
 * the repository's folder, writes it into target/staticlib/), for C and C++ on x86-64 Linux.
 *
 * Every function returns 0 if the call is carried out, else one of the causes below; then all that was lent to it for
 * writing (ledger, out, change, counts, place, amounts, written, weekday, day, found, result) holds what it held
 * before, but for the found of clearing_entry, which is always written. What is lent for reading (code, file, journal,
 * holidays, the ledger of a lookup) always stays as it is. Output past the bytes written is untouched. Nothing is kept
 * between calls, and nothing but what was lent is read or written. A call needs no heap. Stack: less than 8 KB for a
 * call, a lookup, the calendar, clearing_entry and clearing_ledger_table, 32 KB for clearing_table (measured), 192 KB
 * for clearing_notices (tested: 128,400 bytes of it are the buffer of the last notices, 41,000 its ledgers).
 *
 * Pointers may not be null, must be aligned for their type and may not overlap one another; a pointer with a length
 * must have that many elements, and for an empty one (length 0) any pointer that is not null will do.
 *
 * Numbers are whole: dates yyyymmdd, cents, Ccf. A number that is too wide for its field is refused (2).
 */
#ifndef CLEARING_H
#define CLEARING_H

#include <stddef.h>
#include <stdint.h>

#ifdef __cplusplus
extern "C" {
#endif

/* Lengths. */
#define CLEARING_WORDS 2564        /* words of a ledger: 4, then those of the places */
#define CLEARING_BILLS 128         /* places for bills */
#define CLEARING_PLACE_WORDS 20    /* words of a place */
#define CLEARING_RECORD_BYTES 321  /* a record of a supplier file or a notice */
#define CLEARING_NOTICE_BYTES 642  /* what a request or a cancel writes */
#define CLEARING_FILE_BYTES 64200  /* the longest supplier file */
#define CLEARING_TABLE_BYTES 10970 /* the longest table */
#define CLEARING_HOLIDAYS 64       /* the most holidays */

/* The first words of a ledger; then place i (from 0) begins at word CLEARING_PLACE(i). */
enum {
    CLEARING_TODAY = 0,
    CLEARING_NEXT_TRACKING = 1,     /* 1 to 999,999,999; 1,000,000,000 when used up */
    CLEARING_NEXT_CONFIRMATION = 2, /* the same */
    CLEARING_COUNT = 3              /* how many places hold a bill, from place 0 on, in order of first request */
};
#define CLEARING_PLACE(i) (4 + CLEARING_PLACE_WORDS * (i))

/*
 * The words of a place. A ledger is sound if each word is in its range, dates are dates (1900 to 2999; the removal date
 * may be 0), no account and key stand twice, the kind is 0 or the product's, that of a cancelled bill is 0, and applied
 * plus owed is the charge (kind 2). A place past the count holds no bill and bears on no answer; its words only keep to
 * the form: code words under 256, product 66 or 80, cancelled 0 or 1, kind 0 to 2, and 0 for amounts that the kind does
 * not use. After clearing_fresh every place has product 66 and zeros.
 */
enum {
    CLEARING_ACCOUNT = 0,       /* Customer Account Number, 12 digits */
    CLEARING_KEY = 1,           /* Bill Key, 4 digits */
    CLEARING_CODE = 2,          /* rate code, words 2 to 5: first, second, tens, ones as bytes; its C is not held */
    CLEARING_PRODUCT = 6,       /* 66 (B) Bill Ready, 80 (P) Prepay */
    CLEARING_SEQUENCE = 7,      /* 1 to 999 */
    CLEARING_REQUESTS = 8,      /* count of requests, 1 to the sequence */
    CLEARING_CANCELLED = 9,     /* 1 if cancelled, else 0 */
    CLEARING_TRACKING = 10,     /* Tracking ID, 1 to 999,999,999; from here to word 14: of the latest request */
    CLEARING_CONSUMPTION = 11,  /* Ccf, 10 digits */
    CLEARING_BILLING = 12,      /* Billing Date */
    CLEARING_FROM = 13,         /* From Date */
    CLEARING_SCHEDULED = 14,    /* Scheduled Date */
    CLEARING_KIND = 15,         /* posted amounts: 0 none, 1 Bill Ready, 2 Prepay */
    CLEARING_CHARGE = 16,       /* cents, 13 digits; 0 for kind 0 */
    CLEARING_APPLIED = 17,      /* cents; 0 for kinds 0 and 1 */
    CLEARING_OWED = 18,         /* cents; 0 for kinds 0 and 1, although a Bill Ready charge counts as owed */
    CLEARING_REMOVAL = 19       /* removal date; 0 if there is none */
};

/* What a call returns. */
enum {
    CLEARING_DONE = 0,
    CLEARING_OUTPUT_TOO_SHORT = 1,
    CLEARING_BAD_FIELD = 2, /* a bad argument, or words that are no sound ledger (fresh asks for their number only) */
    CLEARING_LEDGER_FULL = 3,
    CLEARING_NO_SUCH_BILL = 4,
    CLEARING_BILL_CANCELLED = 5,
    CLEARING_NOT_THE_BILLS = 6, /* rate code or product */
    CLEARING_CONSUMPTION_UNCHANGED = 7,
    CLEARING_LAST_SEQUENCE = 8, /* sequence 999 at a request */
    CLEARING_SCHEDULED_BEFORE_TODAY = 9,
    CLEARING_DATE_NOT_AFTER_TODAY = 10,
    CLEARING_BAD_FILE = 11,
    CLEARING_NUMBERS_USED_UP = 12,
    CLEARING_BAD_ENTRY = 13,      /* of a journal; clearing_table and clearing_notices give it in result[1] only */
    CLEARING_BAD_HOLIDAYS = 14,   /* they do not strictly rise, are over CLEARING_HOLIDAYS, or one is no date */
    CLEARING_NO_BUSINESS_DAY = 15 /* so far on, up to 29991231 */
};

/*
 * The calls that change a ledger. What each may be refused for stands in the order in which it is asked. They share:
 *   ledger, ledger_len  the ledger; any length but CLEARING_WORDS is refused (2)
 *   account, key        the bill: Customer Account Number (12 digits) and Bill Key (4)
 *   out, out_len        where notices are written
 *   change              new posted total minus old, in cents
 *   counts              bytes written, groups accepted, groups rejected, bills closed; 0 where the call has none
 */

/* Fresh: whatever the ledger held is gone, any words will do. today: a date; tracking and confirmation: the next
   numbers, 1 to 999,999,999. Refused: 2. */
uint64_t clearing_fresh(uint64_t *ledger, size_t ledger_len, uint64_t today, uint64_t tracking, uint64_t confirmation,
                        int64_t *change, uint64_t counts[4]);

/* Request: writes a BIL (CLEARING_NOTICE_BYTES bytes). code: as in "ZZC40"; product: 'B' or 'P'; billing, from and
   scheduled: dates; consumption: Ccf, 10 digits. Refused: 2, 1, 9, then 5, 6, 7, 8 (known bill) or 3 (new), 12. */
uint64_t clearing_request(uint64_t *ledger, size_t ledger_len, const uint8_t code[5], uint64_t account, uint64_t key,
                          uint8_t product, uint64_t billing, uint64_t from, uint64_t consumption, uint64_t scheduled,
                          uint8_t *out, size_t out_len, int64_t *change, uint64_t counts[4]);

/* Request by calendar: a request whose Scheduled Date is the business day so many (number, 0 to 9) further on from the
   ledger's today, as clearing_business_day finds it with these holidays; it leaves and writes what clearing_request
   with that date does, and a journal holds that request. Refused: 2 (also for a number over 9), 14, 15, 1, then 5, 6,
   7, 8 (known bill) or 3 (new), 12. */
uint64_t clearing_request_by_calendar(uint64_t *ledger, size_t ledger_len, const uint8_t code[5], uint64_t account,
                                      uint64_t key, uint8_t product, uint64_t billing, uint64_t from,
                                      uint64_t consumption, uint64_t number, const uint64_t *holidays,
                                      size_t holidays_len, uint8_t *out, size_t out_len, int64_t *change,
                                      uint64_t counts[4]);

/* File: decides the groups of a supplier file (its bytes, CLEARING_FILE_BYTES at most) in order and writes an ACF or
   REJ for each. A SUP gets BR12 from the day after the anniversary of the Billing Date on, BR13 from day 61 after the
   removal date on. out_len must be file_len or more, although less may be written. Refused: 2, 11, 1, 12. */
uint64_t clearing_file(uint64_t *ledger, size_t ledger_len, const uint8_t *file, size_t file_len, uint8_t *out,
                       size_t out_len, int64_t *change, uint64_t counts[4]);

/* Cancel: marks a bill, its posted amounts become none; writes a CXL (CLEARING_NOTICE_BYTES bytes).
   Refused: 2, 1, 4, 5, 12. */
uint64_t clearing_cancel(uint64_t *ledger, size_t ledger_len, uint64_t account, uint64_t key, uint8_t *out,
                         size_t out_len, int64_t *change, uint64_t counts[4]);

/* Close of day: today, a date, becomes the ledger's; counts[3]: bills that were open before and are not after.
   Refused: 2, 10. */
uint64_t clearing_close(uint64_t *ledger, size_t ledger_len, uint64_t today, int64_t *change, uint64_t counts[4]);

/* Removal: the date becomes the removal date of all bills of the account, cancelled and issued ones too; any date will
   do. It writes nothing and uses no number; change and counts are 0. Refused: 2, 4 (the account has no bill). */
uint64_t clearing_removal(uint64_t *ledger, size_t ledger_len, uint64_t account, uint64_t date, int64_t *change,
                          uint64_t counts[4]);

/* The lookups read the ledger and leave it alone. */

/* place: that of the account's open bill with the earliest Scheduled Date, from 0; of equals the one first requested,
   which is the lowest place. Refused: 2, 4 (the account has no open bill). */
uint64_t clearing_open_bill(const uint64_t *ledger, size_t ledger_len, uint64_t account, uint64_t *place);

/* amounts: charge, applied and owed of one bill; zeros for none, owed the charge for Bill Ready. Refused: 2, 4. */
uint64_t clearing_amounts(const uint64_t *ledger, size_t ledger_len, uint64_t account, uint64_t key,
                          uint64_t amounts[3]);

/* The posted table of the ledger: heading, a line a bill, total, as clearing_table writes it, but without `stopped,13`.
   written: its bytes. Refused: 2, 1 for out_len under CLEARING_TABLE_BYTES. */
uint64_t clearing_ledger_table(const uint64_t *ledger, size_t ledger_len, uint8_t *out, size_t out_len,
                               uint64_t *written);

/*
 * The calendar reads no ledger. Saturdays, Sundays and the holidays lent are no business days. Its functions share:
 *   date                    where the count begins: a date
 *   holidays, holidays_len  dates that strictly rise, CLEARING_HOLIDAYS at most, before the date or after; else 14
 *   day                     the date found
 */

/* weekday: that of the date, 1 Monday to 7 Sunday. Refused: 2. */
uint64_t clearing_weekday(uint64_t date, uint64_t *weekday);

/* The next business day: the first one after the date. Refused: 2, 14, 15. */
uint64_t clearing_next_business_day(uint64_t date, const uint64_t *holidays, size_t holidays_len, uint64_t *day);

/* The business day so many (number, 0 to 9) further on: the least date from the date on, with exactly that many
   business days after the date up to it, so 0 gives the date itself. Refused: 2 (no date, a number over 9), 14
   (whatever the number is), 15. */
uint64_t clearing_business_day(uint64_t date, uint64_t number, const uint64_t *holidays, size_t holidays_len,
                               uint64_t *day);

/*
 * One entry of a journal, so that a program can stream one of any length: makes the call of the entry that begins the
 * bytes lent, before which `seen` entries came (0: it is the first). found is always written:
 *   found[0]  the bytes of the entry (3 and its body), after which the next begins; 0 if no whole good entry is there
 *   found[1]  1 if the bytes end before the entry does: lend more of the journal (at its end, it is cut short); else 0
 * Refused: 13 if found[0] is 0: the entry is cut short, or it is bad and stops the journal (an unknown tag, a wrong
 * length, tag 0 elsewhere than first or another first, seen at 1,000,000,000 or over, which the first three bytes show,
 * or a fresh that is refused). Else what the entry's call is refused for on this ledger and this output; a body whose
 * fields are not digits is 2. A journal's calls have CLEARING_FILE_BYTES of output, which is always enough; a refused
 * call is passed over. A good fresh reads no ledger, but asks for its length (2).
 */
uint64_t clearing_entry(uint64_t *ledger, size_t ledger_len, const uint8_t *journal, size_t journal_len, uint64_t seen,
                        uint8_t *out, size_t out_len, int64_t *change, uint64_t counts[4], uint64_t found[2]);

/*
 * Whole journals (their bytes). A bad entry stops a journal, and what came before it counts: the call is carried out
 * (0) all the same. result: bytes written; 13 if a bad entry stopped it, it is empty or its fresh was refused, else 0.
 */

/* The posted table, which ends in `stopped,13` if result[1] is 13. Refused: 1 for out_len under CLEARING_TABLE_BYTES. */
uint64_t clearing_table(const uint8_t *journal, size_t journal_len, uint8_t *out, size_t out_len, uint64_t result[2]);

/* The notices of every call carried out, one after another. Refused: 1 for out_len under their length. An output of
   CLEARING_NOTICE_BYTES for each request and cancel and the length of each file in the journal is always long enough,
   and is written in one pass; for a shorter one the notices are measured first, which makes the calls twice. */
uint64_t clearing_notices(const uint8_t *journal, size_t journal_len, uint8_t *out, size_t out_len, uint64_t result[2]);

#ifdef __cplusplus
}
#endif

#endif
