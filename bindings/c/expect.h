/* What the files of the test of every function share: every.c, samples.c, wrapped.c, unsigned.c, hashes.c, confirmations.c,
 * sha1.c, trailed.c, flips.c, mail.c, dates.c, model.c, no_cabinet.c, cabinet.c, old.c, histories.c and parts.c. */
#ifndef EXPECT_H
#define EXPECT_H

#include "obscurlane.h"

/* A text as a pointer and its length, without its final zero. */
#define BYTES(text) (const uint8_t *)(text), (sizeof(text) - 1)

#define COUNT_OF(array) (sizeof(array) / sizeof(array)[0])

#define EXPECT(holds) expect((holds), #holds, __FILE__, __LINE__)

/* What stands in a lent output before a call. */
#define UNTOUCHED 0xA5

/* Room for a record of more bytes than are read; and for such a one in a manufacturer's line. */
enum { ROOM = OBSCURLANE_LONGEST_READ + 16, LINE_ROOM = ROOM + 2 * OBSCURLANE_TRAILER + 1 };

/* A published example of a hash. */
struct published {
    const char *message;
    const char *hash;
};

/* Counts the comparison, and ends the program where it does not hold. */
void expect(bool holds, const char *what, const char *file, int line);

/* Every byte from `from` to before `to` is as it was lent. */
bool untouched(const uint8_t *out, size_t from, size_t to);

/* Every byte from `from` to before `to` is zero. */
bool are_zeros(const uint8_t *bytes, size_t from, size_t to);

/* The bytes are those of the HEX characters. */
bool are_digits_of(const uint8_t *bytes, size_t len, const char *digits);

bool are_same_lines(obscurlane_line a, obscurlane_line b);

/* What `below` draws from here on depends on the seed alone, which is not 0. */
void draw_from(uint32_t seed);

/* A number below the limit. No expression draws two, so that all compilers draw alike. */
size_t below(size_t limit);

/* Makes the check at the end of a record or identity right. */
void seal(char *text, size_t len);

/* The record with one text in the place of another, and its identities' checks and its own made right again; its length. */
size_t write_with(const char *record, const char *old, const char *with, char out[ROOM]);

/* Whether the bytes begin with the name of a public key's kind and its mark. */
bool is_named_as_key(const char *record, size_t len);

/* The seconds from 19930101T000000Z to a TIMESTAMP, counted year by year and month by month. */
int64_t seconds_of(const char *timestamp);

/* The same of Expiry of a public key, whatever else is wrong with it. */
int64_t seconds_in(const char *key);

/* Expects of a record, or of what is none, that it is refused with this number and this field's, or accepted with 0. */
typedef void expect_number(const char *record, size_t len, uint8_t no, uint8_t field);

/* The numbers that do not depend on the fields: of bytes that begin with the record and are longer than is read, of those
 * without a check at their end, of none at all, and of the record with another check. */
void expect_refused_before_fields(const char *record, expect_number *expect_refused);

/* The records of the worked example and of Appendix A that are accepted, and the manufacturer's key unsigned. */
enum { RECORDS = 14 };
extern const char *const records[RECORDS];

/* Expects what it shall of each of these records, of what is refused before its fields, of records with a fault in their
 * fields, and of identities, which are no records; with the number 0 for what is accepted. */
void expect_every_record(expect_number *expect_record);

/* A wrapped key of so many bytes, all of them permitted; its length. */
size_t write_wrapped_key(size_t len, char out[ROOM]);

/* Calls the functions for attributes, and those that read or build on wrapped keys. */
void call_for_wrapped_keys(void);

/* Gives the unsigned key of a module to every function that reads or builds it. */
void call_with_unsigned_keys(void);

/* Calls the functions for SHA-384 and for Fingerprints. */
void call_for_hashes(void);

/* Calls the functions for HMAC and for the tags that confirm a key agreement. */
void call_for_confirmations(void);

/* Calls the functions for SHA-1. */
void call_for_sha1(void);

/* Calls the functions for manufacturers' record files. */
void call_for_trailed_lines(void);

/* These bytes, a record or not, with the trailer that is right for them; the length of both. */
size_t write_line(const char *record, size_t len, char out[LINE_ROOM]);

/* Calls the functions that read records and files, of either form, with bits of them flipped. */
void call_with_flips(void);

/* Calls the functions for records by mail. */
void call_for_mail(void);

/* Calls the functions for dates as numbers. */
void call_for_dates(void);

/* Calls the functions for the centre's key cabinet; for one that has old records; and in long histories of calls. */
void call_for_cabinets(void);
void call_for_old_records(void);
void call_in_histories(void);

/* Calls the functions for the check, the text types and files, and those for names. */
void call_parts(void);

#endif
