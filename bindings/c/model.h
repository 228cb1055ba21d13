/* What the parts of every.c for the key cabinet share: cabinet.c, old.c and histories.c. Keys, identities and requests by their
 * parts; a plain cabinet; the library's with the plain one beside it, all in model.c; and in no_cabinet.c what is none. */
#ifndef MODEL_H
#define MODEL_H

#include "expect.h"

enum {
    PLACES = OBSCURLANE_CABINET_PLACES,
    WIDTH = OBSCURLANE_CABINET_WIDTH,
    SIZE = OBSCURLANE_CABINET_SIZE,
    TVP_AT = OBSCURLANE_CABINET_TVP_AT,
    NUMBER_AT = OBSCURLANE_CABINET_NUMBER_AT,
    TVP_BYTES = NUMBER_AT - TVP_AT,
    EDGE = 16, /* so many bytes stand before what is lent, and behind it */
    MOST = 2 * SIZE,
    SUBJECTS = PLACES + 16 /* so many that `nth` has */
};

/* ---- keys, identities and requests, by their parts */

/* Whose key it is. */
struct subject {
    size_t kind; /* the identity's */
    const char *maker, *mid;
};

struct text {
    char bytes[ROOM];
    size_t len;
};

#define PRINT "320C265FDC769D3E"
#define GNT "20180120T090000Z"
#define EARLIER "20180120T085959Z"
#define LATER "20180120T090001Z"
#define START "19930101T000000Z" /* the TVP of a module of which no request was admitted */

/* An Expiry, and its number as HEX characters. */
struct number {
    const char *expiry, *bytes;
};

enum { NUMBERS = 16 };
extern const struct number numbers[NUMBERS];

/* The worked example's. */
extern const struct subject worked_module, worked_centre, worked_maker;

/* Subjects of every kind, which differ in the kind alone or in MID. */
struct subject nth(size_t n);

struct text identity_of(struct subject of, const char *gnt, const char *print);

/* A public key of this Subject and this Expiry; its Q is of this digit. */
struct text key_until(const char *expiry, struct subject of, const char *gnt, char digit, bool is_signed);

/* Q and Expiry go by the digit, so that keys of one Subject differ. */
struct text key_of(struct subject of, const char *gnt, char digit, bool is_signed);

/* A load request of this module, of which the identity has this GNT and this Fingerprint. */
struct text request_by(struct subject of, const char *gnt, const char *print, const char *tvp);

struct text as_text(const char *bytes);

/* ---- a plain cabinet, to hold the library's against: what is in each place, and its bytes */

struct held {
    bool is_there;
    bool is_old; /* the unsigned key of a module */
    struct subject of;
    char gnt[16 + 1];
    char tvp[16 + 1];
    int64_t expiry;
    struct text record;
};

struct model {
    struct held places[PLACES];
};

/* The place of this Subject's key, old or not, or PLACES. */
size_t place_of(const struct model *model, struct subject of);

size_t count_of(const struct model *model);

/* The number, the highest byte first. */
void write_number(uint8_t *place, int64_t number);

/* A record, zeros after it, a TVP and a number. */
void write_held(uint8_t *place, const char *record, size_t len, const char *tvp, int64_t number);

/* ---- the library's cabinet, with bytes around it that no call may touch; and the model beside it */

extern uint8_t lent[EDGE + MOST + EDGE];
extern uint8_t *const cabinet;
extern struct model beside;

/* The cabinet is that of the model, in every byte. */
void expect_model(void);

/* One bit changed anywhere in the request: it is refused for its kind or for its check. */
void expect_every_flip_refused(struct text request);

/* Empty, whatever the bytes were. */
void begin(uint8_t before);

/* All places have a key: nth(n) in place n. */
void fill(void);

/* Writes a key with its TVP and its number into place n, as it stands in bytes that were stored; no call is made. */
void lay(size_t n, struct subject of, const char *gnt, const struct text *record, const char *tvp);

/* The number alone, and that the cabinet is that of the model. */
void expect_put(struct subject of, const char *gnt, const struct text *record, uint8_t no);

/* A key that is not refused by itself: a module's is signed, and of the others those with the digit 1. */
void put(struct subject of, const char *gnt, char digit, uint8_t no);

/* What find and remove answer to bytes that are refused. */
void expect_refused_identity(const char *identity, size_t len, uint8_t no, uint8_t field);

/* This identity finds what the model has of its Subject. */
void find_by(struct subject of, const struct text *identity);

void find(struct subject of);

void take_out(struct subject of, uint8_t no);

/* What admit answers to this request of the module, the number alone; and that the cabinet is that of the model. */
void expect_admit(struct subject of, const struct text *request, const char *tvp, uint8_t no);

void admit(struct subject of, const char *tvp, uint8_t no);

void expect_tvp_in(size_t n, const char *tvp);

/* ---- what is no cabinet */

/* So many bytes of those that are lent are none: every call but the making one says so before all else, and leaves them. */
void expect_no_cabinet(size_t len);

/* With another byte in one place it is none; and it is one again. */
void expect_no_cabinet_with(size_t at, uint8_t byte);

/* It is none with this in place n, this TVP and this number. */
void expect_no_cabinet_from(size_t n, const char *record, size_t len, const char *tvp, int64_t number);

/* The same with a TVP that is right. */
void expect_no_cabinet_of(size_t n, const char *record, size_t len, int64_t number);

/* One more or less than the number of place n; zeros; the lowest byte first; of the other sign; every bit of it. And before it
 * bytes that are no zeros, or no digits of a TVP. */
void other_numbers(size_t n);

#endif
