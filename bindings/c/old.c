/* A part of every.c: old records in the key cabinet, which are unsigned keys of modules from when these were accepted. */
#include "model.h"
#include "worked.h"

#include <string.h>

/* The last GNT that there is, and the last TVP. */
#define LAST "99991231T235959Z"

/* The bytes of a cabinet of an earlier version, by its layout alone: the worked example's unsigned key in the first place, with
 * this TVP. */
static void begin_by_layout(const char *tvp)
{
    static const uint8_t number[] = {0x00, 0x00, 0x00, 0x3A, 0xD4, 0xB0, 0x0F, 0x3F}; /* of 99991231T115959Z */
    begin(0);
    memcpy(cabinet, WORKED_KEY_MODULE, strlen(WORKED_KEY_MODULE));
    memcpy(cabinet + 1000, tvp, 16);
    memcpy(cabinet + 1016, number, sizeof number);
    struct text record = as_text(WORKED_KEY_MODULE);
    static uint8_t written[WIDTH];
    memcpy(written, cabinet, WIDTH);
    lay(0, worked_module, GNT, &record, tvp);
    EXPECT(memcmp(cabinet, written, WIDTH) == 0);
    expect_model();
}

/* It is missing to who looks for it and to a request, whatever its TVP: 26 comes before 27. */
static void expect_missing(void)
{
    static const char *const tvps[] = {START, "19930101T000001Z", "20180125T150000Z", LAST};
    struct text identity = as_text(WORKED_ID_SM), request = as_text(WORKED_REQUEST);
    find_by(worked_module, &identity);
    obscurlane_place place = obscurlane_find_key(cabinet, SIZE, BYTES(WORKED_ID_SM));
    EXPECT(place.no == OBSCURLANE_NOT_THERE && place.field == 0 && place.start == 0 && place.len == 0);
    expect_admit(worked_module, &request, "20180125T150000Z", OBSCURLANE_NOT_THERE);
    for (size_t i = 0; i < COUNT_OF(tvps); i++) {
        admit(worked_module, tvps[i], OBSCURLANE_NOT_THERE);
    }
}

/* The worked example's key: its place is occupied, and it is not replaced by itself, by a key of the same GNT or of an earlier
 * one; by one of a later GNT it is, which takes over its place and its TVP. */
static void replaced(const char *tvp)
{
    struct text same = as_text(WORKED_KEY_MODULE), signed_key = as_text(WORKED_KEY_SIGNED);
    struct text unsigned_later = key_of(worked_module, LATER, '2', false);
    begin_by_layout(tvp);
    expect_missing();
    expect_put(worked_module, GNT, &same, OBSCURLANE_MODULE_UNSIGNED);
    expect_put(worked_module, LATER, &unsigned_later, OBSCURLANE_MODULE_UNSIGNED);
    expect_put(worked_module, GNT, &signed_key, OBSCURLANE_NOT_LATER);
    put(worked_module, EARLIER, '3', OBSCURLANE_NOT_LATER);
    put(worked_module, "00010101T000000Z", '3', OBSCURLANE_NOT_LATER);
    expect_missing();
    /* The lowest free place is the second. */
    put(worked_centre, GNT, '4', OBSCURLANE_ACCEPTED);
    EXPECT(place_of(&beside, worked_centre) == 1);
    put(worked_module, LATER, '5', OBSCURLANE_ACCEPTED);
    EXPECT(place_of(&beside, worked_module) == 0);
    expect_tvp_in(0, tvp);
    find(worked_module);
    EXPECT(obscurlane_find_key(cabinet, SIZE, BYTES(WORKED_ID_SM)).no == OBSCURLANE_ACCEPTED);
    EXPECT(obscurlane_count_keys(cabinet, SIZE).count == 2);
    /* It goes on as any other: after its TVP, and not by an unsigned key. */
    admit(worked_module, tvp, OBSCURLANE_TVP_NOT_LATER);
    if (strcmp(tvp, LAST) != 0) {
        admit(worked_module, LAST, OBSCURLANE_ACCEPTED);
    }
    struct text unsigned_last = key_of(worked_module, LAST, '6', false);
    expect_put(worked_module, LAST, &unsigned_last, OBSCURLANE_MODULE_UNSIGNED);
    expect_tvp_in(0, LAST);
}

/* Its place is all zeros afterwards, and a first put begins anew. */
static void taken_out(const char *tvp)
{
    struct text signed_key = as_text(WORKED_KEY_SIGNED), request = as_text(WORKED_REQUEST);
    begin_by_layout(tvp);
    take_out(worked_module, OBSCURLANE_ACCEPTED);
    EXPECT(are_zeros(cabinet, 0, SIZE));
    take_out(worked_module, OBSCURLANE_NOT_THERE);
    expect_put(worked_module, GNT, &signed_key, OBSCURLANE_ACCEPTED);
    expect_tvp_in(0, START);
    expect_admit(worked_module, &request, "20180125T150000Z", OBSCURLANE_ACCEPTED);
}

/* The numbers before: what is no identity, no request and no key is refused for that. */
static void refused_before(void)
{
    begin_by_layout(START);
    expect_refused_before_fields(WORKED_ID_SM, expect_refused_identity);
    expect_every_flip_refused(request_by(worked_module, GNT, PRINT, "20190101T000000Z"));
    char half[ROOM];
    size_t len = write_with(WORKED_KEY_MODULE, "|||", "|" WORKED_ID_MAKER "||", half);
    obscurlane_filed said = obscurlane_put_key(cabinet, SIZE, (const uint8_t *)half, len);
    EXPECT(said.no == OBSCURLANE_UNPAIRED && said.field == 0);
    expect_model();
}

/* A module's key in every third place, old and not, and of other kinds unsigned too, which are not old. */
static void fill_old(void)
{
    begin(0);
    for (size_t n = 0; n < PLACES; n++) {
        bool is_signed = nth(n).kind == OBSCURLANE_KIND_SMID && n % 2 == 0;
        struct text record = key_of(nth(n), GNT, '7', is_signed);
        lay(n, nth(n), GNT, &record, n % 4 == 0 ? START : "20180125T150000Z");
        EXPECT(beside.places[n].is_old == (nth(n).kind == OBSCURLANE_KIND_SMID && n % 2 == 1));
    }
    expect_model();
}

/* In a full cabinet they leave no place; each is replaced in its place, or goes out and leaves it free. */
static void full(void)
{
    fill_old();
    EXPECT(obscurlane_count_keys(cabinet, SIZE).count == PLACES);
    put(nth(PLACES), LATER, '8', OBSCURLANE_NO_PLACE);
    for (size_t n = 0; n < PLACES; n++) {
        find(nth(n));
        struct text unsigned_key = key_of(nth(n), LATER, '9', false);
        if (nth(n).kind == OBSCURLANE_KIND_SMID) {
            /* 28 comes before 24 and 25. */
            expect_put(nth(n), LATER, &unsigned_key, OBSCURLANE_MODULE_UNSIGNED);
            admit(nth(n), "20180125T150000Z", beside.places[n].is_old ? OBSCURLANE_NOT_THERE
                                              : n % 4 == 0            ? OBSCURLANE_ACCEPTED
                                                                      : OBSCURLANE_TVP_NOT_LATER);
        }
    }
    struct text other = key_of(nth(PLACES + 3), LATER, '9', false);
    EXPECT(nth(PLACES + 3).kind == OBSCURLANE_KIND_SMID);
    expect_put(nth(PLACES + 3), LATER, &other, OBSCURLANE_MODULE_UNSIGNED);
    for (size_t n = 1; n < PLACES; n += 6) {
        EXPECT(beside.places[n].is_old);
        put(nth(n), GNT, 'A', OBSCURLANE_NOT_LATER);
        put(nth(n), LATER, 'A', OBSCURLANE_ACCEPTED);
        EXPECT(place_of(&beside, nth(n)) == n && !beside.places[n].is_old);
        find(nth(n));
        admit(nth(n), "20180125T150000Z", OBSCURLANE_TVP_NOT_LATER);
        admit(nth(n), "20180125T150001Z", OBSCURLANE_ACCEPTED);
    }
    fill_old();
    for (size_t n = 1; n < PLACES; n += 6) {
        take_out(nth(n), OBSCURLANE_ACCEPTED);
        EXPECT(are_zeros(cabinet, n * WIDTH, (n + 1) * WIDTH));
        put(nth(PLACES + n / 6), LATER, 'B', OBSCURLANE_ACCEPTED);
        EXPECT(place_of(&beside, nth(PLACES + n / 6)) == n);
    }
}

/* Two of the same names, one of them old or both, in either order. */
static void twice(void)
{
    for (int which = 0; which < 3; which++) {
        struct text one = key_of(worked_module, GNT, '1', which == 1), other = key_of(worked_module, LATER, '2', which == 2);
        begin(0);
        lay(5, worked_module, GNT, &one, START);
        expect_model();
        static const size_t places[] = {0, 4, 6, PLACES - 1};
        for (size_t i = 0; i < COUNT_OF(places); i++) {
            expect_no_cabinet_of(places[i], other.bytes, other.len, seconds_in(other.bytes));
            expect_no_cabinet_of(places[i], one.bytes, one.len, seconds_in(one.bytes));
        }
        /* A centre's with the same Manufacturer and MID is another's. */
        const struct subject centre = {OBSCURLANE_KIND_KMCID, worked_module.maker, worked_module.mid};
        put(centre, GNT, '0', OBSCURLANE_ACCEPTED);
        find(centre);
    }
}

/* Its number and its TVP are held as those of any other record; so is every byte of it. */
static void damaged(void)
{
    static const char *const none[] = {"19921231T235959Z", "00010101T000000Z", "19930229T000000Z", "19930101t000000Z",
                                       "19930101T240000Z", "                ", "1993010100000000"};
    static const char zeros[TVP_BYTES] = {0};
    begin_by_layout("20180125T150000Z");
    const struct held *held = &beside.places[0];
    other_numbers(0);
    for (size_t i = 0; i < COUNT_OF(none); i++) {
        expect_no_cabinet_from(0, held->record.bytes, held->record.len, none[i], held->expiry);
    }
    expect_no_cabinet_from(0, held->record.bytes, held->record.len, zeros, held->expiry);
    for (size_t at = 0; at < TVP_AT; at++) {
        expect_no_cabinet_with(at, cabinet[at] ^ 1);
        expect_no_cabinet_with(at, 'A' + (uint8_t)(at % 2));
    }
    /* With one of Issuer and Signature it was never accepted. */
    char half[ROOM];
    size_t len = write_with(WORKED_KEY_MODULE, "|||", "|" WORKED_ID_MAKER "||", half);
    expect_no_cabinet_of(0, half, len, held->expiry);
    len = write_with(WORKED_KEY_SIGNED, "|" WORKED_ID_MAKER "|", "||", half);
    expect_no_cabinet_of(0, half, len, held->expiry);
    expect_model();
}

/* Whoever wants to know which of the keys are old gives the text in each place to the reading call: 28. */
static void told_apart(void)
{
    fill_old();
    for (size_t n = 0; n < PLACES; n++) {
        const uint8_t *place = cabinet + n * WIDTH;
        size_t len = (size_t)((const uint8_t *)memchr(place, 0, WIDTH) - place);
        uint8_t no = obscurlane_read_record(place, len).no;
        EXPECT(no == (beside.places[n].is_old ? OBSCURLANE_MODULE_UNSIGNED : OBSCURLANE_ACCEPTED));
    }
}

void call_for_old_records(void)
{
    static const char *const tvps[] = {START, "19930101T000001Z", "20180125T150000Z", LAST};
    for (size_t i = 0; i < COUNT_OF(tvps); i++) {
        replaced(tvps[i]);
        taken_out(tvps[i]);
    }
    refused_before();
    full();
    twice();
    damaged();
    told_apart();
}
