/* A part of every.c: what cabinet.c, old.c and histories.c share. */
#include "model.h"
#include "worked.h"

#include <stdio.h>
#include <string.h>

/* ---- keys, identities and requests, by their parts */

const struct subject worked_module = {OBSCURLANE_KIND_SMID, "Prism", "06000001"};
const struct subject worked_centre = {OBSCURLANE_KIND_KMCID, "sts-KeyAgreement-1.2", "TEST1"};
const struct subject worked_maker = {OBSCURLANE_KIND_SMMAN, "Prism", "A"};

static const char *mid_of(size_t n)
{
    static char mids[SUBJECTS][9];
    (void)snprintf(mids[n], sizeof mids[n], "%08u", (unsigned)n);
    return mids[n];
}

struct subject nth(size_t n)
{
    return (struct subject){n % 3, "Prism", mid_of(n / 3)};
}

struct text identity_of(struct subject of, const char *gnt, const char *print)
{
    struct text made;
    int len = snprintf(made.bytes, sizeof made.bytes, "%s:%s:%s:%s:%s:0000", obscurlane_kind_name(of.kind), of.maker, of.mid,
                       gnt, print);
    made.len = (size_t)len;
    seal(made.bytes, made.len);
    return made;
}

const struct number numbers[NUMBERS] = {
    {"20310110T120000Z", "00000000478608C0"}, {"99991231T115959Z", "0000003AD4B00F3F"},
    {"19930101T000000Z", "0000000000000000"}, {"19921231T235959Z", "FFFFFFFFFFFFFFFF"},
    {"00010101T000000Z", "FFFFFFF15D2A7F80"}, {"99991231T235959Z", "0000003AD4B0B7FF"},
    {"19930101T000001Z", "0000000000000001"}, {"19700101T000000Z", "FFFFFFFFD4BC7680"},
    {"20000229T000000Z", "000000000D778280"}, {"19921231T235543Z", "FFFFFFFFFFFFFEFF"},
    {"19930101T000416Z", "0000000000000100"}, {"24000229T000000Z", "00000002FDD7DC00"},
    {"20610119T031408Z", "0000000080000000"}, {"19241213T204551Z", "FFFFFFFF7FFFFFFF"},
    {"21290207T062816Z", "0000000100000000"}, {"19000301T000000Z", "FFFFFFFF515FC080"},
};

struct text key_until(const char *expiry, struct subject of, const char *gnt, char digit, bool is_signed)
{
    char digits[192 + 1];
    memset(digits, digit, sizeof digits - 1);
    digits[sizeof digits - 1] = '\0';
    struct text subject = identity_of(of, gnt, PRINT), made;
    const char *kind = of.kind == OBSCURLANE_KIND_SMMAN ? "PK.ECDSA.1" : "PK.ECDH.1";
    int len = snprintf(made.bytes, sizeof made.bytes, "%s|%s|04%s|%s|%s|%s|0000", kind, subject.bytes, digits, expiry,
                       is_signed ? WORKED_ID_MAKER : "", is_signed ? digits : "");
    made.len = (size_t)len;
    seal(made.bytes, made.len);
    return made;
}

struct text key_of(struct subject of, const char *gnt, char digit, bool is_signed)
{
    static const char digits[] = "0123456789ABCDEF";
    return key_until(numbers[strchr(digits, digit) - digits].expiry, of, gnt, digit, is_signed);
}

struct text request_by(struct subject of, const char *gnt, const char *print, const char *tvp)
{
    char digits[192 + 1];
    memset(digits, '7', sizeof digits - 1);
    digits[sizeof digits - 1] = '\0';
    struct text id_sm = identity_of(of, gnt, print), made;
    int len = snprintf(made.bytes, sizeof made.bytes, "VKLOAD.REQ.1|%s|%s|%s|Prism-VSM-1|STS6-001|04%s|%.48s|0000", id_sm.bytes,
                       WORKED_ID_KMC, tvp, digits, digits);
    made.len = (size_t)len;
    seal(made.bytes, made.len);
    return made;
}

struct text as_text(const char *bytes)
{
    struct text made;
    made.len = strlen(bytes);
    memcpy(made.bytes, bytes, made.len + 1);
    return made;
}

/* ---- a plain cabinet */

static bool is_same(struct subject a, struct subject b)
{
    return a.kind == b.kind && strcmp(a.maker, b.maker) == 0 && strcmp(a.mid, b.mid) == 0;
}

size_t place_of(const struct model *model, struct subject of)
{
    size_t place = 0;
    while (place < PLACES && !(model->places[place].is_there && is_same(model->places[place].of, of))) {
        place++;
    }
    return place;
}

static size_t free_place(const struct model *model)
{
    size_t place = 0;
    while (place < PLACES && model->places[place].is_there) {
        place++;
    }
    return place;
}

size_t count_of(const struct model *model)
{
    size_t count = 0;
    for (size_t i = 0; i < PLACES; i++) {
        count += model->places[i].is_there;
    }
    return count;
}

/* Issuer and Signature of a module's key are empty. */
static bool is_unsigned(struct subject of, const struct text *record)
{
    return of.kind == OBSCURLANE_KIND_SMID && strstr(record->bytes, "|||") != NULL;
}

/* All but the TVP. */
static void hold(struct held *held, struct subject of, const char *gnt, const struct text *record)
{
    held->is_there = true;
    held->is_old = is_unsigned(of, record);
    held->of = of;
    memcpy(held->gnt, gnt, sizeof held->gnt);
    held->expiry = seconds_in(record->bytes);
    held->record = *record;
}

static uint8_t put_there(struct model *model, struct subject of, const char *gnt, const struct text *record)
{
    if (is_unsigned(of, record)) {
        return OBSCURLANE_MODULE_UNSIGNED;
    }
    size_t place = place_of(model, of);
    if (place < PLACES && strcmp(gnt, model->places[place].gnt) <= 0) {
        return OBSCURLANE_NOT_LATER;
    }
    bool is_first = place == PLACES;
    place = is_first ? free_place(model) : place;
    if (place == PLACES) {
        return OBSCURLANE_NO_PLACE;
    }
    hold(&model->places[place], of, gnt, record);
    if (is_first) {
        memcpy(model->places[place].tvp, START, sizeof model->places[place].tvp);
    }
    return OBSCURLANE_ACCEPTED;
}

static uint8_t remove_there(struct model *model, struct subject of)
{
    size_t place = place_of(model, of);
    if (place == PLACES) {
        return OBSCURLANE_NOT_THERE;
    }
    model->places[place].is_there = false;
    return OBSCURLANE_ACCEPTED;
}

static uint8_t admit_there(struct model *model, struct subject of, const char *tvp)
{
    size_t place = place_of(model, of);
    if (place == PLACES || model->places[place].is_old) {
        return OBSCURLANE_NOT_THERE;
    }
    struct held *held = &model->places[place];
    if (strcmp(tvp, held->tvp) <= 0) {
        return OBSCURLANE_TVP_NOT_LATER;
    }
    memcpy(held->tvp, tvp, sizeof held->tvp);
    return OBSCURLANE_ACCEPTED;
}

void write_number(uint8_t *place, int64_t number)
{
    for (int i = 0; i < 8; i++) {
        place[NUMBER_AT + i] = (uint8_t)((uint64_t)number >> (56 - 8 * i));
    }
}

void write_held(uint8_t *place, const char *record, size_t len, const char *tvp, int64_t number)
{
    memset(place, 0, WIDTH);
    memcpy(place, record, len);
    memcpy(place + TVP_AT, tvp, TVP_BYTES);
    write_number(place, number);
}

static void write_image(const struct model *model, uint8_t image[SIZE])
{
    memset(image, 0, SIZE);
    for (size_t i = 0; i < PLACES; i++) {
        const struct held *held = &model->places[i];
        if (held->is_there) {
            write_held(image + i * WIDTH, held->record.bytes, held->record.len, held->tvp, held->expiry);
        }
    }
}

/* ---- the library's cabinet, and the model beside it */

uint8_t lent[EDGE + MOST + EDGE];
uint8_t *const cabinet = lent + EDGE;
struct model beside;

void expect_model(void)
{
    static uint8_t image[SIZE];
    write_image(&beside, image);
    EXPECT(memcmp(cabinet, image, SIZE) == 0);
    EXPECT(untouched(lent, 0, EDGE) && untouched(lent, EDGE + SIZE, sizeof lent));
    obscurlane_filed said = obscurlane_check_cabinet(cabinet, SIZE);
    EXPECT(said.no == OBSCURLANE_ACCEPTED && said.field == 0);
    obscurlane_counted counted = obscurlane_count_keys(cabinet, SIZE);
    EXPECT(counted.no == OBSCURLANE_ACCEPTED && counted.count == count_of(&beside));
}

void begin(uint8_t before)
{
    memset(lent, UNTOUCHED, sizeof lent);
    memset(cabinet, before, SIZE);
    memset(&beside, 0, sizeof beside);
    obscurlane_filed said = obscurlane_make_cabinet(cabinet, SIZE);
    EXPECT(said.no == OBSCURLANE_ACCEPTED && said.field == 0);
    EXPECT(are_zeros(cabinet, 0, SIZE));
}

void lay(size_t n, struct subject of, const char *gnt, const struct text *record, const char *tvp)
{
    struct held *held = &beside.places[n];
    hold(held, of, gnt, record);
    memcpy(held->tvp, tvp, sizeof held->tvp);
    write_held(cabinet + n * WIDTH, record->bytes, record->len, tvp, held->expiry);
}

void expect_put(struct subject of, const char *gnt, const struct text *record, uint8_t no)
{
    EXPECT(put_there(&beside, of, gnt, record) == no);
    obscurlane_filed said = obscurlane_put_key(cabinet, SIZE, (const uint8_t *)record->bytes, record->len);
    EXPECT(said.no == no && said.field == 0);
    expect_model();
}

void put(struct subject of, const char *gnt, char digit, uint8_t no)
{
    struct text record = key_of(of, gnt, digit, digit == '1' || of.kind == OBSCURLANE_KIND_SMID);
    expect_put(of, gnt, &record, no);
}

void expect_refused_identity(const char *identity, size_t len, uint8_t no, uint8_t field)
{
    const uint8_t *bytes = (const uint8_t *)identity;
    obscurlane_place place = obscurlane_find_key(cabinet, SIZE, bytes, len);
    EXPECT(place.no == no && place.field == field && place.start == 0 && place.len == 0);
    obscurlane_filed said = obscurlane_remove_key(cabinet, SIZE, bytes, len);
    EXPECT(said.no == no && said.field == field);
    expect_model();
}

void find_by(struct subject of, const struct text *identity)
{
    size_t place = place_of(&beside, of);
    if (place == PLACES) {
        expect_refused_identity(identity->bytes, identity->len, OBSCURLANE_NOT_THERE, 0);
        return;
    }
    obscurlane_place found = obscurlane_find_key(cabinet, SIZE, (const uint8_t *)identity->bytes, identity->len);
    if (beside.places[place].is_old) {
        EXPECT(found.no == OBSCURLANE_NOT_THERE && found.field == 0 && found.start == 0 && found.len == 0);
        return;
    }
    const struct text *record = &beside.places[place].record;
    EXPECT(found.no == OBSCURLANE_ACCEPTED && found.field == 0);
    EXPECT(found.start == place * WIDTH && found.len == record->len);
    EXPECT(memcmp(cabinet + found.start, record->bytes, record->len) == 0);
}

void find(struct subject of)
{
    struct text identity = identity_of(of, GNT, PRINT);
    find_by(of, &identity);
}

void take_out(struct subject of, uint8_t no)
{
    struct text identity = identity_of(of, "19930101T000000Z", "0000000000000000");
    EXPECT(remove_there(&beside, of) == no);
    obscurlane_filed said = obscurlane_remove_key(cabinet, SIZE, (const uint8_t *)identity.bytes, identity.len);
    EXPECT(said.no == no && said.field == 0);
    expect_model();
    find(of);
}

void expect_admit(struct subject of, const struct text *request, const char *tvp, uint8_t no)
{
    EXPECT(admit_there(&beside, of, tvp) == no);
    obscurlane_filed said = obscurlane_admit(cabinet, SIZE, (const uint8_t *)request->bytes, request->len);
    EXPECT(said.no == no && said.field == 0);
    expect_model();
}

void admit(struct subject of, const char *tvp, uint8_t no)
{
    struct text request = request_by(of, GNT, PRINT, tvp);
    expect_admit(of, &request, tvp, no);
}

void expect_tvp_in(size_t n, const char *tvp)
{
    EXPECT(memcmp(cabinet + n * WIDTH + TVP_AT, tvp, TVP_BYTES) == 0);
}

void fill(void)
{
    begin(0);
    for (size_t n = 0; n < PLACES; n++) {
        put(nth(n), GNT, n % 2 == 0 ? '0' : '1', OBSCURLANE_ACCEPTED);
        EXPECT(place_of(&beside, nth(n)) == n);
    }
}

void expect_every_flip_refused(struct text request)
{
    for (size_t at = 0; at < request.len; at++) {
        request.bytes[at] ^= 1;
        obscurlane_filed said = obscurlane_admit(cabinet, SIZE, (const uint8_t *)request.bytes, request.len);
        EXPECT(said.no >= OBSCURLANE_UNKNOWN_KIND && said.no <= OBSCURLANE_WRONG_CHECK && said.field == 0);
        request.bytes[at] ^= 1;
    }
}
