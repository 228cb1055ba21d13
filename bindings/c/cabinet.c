/* A part of every.c: the centre's key cabinet. */
#include "model.h"
#include "worked.h"

#include <stdio.h>
#include <string.h>

/* ---- the worked example's keys */

static void worked_keys(void)
{
    static const struct {
        const struct subject *of;
        const char *gnt, *record, *identity;
    } keys[] = {
        {&worked_module, "20180120T090000Z", WORKED_KEY_SIGNED, WORKED_ID_SM},
        {&worked_centre, "20180110T120000Z", WORKED_KEY_CENTRE, WORKED_ID_KMC},
        {&worked_maker, "20180115T140000Z", WORKED_KEY_MAKER, WORKED_ID_MAKER},
    };
    begin(0xFF);
    for (size_t i = 0; i < COUNT_OF(keys); i++) {
        struct text record = as_text(keys[i].record), identity = as_text(keys[i].identity);
        find_by(*keys[i].of, &identity);
        expect_put(*keys[i].of, keys[i].gnt, &record, OBSCURLANE_ACCEPTED);
        expect_put(*keys[i].of, keys[i].gnt, &record, OBSCURLANE_NOT_LATER);
        find_by(*keys[i].of, &identity);
    }
    /* The module's key without its maker's signature is refused, whether the other is there or not; one with the same GNT goes
     * in once the other is out. */
    struct text record = key_of(worked_module, GNT, '1', true), identity = as_text(WORKED_ID_SM);
    struct text unsigned_key = as_text(WORKED_KEY_MODULE);
    expect_put(worked_module, GNT, &unsigned_key, OBSCURLANE_MODULE_UNSIGNED);
    expect_put(worked_module, GNT, &record, OBSCURLANE_NOT_LATER);
    take_out(worked_module, OBSCURLANE_ACCEPTED);
    take_out(worked_module, OBSCURLANE_NOT_THERE);
    expect_put(worked_module, GNT, &unsigned_key, OBSCURLANE_MODULE_UNSIGNED);
    expect_put(worked_module, GNT, &record, OBSCURLANE_ACCEPTED);
    find_by(worked_module, &identity);
    EXPECT(obscurlane_find_key(cabinet, SIZE, BYTES(WORKED_ID_SM)).start == 0);
    EXPECT(obscurlane_count_keys(cabinet, SIZE).count == 3);
}

/* ---- all places */

static void full(void)
{
    fill();
    EXPECT(obscurlane_count_keys(cabinet, SIZE).count == PLACES);
    /* Another Subject has no place, whatever its GNT. */
    for (size_t n = PLACES; n < PLACES + 3; n++) {
        put(nth(n), EARLIER, '2', OBSCURLANE_NO_PLACE);
        put(nth(n), LATER, '2', OBSCURLANE_NO_PLACE);
    }
    /* One that is there is replaced in its place, by a later GNT alone. */
    for (size_t n = 0; n < PLACES; n += 7) {
        put(nth(n), EARLIER, '3', OBSCURLANE_NOT_LATER);
        put(nth(n), GNT, '3', OBSCURLANE_NOT_LATER);
        put(nth(n), LATER, '3', OBSCURLANE_ACCEPTED);
        put(nth(n), LATER, '4', OBSCURLANE_NOT_LATER);
        put(nth(n), GNT, '4', OBSCURLANE_NOT_LATER);
        EXPECT(place_of(&beside, nth(n)) == n);
        find(nth(n));
    }
    /* Each is found where it stands. */
    for (size_t n = 0; n < PLACES + 3; n++) {
        find(nth(n));
    }
    /* A place given up is used again, the lowest first; an earlier GNT is no hindrance to a first put. */
    take_out(nth(40), OBSCURLANE_ACCEPTED);
    take_out(nth(9), OBSCURLANE_ACCEPTED);
    put(nth(PLACES), EARLIER, '5', OBSCURLANE_ACCEPTED);
    EXPECT(place_of(&beside, nth(PLACES)) == 9);
    put(nth(9), EARLIER, '5', OBSCURLANE_ACCEPTED);
    EXPECT(place_of(&beside, nth(9)) == 40);
    put(nth(40), LATER, '5', OBSCURLANE_NO_PLACE);
    take_out(nth(PLACES), OBSCURLANE_ACCEPTED);
    put(nth(40), LATER, '5', OBSCURLANE_ACCEPTED);
    /* All of them out, and in again the other way round. */
    for (size_t n = 0; n < PLACES; n++) {
        take_out(nth(n * 27 % PLACES), OBSCURLANE_ACCEPTED);
    }
    EXPECT(are_zeros(cabinet, 0, SIZE));
    for (size_t n = PLACES; n-- > 0;) {
        put(nth(n), EARLIER, '6', OBSCURLANE_ACCEPTED);
        EXPECT(place_of(&beside, nth(n)) == PLACES - 1 - n);
    }
    put(nth(PLACES), LATER, '6', OBSCURLANE_NO_PLACE);
}

/* ---- records and identities that are refused, or of others */

static bool are_present; /* whether the cabinet has the keys of the samples; else it is full without them */

/* The record's own numbers come before 24 and 25; a record that is no public key is 2, after its length. */
static void expect_putting(const char *record, size_t len, uint8_t no, uint8_t field)
{
    if (len <= OBSCURLANE_LONGEST_READ && !is_named_as_key(record, len)) {
        no = OBSCURLANE_UNKNOWN_KIND;
        field = 0;
    } else if (no == OBSCURLANE_ACCEPTED) {
        no = are_present ? OBSCURLANE_NOT_LATER : OBSCURLANE_NO_PLACE;
    }
    obscurlane_filed said = obscurlane_put_key(cabinet, SIZE, (const uint8_t *)record, len);
    EXPECT(said.no == no && said.field == field);
    expect_model();
}

static void refused_records(void)
{
    fill();
    are_present = false;
    expect_every_record(expect_putting);
    /* And where the cabinet has the key of that Subject, with no earlier GNT. */
    begin(0);
    are_present = true;
    struct text module = as_text(WORKED_KEY_SIGNED), centre = as_text(WORKED_KEY_CENTRE), maker = as_text(WORKED_KEY_MAKER);
    expect_put(worked_module, "20180120T090000Z", &module, OBSCURLANE_ACCEPTED);
    expect_put(worked_centre, "20180110T120000Z", &centre, OBSCURLANE_ACCEPTED);
    expect_put(worked_maker, "20180115T140000Z", &maker, OBSCURLANE_ACCEPTED);
    expect_every_record(expect_putting);
}

/* An identity's own numbers come before 26, and it must be accepted also where its three names are there. */
static void refused_identities(void)
{
    static const struct {
        const char *old, *with;
        uint8_t no, field;
    } faults[] = {
        {"SMID.1:", "SMID.2:", OBSCURLANE_UNKNOWN_KIND, 0},
        {"SMID.1:", "SMID.1|", OBSCURLANE_UNKNOWN_KIND, 0},
        {":06000001:", ":", OBSCURLANE_WRONG_COUNT, 0},
        {":06000001:", ":06000001:06000001:", OBSCURLANE_WRONG_COUNT, 0},
        {":Prism:", "::", OBSCURLANE_WRONG_TEXT, OBSCURLANE_IDENTITY_MANUFACTURER},
        {":06000001:", ":-6000001:", OBSCURLANE_WRONG_TEXT, OBSCURLANE_IDENTITY_MID},
        {":2018", ":0000", OBSCURLANE_WRONG_TEXT, OBSCURLANE_IDENTITY_GNT},
        {":20180120T", ":20180231T", OBSCURLANE_WRONG_TEXT, OBSCURLANE_IDENTITY_GNT},
        {":320C", ":320c", OBSCURLANE_WRONG_TEXT, OBSCURLANE_IDENTITY_FINGERPRINT},
    };
    struct text record = as_text(WORKED_KEY_SIGNED);
    for (int is_there = 0; is_there <= 1; is_there++) {
        begin(0);
        if (is_there == 1) {
            expect_put(worked_module, GNT, &record, OBSCURLANE_ACCEPTED);
        }
        expect_refused_before_fields(WORKED_ID_SM, expect_refused_identity);
        for (size_t i = 0; i < COUNT_OF(faults); i++) {
            char identity[ROOM];
            size_t len = write_with(WORKED_ID_SM, faults[i].old, faults[i].with, identity);
            expect_refused_identity(identity, len, faults[i].no, faults[i].field);
        }
        for (size_t i = 0; i < RECORDS; i++) {
            expect_refused_identity(records[i], strlen(records[i]), OBSCURLANE_UNKNOWN_KIND, 0);
        }
    }
}

/* Subjects that are nearly the worked example's module. */
static const struct subject others[] = {
    {OBSCURLANE_KIND_KMCID, "Prism", "06000001"}, {OBSCURLANE_KIND_SMMAN, "Prism", "06000001"},
    {OBSCURLANE_KIND_SMID, "prism", "06000001"},  {OBSCURLANE_KIND_SMID, "Pris", "06000001"},
    {OBSCURLANE_KIND_SMID, "Prism0", "06000001"}, {OBSCURLANE_KIND_SMID, "Prism0", "6000001"},
    {OBSCURLANE_KIND_SMID, "Prism", "06000002"},  {OBSCURLANE_KIND_SMID, "Prism", "0600000"},
    {OBSCURLANE_KIND_SMID, "Prism", "060000011"}, {OBSCURLANE_KIND_SMID, "06000001", "Prism"},
    {OBSCURLANE_KIND_SMID, "P", "P"},             {OBSCURLANE_KIND_SMID, "Prism", "A2345678901234567890123456789012"},
};

/* What does not matter of an identity. */
static const char *const gnts[] = {"00010101T000000Z", EARLIER, GNT, LATER, "99991231T235959Z"};
static const char *const prints[] = {PRINT, "0000000000000000", "FFFFFFFFFFFFFFFF"};

/* Dates after GNT, each later than the one before by another digit. */
static const char *const ascending[] = {"20180120T090001Z", "20180120T090010Z", "20180120T090100Z", "20180120T091000Z",
                                        "20180120T100000Z", "20180121T000000Z", "20180201T000000Z", "20181001T000000Z",
                                        "20190101T000000Z", "20200101T000000Z", "21000101T000000Z", "30000101T000000Z"};

/* GNT and Fingerprint of the identity are ignored; another kind, Manufacturer or MID is another Subject. */
static void other_subjects(void)
{
    begin(0x55);
    put(worked_module, GNT, '0', OBSCURLANE_ACCEPTED);
    for (size_t i = 0; i < COUNT_OF(gnts); i++) {
        for (size_t j = 0; j < COUNT_OF(prints); j++) {
            struct text identity = identity_of(worked_module, gnts[i], prints[j]);
            find_by(worked_module, &identity);
        }
    }
    for (size_t i = 0; i < COUNT_OF(others); i++) {
        find(others[i]);
        take_out(others[i], OBSCURLANE_NOT_THERE);
    }
    /* Each has a place of its own, and goes out by itself. */
    for (size_t i = 0; i < COUNT_OF(others); i++) {
        put(others[i], i % 2 == 0 ? EARLIER : GNT, '2', OBSCURLANE_ACCEPTED);
        EXPECT(place_of(&beside, others[i]) == i + 1);
    }
    for (size_t i = 0; i < COUNT_OF(others); i++) {
        find(others[i]);
        find(worked_module);
        take_out(others[i], OBSCURLANE_ACCEPTED);
    }
    find(worked_module);
    /* Every digit of the GNT counts. */
    for (size_t i = 0; i < COUNT_OF(ascending); i++) {
        put(worked_module, ascending[i], '3', OBSCURLANE_ACCEPTED);
        put(worked_module, i == 0 ? GNT : ascending[i - 1], '4', OBSCURLANE_NOT_LATER);
        put(worked_module, ascending[i], '4', OBSCURLANE_NOT_LATER);
    }
}

/* ---- what is no cabinet */

/* Bytes that are not zero in a free place and behind a record; a TVP and a number that are damaged; a record that is cut,
 * moved, damaged or of another kind; and two of the same three names. */
static void damaged(void)
{
    static const uint8_t others[] = {1, '\n', ' ', '0', 'A', 'P', '|', 0x80, 0xFF};
    static const size_t in_place[] = {0, 1, 2, WIDTH / 2, WIDTH - 2, WIDTH - 1};
    begin(0);
    put(worked_module, GNT, '1', OBSCURLANE_ACCEPTED);
    put(worked_centre, GNT, '0', OBSCURLANE_ACCEPTED);
    const struct text module = beside.places[0].record, centre = beside.places[1].record;
    const int64_t centre_expiry = beside.places[1].expiry;
    for (size_t n = 2; n < PLACES; n++) {
        for (size_t i = 0; i < COUNT_OF(in_place); i++) {
            expect_no_cabinet_with(n * WIDTH + in_place[i], others[(n + i) % COUNT_OF(others)]);
        }
    }
    for (size_t at = centre.len; at < WIDTH; at++) {
        expect_no_cabinet_with(WIDTH + at, others[at % COUNT_OF(others)]);
    }
    for (size_t i = 0; i < COUNT_OF(others); i++) {
        expect_no_cabinet_with(WIDTH + centre.len, others[i]);
        expect_no_cabinet_with(2 * WIDTH, others[i]);
        expect_no_cabinet_with(SIZE - 1, others[i]);
    }
    for (size_t at = 0; at < module.len; at++) {
        expect_no_cabinet_with(at, 0);
        expect_no_cabinet_with(at, cabinet[at] ^ (uint8_t)(1U << at % 8));
        expect_no_cabinet_with(at, others[at % COUNT_OF(others)]);
    }
    expect_model();
    /* Cut, and with zeros in front. */
    for (size_t len = 1; len < centre.len; len++) {
        expect_no_cabinet_of(1, centre.bytes, len, centre_expiry);
        expect_no_cabinet_of(1, centre.bytes + len, centre.len - len, centre_expiry);
    }
    struct text moved = centre;
    memmove(moved.bytes + 1, moved.bytes, moved.len);
    moved.bytes[0] = '\0';
    expect_no_cabinet_of(1, moved.bytes, moved.len + 1, centre_expiry);
    const uint8_t last = cabinet[WIDTH - 1];
    memmove(cabinet + WIDTH - 1, cabinet + WIDTH, WIDTH);
    expect_no_cabinet(SIZE);
    memmove(cabinet + WIDTH, cabinet + WIDTH - 1, WIDTH);
    cabinet[WIDTH - 1] = last;
    /* Two in one place, and one twice. */
    struct text both = centre;
    memcpy(both.bytes + centre.len, module.bytes, module.len < ROOM - centre.len ? module.len : ROOM - centre.len);
    expect_no_cabinet_of(1, both.bytes, centre.len + 300, centre_expiry);
    static const size_t second[] = {2, 3, 31, PLACES - 1};
    for (size_t i = 0; i < COUNT_OF(second); i++) {
        expect_no_cabinet_of(second[i], centre.bytes, centre.len, centre_expiry);
        struct text later = key_of(worked_module, LATER, '7', true);
        expect_no_cabinet_of(second[i], later.bytes, later.len, seconds_in(later.bytes));
    }
    expect_model();
    /* Other records, identities, and public keys that are refused. */
    for (size_t i = 0; i < RECORDS; i++) {
        bool is_key = strncmp(records[i], "PK.", 3) == 0;
        struct text with_feed = as_text(records[i]);
        with_feed.bytes[with_feed.len] = '\n';
        expect_no_cabinet_of(PLACES - 1, with_feed.bytes, with_feed.len + 1, is_key ? seconds_in(records[i]) : 0);
        if (!is_key) {
            expect_no_cabinet_of(PLACES - 1, with_feed.bytes, with_feed.len, 0);
        }
    }
    expect_no_cabinet_of(PLACES - 1, WORKED_ID_MAKER, strlen(WORKED_ID_MAKER), 0);
    char refused[ROOM];
    size_t len = write_with(WORKED_KEY_MAKER, "|20210115T", "|20210230T", refused);
    expect_no_cabinet_of(PLACES - 1, refused, len, 0);
    expect_no_cabinet_of(PLACES - 1, refused, len, seconds_in(refused));
    len = write_with(WORKED_KEY_MAKER, "|SMMAN.1:", "|SMID.1:", refused);
    expect_no_cabinet_of(PLACES - 1, refused, len, seconds_in(refused));
    const int64_t maker_expiry = seconds_in(WORKED_KEY_MAKER);
    write_held(cabinet + (PLACES - 1) * WIDTH, WORKED_KEY_MAKER, strlen(WORKED_KEY_MAKER), START, maker_expiry);
    EXPECT(obscurlane_count_keys(cabinet, SIZE).count == 3);
    expect_no_cabinet_of(0, WORKED_KEY_MAKER, strlen(WORKED_KEY_MAKER), maker_expiry);
    EXPECT(obscurlane_check_cabinet(cabinet, SIZE).no == OBSCURLANE_ACCEPTED);
}

/* Two of the same three names in a full cabinet, in neighbouring places and in far ones. */
static void damaged_when_full(void)
{
    fill();
    for (size_t n = 0; n < PLACES; n += 9) {
        const struct held *next = &beside.places[(n + 1) % PLACES];
        expect_no_cabinet_of(n, next->record.bytes, next->record.len, next->expiry);
        struct text later = key_of(nth(PLACES - 1 - n), LATER, '8', true);
        if (PLACES - 1 - n != n) {
            expect_no_cabinet_of(n, later.bytes, later.len, seconds_in(later.bytes));
        }
        expect_no_cabinet_with((n + 1) * WIDTH - 1, 'F');
        expect_no_cabinet_with(n * WIDTH, 'Q');
    }
    expect_model();
}

/* Of another length it is none, whatever the bytes, and none is made of it. */
static void lengths(void)
{
    static const size_t others[] = {0,         1,        WIDTH - 1, WIDTH,     SIZE - WIDTH,    SIZE - 1,
                                    SIZE + 1,  SIZE + 2, SIZE + WIDTH, MOST - 1, MOST};
    for (int is_filled = 0; is_filled <= 1; is_filled++) {
        begin(0);
        if (is_filled == 1) {
            put(worked_module, GNT, '1', OBSCURLANE_ACCEPTED);
        }
        memset(cabinet + SIZE, 0, MOST - SIZE);
        for (size_t i = 0; i < COUNT_OF(others); i++) {
            expect_no_cabinet(others[i]);
        }
        EXPECT(obscurlane_check_cabinet(cabinet, SIZE).no == OBSCURLANE_ACCEPTED);
    }
    memset(lent, UNTOUCHED, sizeof lent);
    for (size_t i = 0; i < COUNT_OF(others); i++) {
        obscurlane_filed said = obscurlane_make_cabinet(cabinet, others[i]);
        EXPECT(said.no == OBSCURLANE_NOT_CABINET && said.field == 0);
        EXPECT(untouched(lent, 0, sizeof lent));
    }
    expect_no_cabinet(SIZE);
    EXPECT(obscurlane_make_cabinet(cabinet, SIZE).no == OBSCURLANE_ACCEPTED);
    EXPECT(are_zeros(cabinet, 0, SIZE));
    EXPECT(untouched(lent, 0, EDGE) && untouched(lent, EDGE + SIZE, sizeof lent));
}

/* ---- the number of Expiry */

static void expect_number_in(size_t n, const struct number *number)
{
    const uint8_t *place = cabinet + n * WIDTH;
    EXPECT(are_digits_of(place + NUMBER_AT, 8, number->bytes));
    EXPECT(are_zeros(place, beside.places[n].record.len, TVP_AT));
}

static void put_until(const struct number *number, struct subject of, const char *gnt)
{
    struct text record = key_until(number->expiry, of, gnt, '1', true);
    expect_put(of, gnt, &record, OBSCURLANE_ACCEPTED);
    expect_number_in(place_of(&beside, of), number);
}

/* After a put, after a replacement, in another place, and after a removal. */
static void every_number(void)
{
    for (size_t i = 0; i < NUMBERS; i++) {
        const struct number *number = &numbers[i], *next = &numbers[(i + 1) % NUMBERS];
        begin(0xFF);
        put_until(number, worked_module, GNT);
        other_numbers(0);
        put_until(next, worked_centre, GNT);
        expect_number_in(0, number);
        put_until(next, worked_module, LATER);
        put_until(number, worked_centre, LATER);
        expect_number_in(0, next);
        other_numbers(1);
        /* One that is refused leaves it. */
        struct text earlier = key_until(number->expiry, worked_module, EARLIER, '2', true);
        expect_put(worked_module, EARLIER, &earlier, OBSCURLANE_NOT_LATER);
        expect_number_in(0, next);
        take_out(worked_module, OBSCURLANE_ACCEPTED);
        EXPECT(are_zeros(cabinet, 0, WIDTH));
        expect_number_in(1, number);
        /* A number without a record, with a TVP and without one. */
        static const char zeros[TVP_BYTES] = {0};
        expect_no_cabinet_of(0, "", 0, seconds_of(number->expiry));
        if (seconds_of(number->expiry) != 0) {
            expect_no_cabinet_from(0, "", 0, zeros, seconds_of(number->expiry));
        }
        take_out(worked_centre, OBSCURLANE_ACCEPTED);
        EXPECT(are_zeros(cabinet, 0, SIZE));
    }
}

/* ---- the last TVP */

/* The worked example's request is admitted once, for as long as its module's key is there. */
static void worked_request(void)
{
    static uint8_t before[SIZE];
    const char *const tvp = "20180125T150000Z", *const next = "20180125T150001Z";
    struct text request = as_text(WORKED_REQUEST), module = as_text(WORKED_KEY_SIGNED);
    struct text centre = as_text(WORKED_KEY_CENTRE), maker = as_text(WORKED_KEY_MAKER);
    begin(0xFF);
    expect_admit(worked_module, &request, tvp, OBSCURLANE_NOT_THERE);
    expect_put(worked_centre, "20180110T120000Z", &centre, OBSCURLANE_ACCEPTED);
    expect_put(worked_maker, "20180115T140000Z", &maker, OBSCURLANE_ACCEPTED);
    expect_admit(worked_module, &request, tvp, OBSCURLANE_NOT_THERE);
    expect_put(worked_module, GNT, &module, OBSCURLANE_ACCEPTED);
    for (size_t n = 0; n < 3; n++) {
        expect_tvp_in(n, START);
    }
    /* The beginning itself is not later, and nothing before it is. */
    admit(worked_module, START, OBSCURLANE_TVP_NOT_LATER);
    admit(worked_module, "19921231T235959Z", OBSCURLANE_TVP_NOT_LATER);
    admit(worked_module, "00010101T000000Z", OBSCURLANE_TVP_NOT_LATER);
    /* Of all bytes the sixteen alone are others. */
    memcpy(before, cabinet, SIZE);
    expect_admit(worked_module, &request, tvp, OBSCURLANE_ACCEPTED);
    expect_tvp_in(2, tvp);
    memcpy(before + 2 * WIDTH + TVP_AT, tvp, TVP_BYTES);
    EXPECT(memcmp(before, cabinet, SIZE) == 0);
    expect_admit(worked_module, &request, tvp, OBSCURLANE_TVP_NOT_LATER);
    admit(worked_module, "20180125T145959Z", OBSCURLANE_TVP_NOT_LATER);
    /* A replacement keeps the TVP, and so does one that is refused. */
    put(worked_module, EARLIER, '3', OBSCURLANE_NOT_LATER);
    expect_admit(worked_module, &request, tvp, OBSCURLANE_TVP_NOT_LATER);
    put(worked_module, LATER, '3', OBSCURLANE_ACCEPTED);
    expect_tvp_in(2, tvp);
    expect_admit(worked_module, &request, tvp, OBSCURLANE_TVP_NOT_LATER);
    admit(worked_module, next, OBSCURLANE_ACCEPTED);
    expect_admit(worked_module, &request, tvp, OBSCURLANE_TVP_NOT_LATER);
    put(worked_module, "20180120T090002Z", '4', OBSCURLANE_ACCEPTED);
    admit(worked_module, next, OBSCURLANE_TVP_NOT_LATER);
    /* Another key's removal leaves it; that of its own key drops it, and a first put begins anew. */
    take_out(worked_centre, OBSCURLANE_ACCEPTED);
    expect_tvp_in(2, next);
    take_out(worked_module, OBSCURLANE_ACCEPTED);
    EXPECT(are_zeros(cabinet, 2 * WIDTH, 3 * WIDTH));
    expect_admit(worked_module, &request, tvp, OBSCURLANE_NOT_THERE);
    expect_put(worked_module, GNT, &module, OBSCURLANE_ACCEPTED);
    expect_tvp_in(0, START);
    expect_admit(worked_module, &request, tvp, OBSCURLANE_ACCEPTED);
    expect_admit(worked_module, &request, tvp, OBSCURLANE_TVP_NOT_LATER);
    expect_tvp_in(1, START);
    expect_tvp_in(0, tvp);
}

/* Keys of nearly the same names are another's, of a centre with just these names too; GNT and Fingerprint of ID_SM are ignored;
 * and every digit of the TVP counts. */
static void other_modules(void)
{
    begin(0);
    for (size_t i = 0; i < COUNT_OF(others); i++) {
        put(others[i], GNT, '0', OBSCURLANE_ACCEPTED);
        admit(worked_module, "99991231T235959Z", OBSCURLANE_NOT_THERE);
    }
    put(worked_module, GNT, '0', OBSCURLANE_ACCEPTED);
    for (size_t i = 0; i < COUNT_OF(others); i++) {
        if (others[i].kind == OBSCURLANE_KIND_SMID) {
            admit(others[i], ascending[i], OBSCURLANE_ACCEPTED);
            admit(others[i], ascending[i], OBSCURLANE_TVP_NOT_LATER);
        } else {
            /* A request is a module's alone. */
            struct text request = request_by(others[i], GNT, PRINT, ascending[i]);
            obscurlane_filed said = obscurlane_admit(cabinet, SIZE, (const uint8_t *)request.bytes, request.len);
            EXPECT(said.no == OBSCURLANE_WRONG_KIND && said.field == OBSCURLANE_REQ_ID_SM);
            expect_model();
        }
    }
    expect_tvp_in(COUNT_OF(others), START);
    for (size_t i = 0; i < COUNT_OF(gnts) * COUNT_OF(prints); i++) {
        char tvp[16 + 1];
        (void)snprintf(tvp, sizeof tvp, "199301%02uT000000Z", (unsigned)(2 + i));
        struct text request = request_by(worked_module, gnts[i % COUNT_OF(gnts)], prints[i / COUNT_OF(gnts)], tvp);
        expect_admit(worked_module, &request, tvp, OBSCURLANE_ACCEPTED);
        expect_admit(worked_module, &request, tvp, OBSCURLANE_TVP_NOT_LATER);
    }
    for (size_t i = 0; i < COUNT_OF(ascending); i++) {
        admit(worked_module, ascending[i], OBSCURLANE_ACCEPTED);
        admit(worked_module, i == 0 ? GNT : ascending[i - 1], OBSCURLANE_TVP_NOT_LATER);
        admit(worked_module, ascending[i], OBSCURLANE_TVP_NOT_LATER);
    }
    /* After the last one there is none. */
    admit(worked_module, "99991231T235959Z", OBSCURLANE_ACCEPTED);
    admit(worked_module, "99991231T235959Z", OBSCURLANE_TVP_NOT_LATER);
}

/* In a full cabinet each module has its own. */
static void every_module(void)
{
    fill();
    for (size_t i = 0; i < PLACES; i++) {
        size_t n = i * 27 % PLACES;
        char tvp[16 + 1], other[16 + 1];
        (void)snprintf(tvp, sizeof tvp, "2018%02u01T0000%02uZ", (unsigned)(1 + i % 12), (unsigned)(i % 60));
        (void)snprintf(other, sizeof other, "20190101T0000%02uZ", (unsigned)(i % 60));
        if (nth(n).kind == OBSCURLANE_KIND_SMID) {
            admit(nth(n), tvp, OBSCURLANE_ACCEPTED);
            admit(nth(n), tvp, OBSCURLANE_TVP_NOT_LATER);
            put(nth(n), LATER, '9', OBSCURLANE_ACCEPTED);
            admit(nth(n), tvp, OBSCURLANE_TVP_NOT_LATER);
            admit(nth(n), other, OBSCURLANE_ACCEPTED);
        }
    }
}

/* What the cabinet has of the worked example's module, for what is expected of a request. */
static uint8_t for_the_module;

/* A request's own numbers come before 26 and 27; a record that is no request is 2, after its length. */
static void expect_admitting(const char *record, size_t len, uint8_t no, uint8_t field)
{
    static const char start[] = "VKLOAD.REQ.1|";
    bool is_request = len >= strlen(start) && memcmp(record, start, strlen(start)) == 0;
    if (len <= OBSCURLANE_LONGEST_READ && !is_request) {
        no = OBSCURLANE_UNKNOWN_KIND;
        field = 0;
    } else if (no == OBSCURLANE_ACCEPTED) {
        no = for_the_module;
    }
    obscurlane_filed said = obscurlane_admit(cabinet, SIZE, (const uint8_t *)record, len);
    EXPECT(said.no == no && said.field == field);
    expect_model();
}

static void refused_requests(void)
{
    static const struct {
        const char *old, *with;
        uint8_t no, field;
    } faults[] = {
        {"VKLOAD.REQ.1|", "VKLOAD.REQ.2|", OBSCURLANE_UNKNOWN_KIND, 0},
        {"VKLOAD.REQ.1|", "VKLOAD.REQ.1:", OBSCURLANE_UNKNOWN_KIND, 0},
        {"|20180125T150000Z|", "|", OBSCURLANE_WRONG_COUNT, 0},
        {"|20180125T", "|20180125T150000Z|20180125T", OBSCURLANE_WRONG_COUNT, 0},
        {"|SMID.1:", "|SMID.2:", OBSCURLANE_WRONG_IDENTITY, OBSCURLANE_REQ_ID_SM},
        {":20180120T", ":20180231T", OBSCURLANE_WRONG_IDENTITY, OBSCURLANE_REQ_ID_SM},
        {"|SMID.1:", "|KMCID.1:", OBSCURLANE_WRONG_KIND, OBSCURLANE_REQ_ID_SM},
        {"|KMCID.1:", "|SMID.1:", OBSCURLANE_WRONG_KIND, OBSCURLANE_REQ_ID_KMC},
        {"|20180125T", "|20180231T", OBSCURLANE_WRONG_TEXT, OBSCURLANE_REQ_TVP},
        {"|20180125T150000Z|", "||", OBSCURLANE_WRONG_TEXT, OBSCURLANE_REQ_TVP},
        {"|Prism-VSM-1|", "||", OBSCURLANE_WRONG_TEXT, OBSCURLANE_REQ_HWID},
        {"|0473", "|0573", OBSCURLANE_WRONG_TEXT, OBSCURLANE_REQ_QE},
        {"|BE6C", "|be6c", OBSCURLANE_WRONG_TEXT, OBSCURLANE_REQ_MAC_TAG},
    };
    struct text module = as_text(WORKED_KEY_SIGNED);
    begin(0);
    for (int is_there = 0; is_there <= 1; is_there++) {
        for_the_module = is_there == 1 ? OBSCURLANE_TVP_NOT_LATER : OBSCURLANE_NOT_THERE;
        if (is_there == 1) {
            expect_put(worked_module, GNT, &module, OBSCURLANE_ACCEPTED);
            admit(worked_module, "20180125T150000Z", OBSCURLANE_ACCEPTED);
        }
        expect_every_record(expect_admitting);
        for (size_t i = 0; i < COUNT_OF(faults); i++) {
            char request[ROOM];
            size_t len = write_with(WORKED_REQUEST, faults[i].old, faults[i].with, request);
            expect_admitting(request, len, faults[i].no, faults[i].field);
        }
        /* A damaged request is refused for its check, also where it would be admitted. */
        expect_every_flip_refused(request_by(worked_module, GNT, PRINT, "20190101T000000Z"));
        expect_model();
    }
}

/* It is none with this TVP in place n. */
static void expect_no_tvp(size_t n, const char tvp[TVP_BYTES])
{
    const struct held *held = &beside.places[n];
    expect_no_cabinet_from(n, held->record.bytes, held->record.len, tvp, held->expiry);
}

/* What is no TIMESTAMP, in every byte, and what is before the beginning; and dates that may stand there, from which a module
 * goes on. */
static void every_tvp(void)
{
    static const char *const none[] = {
        "19921231T235959Z", "19920229T000000Z", "19700101T000000Z", "00010101T000000Z", "09991231T235959Z", "19930100T000000Z",
        "19930001T000000Z", "19931301T000000Z", "19930132T000000Z", "19930229T000000Z", "21000229T000000Z", "20230431T000000Z",
        "19930101T240000Z", "19930101T006000Z", "19930101T000060Z", "00000101T000000Z", "19930101t000000Z", "19930101T000000z",
        "19930101T0000000", "1993010100000000", " 9930101T000000Z", "+9930101T000000Z", "9930101T000000ZZ", "T000000Z19930101",
        "                ", "0000000000000000", "ZZZZZZZZZZZZZZZZ", "19930101T00000Z", "\00019930101T00000",
        "93-01-01 00:00 Z",
    };
    static const char *const dates[] = {START, "19930101T000001Z", "20000229T000000Z", "20180125T150000Z", "99991231T235958Z"};
    static const uint8_t bytes[] = {0, 1, '\n', ' ', '/', ':', 'A', 'z', '|', 0x80, 0xFF};
    for (int is_centre = 0; is_centre <= 1; is_centre++) {
        const struct subject of = is_centre == 1 ? worked_centre : worked_module;
        begin(0);
        put(nth(0), GNT, '0', OBSCURLANE_ACCEPTED);
        put(of, GNT, '1', OBSCURLANE_ACCEPTED);
        for (size_t i = 0; i < COUNT_OF(none); i++) {
            expect_no_tvp(1, none[i]);
        }
        char tvp[TVP_BYTES];
        memset(tvp, 0, sizeof tvp);
        expect_no_tvp(1, tvp);
        memset(tvp, 0xFF, sizeof tvp);
        expect_no_tvp(1, tvp);
        for (size_t i = 0; i < COUNT_OF(dates); i++) {
            struct held *held = &beside.places[1];
            memcpy(held->tvp, dates[i], sizeof held->tvp);
            memcpy(cabinet + WIDTH + TVP_AT, dates[i], TVP_BYTES);
            expect_model();
            for (size_t at = 0; at < TVP_BYTES * COUNT_OF(bytes); at++) {
                expect_no_cabinet_with(WIDTH + TVP_AT + at % TVP_BYTES, bytes[at / TVP_BYTES]);
            }
            if (is_centre == 0) {
                admit(of, START, OBSCURLANE_TVP_NOT_LATER);
                admit(of, dates[i], OBSCURLANE_TVP_NOT_LATER);
                admit(of, "99991231T235959Z", OBSCURLANE_ACCEPTED);
            }
        }
        /* A TVP without a record, and in a free place. */
        take_out(of, OBSCURLANE_ACCEPTED);
        expect_no_cabinet_from(1, "", 0, START, 0);
        expect_no_cabinet_from(PLACES - 1, "", 0, "20180125T150000Z", 0);
    }
}

/* ---- cabinets of older versions */

/* The records of the old bytes, put into an empty cabinet, give that of the model. */
static void rebuild(const uint8_t old[SIZE])
{
    EXPECT(obscurlane_make_cabinet(cabinet, SIZE).no == OBSCURLANE_ACCEPTED);
    for (const uint8_t *place = old; place < old + SIZE; place += WIDTH) {
        size_t len = (size_t)((const uint8_t *)memchr(place, 0, WIDTH) - place);
        EXPECT(len > 0 && obscurlane_put_key(cabinet, SIZE, place, len).no == OBSCURLANE_ACCEPTED);
    }
    expect_model();
}

/* A cabinet as it was before it had TVPs is none, and neither is one from before it had numbers; the records in it, put into an
 * empty one, give the same keys. */
static void from_before(void)
{
    static uint8_t old[SIZE];
    for (int has_numbers = 0; has_numbers <= 1; has_numbers++) {
        fill();
        for (size_t n = 0; n < PLACES; n++) {
            memset(cabinet + n * WIDTH + TVP_AT, 0, TVP_BYTES);
            if (has_numbers == 0) {
                write_number(cabinet + n * WIDTH, 0);
            }
        }
        expect_no_cabinet(SIZE);
        memcpy(old, cabinet, SIZE);
        rebuild(old);
    }
    /* TVPs without numbers are not enough, but for keys that expire at the beginning, whose number is all zeros. */
    for (size_t n = 0; n < PLACES; n++) {
        write_number(cabinet + n * WIDTH, 0);
    }
    expect_no_cabinet(SIZE);
    begin(0);
    struct text record = key_until(START, worked_maker, GNT, '1', true);
    memcpy(cabinet, record.bytes, record.len);
    expect_no_cabinet(SIZE);
    memcpy(cabinet + TVP_AT, START, TVP_BYTES);
    EXPECT(obscurlane_check_cabinet(cabinet, SIZE).no == OBSCURLANE_ACCEPTED);
    EXPECT(obscurlane_count_keys(cabinet, SIZE).count == 1);
}

void call_for_cabinets(void)
{
    EXPECT(SIZE == PLACES * WIDTH && NUMBER_AT == WIDTH - 8 && TVP_AT == NUMBER_AT - 16);
    EXPECT(OBSCURLANE_LONGEST_PUBKEY < OBSCURLANE_CABINET_TVP_AT);
    worked_keys();
    full();
    refused_records();
    refused_identities();
    other_subjects();
    damaged();
    damaged_when_full();
    lengths();
    every_number();
    worked_request();
    other_modules();
    every_module();
    refused_requests();
    every_tvp();
    from_before();
}
