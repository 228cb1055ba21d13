/*
 * Calls every function of the header, on what is accepted and on what is refused, and compares everything that it answers and
 * leaves in an output. The exit status is 1 if anything is not as expected; the last line says how many comparisons were made.
 *
 * Here stand records and texts. Wrapped keys and their attributes stand in wrapped.c; unsigned keys of modules in unsigned.c;
 * SHA-384 and Fingerprints in hashes.c; HMAC and the tags of a key agreement in confirmations.c; SHA-1 in sha1.c;
 * manufacturers' files in trailed.c; flipped bits in flips.c; records by mail in mail.c; dates as numbers in dates.c; the key
 * cabinet in cabinet.c, with old records in old.c, in histories of calls in histories.c, and all three with model.c and
 * no_cabinet.c; the check, the text types, plain files and names in parts.c. Records that several of them take stand in
 * samples.c.
 */
#include "expect.h"
#include "worked.h"

#include <stdio.h>
#include <stdlib.h>
#include <string.h>

enum { NONE = OBSCURLANE_KIND_NONE, MOST_FIELDS = 7 };

static unsigned long expectations = 0;

void expect(bool holds, const char *what, const char *file, int line)
{
    expectations++;
    if (!holds) {
        fprintf(stderr, "%s:%d: not as expected: %s\n", file, line, what);
        exit(EXIT_FAILURE);
    }
}

static bool are_all(uint8_t byte, const uint8_t *bytes, size_t from, size_t to)
{
    for (size_t i = from; i < to; i++) {
        if (bytes[i] != byte) {
            return false;
        }
    }
    return true;
}

bool untouched(const uint8_t *out, size_t from, size_t to)
{
    return are_all(UNTOUCHED, out, from, to);
}

bool are_zeros(const uint8_t *bytes, size_t from, size_t to)
{
    return are_all(0, bytes, from, to);
}

bool are_digits_of(const uint8_t *bytes, size_t len, const char *digits)
{
    bool are_same = strlen(digits) == 2 * len;
    for (size_t i = 0; are_same && i < len; i++) {
        char pair[3];
        (void)snprintf(pair, sizeof pair, "%02X", (unsigned)bytes[i]);
        are_same = memcmp(pair, digits + 2 * i, 2) == 0;
    }
    return are_same;
}

bool are_same_lines(obscurlane_line a, obscurlane_line b)
{
    return a.line == b.line && a.no == b.no && a.field == b.field && a.kind == b.kind && a.start == b.start &&
           a.len == b.len && a.next == b.next;
}

static uint32_t drawn;

void draw_from(uint32_t seed)
{
    drawn = seed;
}

/* Marsaglia's xorshift. */
size_t below(size_t limit)
{
    drawn ^= drawn << 13;
    drawn ^= drawn >> 17;
    drawn ^= drawn << 5;
    return drawn % limit;
}

void expect_refused_before_fields(const char *record, expect_number *expect_refused)
{
    char longer[ROOM];
    size_t len = strlen(record);
    memset(longer, 'A', sizeof longer);
    memcpy(longer, record, len);
    expect_refused(longer, OBSCURLANE_LONGEST_READ + 1, OBSCURLANE_TOO_LONG, 0);
    expect_refused(longer, OBSCURLANE_LONGEST_READ, OBSCURLANE_MISSING_CHECK, 0);
    expect_refused(longer, len - 1, OBSCURLANE_MISSING_CHECK, 0);
    expect_refused(longer, 0, OBSCURLANE_UNKNOWN_KIND, 0);
    longer[len] = ' ';
    expect_refused(longer, len + 1, OBSCURLANE_MISSING_CHECK, 0);
    longer[len - 1] = longer[len - 1] == '0' ? '1' : '0';
    expect_refused(longer, len, OBSCURLANE_WRONG_CHECK, 0);
}

void seal(char *text, size_t len)
{
    char check[5];
    (void)snprintf(check, sizeof check, "%04X", (unsigned)obscurlane_crc_of((const uint8_t *)text, len - 4));
    memcpy(text + len - 4, check, 4);
}

size_t write_with(const char *record, const char *old, const char *with, char out[ROOM])
{
    const char *at = strstr(record, old);
    EXPECT(at != NULL);
    int len = snprintf(out, ROOM, "%.*s%s%s", (int)(at - record), record, with, at + strlen(old));
    EXPECT(len > 0 && len < ROOM);
    char *field = out, *end;
    while ((end = strchr(field, '|')) != NULL) {
        if (memchr(field, ':', (size_t)(end - field)) != NULL) {
            seal(field, (size_t)(end - field));
        }
        field = end + 1;
    }
    seal(out, (size_t)len);
    return (size_t)len;
}

/* ---- samples, taken apart and put together by their marks alone */

struct sample {
    const char *text;
    size_t kind;
    char mark;
    const char *kinds; /* a character for each field: the number of its kind where it is an identity */
};

static const struct sample maker = {WORKED_ID_MAKER, OBSCURLANE_KIND_SMMAN, ':', "----"};
static const struct sample module = {WORKED_ID_SM, OBSCURLANE_KIND_SMID, ':', "----"};
static const struct sample centre = {WORKED_ID_KMC, OBSCURLANE_KIND_KMCID, ':', "----"};
static const struct sample maker_key = {WORKED_KEY_MAKER, OBSCURLANE_KIND_ECDSA, '|', "0--0-"};
static const struct sample module_key = {WORKED_KEY_SIGNED, OBSCURLANE_KIND_ECDH, '|', "1--0-"};
static const struct sample unsigned_key = {UNSIGNED_KEY_MAKER, OBSCURLANE_KIND_ECDSA, '|', "0----"};
static const struct sample centre_key = {WORKED_KEY_CENTRE, OBSCURLANE_KIND_ECDH, '|', "2----"};
static const struct sample request = {WORKED_REQUEST, OBSCURLANE_KIND_REQ, '|', "12-----"};
static const struct sample response = {WORKED_RESPONSE, OBSCURLANE_KIND_RESP, '|', "21--"};
static const struct sample wrapped_key = {WORKED_WRAPPED_1, OBSCURLANE_KIND_KEY, '|', "---"};
static const struct sample longer_key = {WORKED_WRAPPED_2, OBSCURLANE_KIND_KEY, '|', "---"};

/* Appendix A's example. */
static const struct sample appendix[] = {
    {APPENDIX_A_RESPONSE, OBSCURLANE_KIND_RESP, '|', "21--"}, {APPENDIX_A_WRAPPED_1, OBSCURLANE_KIND_KEY, '|', "---"},
    {APPENDIX_A_WRAPPED_2, OBSCURLANE_KIND_KEY, '|', "---"},  {APPENDIX_A_WRAPPED_3, OBSCURLANE_KIND_KEY, '|', "---"},
    {APPENDIX_A_WRAPPED_4, OBSCURLANE_KIND_KEY, '|', "---"},  {APPENDIX_A_WRAPPED_5, OBSCURLANE_KIND_KEY, '|', "---"},
};

static size_t count_of(const struct sample *of)
{
    return strlen(of->kinds);
}

static size_t kind_of_field(const struct sample *of, size_t n)
{
    return n > count_of(of) || of->kinds[n - 1] == '-' ? NONE : (size_t)(of->kinds[n - 1] - '0');
}

/* Where field n stands: after as many marks, and before the next one. Nowhere, at 0, for a field that is not there. */
static obscurlane_place place_of(const struct sample *of, size_t n)
{
    obscurlane_place place = {OBSCURLANE_MISSING_ITEM, 0, 0, 0};
    if (n >= 1 && n <= count_of(of)) {
        const char *at = of->text;
        for (size_t i = 0; i < n; i++) {
            at = strchr(at, of->mark) + 1;
        }
        place.no = OBSCURLANE_ACCEPTED;
        place.start = (size_t)(at - of->text);
        place.len = (size_t)(strchr(at, of->mark) - at);
    }
    return place;
}

/* Fields as a builder takes them. */
struct fields {
    uint8_t bytes[OBSCURLANE_LONGEST_READ];
    size_t total;
    size_t lens[MOST_FIELDS];
    size_t count;
};

static void add(struct fields *fields, const char *at, size_t len)
{
    memcpy(fields->bytes + fields->total, at, len);
    fields->total += len;
    fields->lens[fields->count++] = len;
}

static void add_from(struct fields *fields, const struct sample *of, size_t n)
{
    obscurlane_place place = place_of(of, n);
    add(fields, of->text + place.start, place.len);
}

/* The fields of a sample, with `with` in the place of field `changed`; field 0 is none. */
static struct fields fields_of(const struct sample *of, size_t changed, const char *with)
{
    struct fields fields = {.total = 0, .count = 0};
    for (size_t n = 1; n <= count_of(of); n++) {
        if (n == changed) {
            add(&fields, with, strlen(with));
        } else {
            add_from(&fields, of, n);
        }
    }
    return fields;
}

/* The record of these fields with its check, permitted or not; its length. */
static size_t write_out(const struct sample *of, const struct fields *fields, uint8_t *out)
{
    const uint8_t *field = fields->bytes;
    size_t len = (size_t)sprintf((char *)out, "%s%c", obscurlane_kind_name(of->kind), of->mark);
    for (size_t i = 0; i < fields->count; i++) {
        memcpy(out + len, field, fields->lens[i]);
        len += fields->lens[i];
        field += fields->lens[i];
        out[len++] = (uint8_t)of->mark;
    }
    return len + (size_t)sprintf((char *)out + len, "%04X", (unsigned)obscurlane_crc_of(out, len));
}

/* ---- reading */

static obscurlane_answer read(const struct sample *of, const uint8_t *bytes, size_t len)
{
    return of->mark == ':' ? obscurlane_read_identity(bytes, len) : obscurlane_read_record(bytes, len);
}

static obscurlane_place read_field(const struct sample *of, const uint8_t *bytes, size_t len, size_t wanted)
{
    return of->mark == ':' ? obscurlane_identity_field(bytes, len, wanted) : obscurlane_record_field(bytes, len, wanted);
}

static bool are_same(obscurlane_place a, obscurlane_place b)
{
    return a.no == b.no && a.field == b.field && a.start == b.start && a.len == b.len;
}

/* A reading that refuses has this number and field number, and nothing else; so has the call for one field. */
static void expect_refused(const struct sample *of, const uint8_t *bytes, size_t len, uint8_t no, uint8_t field)
{
    obscurlane_answer said = read(of, bytes, len);
    EXPECT(said.no == no && said.field == field && said.kind == NONE);
    for (size_t i = 0; i < MOST_FIELDS; i++) {
        EXPECT(said.starts[i] == 0 && said.lens[i] == 0 && said.kinds[i] == NONE);
    }
    EXPECT(are_same(read_field(of, bytes, len, 1), (obscurlane_place){no, field, 0, 0}));
}

/* One reading has the places and kinds of all fields, and the call for one field has the same place. */
static void expect_read(const struct sample *of)
{
    const uint8_t *bytes = (const uint8_t *)of->text;
    size_t len = strlen(of->text);
    obscurlane_answer said = read(of, bytes, len);
    EXPECT(said.no == OBSCURLANE_ACCEPTED && said.field == 0 && said.kind == of->kind);
    for (size_t n = 1; n <= MOST_FIELDS; n++) {
        obscurlane_place place = place_of(of, n);
        EXPECT(said.starts[n - 1] == place.start && said.lens[n - 1] == place.len);
        EXPECT(said.kinds[n - 1] == kind_of_field(of, n));
        EXPECT(are_same(read_field(of, bytes, len, n), place));
    }
    EXPECT(are_same(read_field(of, bytes, len, 0), place_of(of, 0)));
    EXPECT(are_same(read_field(of, bytes, len, SIZE_MAX), place_of(of, 0)));
}

/* The numbers that do not depend on the fields. */
static void refused_before_its_fields(const struct sample *of)
{
    uint8_t bytes[OBSCURLANE_LONGEST_READ + 1];
    size_t len = strlen(of->text);
    memset(bytes, 'A', sizeof bytes);
    memcpy(bytes, of->text, len);
    expect_refused(of, bytes, sizeof bytes, OBSCURLANE_TOO_LONG, 0);
    expect_refused(of, bytes, sizeof bytes - 1, OBSCURLANE_MISSING_CHECK, 0);
    expect_refused(of, bytes, len - 1, OBSCURLANE_MISSING_CHECK, 0);
    bytes[len - 5 - 1] ^= 1;
    expect_refused(of, bytes, len, OBSCURLANE_WRONG_CHECK, 0);
    expect_refused(of, bytes, strlen(obscurlane_kind_name(of->kind)), OBSCURLANE_UNKNOWN_KIND, 0);
    expect_refused(of, bytes, 0, OBSCURLANE_UNKNOWN_KIND, 0);
    expect_refused(of->mark == ':' ? &request : &module, bytes, len, OBSCURLANE_UNKNOWN_KIND, 0);

    struct fields fields = fields_of(of, 0, NULL);
    fields.count--;
    expect_refused(of, bytes, write_out(of, &fields, bytes), OBSCURLANE_WRONG_COUNT, 0);
}

/* ---- building */

static obscurlane_written build(const char *kind, const struct fields *fields, uint8_t *out, size_t room)
{
    return obscurlane_build((const uint8_t *)kind, strlen(kind), fields->bytes, fields->total, fields->lens, fields->count,
                            out, room);
}

/* A refused call leaves the output as it was. */
static void expect_unwritten(obscurlane_written made, uint8_t no, uint8_t field, const uint8_t *out, size_t room)
{
    EXPECT(made.no == no && made.field == field && made.len == 0);
    EXPECT(untouched(out, 0, room));
}

/* The fields of a sample make the sample again, in an output that has just the room. */
static void expect_built(const struct sample *of)
{
    uint8_t out[OBSCURLANE_LONGEST_RECORD];
    const char *kind = obscurlane_kind_name(of->kind);
    struct fields fields = fields_of(of, 0, NULL);
    size_t len = strlen(of->text);
    memset(out, UNTOUCHED, sizeof out);
    expect_unwritten(build("none", &fields, out, sizeof out), OBSCURLANE_UNKNOWN_KIND, 0, out, sizeof out);
    expect_unwritten(build(kind, &fields, out, len - 1), OBSCURLANE_SHORT_OUTPUT, 0, out, sizeof out);
    fields.total--;
    expect_unwritten(build(kind, &fields, out, sizeof out), OBSCURLANE_WRONG_COUNT, 0, out, sizeof out);
    fields.total++;
    fields.count--;
    expect_unwritten(build(kind, &fields, out, sizeof out), OBSCURLANE_WRONG_COUNT, 0, out, sizeof out);
    fields.count++;

    obscurlane_written made = build(kind, &fields, out, len);
    EXPECT(made.no == OBSCURLANE_ACCEPTED && made.field == 0 && made.len == len);
    EXPECT(memcmp(out, of->text, len) == 0 && untouched(out, len, sizeof out));
}

/* A sample with one field changed is refused by that number, read and built alike. */
static void expect_change_refused(const struct sample *of, size_t changed, const char *with, uint8_t no)
{
    uint8_t out[OBSCURLANE_LONGEST_READ];
    struct fields fields = fields_of(of, changed, with);
    bool is_of_all = no == OBSCURLANE_UNPAIRED || no == OBSCURLANE_WRONG_ATTRIBUTES || no == OBSCURLANE_MODULE_UNSIGNED;
    uint8_t field = is_of_all ? 0 : (uint8_t)changed;
    expect_refused(of, out, write_out(of, &fields, out), no, field);
    memset(out, UNTOUCHED, sizeof out);
    expect_unwritten(build(obscurlane_kind_name(of->kind), &fields, out, sizeof out), no, field, out, sizeof out);
}

static void expect_read_and_built(const struct sample *of)
{
    expect_read(of);
    refused_before_its_fields(of);
    expect_built(of);
}

static void every_record(void)
{
    static const struct sample *const samples[] = {&maker,        &module,     &centre,  &maker_key, &module_key,
                                                   &unsigned_key, &centre_key, &request, &response,  &wrapped_key,
                                                   &longer_key};
    for (size_t i = 0; i < COUNT_OF(samples); i++) {
        expect_read_and_built(samples[i]);
    }
    for (size_t i = 0; i < COUNT_OF(appendix); i++) {
        expect_read_and_built(&appendix[i]);
    }
    expect_change_refused(&module, OBSCURLANE_IDENTITY_GNT, "20180120T240000Z", OBSCURLANE_WRONG_TEXT);
    expect_change_refused(&centre, OBSCURLANE_IDENTITY_MANUFACTURER, "", OBSCURLANE_WRONG_TEXT);
    expect_change_refused(&request, OBSCURLANE_REQ_MAC_TAG, "0A", OBSCURLANE_WRONG_TEXT);
    expect_change_refused(&request, OBSCURLANE_REQ_ID_SM, "Prism", OBSCURLANE_WRONG_IDENTITY);
    expect_change_refused(&request, OBSCURLANE_REQ_ID_KMC, WORKED_ID_SM, OBSCURLANE_WRONG_KIND);
    expect_change_refused(&response, OBSCURLANE_RESP_ID_KMC, WORKED_ID_SM, OBSCURLANE_WRONG_KIND);
    expect_change_refused(&response, OBSCURLANE_RESP_TVP, "", OBSCURLANE_WRONG_TEXT);
    expect_change_refused(&maker_key, OBSCURLANE_PUBKEY_SIGNATURE, "", OBSCURLANE_UNPAIRED);
    expect_change_refused(&centre_key, OBSCURLANE_PUBKEY_ISSUER, WORKED_ID_MAKER, OBSCURLANE_UNPAIRED);
    expect_change_refused(&centre_key, OBSCURLANE_PUBKEY_SUBJECT, WORKED_ID_MAKER, OBSCURLANE_WRONG_KIND);
    expect_change_refused(&centre_key, OBSCURLANE_PUBKEY_SUBJECT, WORKED_ID_SM, OBSCURLANE_MODULE_UNSIGNED);
    expect_change_refused(&module_key, OBSCURLANE_PUBKEY_SIGNATURE, "", OBSCURLANE_UNPAIRED);
    expect_change_refused(&module_key, OBSCURLANE_PUBKEY_ISSUER, "", OBSCURLANE_UNPAIRED);
    expect_change_refused(&wrapped_key, OBSCURLANE_KEY_NONCE, "", OBSCURLANE_WRONG_TEXT);
    expect_change_refused(&wrapped_key, OBSCURLANE_KEY_ATTRIBUTES, "", OBSCURLANE_WRONG_TEXT);
    expect_change_refused(&wrapped_key, OBSCURLANE_KEY_ATTRIBUTES, "ACT", OBSCURLANE_WRONG_ATTRIBUTES);
    expect_change_refused(&wrapped_key, OBSCURLANE_KEY_PROTECTED_KEY, "", OBSCURLANE_WRONG_TEXT);
}

/* ---- the longest of each: the header's lengths */

static void add_longest_ident(struct fields *fields)
{
    char letters[OBSCURLANE_LONGEST_IDENT];
    memset(letters, 'A', sizeof letters);
    add(fields, letters, sizeof letters);
}

/* The longest identity of a kind, as a text. */
static void write_longest_identity(const char *kind, char out[OBSCURLANE_LONGEST_IDENTITY + 1])
{
    struct fields fields = {.total = 0, .count = 0};
    add_longest_ident(&fields);
    add_longest_ident(&fields);
    add_from(&fields, &module, OBSCURLANE_IDENTITY_GNT);
    add_from(&fields, &module, OBSCURLANE_IDENTITY_FINGERPRINT);
    obscurlane_written made = build(kind, &fields, (uint8_t *)out, OBSCURLANE_LONGEST_IDENTITY);
    EXPECT(made.no == OBSCURLANE_ACCEPTED);
    out[made.len] = '\0';
}

static void longest_public_key(void)
{
    char identity[OBSCURLANE_LONGEST_IDENTITY + 1];
    uint8_t out[OBSCURLANE_LONGEST_PUBKEY];
    struct fields fields = {.total = 0, .count = 0};
    write_longest_identity("SMMAN.1", identity);
    EXPECT(strlen(identity) == OBSCURLANE_LONGEST_IDENTITY);
    add(&fields, identity, strlen(identity));
    add_from(&fields, &maker_key, OBSCURLANE_PUBKEY_Q);
    add_from(&fields, &maker_key, OBSCURLANE_PUBKEY_EXPIRY);
    add(&fields, identity, strlen(identity));
    add_from(&fields, &maker_key, OBSCURLANE_PUBKEY_SIGNATURE);
    EXPECT(build("PK.ECDSA.1", &fields, out, sizeof out - 1).no == OBSCURLANE_SHORT_OUTPUT);
    EXPECT(build("PK.ECDSA.1", &fields, out, sizeof out).len == OBSCURLANE_LONGEST_PUBKEY);
}

/* The request whose texts are the longest; its length. */
static size_t write_longest_request(uint8_t *out, size_t room)
{
    char identity[OBSCURLANE_LONGEST_IDENTITY + 1];
    struct fields fields = {.total = 0, .count = 0};
    write_longest_identity("SMID.1", identity);
    add(&fields, identity, strlen(identity));
    write_longest_identity("KMCID.1", identity);
    add(&fields, identity, strlen(identity));
    add_from(&fields, &request, OBSCURLANE_REQ_TVP);
    add_longest_ident(&fields);
    add_longest_ident(&fields);
    add_from(&fields, &request, OBSCURLANE_REQ_QE);
    add_from(&fields, &request, OBSCURLANE_REQ_MAC_TAG);
    obscurlane_written made = build("VKLOAD.REQ.1", &fields, out, room);
    EXPECT(made.no == OBSCURLANE_ACCEPTED);
    return made.len;
}

/* ---- the key agreement texts, and their items */

typedef obscurlane_written text_call(const uint8_t *, size_t, uint8_t *, size_t);

static size_t add_item(uint8_t *out, size_t len, const char *item, size_t item_len)
{
    out[len] = (uint8_t)item_len;
    memcpy(out + len + 1, item, item_len);
    return len + 1 + item_len;
}

/* QE as its bytes. */
static size_t add_decoded(uint8_t *out, size_t len, const char *digits)
{
    char bytes[97];
    for (size_t i = 0; i < sizeof bytes; i++) {
        const char pair[] = {digits[2 * i], digits[2 * i + 1], '\0'};
        bytes[i] = (char)strtoul(pair, NULL, 16);
    }
    return add_item(out, len, bytes, sizeof bytes);
}

/* The text of a label and of fields of the request, by their numbers; its length. */
static size_t write_text(uint8_t *out, const char *label, const char *fields)
{
    out[0] = (uint8_t)(1 + strlen(fields));
    size_t len = add_item(out, 1, label, strlen(label));
    for (size_t i = 0; fields[i] != '\0'; i++) {
        size_t n = (size_t)(fields[i] - '0');
        obscurlane_place place = place_of(&request, n);
        const char *field = request.text + place.start;
        len = n == OBSCURLANE_REQ_QE ? add_decoded(out, len, field) : add_item(out, len, field, place.len);
    }
    return len;
}

static void expect_text(text_call *call, size_t len, const char *label, const char *fields)
{
    uint8_t out[OBSCURLANE_LONGEST_MODULE_TEXT], expected[OBSCURLANE_LONGEST_MODULE_TEXT];
    uint8_t wrong[OBSCURLANE_LONGEST_RECORD];
    struct fields changed = fields_of(&request, OBSCURLANE_REQ_TVP, "");
    size_t wrong_len = write_out(&request, &changed, wrong);
    memset(out, UNTOUCHED, sizeof out);
    expect_unwritten(call(BYTES(WORKED_RESPONSE), out, sizeof out), OBSCURLANE_UNKNOWN_KIND, 0, out, sizeof out);
    expect_unwritten(call(wrong, wrong_len, out, sizeof out), OBSCURLANE_WRONG_TEXT, OBSCURLANE_REQ_TVP, out, sizeof out);
    expect_unwritten(call(BYTES(WORKED_REQUEST), out, len - 1), OBSCURLANE_SHORT_OUTPUT, 0, out, sizeof out);

    obscurlane_written made = call(BYTES(WORKED_REQUEST), out, len);
    EXPECT(made.no == OBSCURLANE_ACCEPTED && made.field == 0 && made.len == len);
    EXPECT(write_text(expected, label, fields) == len && memcmp(out, expected, len) == 0);
    EXPECT(untouched(out, len, sizeof out));
}

static void texts(void)
{
    expect_text(obscurlane_shared_info, 163, "STS.KAA.1", "123");
    expect_text(obscurlane_module_text, 276, "U_2", "126345");
    expect_text(obscurlane_centre_text, 254, "V2", "2136");

    uint8_t longest[OBSCURLANE_LONGEST_RECORD], out[OBSCURLANE_LONGEST_MODULE_TEXT];
    size_t len = write_longest_request(longest, sizeof longest);
    EXPECT(obscurlane_shared_info(longest, len, out, sizeof out).len == OBSCURLANE_LONGEST_SHARED_INFO);
    EXPECT(obscurlane_module_text(longest, len, out, sizeof out).len == OBSCURLANE_LONGEST_MODULE_TEXT);
    EXPECT(obscurlane_centre_text(longest, len, out, sizeof out).len == OBSCURLANE_LONGEST_CENTRE_TEXT);
}

/* An item has its place; what is none has none. */
static void items(void)
{
    static const uint8_t two[] = {2, 2, 'A', 'B', 0};
    obscurlane_item item = obscurlane_text_item(two, sizeof two, 1);
    EXPECT(item.no == OBSCURLANE_ACCEPTED && item.start == 2 && item.len == 2);
    item = obscurlane_text_item(two, sizeof two, 2);
    EXPECT(item.no == OBSCURLANE_ACCEPTED && item.start == 5 && item.len == 0);
    for (size_t wanted = 0; wanted <= 3; wanted += 3) {
        item = obscurlane_text_item(two, sizeof two, wanted);
        EXPECT(item.no == OBSCURLANE_MISSING_ITEM && item.start == 0 && item.len == 0);
    }
    item = obscurlane_text_item(two, sizeof two - 1, 1);
    EXPECT(item.no == OBSCURLANE_MISSING_ITEM && item.start == 0 && item.len == 0);
}

/* ---- the newer of two keys */

static void expect_choice(obscurlane_choice choice, uint8_t no, uint8_t field, uint8_t which)
{
    EXPECT(choice.no == no && choice.field == field && choice.which == which);
}

static void newer(void)
{
    char subject[OBSCURLANE_LONGEST_IDENTITY] = "";
    uint8_t later[OBSCURLANE_LONGEST_RECORD], wrong[OBSCURLANE_LONGEST_RECORD];
    struct fields fields = fields_of(&centre, OBSCURLANE_IDENTITY_GNT, "20190110T120000Z");
    EXPECT(build("KMCID.1", &fields, (uint8_t *)subject, sizeof subject).no == OBSCURLANE_ACCEPTED);
    fields = fields_of(&centre_key, OBSCURLANE_PUBKEY_SUBJECT, subject);
    size_t later_len = build("PK.ECDH.1", &fields, later, sizeof later).len;
    fields = fields_of(&centre_key, OBSCURLANE_PUBKEY_EXPIRY, "");
    size_t wrong_len = write_out(&centre_key, &fields, wrong);

    expect_choice(obscurlane_newer(BYTES(WORKED_KEY_CENTRE), later, later_len), 0, 0, OBSCURLANE_SECOND);
    expect_choice(obscurlane_newer(later, later_len, BYTES(WORKED_KEY_CENTRE)), 0, 0, OBSCURLANE_FIRST);
    expect_choice(obscurlane_newer(later, later_len, later, later_len), 0, 0, OBSCURLANE_FIRST);
    expect_choice(obscurlane_newer(wrong, wrong_len, BYTES("")), OBSCURLANE_WRONG_TEXT, 3, OBSCURLANE_FIRST);
    expect_choice(obscurlane_newer(later, later_len, wrong, wrong_len), OBSCURLANE_WRONG_TEXT, 3, OBSCURLANE_SECOND);
    expect_choice(obscurlane_newer(BYTES(WORKED_REQUEST), later, later_len), OBSCURLANE_UNKNOWN_KIND, 0,
                  OBSCURLANE_FIRST);
    expect_choice(obscurlane_newer(BYTES(WORKED_KEY_MAKER), BYTES(WORKED_KEY_CENTRE)), OBSCURLANE_NOT_ALIKE, 0, 0);
}

int main(void)
{
    every_record();
    longest_public_key();
    texts();
    items();
    newer();
    call_for_wrapped_keys();
    call_with_unsigned_keys();
    call_for_hashes();
    call_for_confirmations();
    call_for_sha1();
    call_for_trailed_lines();
    call_with_flips();
    call_for_mail();
    call_for_dates();
    call_for_cabinets();
    call_for_old_records();
    call_in_histories();
    call_parts();
    printf("every function: %lu as expected\n", expectations);
    return EXIT_SUCCESS;
}
