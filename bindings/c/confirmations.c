/* A part of every.c: HMAC-SHA-384-192, and the tags that confirm a key agreement. */
#include "expect.h"
#include "worked.h"

#include <stdio.h>
#include <string.h>

/* What goes by value has these sizes in the archive. */
_Static_assert(sizeof(obscurlane_tag) == 24, "the bytes alone");
_Static_assert(sizeof(obscurlane_confirmed) == 3, "three numbers");

enum { BLOCK = 128, LONG = 300, KEY_LEN = OBSCURLANE_KEY_BYTES, Z_LEN = OBSCURLANE_Z_BYTES, TAG_DIGITS = 48 };

/* ---- HMAC */

static bool are_same(obscurlane_tag a, obscurlane_tag b)
{
    return memcmp(a.bytes, b.bytes, sizeof a.bytes) == 0;
}

/* RFC 4231, cases 1 to 7, cut to 24 bytes; the fifth is published to 16. Key and text are a piece so many times. */
static const struct {
    const char *key;
    size_t key_times;
    const char *text;
    size_t text_times;
    const char *tag;
} published[] = {
    {"\x0B", 20, "Hi There", 1, "AFD03944D84895626B0825F4AB46907F15F9DADBE4101EC6"},
    {"Jefe", 1, "what do ya want for nothing?", 1, "AF45D2E376484031617F78D2B58A6B1B9C7EF464F5A01B47"},
    {"\xAA", 20, "\xDD", 50, "88062608D3E6AD8A0AA2ACE014C8A86F0AA635D947AC9FEB"},
    {"\x01\x02\x03\x04\x05\x06\x07\x08\x09\x0A\x0B\x0C\x0D\x0E\x0F\x10\x11\x12\x13\x14\x15\x16\x17\x18\x19", 1, "\xCD", 50,
     "3E8A69B7783C25851933AB6290AF6CA77A9981480850009C"},
    {"\x0C", 20, "Test With Truncation", 1, "3ABF34C3503B2A23A46EFC619BAEF897"},
    {"\xAA", 131, "Test Using Larger Than Block-Size Key - Hash Key First", 1,
     "4ECE084485813E9088D2C63A041BC5B44F9EF1012A2B588F"},
    {"\xAA", 131,
     "This is a test using a larger than block-size key and a larger than block-size data. The key needs to be hashed "
     "before being used by the HMAC algorithm.",
     1, "6617178E941F020D351E2F254E8FD32C602420FEB0B8FB9A"},
};

/* The piece so many times; its length. */
static size_t repeat(const char *piece, size_t times, uint8_t out[LONG])
{
    size_t len = strlen(piece);
    for (size_t i = 0; i < times; i++) {
        memcpy(out + i * len, piece, len);
    }
    return len * times;
}

static void published_tags(void)
{
    for (size_t i = 0; i < COUNT_OF(published); i++) {
        uint8_t key[LONG], text[LONG];
        size_t key_len = repeat(published[i].key, published[i].key_times, key);
        size_t text_len = repeat(published[i].text, published[i].text_times, text);
        obscurlane_tag tag = obscurlane_hmac_of(key, key_len, text, text_len);
        EXPECT(are_digits_of(tag.bytes, strlen(published[i].tag) / 2, published[i].tag));
    }
}

/* The key, or its hash where it is longer than a block, with zeros after it, every byte of it mixed with the same one. */
static obscurlane_sha384_state keyed(const uint8_t *key, size_t key_len, uint8_t pad)
{
    uint8_t block[BLOCK] = {0};
    obscurlane_digest hash = obscurlane_sha384_of(key, key_len);
    if (key_len > sizeof block) {
        memcpy(block, hash.bytes, sizeof hash.bytes);
    } else {
        memcpy(block, key, key_len);
    }
    for (size_t i = 0; i < sizeof block; i++) {
        block[i] ^= pad;
    }
    return obscurlane_sha384_add(obscurlane_sha384_begin(), block, sizeof block);
}

/* The tag by its definition. */
static obscurlane_tag tag_of(const uint8_t *key, size_t key_len, const uint8_t *text, size_t text_len)
{
    obscurlane_digest inner = obscurlane_sha384_end(obscurlane_sha384_add(keyed(key, key_len, 0x36), text, text_len));
    obscurlane_sha384_state outer = obscurlane_sha384_add(keyed(key, key_len, 0x5C), inner.bytes, sizeof inner.bytes);
    obscurlane_digest mac = obscurlane_sha384_end(outer);
    obscurlane_tag tag;
    memcpy(tag.bytes, mac.bytes, sizeof tag.bytes);
    return tag;
}

/* Keys and texts of every length, on both sides of a block; key and text are the same bytes, or overlap. */
static void every_length(void)
{
    uint8_t bytes[2 * LONG];
    for (size_t i = 0; i < sizeof bytes; i++) {
        bytes[i] = (uint8_t)(7 * i + i / 256);
    }
    for (size_t len = 0; len <= LONG; len++) {
        const uint8_t *inside = bytes + KEY_LEN / 2, *behind = bytes + len;
        EXPECT(are_same(obscurlane_hmac_of(bytes, len, bytes, LONG), tag_of(bytes, len, bytes, LONG)));
        EXPECT(are_same(obscurlane_hmac_of(bytes, KEY_LEN, inside, len), tag_of(bytes, KEY_LEN, inside, len)));
        EXPECT(are_same(obscurlane_hmac_of(bytes, len, behind, len), tag_of(bytes, len, behind, len)));
    }
}

/* A key up to a block is the same with zeros behind it; a longer one is its hash. */
static void keys_that_are_alike(void)
{
    uint8_t key[BLOCK + 1] = "key";
    obscurlane_tag tag = obscurlane_hmac_of(BYTES("key"), BYTES("text"));
    EXPECT(are_same(obscurlane_hmac_of(key, BLOCK, BYTES("text")), tag));
    EXPECT(!are_same(obscurlane_hmac_of(key, BLOCK + 1, BYTES("text")), tag));
    obscurlane_digest hash = obscurlane_sha384_of(key, BLOCK + 1);
    tag = obscurlane_hmac_of(hash.bytes, sizeof hash.bytes, BYTES("text"));
    EXPECT(are_same(obscurlane_hmac_of(key, BLOCK + 1, BYTES("text")), tag));
    EXPECT(!are_same(obscurlane_hmac_of(BYTES("text"), BYTES("key")), tag));
}

/* ---- both calls, with everything that they leave */

/* Bytes that are lent. */
struct lent {
    const uint8_t *at;
    size_t len;
};

static const struct lent z = {BYTES(WORKED_Z)};
static const struct lent request = {BYTES(WORKED_REQUEST)};
static const struct lent response = {BYTES(WORKED_RESPONSE)};

static struct lent lend(const char *text, size_t len)
{
    return (struct lent){(const uint8_t *)text, len};
}

static bool is_said(obscurlane_confirmed said, uint8_t no, uint8_t field, uint8_t which)
{
    return said.no == no && said.field == field && said.which == which;
}

/* No room, one byte too few, just the room, and more. */
static const size_t rooms[] = {0, KEY_LEN - 1, KEY_LEN, KEY_LEN + 1};

/* Whether the room of an output can decide the answer: after a record's own refusal and after that for Z it cannot. */
static bool is_room_asked(uint8_t no)
{
    return no == OBSCURLANE_ACCEPTED || no == OBSCURLANE_WRONG_TAG;
}

/* With these rooms the request is answered so, but where one of them is too short; the keys are written with 0 alone. */
static void expect_with_rooms(struct lent with, struct lent of, size_t room, size_t kek_room, obscurlane_confirmed expected,
                              const uint8_t keys[2 * KEY_LEN])
{
    uint8_t mac_key[KEY_LEN + 1], kek[KEY_LEN + 1];
    memset(mac_key, UNTOUCHED, sizeof mac_key);
    memset(kek, UNTOUCHED, sizeof kek);
    obscurlane_confirmed said = obscurlane_confirm_request(with.at, with.len, of.at, of.len, mac_key, room, kek, kek_room);
    if (is_room_asked(expected.no) && (room < KEY_LEN || kek_room < KEY_LEN)) {
        expected = (obscurlane_confirmed){OBSCURLANE_SHORT_OUTPUT, 0, 0};
    }
    EXPECT(is_said(said, expected.no, expected.field, expected.which));
    size_t len = said.no == OBSCURLANE_ACCEPTED ? KEY_LEN : 0;
    EXPECT(memcmp(mac_key, keys, len) == 0 && untouched(mac_key, len, sizeof mac_key));
    EXPECT(memcmp(kek, keys + KEY_LEN, len) == 0 && untouched(kek, len, sizeof kek));
}

/* The same with all rooms. */
static void expect_request(struct lent with, struct lent of, obscurlane_confirmed expected, const uint8_t keys[2 * KEY_LEN])
{
    for (size_t i = 0; i < COUNT_OF(rooms); i++) {
        for (size_t j = 0; j < COUNT_OF(rooms); j++) {
            expect_with_rooms(with, of, rooms[i], rooms[j], expected, keys);
        }
    }
}

static const uint8_t *const worked_keys = (const uint8_t *)WORKED_MAC_KEY WORKED_KEK;

/* The request is refused so, whatever the rooms. */
static void expect_request_refused(struct lent with, struct lent of, uint8_t no, uint8_t field, uint8_t which)
{
    expect_request(with, of, (obscurlane_confirmed){no, field, which}, worked_keys);
}

static void expect_response(struct lent with, struct lent asked, struct lent of, uint8_t no, uint8_t field, uint8_t which)
{
    EXPECT(is_said(obscurlane_confirm_response(with.at, with.len, asked.at, asked.len, of.at, of.len), no, field, which));
}

/* ---- the worked example */

/* The keys that Z and a request give, one behind the other, by their definition. */
static obscurlane_digest keys_of(struct lent with, struct lent of)
{
    uint8_t text[OBSCURLANE_LONGEST_SHARED_INFO];
    size_t len = obscurlane_shared_info(of.at, of.len, text, sizeof text).len;
    obscurlane_sha384_state state = obscurlane_sha384_add(obscurlane_sha384_begin(), with.at, with.len);
    state = obscurlane_sha384_add(state, BYTES("\0\0\0\1"));
    return obscurlane_sha384_end(obscurlane_sha384_add(state, text, len));
}

/* Its keys and its tags, by the calls and by what they are made of. */
static void worked_tags(void)
{
    expect_request(z, request, (obscurlane_confirmed){OBSCURLANE_ACCEPTED, 0, 0}, worked_keys);
    expect_response(z, request, response, OBSCURLANE_ACCEPTED, 0, 0);

    obscurlane_digest keys = keys_of(z, request);
    EXPECT(memcmp(keys.bytes, worked_keys, sizeof keys.bytes) == 0);

    uint8_t text[OBSCURLANE_LONGEST_MODULE_TEXT];
    size_t len = obscurlane_module_text(request.at, request.len, text, sizeof text).len;
    obscurlane_tag tag = obscurlane_hmac_of(BYTES(WORKED_MAC_KEY), text, len);
    EXPECT(are_digits_of(tag.bytes, sizeof tag.bytes, WORKED_TAG_MODULE));
    len = obscurlane_centre_text(request.at, request.len, text, sizeof text).len;
    tag = obscurlane_hmac_of(BYTES(WORKED_MAC_KEY), text, len);
    EXPECT(are_digits_of(tag.bytes, sizeof tag.bytes, WORKED_TAG_CENTRE));
}

/* ---- Z */

static void lengths_of_z(void)
{
    static const size_t lens[] = {0, 1, KEY_LEN, 48, Z_LEN - 1, Z_LEN + 1, 2 * Z_LEN};
    uint8_t longer[2 * Z_LEN];
    memcpy(longer, z.at, Z_LEN);
    memcpy(longer + Z_LEN, z.at, Z_LEN);
    for (size_t i = 0; i < COUNT_OF(lens); i++) {
        struct lent other = {longer, lens[i]};
        expect_request_refused(other, request, OBSCURLANE_WRONG_Z, 0, 0);
        expect_response(other, request, response, OBSCURLANE_WRONG_Z, 0, 0);
    }
}

/* Another byte in every place of Z, and other bytes in all. */
static void other_zs(void)
{
    uint8_t bytes[Z_LEN];
    struct lent other = {bytes, sizeof bytes};
    for (size_t place = 0; place < sizeof bytes; place++) {
        memcpy(bytes, z.at, sizeof bytes);
        bytes[place] ^= (uint8_t)(1 << place % 8);
        expect_request_refused(other, request, OBSCURLANE_WRONG_TAG, 0, 0);
        expect_response(other, request, response, OBSCURLANE_WRONG_TAG, 0, 0);
    }
    memset(bytes, 0, sizeof bytes);
    expect_request_refused(other, request, OBSCURLANE_WRONG_TAG, 0, 0);
    expect_response(other, request, response, OBSCURLANE_WRONG_TAG, 0, 0);
}

/* ---- tags */

/* Another character in every place of a MacTag. The response is compared by its own tag, whatever the request's. */
static void changed_tags(void)
{
    for (size_t place = 0; place < TAG_DIGITS; place++) {
        char wrong[TAG_DIGITS + 1], changed[ROOM];
        memcpy(wrong, WORKED_TAG_MODULE, sizeof wrong);
        wrong[place] = wrong[place] == '0' ? '1' : '0';
        struct lent of = lend(changed, write_with(WORKED_REQUEST, WORKED_TAG_MODULE, wrong, changed));
        expect_request_refused(z, of, OBSCURLANE_WRONG_TAG, 0, 0);
        expect_response(z, of, response, OBSCURLANE_ACCEPTED, 0, 0);

        memcpy(wrong, WORKED_TAG_CENTRE, sizeof wrong);
        wrong[place] = wrong[place] == '0' ? '1' : '0';
        of = lend(changed, write_with(WORKED_RESPONSE, WORKED_TAG_CENTRE, wrong, changed));
        expect_response(z, request, of, OBSCURLANE_WRONG_TAG, 0, 0);
    }
}

/* The tag of the other text. */
static void exchanged_tags(void)
{
    char changed[ROOM];
    struct lent of = lend(changed, write_with(WORKED_REQUEST, WORKED_TAG_MODULE, WORKED_TAG_CENTRE, changed));
    expect_request_refused(z, of, OBSCURLANE_WRONG_TAG, 0, 0);
    of = lend(changed, write_with(WORKED_RESPONSE, WORKED_TAG_CENTRE, WORKED_TAG_MODULE, changed));
    expect_response(z, request, of, OBSCURLANE_WRONG_TAG, 0, 0);
}

/* What is wrong with a request or a response, or is another than it was; and the number and the field's that this gives. */
struct change {
    const char *old, *with;
    uint8_t no, field;
};

/* A character in each field of the request, and the number that the response has beside it: HWID and FWID are in the module
 * text alone. */
static const struct change request_changes[] = {
    {":06000001:", ":06000002:", OBSCURLANE_OTHER_REQUEST, 0},
    {":TEST1:", ":TEST:", OBSCURLANE_OTHER_REQUEST, 0},
    {"20180125T150000Z", "20180125T150001Z", OBSCURLANE_OTHER_REQUEST, 0},
    {"|0473", "|0474", OBSCURLANE_WRONG_TAG, 0},
    {"|Prism-VSM-1|", "|Prism-VSM|", OBSCURLANE_ACCEPTED, 0},
    {"|STS6-001|", "|STS6-002|", OBSCURLANE_ACCEPTED, 0},
};

/* The MacTag that is right for a request, as a text. */
static void write_tag(struct lent with, struct lent of, char out[TAG_DIGITS + 1])
{
    uint8_t text[OBSCURLANE_LONGEST_MODULE_TEXT];
    size_t len = obscurlane_module_text(of.at, of.len, text, sizeof text).len;
    obscurlane_digest keys = keys_of(with, of);
    obscurlane_tag tag = tag_of(keys.bytes, KEY_LEN, text, len);
    for (size_t i = 0; i < sizeof tag.bytes; i++) {
        (void)snprintf(out + 2 * i, 3, "%02X", (unsigned)tag.bytes[i]);
    }
}

/* Another tag belongs to a changed request; with that one it is accepted, and its keys are written. */
static void changed_fields(void)
{
    for (size_t i = 0; i < COUNT_OF(request_changes); i++) {
        char changed[ROOM], mended[ROOM], right[TAG_DIGITS + 1];
        const struct change *change = &request_changes[i];
        struct lent of = lend(changed, write_with(WORKED_REQUEST, change->old, change->with, changed));
        expect_request_refused(z, of, OBSCURLANE_WRONG_TAG, 0, 0);
        write_tag(z, of, right);
        of = lend(mended, write_with(changed, WORKED_TAG_MODULE, right, mended));
        obscurlane_digest keys = keys_of(z, of);
        expect_request(z, of, (obscurlane_confirmed){OBSCURLANE_ACCEPTED, 0, 0}, keys.bytes);
        expect_response(z, of, response, change->no, 0, 0);
    }
}

/* ---- the order of the numbers */

static const struct change request_faults[] = {
    {"VKLOAD.REQ.1|", "VKLOAD.REQ.2|", OBSCURLANE_UNKNOWN_KIND, 0},
    {"|STS6-001|", "|", OBSCURLANE_WRONG_COUNT, 0},
    {"|SMID.1:", "|SMID.2:", OBSCURLANE_WRONG_IDENTITY, OBSCURLANE_REQ_ID_SM},
    {"|KMCID.1:", "|SMMAN.1:", OBSCURLANE_WRONG_KIND, OBSCURLANE_REQ_ID_KMC},
    {"|20180125T15", "|20180125T24", OBSCURLANE_WRONG_TEXT, OBSCURLANE_REQ_TVP},
    {"|Prism-VSM-1|", "||", OBSCURLANE_WRONG_TEXT, OBSCURLANE_REQ_HWID},
    {"|STS6-001|", "|-STS|", OBSCURLANE_WRONG_TEXT, OBSCURLANE_REQ_FWID},
    {"|0473", "|0573", OBSCURLANE_WRONG_TEXT, OBSCURLANE_REQ_QE},
    {"|BE6C", "|be6c", OBSCURLANE_WRONG_TEXT, OBSCURLANE_REQ_MAC_TAG},
};

static const struct change response_faults[] = {
    {"VKLOAD.RESP.1|", "VKLOAD.RESP.2|", OBSCURLANE_UNKNOWN_KIND, 0},
    {"|20180125T150000Z|", "|", OBSCURLANE_WRONG_COUNT, 0},
    {"|KMCID.1:", "|SMMAN.1:", OBSCURLANE_WRONG_KIND, OBSCURLANE_RESP_ID_KMC},
    {"|SMID.1:", "|SMID.2:", OBSCURLANE_WRONG_IDENTITY, OBSCURLANE_RESP_ID_SM},
    {"|20180125T15", "|20180125T24", OBSCURLANE_WRONG_TEXT, OBSCURLANE_RESP_TVP},
    {"|7E6D", "|7e6d", OBSCURLANE_WRONG_TEXT, OBSCURLANE_RESP_MAC_TAG},
};

/* The right Z, another one, one that is too short, and one that is too long. */
static const struct lent zs[] = {
    {BYTES(WORKED_Z)},
    {(const uint8_t *)WORKED_REQUEST, Z_LEN},
    {(const uint8_t *)WORKED_Z, Z_LEN - 1},
    {(const uint8_t *)WORKED_REQUEST, Z_LEN + 1},
};

/* The request is refused so by both calls, whatever Z and the response are. */
static void expect_own_of_request(const char *record, size_t len, uint8_t no, uint8_t field)
{
    const struct lent of = lend(record, len);
    const struct lent answers[] = {response, request, {BYTES(APPENDIX_A_RESPONSE)}};
    for (size_t i = 0; i < COUNT_OF(zs); i++) {
        expect_request_refused(zs[i], of, no, field, OBSCURLANE_REQUEST);
        for (size_t j = 0; j < COUNT_OF(answers); j++) {
            expect_response(zs[i], of, answers[j], no, field, OBSCURLANE_REQUEST);
        }
    }
}

/* The response is refused so, whatever Z and the request's tag are. */
static void expect_own_of_response(const char *record, size_t len, uint8_t no, uint8_t field)
{
    const struct lent of = lend(record, len);
    char changed[ROOM];
    struct lent asked = lend(changed, write_with(WORKED_REQUEST, WORKED_TAG_MODULE, WORKED_TAG_CENTRE, changed));
    for (size_t i = 0; i < COUNT_OF(zs); i++) {
        expect_response(zs[i], request, of, no, field, OBSCURLANE_RESPONSE);
        expect_response(zs[i], asked, of, no, field, OBSCURLANE_RESPONSE);
    }
}

static void own_refusals(void)
{
    char refused[ROOM];
    for (size_t i = 0; i < COUNT_OF(request_faults); i++) {
        const struct change *fault = &request_faults[i];
        size_t len = write_with(WORKED_REQUEST, fault->old, fault->with, refused);
        expect_own_of_request(refused, len, fault->no, fault->field);
    }
    for (size_t i = 0; i < COUNT_OF(response_faults); i++) {
        const struct change *fault = &response_faults[i];
        size_t len = write_with(WORKED_RESPONSE, fault->old, fault->with, refused);
        expect_own_of_response(refused, len, fault->no, fault->field);
    }
}

/* Request and response exchanged, and records that are neither. */
static void other_kinds(void)
{
    static const char *const others[] = {WORKED_ID_SM,     WORKED_ID_KMC,    WORKED_KEY_CENTRE,
                                         WORKED_KEY_MAKER, WORKED_WRAPPED_1, APPENDIX_A_WRAPPED_1};
    expect_own_of_request(WORKED_RESPONSE, response.len, OBSCURLANE_UNKNOWN_KIND, 0);
    expect_own_of_response(WORKED_REQUEST, request.len, OBSCURLANE_UNKNOWN_KIND, 0);
    for (size_t i = 0; i < COUNT_OF(others); i++) {
        expect_own_of_request(others[i], strlen(others[i]), OBSCURLANE_UNKNOWN_KIND, 0);
        expect_own_of_response(others[i], strlen(others[i]), OBSCURLANE_UNKNOWN_KIND, 0);
    }
}

/* Texts in the parts of a response that the request has too, and others in their place. */
static const char *const differing[][2] = {
    {":sts-", ":Sts-"},
    {":TEST1:", ":TEST:"},
    {"T120000Z:", "T120001Z:"},
    {":06000001:", ":060000011:"},
    {":320C265FDC769D3E:", ":320C265FDC769D3F:"},
    {"|2018", "|2019"},
    {"T150000Z|", "T150001Z|"},
};

/* The response answers another request; before that comes the length of Z. */
static void expect_other_request(struct lent of)
{
    for (size_t i = 0; i < COUNT_OF(zs); i++) {
        uint8_t no = zs[i].len == Z_LEN ? OBSCURLANE_OTHER_REQUEST : OBSCURLANE_WRONG_Z;
        expect_response(zs[i], request, of, no, 0, 0);
    }
}

/* With its tag as it was, and with another one. */
static void other_requests(void)
{
    for (size_t i = 0; i < COUNT_OF(differing); i++) {
        char other[ROOM], mistagged[ROOM];
        size_t len = write_with(WORKED_RESPONSE, differing[i][0], differing[i][1], other);
        expect_other_request(lend(other, len));
        len = write_with(other, WORKED_TAG_CENTRE, WORKED_TAG_MODULE, mistagged);
        expect_other_request(lend(mistagged, len));
    }
    expect_other_request(lend(APPENDIX_A_RESPONSE, strlen(APPENDIX_A_RESPONSE)));
}

/* A mistyped request, and the one that was meant under another Z. */
static void mistyped_or_of_another_key(void)
{
    char mistyped[] = WORKED_REQUEST;
    uint8_t other[Z_LEN];
    *strchr(mistyped, '6') = '5';
    memset(other, 'Z', sizeof other);
    expect_request_refused(z, lend(mistyped, request.len), OBSCURLANE_WRONG_CHECK, 0, OBSCURLANE_REQUEST);
    expect_request_refused((struct lent){other, Z_LEN}, request, OBSCURLANE_WRONG_TAG, 0, 0);
}

/* ---- inputs that overlap */

/* Z is the front of the request itself, whose tag is right for that; a response is the request of a call, too. */
static void overlapping_inputs(void)
{
    char mended[ROOM], right[TAG_DIGITS + 1];
    const struct lent front = {request.at, Z_LEN};
    write_tag(front, request, right);
    size_t len = write_with(WORKED_REQUEST, WORKED_TAG_MODULE, right, mended);
    EXPECT(memcmp(mended, WORKED_REQUEST, Z_LEN) == 0);
    obscurlane_digest keys = keys_of(front, request);
    expect_request(lend(mended, Z_LEN), lend(mended, len), (obscurlane_confirmed){OBSCURLANE_ACCEPTED, 0, 0}, keys.bytes);
    expect_response(front, request, request, OBSCURLANE_UNKNOWN_KIND, 0, OBSCURLANE_RESPONSE);
    expect_response(front, response, response, OBSCURLANE_UNKNOWN_KIND, 0, OBSCURLANE_REQUEST);
    expect_response((struct lent){response.at, Z_LEN}, request, response, OBSCURLANE_WRONG_TAG, 0, 0);
}

void call_for_confirmations(void)
{
    published_tags();
    every_length();
    keys_that_are_alike();
    worked_tags();
    lengths_of_z();
    other_zs();
    changed_tags();
    exchanged_tags();
    changed_fields();
    own_refusals();
    expect_refused_before_fields(WORKED_REQUEST, expect_own_of_request);
    expect_refused_before_fields(WORKED_RESPONSE, expect_own_of_response);
    other_kinds();
    other_requests();
    mistyped_or_of_another_key();
    overlapping_inputs();
}
