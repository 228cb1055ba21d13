/* A part of every.c: SHA-384, whole and piece by piece, and the Fingerprint of a public key. */
#include "expect.h"
#include "worked.h"

#include <stdio.h>
#include <string.h>

/* What goes by value has these sizes in the archive. */
_Static_assert(sizeof(obscurlane_sha384_words) == 64, "eight words");
_Static_assert(sizeof(obscurlane_sha384_state) == 64 + 128 + 16, "a hash value, a block and two words");
_Static_assert(sizeof(obscurlane_digest) == 48, "the bytes alone");
_Static_assert(sizeof(obscurlane_checked) == 2, "two numbers");

/* ---- hashes */

static const struct published published[] = {
    {"", "38B060A751AC96384CD9327EB1B1E36A21FDB71114BE07434C0CC7BF63F6E1DA274EDEBFE76F65FBD51AD2F14898B95B"},
    {"abc", "CB00753F45A35E8BB5A03D699AC65007272C32AB0EDED1631A8B605A43FF5BED8086072BA1E7CC2358BAECA134C825A7"},
    {"abcdefghbcdefghicdefghijdefghijkefghijklfghijklmghijklmnhijklmnoijklmnopjklmnopqklmnopqrlmnopqrsmnopqrstnopqrstu",
     "09330C33F71147E83D192FC782CD1B4753111B173B3B05D22FA08086E3B0F712FCC7C71A557E2DB966C3E9FA91746039"},
};

/* One letter a million times. */
#define HASH_OF_A_MILLION \
    "9D0E1809716474CB086E834E310A4A1CED149E9C00F248527972CEC5704C2A5B07B8B3DC38ECC4EBAE97DDD87F3D8985"

static bool is_start(obscurlane_sha384_words hash)
{
    return hash.a == 0xCBBB9D5DC1059ED8 && hash.b == 0x629A292A367CD507 && hash.c == 0x9159015A3070DD17 &&
           hash.d == 0x152FECD8F70E5939 && hash.e == 0x67332667FFC00B31 && hash.f == 0x8EB44A8768581511 &&
           hash.g == 0xDB0C2E0D64F98FA7 && hash.h == 0x47B5481DBEFA4FA4;
}

#define HASH "SHA-384"
#define DIGEST obscurlane_digest
#define STATE obscurlane_sha384_state
#define CALL(name) obscurlane_sha384_##name
#define BLOCK 128
#define HAS_COUNT(state, bytes) ((state).low == (bytes) && (state).high == 0)
#include "hash.h"

/* A state that no call gave: its bytes are counted in both words. */
static void long_counts(void)
{
    obscurlane_sha384_state state;
    memset(&state, 0xFF, sizeof state);
    state = obscurlane_sha384_add(state, BYTES("a"));
    EXPECT(state.low == 0 && state.high == 0);
    state.low = UINT64_MAX;
    state = obscurlane_sha384_add(state, BYTES("ab"));
    EXPECT(state.low == 1 && state.high == 1);
}

/* ---- Fingerprints */

enum { PRINT = OBSCURLANE_LONGEST_FINGERPRINT };

/* No room, one byte too few, just the room, and more. */
static const size_t rooms[] = {0, PRINT - 1, PRINT, PRINT + 1};

/* Both calls refuse the bytes so, whatever the room. */
static void expect_refused(const char *record, size_t len, uint8_t no, uint8_t field)
{
    const uint8_t *bytes = (const uint8_t *)record;
    obscurlane_checked said = obscurlane_check_fingerprint(bytes, len);
    EXPECT(said.no == no && said.field == field);
    for (size_t i = 0; i < COUNT_OF(rooms); i++) {
        uint8_t out[PRINT + 1];
        memset(out, UNTOUCHED, sizeof out);
        obscurlane_written made = obscurlane_write_fingerprint(bytes, len, out, rooms[i]);
        EXPECT(made.no == no && made.field == field && made.len == 0 && untouched(out, 0, sizeof out));
    }
}

/* The key is checked with this number, and this Fingerprint is the right one, which is written where there is room. */
static void expect_print(const char *key, size_t len, uint8_t no, const char print[PRINT])
{
    const uint8_t *bytes = (const uint8_t *)key;
    obscurlane_checked said = obscurlane_check_fingerprint(bytes, len);
    EXPECT(said.no == no && said.field == 0);
    for (size_t i = 0; i < COUNT_OF(rooms); i++) {
        bool fits = rooms[i] >= PRINT;
        uint8_t out[PRINT + 1];
        memset(out, UNTOUCHED, sizeof out);
        obscurlane_written made = obscurlane_write_fingerprint(bytes, len, out, rooms[i]);
        EXPECT(made.no == (fits ? OBSCURLANE_ACCEPTED : OBSCURLANE_SHORT_OUTPUT) && made.field == 0);
        EXPECT(made.len == (fits ? PRINT : 0) && untouched(out, made.len, sizeof out));
        EXPECT(memcmp(out, print, made.len) == 0);
    }
}

static const struct {
    const char *key;
    const char *hash;
} worked[] = {
    {WORKED_KEY_CENTRE, WORKED_HASH_CENTRE},
    {WORKED_KEY_MAKER, WORKED_HASH_MAKER},
    {WORKED_KEY_SIGNED, WORKED_HASH_MODULE},
    {UNSIGNED_KEY_MAKER, WORKED_HASH_MAKER},
};

/* The hash of a key's Subject up to its Fingerprint and check, of Q, and of a mark: each in a piece of its own. */
static obscurlane_digest hash_for(const uint8_t *key, size_t len)
{
    const size_t behind = PRINT + 1 + 4;
    obscurlane_place subject = obscurlane_record_field(key, len, OBSCURLANE_PUBKEY_SUBJECT);
    obscurlane_place q = obscurlane_record_field(key, len, OBSCURLANE_PUBKEY_Q);
    obscurlane_sha384_state state = obscurlane_sha384_begin();
    state = obscurlane_sha384_add(state, key + subject.start, subject.len - behind);
    state = obscurlane_sha384_add(state, key + q.start, q.len);
    return obscurlane_sha384_end(obscurlane_sha384_add(state, BYTES(":")));
}

static void worked_prints(void)
{
    for (size_t i = 0; i < COUNT_OF(worked); i++) {
        const char *key = worked[i].key;
        EXPECT(is_hash(hash_for((const uint8_t *)key, strlen(key)), worked[i].hash));
        expect_print(key, strlen(key), OBSCURLANE_ACCEPTED, worked[i].hash);
    }
}

/* ---- keys in which something is changed */

/* Every character of a Fingerprint. */
static void changed_prints(void)
{
    for (size_t i = 0; i < COUNT_OF(worked); i++) {
        char right[PRINT + 1] = "", wrong[PRINT + 1], key[ROOM];
        memcpy(right, worked[i].hash, PRINT);
        for (size_t place = 0; place < PRINT; place++) {
            memcpy(wrong, right, sizeof wrong);
            wrong[place] = wrong[place] == '0' ? '1' : '0';
            size_t len = write_with(worked[i].key, right, wrong, key);
            expect_print(key, len, OBSCURLANE_WRONG_FINGERPRINT, right);
        }
    }
}

/* A character in each part that is hashed. */
static const struct {
    const char *key, *old, *with;
} pieces_changed[] = {
    {WORKED_KEY_SIGNED, "|SMID.1:", "|KMCID.1:"},
    {WORKED_KEY_CENTRE, ":sts-", ":stS-"},
    {WORKED_KEY_CENTRE, ":TEST1:", ":TEST:"},
    {WORKED_KEY_MAKER, "T140000Z", "T140001Z"},
    {WORKED_KEY_MAKER, "|04EC", "|04ED"},
    {WORKED_KEY_MAKER, "991A|", "991B|"},
    {WORKED_KEY_SIGNED, "Prism:06000001", "Pris:m06000001"},
};

/* Another hash belongs to it: its Fingerprint is written, and is right where it stands in the Subject. */
static void changed_pieces(void)
{
    for (size_t i = 0; i < COUNT_OF(pieces_changed); i++) {
        char changed[ROOM], mended[ROOM], old[PRINT + 1] = "", right[PRINT + 1] = "";
        size_t len = write_with(pieces_changed[i].key, pieces_changed[i].old, pieces_changed[i].with, changed);
        obscurlane_place subject = obscurlane_record_field((const uint8_t *)changed, len, OBSCURLANE_PUBKEY_SUBJECT);
        memcpy(old, changed + subject.start + subject.len - 5 - PRINT, PRINT);
        (void)obscurlane_write_fingerprint((const uint8_t *)changed, len, (uint8_t *)right, PRINT);
        EXPECT(strlen(right) == PRINT && strcmp(right, old) != 0);
        expect_print(changed, len, OBSCURLANE_WRONG_FINGERPRINT, right);
        expect_print(mended, write_with(changed, old, right, mended), OBSCURLANE_ACCEPTED, right);
    }
}

/* ---- the order of the numbers */

#define SIGNED_BY "|" WORKED_ID_MAKER "|5F82"

/* What is wrong with a key beside its Fingerprint, and the number and the field's that it is refused with. */
static const struct {
    const char *key, *old, *with;
    uint8_t no, field;
} faults[] = {
    {WORKED_KEY_CENTRE, "PK.ECDH.1|", "PK.ECDH.2|", OBSCURLANE_UNKNOWN_KIND, 0},
    {WORKED_KEY_CENTRE, "|||", "|" WORKED_ID_MAKER "||", OBSCURLANE_UNPAIRED, 0},
    {WORKED_KEY_CENTRE, "|||", "||", OBSCURLANE_WRONG_COUNT, 0},
    {WORKED_KEY_CENTRE, "KMCID.1:", "SMMAN.1:", OBSCURLANE_WRONG_KIND, OBSCURLANE_PUBKEY_SUBJECT},
    {WORKED_KEY_CENTRE, ":sts-", ":_sts-", OBSCURLANE_WRONG_IDENTITY, OBSCURLANE_PUBKEY_SUBJECT},
    {WORKED_KEY_CENTRE, "|044D", "|054D", OBSCURLANE_WRONG_TEXT, OBSCURLANE_PUBKEY_Q},
    {WORKED_KEY_SIGNED, "|99991231T", "|99991131T", OBSCURLANE_WRONG_TEXT, OBSCURLANE_PUBKEY_EXPIRY},
    {WORKED_KEY_MODULE, "|99991231T", "|99991131T", OBSCURLANE_WRONG_TEXT, OBSCURLANE_PUBKEY_EXPIRY},
    {WORKED_KEY_MODULE, "|||", "|" WORKED_ID_MAKER "||", OBSCURLANE_UNPAIRED, 0},
    {WORKED_KEY_MODULE, "|||", "|||", OBSCURLANE_MODULE_UNSIGNED, 0},
    {WORKED_KEY_CENTRE, "KMCID.1:", "SMID.1:", OBSCURLANE_MODULE_UNSIGNED, 0},
    {WORKED_KEY_MAKER, SIGNED_BY, "|Prism|5F82", OBSCURLANE_WRONG_IDENTITY, OBSCURLANE_PUBKEY_ISSUER},
    {WORKED_KEY_MAKER, SIGNED_BY, "|" WORKED_ID_SM "|5F82", OBSCURLANE_WRONG_KIND, OBSCURLANE_PUBKEY_ISSUER},
    {WORKED_KEY_MAKER, SIGNED_BY, "||5F82", OBSCURLANE_UNPAIRED, 0},
    {WORKED_KEY_MAKER, "|5F82", "|5f82", OBSCURLANE_WRONG_TEXT, OBSCURLANE_PUBKEY_SIGNATURE},
};

/* The key with another character at the front of its Fingerprint, which a check and a mark follow. */
static void misprint(const char *key, char out[ROOM])
{
    (void)snprintf(out, ROOM, "%s", key);
    char *print = strchr(strchr(out, '|') + 1, '|') - 5 - PRINT;
    *print = *print == '0' ? '1' : '0';
}

/* With the Fingerprint that the key has, and with another one. */
static void refused_keys(void)
{
    for (size_t i = 0; i < COUNT_OF(faults); i++) {
        char refused[ROOM], misprinted[ROOM];
        size_t len = write_with(faults[i].key, faults[i].old, faults[i].with, refused);
        expect_refused(refused, len, faults[i].no, faults[i].field);
        misprint(faults[i].key, misprinted);
        len = write_with(misprinted, faults[i].old, faults[i].with, refused);
        expect_refused(refused, len, faults[i].no, faults[i].field);
    }
}

/* Whole, and without a check. */
static void other_kinds(void)
{
    static const char *const others[] = {WORKED_ID_MAKER, WORKED_ID_SM,     WORKED_ID_KMC,       WORKED_REQUEST,
                                         WORKED_RESPONSE, WORKED_WRAPPED_1, APPENDIX_A_RESPONSE, APPENDIX_A_WRAPPED_1};
    for (size_t i = 0; i < COUNT_OF(others); i++) {
        expect_refused(others[i], strlen(others[i]), OBSCURLANE_UNKNOWN_KIND, 0);
        expect_refused(others[i], strlen(others[i]) - 1, OBSCURLANE_UNKNOWN_KIND, 0);
    }
}

void call_for_hashes(void)
{
    call_for_hash();
    long_counts();
    worked_prints();
    changed_prints();
    changed_pieces();
    refused_keys();
    for (size_t i = 0; i < COUNT_OF(worked); i++) {
        expect_refused_before_fields(worked[i].key, expect_refused);
    }
    other_kinds();
}
