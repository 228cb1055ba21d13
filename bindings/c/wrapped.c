/* A part of every.c: wrapped keys, what the calls answer to them, and their attributes. */
#include "expect.h"
#include "worked.h"

#include <stdio.h>
#include <string.h>

/* The first wrapped key of the worked example by its fields. Its list has the required names alone. */
#define NONCE "000000000000000000000001"
#define LIST "ACT19930101T000000Z;BDT19930101T000000Z;DKG02;KEN255;KRN1;KTC2;SGC0000123456;"
#define PROTECTED_KEY "D80D0BA61492E51E2AFE96FC69633DB5BE92932DEAECEA6C"

struct key {
    const char *nonce;
    const char *attributes;
    const char *protected_key;
};

/* The key with its check, permitted or not; its length. */
static size_t write_key(const struct key *key, char out[ROOM])
{
    int len = snprintf(out, ROOM, "KEY.1|%s|%s|%s|", key->nonce, key->attributes, key->protected_key);
    unsigned check = obscurlane_crc_of((const uint8_t *)out, (size_t)len);
    return (size_t)(len + snprintf(out + len, (size_t)(ROOM - len), "%04X", check));
}

static obscurlane_written build_key(const struct key *key, uint8_t *out, size_t room)
{
    char bytes[ROOM];
    const size_t lens[] = {strlen(key->nonce), strlen(key->attributes), strlen(key->protected_key)};
    int len = snprintf(bytes, sizeof bytes, "%s%s%s", key->nonce, key->attributes, key->protected_key);
    return obscurlane_build(BYTES("KEY.1"), (const uint8_t *)bytes, (size_t)len, lens, COUNT_OF(lens), out, room);
}

static void expect_unbuilt(const struct key *key, size_t room, uint8_t no, uint8_t field)
{
    uint8_t out[ROOM];
    memset(out, UNTOUCHED, sizeof out);
    obscurlane_written made = build_key(key, out, room);
    EXPECT(made.no == no && made.field == field && made.len == 0 && untouched(out, 0, sizeof out));
}

/* Read and built, with just the room: the list has the bytes that it is built from, at their place. */
static void expect_accepted(const struct key *key)
{
    char record[ROOM];
    uint8_t out[ROOM];
    size_t len = write_key(key, record);
    obscurlane_answer said = obscurlane_read_record((const uint8_t *)record, len);
    EXPECT(said.no == OBSCURLANE_ACCEPTED && said.field == 0 && said.kind == OBSCURLANE_KIND_KEY);
    EXPECT(said.starts[0] == 6 && said.lens[0] == 24 && said.starts[1] == 31 && said.lens[1] == strlen(key->attributes));
    EXPECT(said.starts[2] + said.lens[2] + 5 == len && said.lens[2] == strlen(key->protected_key));

    expect_unbuilt(key, len - 1, OBSCURLANE_SHORT_OUTPUT, 0);
    memset(out, UNTOUCHED, sizeof out);
    obscurlane_written made = build_key(key, out, len);
    EXPECT(made.no == OBSCURLANE_ACCEPTED && made.field == 0 && made.len == len);
    EXPECT(memcmp(out, record, len) == 0 && untouched(out, len, sizeof out));
}

static bool is_refused(obscurlane_place place, uint8_t no, uint8_t field)
{
    return place.no == no && place.field == field && place.start == 0 && place.len == 0;
}

/* The calls for one attribute refuse these bytes so, whatever attribute is wanted. */
static void expect_no_attribute(const char *record, size_t len, uint8_t no, uint8_t field)
{
    const uint8_t *bytes = (const uint8_t *)record;
    EXPECT(is_refused(obscurlane_attribute(bytes, len, 1), no, field));
    EXPECT(is_refused(obscurlane_attribute(bytes, len, 0), no, field));
    EXPECT(is_refused(obscurlane_attribute_named(bytes, len, BYTES("ACT")), no, field));
    EXPECT(is_refused(obscurlane_attribute_named(bytes, len, BYTES("")), no, field));
}

/* Refused by all that read it. */
static void expect_refused(const char *record, size_t len, uint8_t no, uint8_t field)
{
    const uint8_t *bytes = (const uint8_t *)record;
    obscurlane_answer said = obscurlane_read_record(bytes, len);
    EXPECT(said.no == no && said.field == field && said.kind == OBSCURLANE_KIND_NONE);
    EXPECT(is_refused(obscurlane_record_field(bytes, len, OBSCURLANE_KEY_ATTRIBUTES), no, field));
    expect_no_attribute(record, len, no, field);
}

/* ---- attributes one by one */

static bool is_at(obscurlane_place place, size_t start, size_t len)
{
    return place.no == OBSCURLANE_ACCEPTED && place.field == 0 && place.start == start && place.len == len;
}

/* Every card of an accepted key by its number and by its name. The list stands behind the second mark. */
static void expect_cards(const char *record, size_t count)
{
    const uint8_t *bytes = (const uint8_t *)record;
    size_t len = strlen(record), found = 0;
    for (const char *card = strchr(record + 6, '|') + 1; *card != '|'; card = strchr(card, ';') + 1) {
        size_t start = (size_t)(card - record), card_len = (size_t)(strchr(card, ';') - card);
        EXPECT(is_at(obscurlane_attribute(bytes, len, ++found), start, card_len));
        EXPECT(is_at(obscurlane_attribute_named(bytes, len, bytes + start, 3), start, card_len));
        EXPECT(is_refused(obscurlane_attribute_named(bytes, len, bytes + start, 2), OBSCURLANE_MISSING_ITEM, 0));
        EXPECT(is_refused(obscurlane_attribute_named(bytes, len, bytes + start, 4), OBSCURLANE_MISSING_ITEM, 0));
    }
    EXPECT(found == count);
    const size_t others[] = {0, count + 1, count + 0x100, (size_t)0x10000 + 1, SIZE_MAX};
    for (size_t i = 0; i < COUNT_OF(others); i++) {
        EXPECT(is_refused(obscurlane_attribute(bytes, len, others[i]), OBSCURLANE_MISSING_ITEM, 0));
    }
    const char *const names[] = {"act", "ACU", "AC;", "SGD", "XYZ", "KEY"};
    for (size_t i = 0; i < COUNT_OF(names); i++) {
        const uint8_t *name = (const uint8_t *)names[i];
        EXPECT(is_refused(obscurlane_attribute_named(bytes, len, name, 3), OBSCURLANE_MISSING_ITEM, 0));
    }
    EXPECT(is_refused(obscurlane_attribute_named(bytes, len, BYTES("")), OBSCURLANE_MISSING_ITEM, 0));
}

static void attributes(void)
{
    expect_cards(WORKED_WRAPPED_1, 7);
    expect_cards(WORKED_WRAPPED_2, 14);
    expect_cards(APPENDIX_A_WRAPPED_1, 15);
    expect_cards(APPENDIX_A_WRAPPED_2, 15);
    expect_cards(APPENDIX_A_WRAPPED_3, 15);
    expect_cards(APPENDIX_A_WRAPPED_4, 15);
    expect_cards(APPENDIX_A_WRAPPED_5, 15);

    const obscurlane_place name = obscurlane_attribute_named(BYTES(APPENDIX_A_WRAPPED_1), BYTES("SGN"));
    EXPECT(memcmp(&APPENDIX_A_WRAPPED_1[name.start], "SGNSURELOAD KMC TEST VUDK 1", name.len) == 0 && name.len == 27);
    const obscurlane_place last = obscurlane_attribute(BYTES(WORKED_WRAPPED_1), 7);
    EXPECT(memcmp(&WORKED_WRAPPED_1[last.start], "SGC0000123456", last.len) == 0 && last.len == 13);
}

/* ---- the order of the numbers: what is wrong here is wrong in all that comes later too */

static void expect_key_refused(struct key key, uint8_t no, uint8_t field)
{
    char record[ROOM];
    expect_refused(record, write_key(&key, record), no, field);
    expect_unbuilt(&key, ROOM, no, field);
    expect_unbuilt(&key, 0, no, field);
}

static void numbers_in_order(void)
{
    char longer[OBSCURLANE_LONGEST_READ + 1];
    memset(longer, 'A', sizeof longer);
    expect_refused(longer, sizeof longer, OBSCURLANE_TOO_LONG, 0);
    expect_refused(longer, sizeof longer - 1, OBSCURLANE_UNKNOWN_KIND, 0);
    expect_refused("KEY.1:", 6, OBSCURLANE_UNKNOWN_KIND, 0);
    expect_refused("KEY.1|", 6, OBSCURLANE_MISSING_CHECK, 0);
    expect_refused("KEY.1||0000", 11, OBSCURLANE_WRONG_CHECK, 0);
    expect_refused("KEY.1||5A8B", 11, OBSCURLANE_WRONG_COUNT, 0);
    expect_key_refused((struct key){"", "", ""}, OBSCURLANE_WRONG_TEXT, OBSCURLANE_KEY_NONCE);
    expect_key_refused((struct key){NONCE, "", ""}, OBSCURLANE_WRONG_TEXT, OBSCURLANE_KEY_ATTRIBUTES);
    expect_key_refused((struct key){NONCE, "ACT", ""}, OBSCURLANE_WRONG_TEXT, OBSCURLANE_KEY_PROTECTED_KEY);
    expect_key_refused((struct key){NONCE, "ACT", PROTECTED_KEY}, OBSCURLANE_WRONG_ATTRIBUTES, 0);
    expect_accepted(&(struct key){NONCE, LIST, PROTECTED_KEY});
}

/* ---- the fields by themselves */

static void texts_of_fields(void)
{
    static const char *const nonces[] = {"00000000000000000000001", "0000000000000000000000001", "00000000000000000000000a",
                                         "00000000000000000000000G"};
    for (size_t i = 0; i < COUNT_OF(nonces); i++) {
        const struct key key = {nonces[i], LIST, PROTECTED_KEY};
        expect_key_refused(key, OBSCURLANE_WRONG_TEXT, OBSCURLANE_KEY_NONCE);
    }
    static const char *const lists[] = {LIST "XYZ\x1F;", LIST "XYZ\x7F;", LIST "XYZ\x80;", LIST "XYZ\xFF;", LIST "XYZ\n;"};
    for (size_t i = 0; i < COUNT_OF(lists); i++) {
        const struct key key = {NONCE, lists[i], PROTECTED_KEY};
        expect_key_refused(key, OBSCURLANE_WRONG_TEXT, OBSCURLANE_KEY_ATTRIBUTES);
    }
    char digits[] = "000000000000000000000000000000000000000000000000000000000000000000000000000";
    for (size_t len = sizeof digits - 1; len > 0; len--) {
        digits[len] = '\0';
        const struct key key = {NONCE, LIST, digits};
        if (len >= 32 && len <= 72 && len % 2 == 0) {
            expect_accepted(&key);
        } else {
            expect_key_refused(key, OBSCURLANE_WRONG_TEXT, OBSCURLANE_KEY_PROTECTED_KEY);
        }
    }

    /* A mark in the list is a field more to the reader, and no character of a list to the builder. */
    char record[ROOM];
    const struct key marked = {NONCE, LIST "XYZ|;", PROTECTED_KEY};
    expect_refused(record, write_key(&marked, record), OBSCURLANE_WRONG_COUNT, 0);
    expect_unbuilt(&marked, ROOM, OBSCURLANE_WRONG_TEXT, OBSCURLANE_KEY_ATTRIBUTES);
}

/* ---- the lists that are permitted: the required names, and one thing in the place of another */

static const struct {
    const char *old;
    const char *other;
    bool is_permitted;
} changes[] = {
    /* every card is ended, and has a name of three letters or digits */
    {"123456;", "123456", false},
    {"123456;", "123456;;", false},
    {"ACT", ";ACT", false},
    {"DKG", ";DKG", false},
    {"DKG", "C;DKG", false},
    {"DKG", "CL;DKG", false},
    {"DKG", "CLM;DKG", true},
    {"DKG", "CLM !~:#,;DKG", true},
    {"DKG", "C-M;DKG", false},
    {"DKG", "CL ;DKG", false},
    {"DKG", "C0m;DKG", true},
    /* the names ascend */
    {"ACT", "000;ACT", true},
    {"ACT", "ACS;ACT", true},
    {"ACT", "ACU;ACT", false},
    {"ACT", "act;ACT", false},
    {"123456;", "123456;act;", true},
    {"DKG", "CLM1;CLM2;DKG", false},
    {"DKG02;", "DKG02;DKG02;", false},
    {"KRN1;KTC2;", "KTC2;KRN1;", false},
    /* those that are required */
    {"ACT19930101T000000Z;", "", false},
    {"BDT19930101T000000Z;", "", false},
    {"DKG02;", "", false},
    {"KEN255;", "", false},
    {"KRN1;", "", false},
    {"KTC2;", "", false},
    {"SGC0000123456;", "", false},
    {"SGC", "sgc", false},
    /* what each value is */
    {"ACT19930101T000000Z", "ACT99991231T235959Z", true},
    {"ACT19930101T000000Z", "ACT19930101T240000Z", false},
    {"ACT19930101T000000Z", "ACT", false},
    {"BDT19930101T000000Z", "BDT00010101T000000Z", true},
    {"BDT19930101T000000Z", "BDT00000101T000000Z", false},
    {"DKG02", "DKG99", true},
    {"DKG02", "DKG2", false},
    {"DKG02", "DKG002", false},
    {"DKG02", "DKG0A", false},
    {"KEN", "IUT20990101T000000Z;KEN", true},
    {"KEN", "IUT20990001T000000Z;KEN", false},
    {"KEN", "IUT;KEN", false},
    {"KEN255", "KEN000", true},
    {"KEN255", "KEN199", true},
    {"KEN255", "KEN256", false},
    {"KEN255", "KEN260", false},
    {"KEN255", "KEN300", false},
    {"KEN255", "KEN55", false},
    {"KEN255", "KEN0255", false},
    {"KEN255", "KEN2:5", false},
    {"KRN1", "KRN9", true},
    {"KRN1", "KRN", false},
    {"KRN1", "KRN10", false},
    {"KRN1", "KRNA", false},
    {"KTC2", "KTC0", true},
    {"KTC2", "KTC", false},
    {"KTC2", "KTC22", false},
    {"KTC2", "KTC/", false},
    {"SGC0000123456", "SGC9999999999", true},
    {"SGC0000123456", "SGC000123456", false},
    {"SGC0000123456", "SGC00000123456", false},
    {"SGC0000123456", "SGC000012345F", false},
    {"123456;", "123456;SGN;", false},
    {"123456;", "123456;SGN ;", true},
    {"DKG", "EXPnever;DKG", false},
    {"KEN", "EXPnever;KEN", true},
};

static void expect_list(const char *list, bool is_permitted)
{
    const struct key key = {NONCE, list, PROTECTED_KEY};
    if (is_permitted) {
        expect_accepted(&key);
    } else {
        expect_key_refused(key, OBSCURLANE_WRONG_ATTRIBUTES, 0);
    }
}

/* A card of a name behind all required ones, and of a value with so many characters. */
static void write_card(char *out, const char *name, int characters)
{
    (void)sprintf(out, "%s%*s;", name, characters, "");
}

static void lists(void)
{
    static const char required[] = LIST;
    char list[ROOM];
    for (size_t i = 0; i < COUNT_OF(changes); i++) {
        const char *at = strstr(required, changes[i].old);
        EXPECT(at != NULL);
        int before = (int)(at - required);
        (void)snprintf(list, sizeof list, "%.*s%s%s", before, required, changes[i].other, at + strlen(changes[i].old));
        expect_list(list, changes[i].is_permitted);
    }
    memcpy(list, required, sizeof required);
    char *end = list + strlen(required);
    for (int characters = 98; characters <= 101; characters++) {
        write_card(end, "SGN", characters);
        expect_list(list, characters <= 99);
    }
    for (int characters = 250; characters <= 257; characters++) {
        write_card(end, "SGO", characters);
        expect_list(list, characters <= 252);
    }
}

/* ---- the longest, and one byte more */

/* A permitted list of so many bytes: the required names, and others with as long values as there can be. */
static void write_list(char out[ROOM], size_t len)
{
    const size_t card = 3 + 252 + 1;
    size_t at = sizeof LIST - 1;
    memcpy(out, LIST, sizeof LIST);
    for (int n = 0; at < len; n++) {
        size_t this_one = len - at < card ? len - at : card;
        char name[4];
        (void)snprintf(name, sizeof name, "X%02d", n % 100);
        write_card(out + at, name, (int)this_one - 4);
        at += this_one;
    }
}

static void longest(void)
{
    char list[ROOM], record[ROOM], file[2 * ROOM];
    struct key key = {NONCE, list, PROTECTED_KEY};
    const size_t most = OBSCURLANE_LONGEST_RECORD - 37 - (sizeof PROTECTED_KEY - 1);
    write_list(list, most);
    EXPECT(write_key(&key, record) == OBSCURLANE_LONGEST_RECORD);
    expect_accepted(&key);
    expect_unbuilt(&key, 0, OBSCURLANE_SHORT_OUTPUT, 0);
    expect_cards(record, 11);
    (void)sprintf(file, "%s\n", record);

    write_list(list, most + 1);
    EXPECT(write_key(&key, record) == OBSCURLANE_LONGEST_RECORD + 1);
    expect_key_refused(key, OBSCURLANE_TOO_LONG, 0);
    expect_unbuilt(&key, OBSCURLANE_LONGEST_RECORD, OBSCURLANE_TOO_LONG, 0);
    (void)sprintf(file + strlen(file), "%s\n", record);

    /* What is wrong with the list comes before its length. */
    list[strlen(list) - 1] = ' ';
    expect_unbuilt(&key, ROOM, OBSCURLANE_WRONG_ATTRIBUTES, 0);

    size_t file_len = strlen(file);
    obscurlane_line line = obscurlane_line_at((const uint8_t *)file, file_len, 0);
    EXPECT(line.no == OBSCURLANE_ACCEPTED && line.kind == OBSCURLANE_KIND_KEY && line.len == OBSCURLANE_LONGEST_RECORD);
    line = obscurlane_line_at((const uint8_t *)file, file_len, line.next);
    EXPECT(line.no == OBSCURLANE_TOO_LONG && line.len == OBSCURLANE_LONGEST_RECORD + 1 && line.next == file_len);

    EXPECT(OBSCURLANE_LONGEST_RECORD == 1024 && OBSCURLANE_LONGEST_READ == 1024 && OBSCURLANE_LONGEST_PUBKEY == 646);
}

/* ---- calls that read no wrapped key, and wrapped key calls that read no other kind */

static void other_kinds(void)
{
    uint8_t out[OBSCURLANE_LONGEST_MODULE_TEXT];
    memset(out, UNTOUCHED, sizeof out);
    EXPECT(obscurlane_read_identity(BYTES(WORKED_WRAPPED_1)).no == OBSCURLANE_UNKNOWN_KIND);
    EXPECT(is_refused(obscurlane_identity_field(BYTES(WORKED_WRAPPED_1), 1), OBSCURLANE_UNKNOWN_KIND, 0));
    EXPECT(obscurlane_shared_info(BYTES(WORKED_WRAPPED_1), out, sizeof out).no == OBSCURLANE_UNKNOWN_KIND);
    EXPECT(obscurlane_module_text(BYTES(WORKED_WRAPPED_1), out, sizeof out).no == OBSCURLANE_UNKNOWN_KIND);
    EXPECT(obscurlane_centre_text(BYTES(WORKED_WRAPPED_1), out, sizeof out).no == OBSCURLANE_UNKNOWN_KIND);
    EXPECT(untouched(out, 0, sizeof out));
    obscurlane_choice choice = obscurlane_newer(BYTES(WORKED_WRAPPED_1), BYTES(WORKED_WRAPPED_1));
    EXPECT(choice.no == OBSCURLANE_UNKNOWN_KIND && choice.field == 0 && choice.which == OBSCURLANE_FIRST);
    choice = obscurlane_newer(BYTES(WORKED_KEY_CENTRE), BYTES(WORKED_WRAPPED_1));
    EXPECT(choice.no == OBSCURLANE_UNKNOWN_KIND && choice.field == 0 && choice.which == OBSCURLANE_SECOND);

    static const char *const others[] = {WORKED_ID_MAKER,   WORKED_ID_SM,      WORKED_ID_KMC,  WORKED_KEY_MAKER,
                                         WORKED_KEY_MODULE, WORKED_KEY_CENTRE, WORKED_REQUEST, WORKED_RESPONSE,
                                         WORKED_KEY_SIGNED};
    for (size_t i = 0; i < COUNT_OF(others); i++) {
        expect_no_attribute(others[i], strlen(others[i]), OBSCURLANE_UNKNOWN_KIND, 0);
        expect_no_attribute(others[i], strlen(others[i]) - 1, OBSCURLANE_UNKNOWN_KIND, 0);
    }
}

void call_for_wrapped_keys(void)
{
    attributes();
    numbers_in_order();
    texts_of_fields();
    lists();
    longest();
    other_kinds();
}
