/* A part of every.c: the unsigned key of a module, to the functions that read, build and choose. Those for Fingerprints have it
 * in hashes.c; those for manufacturers' files, mail, Expiry and the cabinet by expect_every_record. */
#include "expect.h"
#include "worked.h"

#include <string.h>

enum { NONE = OBSCURLANE_KIND_NONE, FIELDS = 5 };

/* Keys of modules without Issuer and Signature, and keys that are nearly such. */
static const struct {
    const char *record, *old, *with;
    uint8_t no, field;
} keys[] = {
    {WORKED_KEY_MODULE, "|||", "|||", OBSCURLANE_MODULE_UNSIGNED, 0},
    {WORKED_KEY_MODULE, ":Prism:06000001:", ":P:0:", OBSCURLANE_MODULE_UNSIGNED, 0},
    {WORKED_KEY_MODULE, "|99991231T", "|00010101T", OBSCURLANE_MODULE_UNSIGNED, 0},
    {WORKED_KEY_MODULE, ":320C265FDC769D3E:", ":0000000000000000:", OBSCURLANE_MODULE_UNSIGNED, 0},
    {WORKED_KEY_CENTRE, "|KMCID.1:", "|SMID.1:", OBSCURLANE_MODULE_UNSIGNED, 0},
    /* Signed, of a centre, of a manufacturer. */
    {WORKED_KEY_SIGNED, "|SMID.1:", "|SMID.1:", OBSCURLANE_ACCEPTED, 0},
    {WORKED_KEY_SIGNED, "|SMID.1:", "|KMCID.1:", OBSCURLANE_ACCEPTED, 0},
    {WORKED_KEY_CENTRE, "|||", "|||", OBSCURLANE_ACCEPTED, 0},
    {WORKED_KEY_CENTRE, ":sts-KeyAgreement-1.2:TEST1:", ":SMID.1:SMID.1:", OBSCURLANE_ACCEPTED, 0},
    {WORKED_KEY_MODULE, "|SMID.1:", "|KMCID.1:", OBSCURLANE_ACCEPTED, 0},
    {WORKED_KEY_MAKER, "|SMMAN.1:", "|SMMAN.1:", OBSCURLANE_ACCEPTED, 0},
    {UNSIGNED_KEY_MAKER, "|||", "|||", OBSCURLANE_ACCEPTED, 0},
    /* Every other number of a public key comes before. */
    {WORKED_KEY_MODULE, "|||", "|" WORKED_ID_MAKER "||", OBSCURLANE_UNPAIRED, 0},
    {WORKED_KEY_SIGNED, "|" WORKED_ID_MAKER "|", "||", OBSCURLANE_UNPAIRED, 0},
    {WORKED_KEY_MODULE, "|99991231T", "|99991131T", OBSCURLANE_WRONG_TEXT, OBSCURLANE_PUBKEY_EXPIRY},
    {WORKED_KEY_MODULE, "|0479", "|0579", OBSCURLANE_WRONG_TEXT, OBSCURLANE_PUBKEY_Q},
    {WORKED_KEY_MODULE, ":06000001:", ":_6000001:", OBSCURLANE_WRONG_IDENTITY, OBSCURLANE_PUBKEY_SUBJECT},
    {WORKED_KEY_MODULE, "|SMID.1:", "|SMMAN.1:", OBSCURLANE_WRONG_KIND, OBSCURLANE_PUBKEY_SUBJECT},
    {WORKED_KEY_MODULE, "PK.ECDH.1|", "PK.ECDSA.1|", OBSCURLANE_WRONG_KIND, OBSCURLANE_PUBKEY_SUBJECT},
};

/* With a refusal nothing is handed back, of the record and of any field. */
static void expect_read(const uint8_t *record, size_t len, uint8_t no, uint8_t field)
{
    const bool is_accepted = no == OBSCURLANE_ACCEPTED;
    obscurlane_answer said = obscurlane_read_record(record, len);
    EXPECT(said.no == no && said.field == field && (said.kind != NONE) == is_accepted);
    for (size_t n = 1; n <= FIELDS; n++) {
        EXPECT((said.starts[n - 1] != 0) == is_accepted);
        EXPECT(is_accepted || (said.lens[n - 1] == 0 && said.kinds[n - 1] == NONE));
        obscurlane_place place = obscurlane_record_field(record, len, n);
        EXPECT(place.no == no && place.field == field);
        EXPECT(place.start == said.starts[n - 1] && place.len == said.lens[n - 1]);
    }
    uint8_t beyond = is_accepted ? OBSCURLANE_MISSING_ITEM : no;
    EXPECT(obscurlane_record_field(record, len, 0).no == beyond);
    EXPECT(obscurlane_record_field(record, len, FIELDS + 1).no == beyond);
}

/* Built from the fields of the record, whatever the room: 10 comes after the key's own number. */
static void expect_built(const char *record, size_t len, uint8_t no, uint8_t field)
{
    uint8_t bytes[ROOM], out[ROOM];
    size_t total = 0, lens[FIELDS];
    const char *at = strchr(record, '|') + 1;
    for (size_t n = 0; n < FIELDS; n++) {
        lens[n] = strcspn(at, "|");
        memcpy(bytes + total, at, lens[n]);
        total += lens[n];
        at += lens[n] + 1;
    }
    const size_t rooms[] = {0, 1, len - 1, len, len + 1, ROOM};
    for (size_t i = 0; i < COUNT_OF(rooms); i++) {
        memset(out, UNTOUCHED, sizeof out);
        obscurlane_written made = obscurlane_build((const uint8_t *)record, strcspn(record, "|"), bytes, total, lens, FIELDS,
                                                   out, rooms[i]);
        bool is_short = no == OBSCURLANE_ACCEPTED && rooms[i] < len;
        size_t written = no == OBSCURLANE_ACCEPTED && !is_short ? len : 0;
        EXPECT(made.no == (is_short ? OBSCURLANE_SHORT_OUTPUT : no) && made.field == field && made.len == written);
        EXPECT(memcmp(out, record, written) == 0 && untouched(out, written, sizeof out));
    }
    /* What does not depend on the fields comes before. */
    memset(out, UNTOUCHED, sizeof out);
    EXPECT(obscurlane_build(BYTES("PK.ECDH.2"), bytes, total, lens, FIELDS, out, sizeof out).no == OBSCURLANE_UNKNOWN_KIND);
    EXPECT(obscurlane_build(BYTES("PK.ECDH.1"), bytes, total, lens, FIELDS - 1, out, sizeof out).no == OBSCURLANE_WRONG_COUNT);
    EXPECT(obscurlane_build(BYTES("PK.ECDH.1"), bytes, total - 1, lens, FIELDS, out, sizeof out).no == OBSCURLANE_WRONG_COUNT);
    EXPECT(untouched(out, 0, sizeof out));
}

/* As the second of three lines, and as a last one without line feed; the others answer as before. */
static void expect_in_files(const char *record, size_t len, uint8_t no, uint8_t field)
{
    static const char around[] = WORKED_RESPONSE "\n";
    enum { START = sizeof around - 1 };
    uint8_t file[2 * START + ROOM];
    const bool is_accepted = no == OBSCURLANE_ACCEPTED;
    memcpy(file, around, START);
    memcpy(file + START, record, len);
    file[START + len] = '\n';
    memcpy(file + START + len + 1, around, START);
    const size_t file_len = 2 * START + len + 1;
    size_t place = obscurlane_reader_step(file, file_len, &(size_t){0}).next;
    obscurlane_line line = obscurlane_line_at(file, file_len, place);
    EXPECT(line.line && line.no == no && line.field == field && (line.kind != NONE) == is_accepted);
    EXPECT(line.start == START && line.len == len && line.next == START + len + 1);
    line = obscurlane_reader_step(file, file_len, &place);
    EXPECT(line.line && line.no == no && line.field == field && (line.kind != NONE) == is_accepted);
    EXPECT(line.start == START && line.len == len && line.next == place && place == START + len + 1);
    EXPECT(obscurlane_reader_step(file, file_len, &place).no == OBSCURLANE_ACCEPTED && place == file_len);
    obscurlane_totals totals = obscurlane_count(file, file_len);
    EXPECT(totals.lines == 3 && totals.accepted == 2 + (size_t)is_accepted);
    line = obscurlane_line_at(file, START + len, START);
    EXPECT(line.no == OBSCURLANE_UNFINISHED && line.field == 0 && line.kind == NONE);
    EXPECT(obscurlane_count(file, START + len).accepted == 1);
}

static bool is_choice(obscurlane_choice choice, uint8_t no, uint8_t field, uint8_t which)
{
    return choice.no == no && choice.field == field && choice.which == which;
}

/* As the first of two and as the second: its own number comes before 13, and before that of the second. */
static void expect_chosen(const uint8_t *record, size_t len, uint8_t no, uint8_t field)
{
    if (no == OBSCURLANE_ACCEPTED) {
        EXPECT(is_choice(obscurlane_newer(record, len, record, len), no, 0, OBSCURLANE_FIRST));
        EXPECT(is_choice(obscurlane_newer(record, len, BYTES(WORKED_KEY_MODULE)), OBSCURLANE_MODULE_UNSIGNED, 0,
                         OBSCURLANE_SECOND));
        return;
    }
    EXPECT(is_choice(obscurlane_newer(record, len, record, len), no, field, OBSCURLANE_FIRST));
    EXPECT(is_choice(obscurlane_newer(record, len, BYTES("")), no, field, OBSCURLANE_FIRST));
    EXPECT(is_choice(obscurlane_newer(record, len, BYTES(WORKED_KEY_SIGNED)), no, field, OBSCURLANE_FIRST));
    EXPECT(is_choice(obscurlane_newer(BYTES(WORKED_KEY_SIGNED), record, len), no, field, OBSCURLANE_SECOND));
    EXPECT(is_choice(obscurlane_newer(BYTES(WORKED_KEY_MAKER), record, len), no, field, OBSCURLANE_SECOND));
    EXPECT(is_choice(obscurlane_newer(BYTES(""), record, len), OBSCURLANE_UNKNOWN_KIND, 0, OBSCURLANE_FIRST));
}

void call_with_unsigned_keys(void)
{
    for (size_t i = 0; i < COUNT_OF(keys); i++) {
        char record[ROOM];
        const uint8_t *bytes = (const uint8_t *)record;
        size_t len = write_with(keys[i].record, keys[i].old, keys[i].with, record);
        expect_read(bytes, len, keys[i].no, keys[i].field);
        expect_built(record, len, keys[i].no, keys[i].field);
        expect_in_files(record, len, keys[i].no, keys[i].field);
        expect_chosen(bytes, len, keys[i].no, keys[i].field);
    }
}
