/* A part of every.c: the check, the text types, files, and the names. */
#include "expect.h"
#include "worked.h"

#include <stdio.h>
#include <string.h>

static void check(void)
{
    EXPECT(obscurlane_crc_of(BYTES("")) == 0xFFFF);
    EXPECT(obscurlane_crc_of(BYTES("\0")) == 0x40BF);
    EXPECT(obscurlane_crc_of(BYTES("123456789")) == 0x4B37);
    uint16_t state = obscurlane_crc_begin();
    EXPECT(state == 0xFFFF && obscurlane_crc_end(state) == 0xFFFF);
    for (uint8_t digit = '1'; digit <= '9'; digit++) {
        state = obscurlane_crc_add(state, digit);
    }
    EXPECT(obscurlane_crc_end(state) == 0x4B37);
    EXPECT(obscurlane_crc_add(0, 0) == 0 && obscurlane_crc_add(0, 1) == 0xC0C1 && obscurlane_crc_end(0) == 0);
}

static void types(void)
{
    EXPECT(obscurlane_is_ident(BYTES("sts-KeyAgreement-1.2")));
    EXPECT(!obscurlane_is_ident(BYTES("")) && !obscurlane_is_ident(BYTES("_A")));
    EXPECT(obscurlane_is_timestamp(BYTES("20180120T235959Z")));
    EXPECT(!obscurlane_is_timestamp(BYTES("20180120T240000Z")));
    EXPECT(obscurlane_is_timestamp(BYTES("99991231T115959Z")));
    EXPECT(obscurlane_is_print(BYTES("320C265FDC769D3E")) && !obscurlane_is_print(BYTES("320C265FDC769D3")));
    EXPECT(obscurlane_is_hex(2, BYTES("0A")) && !obscurlane_is_hex(2, BYTES("0a")));
    EXPECT(obscurlane_is_hex(0, BYTES("")) && !obscurlane_is_hex(3, BYTES("0A")));

    uint8_t digits[194], letters[OBSCURLANE_LONGEST_IDENT + 1];
    memset(letters, 'A', sizeof letters);
    EXPECT(obscurlane_is_ident(letters, OBSCURLANE_LONGEST_IDENT) && !obscurlane_is_ident(letters, sizeof letters));
    memset(digits, '4', sizeof digits);
    digits[0] = '0';
    EXPECT(obscurlane_is_point(digits, 194) && !obscurlane_is_point(digits, 193));
    EXPECT(obscurlane_is_sig(digits, 192) && !obscurlane_is_sig(digits, 191));
    EXPECT(obscurlane_is_mac(digits, 48) && !obscurlane_is_mac(digits, 49));
    digits[1] = '2';
    EXPECT(!obscurlane_is_point(digits, 194));
}

/* ---- days: both sides of every month's end, and 29 February */

static bool exists(int year, int month, int day)
{
    char text[40];
    int length = snprintf(text, sizeof text, "%04d%02d%02dT000000Z", year, month, day);
    EXPECT(length == 16);
    return obscurlane_is_timestamp((const uint8_t *)text, 16);
}

static void days(void)
{
    static const int lasts[] = {31, 28, 31, 30, 31, 30, 31, 31, 30, 31, 30, 31};
    for (int month = 1; month <= 12; month++) {
        int last = lasts[month - 1];
        EXPECT(!exists(2023, month, 0) && exists(2023, month, 1));
        EXPECT(exists(2023, month, last) && !exists(2023, month, last + 1));
    }
    EXPECT(exists(1996, 2, 29) && exists(2000, 2, 29) && exists(2400, 2, 29));
    EXPECT(!exists(1900, 2, 29) && !exists(2023, 2, 29) && !exists(2100, 2, 29) && !exists(2000, 2, 30));
}

/* Reads a worked record in which a text took the place of one as long, with the check made right again. */
static obscurlane_answer read_with(const char *worked, const char *old, const char *text)
{
    char record[OBSCURLANE_LONGEST_READ];
    size_t length = strlen(worked), check = length - 4;
    const char *place = strstr(worked, old);
    EXPECT(place != NULL && strlen(old) == strlen(text) && length < sizeof record);
    memcpy(record, worked, length + 1);
    memcpy(record + (place - worked), text, strlen(text));
    (void)snprintf(record + check, 5, "%04X", (unsigned)obscurlane_crc_of((const uint8_t *)record, check));
    return strncmp(worked, "SMID.1:", 7) == 0 ? obscurlane_read_identity((const uint8_t *)record, length)
                                              : obscurlane_read_record((const uint8_t *)record, length);
}

#define GNT_SM "20180120T090000Z"
#define INSIDE ":" GNT_SM ":320C265FDC769D3E:8EFF"

/* Wherever a date stands: one that does not exist, one that does, and the number and the field's of the first. */
static const struct {
    const char *worked, *old, *missing, *there;
    uint8_t no, field;
} dates[] = {
    {WORKED_ID_SM, GNT_SM, "20230431T000000Z", "20000229T000000Z", OBSCURLANE_WRONG_TEXT, OBSCURLANE_IDENTITY_GNT},
    {WORKED_RESPONSE, INSIDE, ":20230431T000000Z:320C265FDC769D3E:8449", ":20000229T000000Z:320C265FDC769D3E:4E84",
     OBSCURLANE_WRONG_IDENTITY, OBSCURLANE_RESP_ID_SM},
    {WORKED_RESPONSE, "20180125T150000Z", "20230431T000000Z", "20000229T000000Z", OBSCURLANE_WRONG_TEXT, OBSCURLANE_RESP_TVP},
    {WORKED_REQUEST, "20180125T150000Z", "20230431T000000Z", "20000229T000000Z", OBSCURLANE_WRONG_TEXT, OBSCURLANE_REQ_TVP},
    {WORKED_KEY_CENTRE, "20210110T120000Z", "20230431T000000Z", "20000229T000000Z", OBSCURLANE_WRONG_TEXT,
     OBSCURLANE_PUBKEY_EXPIRY},
    {WORKED_WRAPPED_1, "ACT19930101", "ACT20230431", "ACT20000229", OBSCURLANE_WRONG_ATTRIBUTES, 0},
    {WORKED_WRAPPED_1, "BDT19930101", "BDT20230431", "BDT20000229", OBSCURLANE_WRONG_ATTRIBUTES, 0},
    {WORKED_WRAPPED_2, "IUT20990101", "IUT20230431", "IUT20000229", OBSCURLANE_WRONG_ATTRIBUTES, 0},
};

static void missing_days(void)
{
    for (size_t i = 0; i < COUNT_OF(dates); i++) {
        obscurlane_answer said = read_with(dates[i].worked, dates[i].old, dates[i].missing);
        EXPECT(said.no == dates[i].no && said.field == dates[i].field && said.kind == OBSCURLANE_KIND_NONE);
        EXPECT(read_with(dates[i].worked, dates[i].old, dates[i].there).no == OBSCURLANE_ACCEPTED);
    }
    EXPECT(read_with(WORKED_WRAPPED_2, "EXP20990101", "EXP20230431").no == OBSCURLANE_ACCEPTED);
}

/* ---- files */

/* An accepted line, the scope paper's example (an empty line, a line of another kind, and bytes without line feed), and before
 * these bytes a line that is refused at its first field. */
#define LINES WORKED_RESPONSE "\n\nPK.ECDH.2|x\nVKLOAD.RESP.1|a|b|c|d|D350\nabc"

static const obscurlane_line lines[] = {
    {true, OBSCURLANE_ACCEPTED, 0, OBSCURLANE_KIND_RESP, 0, 219, 220},
    {true, OBSCURLANE_UNKNOWN_KIND, 0, OBSCURLANE_KIND_NONE, 220, 0, 221},
    {true, OBSCURLANE_UNKNOWN_KIND, 0, OBSCURLANE_KIND_NONE, 221, 11, 233},
    {true, OBSCURLANE_WRONG_IDENTITY, 1, OBSCURLANE_KIND_NONE, 233, 26, 260},
    {true, OBSCURLANE_UNFINISHED, 0, OBSCURLANE_KIND_NONE, 260, 3, 263},
    {false, 0, 0, OBSCURLANE_KIND_NONE, 263, 0, 263},
};

/* Appendix A's example as its file. The last line is a sum of those before it and has no line feed. */
#define APPENDIX_A_FILE \
    APPENDIX_A_RESPONSE "\n" APPENDIX_A_WRAPPED_1 "\n" APPENDIX_A_WRAPPED_2 "\n" APPENDIX_A_WRAPPED_3 "\n" \
    APPENDIX_A_WRAPPED_4 "\n" APPENDIX_A_WRAPPED_5 "\n" APPENDIX_A_TRAILER

static const obscurlane_line appendix_lines[] = {
    {true, OBSCURLANE_ACCEPTED, 0, OBSCURLANE_KIND_RESP, 0, 204, 205},
    {true, OBSCURLANE_ACCEPTED, 0, OBSCURLANE_KIND_KEY, 205, 273, 479},
    {true, OBSCURLANE_ACCEPTED, 0, OBSCURLANE_KIND_KEY, 479, 273, 753},
    {true, OBSCURLANE_ACCEPTED, 0, OBSCURLANE_KIND_KEY, 753, 273, 1027},
    {true, OBSCURLANE_ACCEPTED, 0, OBSCURLANE_KIND_KEY, 1027, 254, 1282},
    {true, OBSCURLANE_ACCEPTED, 0, OBSCURLANE_KIND_KEY, 1282, 254, 1537},
    {true, OBSCURLANE_UNFINISHED, 0, OBSCURLANE_KIND_NONE, 1537, 41, 1578},
    {false, 0, 0, OBSCURLANE_KIND_NONE, 1578, 0, 1578},
};

/* A wrapped key whose attribute list is not permitted, one whose third field is too short, and between two accepted ones the
 * fourth of Appendix A as it is printed. */
#define WRAPPED_KEYS \
    "KEY.1|000000000000000000000001|ACT|D80D0BA61492E51E2AFE96FC69633DB5|84A8\n" \
    "KEY.1|000000000000000000000001|ACT|D8|72E2\n" WORKED_WRAPPED_1 "\n" \
    "KEY.1|5EE5F985A1186F8A5DD1175F|ACT20140813T000000Z;BDT19930101T000000Z;CLM461c4000;CLU0;DKG02;EXP20170506T215959Z;" \
    "IUT20160903T102658Z;KCV33F45;KEN255;KRN1;KTC2;SBM0001;SGC0000123456;SGNACME;ULM10000;|" \
    "7865DC2B97755CFFA8B5A83C34D1AB8EB6955666F5C78A0B|25EB\n" WORKED_WRAPPED_2 "\n"

static const obscurlane_line wrapped_lines[] = {
    {true, OBSCURLANE_WRONG_ATTRIBUTES, 0, OBSCURLANE_KIND_NONE, 0, 72, 73},
    {true, OBSCURLANE_WRONG_TEXT, OBSCURLANE_KEY_PROTECTED_KEY, OBSCURLANE_KIND_NONE, 73, 42, 116},
    {true, OBSCURLANE_ACCEPTED, 0, OBSCURLANE_KIND_KEY, 116, 162, 279},
    {true, OBSCURLANE_WRONG_CHECK, 0, OBSCURLANE_KIND_NONE, 279, 253, 533},
    {true, OBSCURLANE_ACCEPTED, 0, OBSCURLANE_KIND_KEY, 533, 305, 839},
    {false, 0, 0, OBSCURLANE_KIND_NONE, 839, 0, 839},
};

/* A file has these lines, the last of which says that it is finished, and is counted so. */
static void expect_lines(const uint8_t *file, size_t len, const obscurlane_line *expected, size_t count)
{
    size_t place = obscurlane_reader_new(file, len), accepted = 0;
    EXPECT(place == 0);
    for (size_t i = 0; i < count; i++) {
        EXPECT(are_same_lines(obscurlane_line_at(file, len, place), expected[i]));
        EXPECT(are_same_lines(obscurlane_reader_step(file, len, &place), expected[i]));
        EXPECT(place == expected[i].next);
        accepted += expected[i].line && expected[i].no == OBSCURLANE_ACCEPTED;
    }
    obscurlane_totals totals = obscurlane_count(file, len);
    EXPECT(totals.lines == count - 1 && totals.accepted == accepted);
}

static void files(void)
{
    expect_lines(BYTES(LINES), lines, COUNT_OF(lines));
    expect_lines(BYTES(APPENDIX_A_FILE), appendix_lines, COUNT_OF(appendix_lines));
    expect_lines(BYTES(WRAPPED_KEYS), wrapped_lines, COUNT_OF(wrapped_lines));

    const obscurlane_line beyond = {false, 0, 0, OBSCURLANE_KIND_NONE, SIZE_MAX, 0, SIZE_MAX};
    size_t place = SIZE_MAX;
    EXPECT(are_same_lines(obscurlane_line_at(BYTES(LINES), place), beyond));
    EXPECT(are_same_lines(obscurlane_reader_step(BYTES(LINES), &place), beyond) && place == SIZE_MAX);
    EXPECT(obscurlane_reader_new(BYTES("")) == 0);
    obscurlane_totals totals = obscurlane_count(BYTES(""));
    EXPECT(totals.lines == 0 && totals.accepted == 0);
}

/* ---- names */

static const struct {
    size_t kind;
    const char *name;
    size_t field;
    const char *field_name;
} fields[] = {
    {OBSCURLANE_KIND_SMMAN, "SMMAN.1", OBSCURLANE_IDENTITY_MANUFACTURER, "Manufacturer"},
    {OBSCURLANE_KIND_SMMAN, "SMMAN.1", OBSCURLANE_IDENTITY_MID, "MID"},
    {OBSCURLANE_KIND_SMID, "SMID.1", OBSCURLANE_IDENTITY_GNT, "GNT"},
    {OBSCURLANE_KIND_KMCID, "KMCID.1", OBSCURLANE_IDENTITY_FINGERPRINT, "Fingerprint"},
    {OBSCURLANE_KIND_ECDSA, "PK.ECDSA.1", OBSCURLANE_PUBKEY_SUBJECT, "Subject"},
    {OBSCURLANE_KIND_ECDSA, "PK.ECDSA.1", OBSCURLANE_PUBKEY_Q, "Q"},
    {OBSCURLANE_KIND_ECDSA, "PK.ECDSA.1", OBSCURLANE_PUBKEY_EXPIRY, "Expiry"},
    {OBSCURLANE_KIND_ECDH, "PK.ECDH.1", OBSCURLANE_PUBKEY_ISSUER, "Issuer"},
    {OBSCURLANE_KIND_ECDH, "PK.ECDH.1", OBSCURLANE_PUBKEY_SIGNATURE, "Signature"},
    {OBSCURLANE_KIND_REQ, "VKLOAD.REQ.1", OBSCURLANE_REQ_ID_SM, "ID_SM"},
    {OBSCURLANE_KIND_REQ, "VKLOAD.REQ.1", OBSCURLANE_REQ_ID_KMC, "ID_KMC"},
    {OBSCURLANE_KIND_REQ, "VKLOAD.REQ.1", OBSCURLANE_REQ_TVP, "TVP"},
    {OBSCURLANE_KIND_REQ, "VKLOAD.REQ.1", OBSCURLANE_REQ_HWID, "HWID"},
    {OBSCURLANE_KIND_REQ, "VKLOAD.REQ.1", OBSCURLANE_REQ_FWID, "FWID"},
    {OBSCURLANE_KIND_REQ, "VKLOAD.REQ.1", OBSCURLANE_REQ_QE, "QE"},
    {OBSCURLANE_KIND_REQ, "VKLOAD.REQ.1", OBSCURLANE_REQ_MAC_TAG, "MacTag"},
    {OBSCURLANE_KIND_RESP, "VKLOAD.RESP.1", OBSCURLANE_RESP_ID_KMC, "ID_KMC"},
    {OBSCURLANE_KIND_RESP, "VKLOAD.RESP.1", OBSCURLANE_RESP_ID_SM, "ID_SM"},
    {OBSCURLANE_KIND_RESP, "VKLOAD.RESP.1", OBSCURLANE_RESP_TVP, "TVP"},
    {OBSCURLANE_KIND_RESP, "VKLOAD.RESP.1", OBSCURLANE_RESP_MAC_TAG, "MacTag"},
    {OBSCURLANE_KIND_KEY, "KEY.1", OBSCURLANE_KEY_NONCE, "Nonce"},
    {OBSCURLANE_KIND_KEY, "KEY.1", OBSCURLANE_KEY_ATTRIBUTES, "Attributes"},
    {OBSCURLANE_KIND_KEY, "KEY.1", OBSCURLANE_KEY_PROTECTED_KEY, "ProtectedKey"},
    {OBSCURLANE_KIND_NONE, "none", 1, ""},
    {SIZE_MAX, "none", 1, ""},
    {8, "none", 1, ""},
    {OBSCURLANE_KIND_REQ, "VKLOAD.REQ.1", 0, ""},
    {OBSCURLANE_KIND_REQ, "VKLOAD.REQ.1", 8, ""},
    {OBSCURLANE_KIND_REQ, "VKLOAD.REQ.1", SIZE_MAX, ""},
    {OBSCURLANE_KIND_ECDSA, "PK.ECDSA.1", 6, ""},
    {OBSCURLANE_KIND_RESP, "VKLOAD.RESP.1", 5, ""},
    {OBSCURLANE_KIND_KEY, "KEY.1", 4, ""},
};

static void names(void)
{
    for (size_t i = 0; i < COUNT_OF(fields); i++) {
        EXPECT(strcmp(obscurlane_kind_name(fields[i].kind), fields[i].name) == 0);
        EXPECT(strcmp(obscurlane_field_name(fields[i].kind, fields[i].field), fields[i].field_name) == 0);
    }
    const char *other = obscurlane_reason(OBSCURLANE_MODULE_UNSIGNED + 1);
    EXPECT(strcmp(obscurlane_reason(UINT8_MAX), other) == 0);
    for (uint8_t no = 0; no <= OBSCURLANE_MODULE_UNSIGNED; no++) {
        EXPECT(strcmp(obscurlane_reason(no), other) != 0);
        for (uint8_t before = 0; before < no; before++) {
            EXPECT(strcmp(obscurlane_reason(no), obscurlane_reason(before)) != 0);
        }
    }
    EXPECT(strcmp(obscurlane_reason(OBSCURLANE_ACCEPTED), "accepted") == 0);
    EXPECT(strcmp(obscurlane_reason(OBSCURLANE_WRONG_CHECK), "the check differs") == 0);
}

static void version(void)
{
    char numbers[32];
    (void)snprintf(numbers, sizeof numbers, "%d.%d.%d", OBSCURLANE_VERSION_MAJOR, OBSCURLANE_VERSION_MINOR,
                   OBSCURLANE_VERSION_PATCH);
    EXPECT(strcmp(numbers, OBSCURLANE_VERSION) == 0);
}

void call_parts(void)
{
    check();
    types();
    days();
    missing_days();
    files();
    names();
    version();
}
