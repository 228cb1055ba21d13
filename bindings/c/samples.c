/* A part of every.c: the records that trailed.c, mail.c, dates.c and cabinet.c take, accepted and refused. */
#include "expect.h"
#include "worked.h"

#include <stdio.h>
#include <string.h>

const char *const records[RECORDS] = {
    WORKED_KEY_SIGNED,    UNSIGNED_KEY_MAKER,   WORKED_KEY_MAKER,     WORKED_KEY_CENTRE,    WORKED_REQUEST,
    WORKED_RESPONSE,      WORKED_WRAPPED_1,     WORKED_WRAPPED_2,     APPENDIX_A_RESPONSE,  APPENDIX_A_WRAPPED_1,
    APPENDIX_A_WRAPPED_2, APPENDIX_A_WRAPPED_3, APPENDIX_A_WRAPPED_4, APPENDIX_A_WRAPPED_5,
};

/* What is wrong with a record, and the number and the field's that it is refused with. */
static const struct {
    const char *record, *old, *with;
    uint8_t no, field;
} faults[] = {
    {WORKED_KEY_SIGNED, "PK.ECDH.1|", "PK.ECDH.2|", OBSCURLANE_UNKNOWN_KIND, 0},
    {WORKED_KEY_SIGNED, "|99991231T115959Z|", "|", OBSCURLANE_WRONG_COUNT, 0},
    {WORKED_KEY_SIGNED, "|0479", "|0579", OBSCURLANE_WRONG_TEXT, OBSCURLANE_PUBKEY_Q},
    {WORKED_KEY_SIGNED, "|99991231T", "|99991131T", OBSCURLANE_WRONG_TEXT, OBSCURLANE_PUBKEY_EXPIRY},
    {WORKED_KEY_SIGNED, "|SMID.1:", "|SMID.2:", OBSCURLANE_WRONG_IDENTITY, OBSCURLANE_PUBKEY_SUBJECT},
    {WORKED_KEY_SIGNED, "|SMID.1:", "|SMMAN.1:", OBSCURLANE_WRONG_KIND, OBSCURLANE_PUBKEY_SUBJECT},
    {WORKED_KEY_SIGNED, "|" WORKED_ID_MAKER "|", "||", OBSCURLANE_UNPAIRED, 0},
    {WORKED_KEY_SIGNED, "|8E36", "|8e36", OBSCURLANE_WRONG_TEXT, OBSCURLANE_PUBKEY_SIGNATURE},
    {WORKED_KEY_MODULE, "|||", "|||", OBSCURLANE_MODULE_UNSIGNED, 0},
    {WORKED_KEY_CENTRE, "|KMCID.1:", "|SMID.1:", OBSCURLANE_MODULE_UNSIGNED, 0},
    {WORKED_KEY_MODULE, "|||", "|" WORKED_ID_MAKER "||", OBSCURLANE_UNPAIRED, 0},
    {WORKED_KEY_MODULE, "PK.ECDH.1|", "PK.ECDSA.1|", OBSCURLANE_WRONG_KIND, OBSCURLANE_PUBKEY_SUBJECT},
    {WORKED_KEY_MODULE, "|SMID.1:", "|SMMAN.1:", OBSCURLANE_WRONG_KIND, OBSCURLANE_PUBKEY_SUBJECT},
    {WORKED_KEY_MODULE, "|SMID.1:", "|SMID.2:", OBSCURLANE_WRONG_IDENTITY, OBSCURLANE_PUBKEY_SUBJECT},
    {WORKED_KEY_MODULE, "|99991231T", "|99991131T", OBSCURLANE_WRONG_TEXT, OBSCURLANE_PUBKEY_EXPIRY},
    {WORKED_KEY_MODULE, "|||", "||", OBSCURLANE_WRONG_COUNT, 0},
    {WORKED_REQUEST, "|STS6-001|", "|-STS|", OBSCURLANE_WRONG_TEXT, OBSCURLANE_REQ_FWID},
    {WORKED_RESPONSE, "|KMCID.1:", "|SMMAN.1:", OBSCURLANE_WRONG_KIND, OBSCURLANE_RESP_ID_KMC},
    {WORKED_WRAPPED_1, "SGC", "sgc", OBSCURLANE_WRONG_ATTRIBUTES, 0},
    {WORKED_WRAPPED_1, "|D80D", "|d80d", OBSCURLANE_WRONG_TEXT, OBSCURLANE_KEY_PROTECTED_KEY},
};

bool is_named_as_key(const char *record, size_t len)
{
    static const char *const starts[] = {"PK.ECDSA.1|", "PK.ECDH.1|"};
    bool is_key = false;
    for (size_t i = 0; i < COUNT_OF(starts); i++) {
        is_key |= len >= strlen(starts[i]) && memcmp(record, starts[i], strlen(starts[i])) == 0;
    }
    return is_key;
}

void expect_every_record(expect_number *expect_record)
{
    static const char *const identities[] = {WORKED_ID_MAKER, WORKED_ID_SM, WORKED_ID_KMC};
    for (size_t i = 0; i < RECORDS; i++) {
        expect_record(records[i], strlen(records[i]), OBSCURLANE_ACCEPTED, 0);
        expect_refused_before_fields(records[i], expect_record);
    }
    expect_refused_before_fields(WORKED_KEY_MODULE, expect_record);
    for (size_t i = 0; i < COUNT_OF(faults); i++) {
        char refused[ROOM];
        size_t len = write_with(faults[i].record, faults[i].old, faults[i].with, refused);
        expect_record(refused, len, faults[i].no, faults[i].field);
    }
    for (size_t i = 0; i < COUNT_OF(identities); i++) {
        expect_record(identities[i], strlen(identities[i]), OBSCURLANE_UNKNOWN_KIND, 0);
    }
}

size_t write_wrapped_key(size_t len, char out[ROOM])
{
    const size_t longest_card = 3 + 252 + 1;
    char cards[ROOM] = "SGC0000123456;";
    size_t at = strlen(cards), end = at + len - strlen(WORKED_WRAPPED_1);
    for (int n = 0; at < end; n++) {
        size_t card = end - at < longest_card ? end - at : longest_card;
        (void)snprintf(cards + at, sizeof cards - at, "X%02d%*s;", n % 100, (int)card - 4, "");
        at += card;
    }
    return write_with(WORKED_WRAPPED_1, "SGC0000123456;", cards, out);
}
