/* The numbers, kinds and fields of obscurlane.h by name. */
#include "obscurlane.h"

#define COUNT_OF(array) (sizeof(array) / sizeof(array)[0])

static const char *const reasons[] = {
    [OBSCURLANE_ACCEPTED] = "accepted",
    [OBSCURLANE_TOO_LONG] = "the record is longer than 1,024 bytes, or would be",
    [OBSCURLANE_UNKNOWN_KIND] = "it is of no kind that is read or built here",
    [OBSCURLANE_MISSING_CHECK] = "it does not end in its mark and a check of four HEX characters",
    [OBSCURLANE_WRONG_CHECK] = "the check differs",
    [OBSCURLANE_WRONG_COUNT] = "the number of fields is wrong, or their lengths do not add up",
    [OBSCURLANE_WRONG_TEXT] = "a field is not of its text type",
    [OBSCURLANE_WRONG_IDENTITY] = "an identity field is not an accepted identity",
    [OBSCURLANE_UNPAIRED] = "one of Issuer and Signature is empty and the other is not",
    [OBSCURLANE_WRONG_KIND] = "an identity field is of a kind not permitted there",
    [OBSCURLANE_SHORT_OUTPUT] = "the output is too short",
    [OBSCURLANE_UNFINISHED] = "the last line of the file has no line feed",
    [OBSCURLANE_MISSING_ITEM] = "there is no such field, attribute or item, or the bytes are no key agreement text",
    [OBSCURLANE_NOT_ALIKE] = "the Subjects of the two keys differ in kind, Manufacturer or MID",
    [OBSCURLANE_WRONG_ATTRIBUTES] = "the attribute list is not one that clause 7.5.1 or Appendix B permits",
    [OBSCURLANE_WRONG_FINGERPRINT] = "the Fingerprint in the Subject is not the right one",
    [OBSCURLANE_WRONG_Z] = "Z is not 96 bytes",
    [OBSCURLANE_OTHER_REQUEST] = "the response's identities or TVP differ from the request's",
    [OBSCURLANE_WRONG_TAG] = "the tag differs",
    [OBSCURLANE_MISSING_TRAILER] = "no '#' in the forty-first place from the end of the line, or no HEX(40) after it",
    [OBSCURLANE_WRONG_HASH] = "the SHA-1 differs",
    [OBSCURLANE_MISSING_BEGINS] = "the text has no BEGINS line",
    [OBSCURLANE_MISSING_ENDS] = "no later ENDS line matches the first BEGINS line",
    [OBSCURLANE_NOT_CABINET] = "the bytes are no cabinet",
    [OBSCURLANE_NOT_LATER] = "the GNT is not later than that of the key in the cabinet",
    [OBSCURLANE_NO_PLACE] = "no place of the cabinet is free",
    [OBSCURLANE_NOT_THERE] = "the cabinet has no key of this kind, Manufacturer and MID",
    [OBSCURLANE_TVP_NOT_LATER] = "the TVP is not later than the last one accepted for the module",
    [OBSCURLANE_MODULE_UNSIGNED] = "the key of a module is unsigned",
};

struct kind {
    const char *name;
    const char *fields[7]; /* NULL past the last one */
};

static const struct kind kinds[] = {
    [OBSCURLANE_KIND_SMMAN] = {"SMMAN.1", {"Manufacturer", "MID", "GNT", "Fingerprint"}},
    [OBSCURLANE_KIND_SMID] = {"SMID.1", {"Manufacturer", "MID", "GNT", "Fingerprint"}},
    [OBSCURLANE_KIND_KMCID] = {"KMCID.1", {"Manufacturer", "MID", "GNT", "Fingerprint"}},
    [OBSCURLANE_KIND_ECDSA] = {"PK.ECDSA.1", {"Subject", "Q", "Expiry", "Issuer", "Signature"}},
    [OBSCURLANE_KIND_ECDH] = {"PK.ECDH.1", {"Subject", "Q", "Expiry", "Issuer", "Signature"}},
    [OBSCURLANE_KIND_REQ] = {"VKLOAD.REQ.1", {"ID_SM", "ID_KMC", "TVP", "HWID", "FWID", "QE", "MacTag"}},
    [OBSCURLANE_KIND_RESP] = {"VKLOAD.RESP.1", {"ID_KMC", "ID_SM", "TVP", "MacTag"}},
    [OBSCURLANE_KIND_KEY] = {"KEY.1", {"Nonce", "Attributes", "ProtectedKey"}},
};

const char *obscurlane_reason(uint8_t no)
{
    return no < COUNT_OF(reasons) ? reasons[no] : "no number that is given back";
}

const char *obscurlane_kind_name(size_t kind)
{
    return kind < COUNT_OF(kinds) ? kinds[kind].name : "none";
}

const char *obscurlane_field_name(size_t kind, size_t field)
{
    if (kind >= COUNT_OF(kinds) || field < 1 || field > COUNT_OF(kinds[kind].fields)) {
        return "";
    }
    const char *name = kinds[kind].fields[field - 1];
    return name != NULL ? name : "";
}
