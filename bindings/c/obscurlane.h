/*
 * Obscurlane: reading, checking and building the identity, public key, load request, load response and wrapped key records
 * of STS 600-4-2, files of them, plain and manufacturers', one of them by mail, the centre's cabinet of public keys, with the
 * last TVP of each module, dates and Expiry as numbers, the texts that a key agreement hashes, the tags that confirm it,
 * SHA-384 with the Fingerprints that are made by it, and SHA-1, which is in a manufacturer's line.
 *
 * Link with libexports.a, which `bindings/archive` proves, compiles for the machine that it runs on and puts into
 * target/staticlib/; or with the one that `bindings/archive module` puts into target/module/target/staticlib/, which has the
 * same functions and fewer constants. The names at the end of this header stand in names.c, which is compiled with the program.
 *
 * A record, identity or line is given WITHOUT its line feed. A file of records is given whole, and its lines are found in it;
 * so is a text that has a record by mail.
 *
 * What the caller owes, because no proof can see it:
 *
 * - A pointer that a length follows points to that many readable (an output: writable) bytes; `lens` points to `lens_len`
 *   numbers and is aligned for size_t. `place` of obscurlane_reader_step points to one size_t that may be written.
 * - No pointer is NULL, also where its length is 0.
 * - An output overlaps nothing else that is given. Inputs may overlap.
 *
 * All else is taken: what is proved of each function holds for every value of the bytes and numbers that it is given, those
 * in a state of a hash too.
 *
 * What the answers have in common:
 *
 * - `no` is OBSCURLANE_ACCEPTED (0) or the number of a refusal; obscurlane_reason says it in words.
 * - `field` is the number of the field that a refusal is about, and 0 where it is about none or nothing is refused.
 * - Starts and lengths are places in the bytes that were given: nothing is copied. With a refusal they are all 0, and every
 *   kind is OBSCURLANE_KIND_NONE. (A line of a file has its place whatever its answer.)
 * - With a refusal an output is as it was, every byte. Where a text, record, line, block or key is written, it stands at the
 *   front, and the bytes past its length are as they were. (A cabinet is written in its places.)
 * - Fields, attributes and items are counted from 1, so field n of an answer is its starts[n - 1] and lens[n - 1]. Starts and
 *   places are counted from 0.
 *
 * No function allocates, keeps anything between calls, or does anything outside its outputs: any thread may call any of
 * them at any time. Of the C library they need memcpy and memset at most.
 */
#ifndef OBSCURLANE_H
#define OBSCURLANE_H

#include <stdbool.h>
#include <stddef.h>
#include <stdint.h>

#define OBSCURLANE_VERSION "0.12.0"
#define OBSCURLANE_VERSION_MAJOR 0
#define OBSCURLANE_VERSION_MINOR 12
#define OBSCURLANE_VERSION_PATCH 0

#ifdef __cplusplus
extern "C" {
#endif

/* ---- the numbers given back, in the words of the scope paper and of its requests */

enum {
    /* Accepted. */
    OBSCURLANE_ACCEPTED = 0,
    /* The record or identity to read is longer than 1,024 bytes, which by mail are counted after unfolding. Building: or the
     * record would be. */
    OBSCURLANE_TOO_LONG = 1,
    /* What stands before the first mark is no kind that this call reads, or the mark is not its kind's, or there is none. By
     * mail: or it is not the kind that the BEGINS line names. Building: the kind name is not in the table. */
    OBSCURLANE_UNKNOWN_KIND = 2,
    /* The last four bytes are not HEX(4), or the byte before them is not the kind's mark. */
    OBSCURLANE_MISSING_CHECK = 3,
    /* The check differs. */
    OBSCURLANE_WRONG_CHECK = 4,
    /* The number of fields is wrong. Building: or the lengths do not add up to the bytes lent. */
    OBSCURLANE_WRONG_COUNT = 5,
    /* A field is not of its text type; its number, from 1, comes too. */
    OBSCURLANE_WRONG_TEXT = 6,
    /* An identity field is not an accepted identity; its number comes too. */
    OBSCURLANE_WRONG_IDENTITY = 7,
    /* One of Issuer and Signature is empty and the other is not. */
    OBSCURLANE_UNPAIRED = 8,
    /* An identity field is of a kind not permitted there; its number comes too. */
    OBSCURLANE_WRONG_KIND = 9,
    /* The lent output is shorter than the record, text, key, line or block needs. */
    OBSCURLANE_SHORT_OUTPUT = 10,
    /* The last line of a file has bytes and no line feed. */
    OBSCURLANE_UNFINISHED = 11,
    /* The bytes are no key agreement text, or it has no such item; or the record has no field of that number, or no attribute
     * of that number or name. */
    OBSCURLANE_MISSING_ITEM = 12,
    /* Choosing: kind, Manufacturer or MID of the two Subjects differ. */
    OBSCURLANE_NOT_ALIKE = 13,
    /* The attribute list is not one that clause 7.5.1 or Appendix B permits. */
    OBSCURLANE_WRONG_ATTRIBUTES = 14,
    /* The Fingerprint in the Subject is not the right one. */
    OBSCURLANE_WRONG_FINGERPRINT = 15,
    /* Z is not 96 bytes. */
    OBSCURLANE_WRONG_Z = 16,
    /* The response's identities or TVP differ from the request's. */
    OBSCURLANE_OTHER_REQUEST = 17,
    /* The tag differs. */
    OBSCURLANE_WRONG_TAG = 18,
    /* No '#' in the forty-first place from the end of a manufacturer's line, or no HEX(40) after it. */
    OBSCURLANE_MISSING_TRAILER = 19,
    /* The SHA-1 differs. */
    OBSCURLANE_WRONG_HASH = 20,
    /* The text has no BEGINS line. */
    OBSCURLANE_MISSING_BEGINS = 21,
    /* No later ENDS line matches the first BEGINS line. */
    OBSCURLANE_MISSING_ENDS = 22,
    /* The lent bytes are no cabinet, also where the number in a place is not that of the record's Expiry, or its TVP is none.
     * Making one: they are of another length. */
    OBSCURLANE_NOT_CABINET = 23,
    /* The GNT of the key to put is not later than that of the key in the cabinet that it would replace. */
    OBSCURLANE_NOT_LATER = 24,
    /* No place of the cabinet is free: 64 other Subjects are present. */
    OBSCURLANE_NO_PLACE = 25,
    /* The cabinet has no key of the identity's kind, Manufacturer and MID, to find or to remove; or of a request's ID_SM. To
     * find, and of ID_SM: or it is old. */
    OBSCURLANE_NOT_THERE = 26,
    /* The TVP of the request is not later than the last one that was accepted for its module. */
    OBSCURLANE_TVP_NOT_LATER = 27,
    /* The key of a module is unsigned: the Subject of a PK.ECDH.1 is an SMID.1, and Issuer and Signature are empty. */
    OBSCURLANE_MODULE_UNSIGNED = 28
};

/*
 * ---- the kinds and their fields
 *
 *   name           mark  fields in order, each with its number and its type
 *   SMMAN.1        :     1 Manufacturer IDENT, 2 MID IDENT, 3 GNT TIMESTAMP, 4 Fingerprint PRINT
 *   SMID.1         :     the same
 *   KMCID.1        :     the same
 *   PK.ECDSA.1     |     1 Subject SMMAN.1, 2 Q POINT, 3 Expiry TIMESTAMP, 4 Issuer SMMAN.1 or empty,
 *                        5 Signature SIG or empty
 *   PK.ECDH.1      |     1 Subject SMID.1 or KMCID.1, the others the same
 *   VKLOAD.REQ.1   |     1 ID_SM SMID.1, 2 ID_KMC KMCID.1, 3 TVP TIMESTAMP, 4 HWID IDENT, 5 FWID IDENT, 6 QE POINT,
 *                        7 MacTag MAC
 *   VKLOAD.RESP.1  |     1 ID_KMC KMCID.1, 2 ID_SM SMID.1, 3 TVP TIMESTAMP, 4 MacTag MAC
 *   KEY.1          |     1 Nonce HEX(24), 2 Attributes, 3 ProtectedKey: an even number of HEX characters, 32 to 72
 *
 * The first three are identities, the others records. Each is its name and its mark, then every field and the mark, then
 * the check, which is four HEX characters. Issuer and Signature are empty together or not at all, and not in a PK.ECDH.1 whose
 * Subject is an SMID.1.
 *
 * Attributes is a list of cards, each ended by ';'. A card is a name of three letters or digits and then a value of at most
 * 252 printable characters, neither '|' nor ';'. The names ascend by their ASCII codes. Those of Appendix B are these, and
 * others may be there with any value:
 *
 *   required             ACT TIMESTAMP, BDT TIMESTAMP, DKG 2 digits, KEN 3 digits up to 255, KRN 1 digit, KTC 1 digit,
 *                        SGC 10 digits
 *   optional             IUT TIMESTAMP, SGN 1 to 99 characters
 */

enum {
    OBSCURLANE_KIND_SMMAN = 0,  /* identity of a manufacturer */
    OBSCURLANE_KIND_SMID = 1,   /* identity of a security module */
    OBSCURLANE_KIND_KMCID = 2,  /* identity of a key management centre */
    OBSCURLANE_KIND_ECDSA = 3,  /* public key for signatures */
    OBSCURLANE_KIND_ECDH = 4,   /* public key for key agreement */
    OBSCURLANE_KIND_REQ = 5,    /* load request */
    OBSCURLANE_KIND_RESP = 6,   /* load response */
    OBSCURLANE_KIND_KEY = 7,    /* wrapped vending key */
    OBSCURLANE_KIND_NONE = 255  /* no kind: something was refused, or a field is no identity */
};

/* The fields of an identity, of a public key, of a load request, of a load response and of a wrapped key. */
enum {
    OBSCURLANE_IDENTITY_MANUFACTURER = 1,
    OBSCURLANE_IDENTITY_MID = 2,
    OBSCURLANE_IDENTITY_GNT = 3,
    OBSCURLANE_IDENTITY_FINGERPRINT = 4
};

enum {
    OBSCURLANE_PUBKEY_SUBJECT = 1,
    OBSCURLANE_PUBKEY_Q = 2,
    OBSCURLANE_PUBKEY_EXPIRY = 3,
    OBSCURLANE_PUBKEY_ISSUER = 4,
    OBSCURLANE_PUBKEY_SIGNATURE = 5
};

enum {
    OBSCURLANE_REQ_ID_SM = 1,
    OBSCURLANE_REQ_ID_KMC = 2,
    OBSCURLANE_REQ_TVP = 3,
    OBSCURLANE_REQ_HWID = 4,
    OBSCURLANE_REQ_FWID = 5,
    OBSCURLANE_REQ_QE = 6,
    OBSCURLANE_REQ_MAC_TAG = 7
};

enum {
    OBSCURLANE_RESP_ID_KMC = 1,
    OBSCURLANE_RESP_ID_SM = 2,
    OBSCURLANE_RESP_TVP = 3,
    OBSCURLANE_RESP_MAC_TAG = 4
};

enum {
    OBSCURLANE_KEY_NONCE = 1,
    OBSCURLANE_KEY_ATTRIBUTES = 2,
    OBSCURLANE_KEY_PROTECTED_KEY = 3
};

/* ---- lengths: the longest inputs that are taken, and outputs that are always enough */

enum {
    /* The longest bytes that are read as a record or identity. */
    OBSCURLANE_LONGEST_READ = 1024,
    /* The longest IDENT. What is longest by its IDENTs follows from it. */
    OBSCURLANE_LONGEST_IDENT = 32,
    /* The longest identity that is built or accepted: SMMAN.1 or KMCID.1, Manufacturer, MID, and 41 bytes more. */
    OBSCURLANE_LONGEST_IDENTITY = 7 + 2 * OBSCURLANE_LONGEST_IDENT + 41,
    /* The longest public key that is built or accepted: PK.ECDSA.1, Subject and 220 bytes more, Issuer and 192 more. Only a
     * KEY.1 can be longer. */
    OBSCURLANE_LONGEST_PUBKEY = 10 + OBSCURLANE_LONGEST_IDENTITY + 220 + OBSCURLANE_LONGEST_IDENTITY + 192,
    /* The longest record that is built or accepted: a KEY.1, which may have as many bytes as are read. */
    OBSCURLANE_LONGEST_RECORD = OBSCURLANE_LONGEST_READ,
    /* The longest of each text of a load request: the byte of its count, and each item with the byte of its length. ID_SM is
     * one byte shorter than the longest identity. */
    OBSCURLANE_LONGEST_SHARED_INFO = 1 + 10 + OBSCURLANE_LONGEST_IDENTITY + 1 + OBSCURLANE_LONGEST_IDENTITY + 17,
    OBSCURLANE_LONGEST_MODULE_TEXT = 1 + 4 + OBSCURLANE_LONGEST_IDENTITY + 1 + OBSCURLANE_LONGEST_IDENTITY + 98 + 17 +
                                     1 + OBSCURLANE_LONGEST_IDENT + 1 + OBSCURLANE_LONGEST_IDENT,
    OBSCURLANE_LONGEST_CENTRE_TEXT = 1 + 3 + 1 + OBSCURLANE_LONGEST_IDENTITY + OBSCURLANE_LONGEST_IDENTITY + 17 + 98,
    /* The longest Fingerprint: all have this length. */
    OBSCURLANE_LONGEST_FINGERPRINT = 16,
    /* Z, the shared value of a key agreement, has just so many bytes. */
    OBSCURLANE_Z_BYTES = 96,
    /* MacKey and KEK have so many each: an output for one of them is enough with these. */
    OBSCURLANE_KEY_BYTES = 24,
    /* A manufacturer's line has so many bytes behind its record: '#' and HEX(40). */
    OBSCURLANE_TRAILER = 41,
    /* The longest manufacturer's line that is written or accepted, without its line feed. */
    OBSCURLANE_LONGEST_TRAILED = OBSCURLANE_LONGEST_RECORD + OBSCURLANE_TRAILER,
    /* The longest block that is written, a KEY.1: its BEGINS line and its ENDS line, in both of which 5 bytes are the name, and
     * between them the record in rows of 64; with a line feed behind every line. */
    OBSCURLANE_LONGEST_MAIL = 6 + 5 + 9 + 1 + OBSCURLANE_LONGEST_RECORD + (OBSCURLANE_LONGEST_RECORD + 63) / 64 +
                              6 + 5 + 7 + 1,
    /* The places of a cabinet, the bytes of each, and the bytes of them all, which are the only length that a cabinet has. */
    OBSCURLANE_CABINET_PLACES = 64,
    OBSCURLANE_CABINET_WIDTH = 1024,
    OBSCURLANE_CABINET_SIZE = 65536,
    /* Where the last TVP begins in an occupied place, 16 bytes, and behind it the number of Expiry: its last eight bytes. */
    OBSCURLANE_CABINET_TVP_AT = 1000,
    OBSCURLANE_CABINET_NUMBER_AT = 1016
};

/* ---- reading */

/* What a reading says of a record or identity. Past its kind's fields, and with a refusal, all starts and lens are 0 and all
 * kinds are OBSCURLANE_KIND_NONE. */
typedef struct {
    uint8_t no;
    uint8_t field;
    size_t kind;      /* what was read */
    size_t starts[7]; /* where each field starts in the bytes read */
    size_t lens[7];   /* how long it is; an empty Issuer or Signature has 0 */
    size_t kinds[7];  /* of a field that is an identity: its kind; of any other OBSCURLANE_KIND_NONE */
} obscurlane_answer;

/* Reads an identity: SMMAN.1, SMID.1 or KMCID.1. Answers 0 to 6. */
obscurlane_answer obscurlane_read_identity(const uint8_t *identity, size_t identity_len);

/* Reads a record: PK.ECDSA.1, PK.ECDH.1, VKLOAD.REQ.1, VKLOAD.RESP.1 or KEY.1. Answers 0 to 9, 14, or 28. */
obscurlane_answer obscurlane_read_record(const uint8_t *record, size_t record_len);

/* Where one field, attribute or key in a cabinet stands. start and len are 0 with a refusal. */
typedef struct {
    uint8_t no;
    uint8_t field;
    size_t start;
    size_t len;
} obscurlane_place;

/* Where field `wanted` of an identity stands, for a caller that wants that field alone. Answers what
 * obscurlane_read_identity answers, then OBSCURLANE_MISSING_ITEM where the identity has no such field. */
obscurlane_place obscurlane_identity_field(const uint8_t *identity, size_t identity_len, size_t wanted);

/* The same of a record, with the numbers of obscurlane_read_record. */
obscurlane_place obscurlane_record_field(const uint8_t *record, size_t record_len, size_t wanted);

/* Where attribute `wanted` of a wrapped key stands: its whole card without the ';' behind it. The first three bytes are the
 * name, the others the value. Answers what obscurlane_read_record answers, but OBSCURLANE_UNKNOWN_KIND for a record of another
 * kind, then OBSCURLANE_MISSING_ITEM where the list has no such attribute: 0 to 6, 12, or 14. The bytes that go to the cipher
 * are the field OBSCURLANE_KEY_ATTRIBUTES, every ';' with them. */
obscurlane_place obscurlane_attribute(const uint8_t *record, size_t record_len, size_t wanted);

/* The same of the attribute that has exactly this name, as "SGC". A name that is not of three bytes is no attribute's. */
obscurlane_place obscurlane_attribute_named(const uint8_t *record, size_t record_len, const uint8_t *name, size_t name_len);

/* ---- building, and the key agreement texts of a load request */

/* What was written into an output. len is 0 with a refusal. */
typedef struct {
    uint8_t no;
    uint8_t field;
    size_t len; /* how many bytes were written, from the front */
} obscurlane_written;

/*
 * Builds a record or identity. Answers 0, 1, 2, 5 to 10, 14, or 28. OBSCURLANE_TOO_LONG is for a KEY.1 alone, just before
 * OBSCURLANE_SHORT_OUTPUT and whatever the room; OBSCURLANE_MODULE_UNSIGNED comes before both.
 *
 * kind   the kind's name, as "PK.ECDH.1"
 * bytes  the bytes of all fields one after another, without marks; identities as finished text
 * lens   the lengths of the fields, in order
 * out    is given the record, without a line feed; OBSCURLANE_LONGEST_RECORD bytes are always enough
 */
obscurlane_written obscurlane_build(const uint8_t *kind, size_t kind_len, const uint8_t *bytes, size_t bytes_len,
                                    const size_t *lens, size_t lens_len, uint8_t *out, size_t out_len);

/* Writes SharedInfo: "STS.KAA.1", ID_SM, ID_KMC, TVP. Answers what obscurlane_read_record answers to the request, but
 * OBSCURLANE_UNKNOWN_KIND for a record of another kind, and after every other number OBSCURLANE_SHORT_OUTPUT. */
obscurlane_written obscurlane_shared_info(const uint8_t *request, size_t request_len, uint8_t *out, size_t out_len);

/* Writes the module text in the same way: "U_2", ID_SM, ID_KMC, QE as 97 decoded bytes, TVP, HWID, FWID. */
obscurlane_written obscurlane_module_text(const uint8_t *request, size_t request_len, uint8_t *out, size_t out_len);

/* Writes the centre text in the same way: "V2", ID_KMC, ID_SM, TVP, QE as 97 decoded bytes. */
obscurlane_written obscurlane_centre_text(const uint8_t *request, size_t request_len, uint8_t *out, size_t out_len);

/* Where an item of a text stands. start and len are 0 with a refusal. */
typedef struct {
    uint8_t no;
    size_t start;
    size_t len;
} obscurlane_item;

/* Where item `wanted` of a key agreement text stands; the text may be any list of items and has no limit of length. Answers
 * 0, or OBSCURLANE_MISSING_ITEM where the bytes are no such text or it has no such item. */
obscurlane_item obscurlane_text_item(const uint8_t *text, size_t text_len, size_t wanted);

/* ---- files of records: lines, each ended by one line feed */

/* What stands at a place of a file; the file is finished at its end and beyond. */
typedef struct {
    bool line;     /* whether a line begins at the place; false when finished */
    uint8_t no;    /* what obscurlane_read_record answers to the line; OBSCURLANE_UNFINISHED for a last line without line
                      feed; 0 when finished */
    uint8_t field; /* as everywhere, and 0 when finished */
    size_t kind;   /* what was read; OBSCURLANE_KIND_NONE with a refusal and when finished */
    size_t start;  /* the place */
    size_t len;    /* how long the line is, without its line feed, also when it is refused; 0 when finished */
    size_t next;   /* the place of the next line, which lies beyond this one; the place itself when finished */
} obscurlane_line;

/* The line that begins at a place. */
obscurlane_line obscurlane_line_at(const uint8_t *file, size_t file_len, size_t place);

/* A reader of a file is the file's bytes and a place that the caller keeps. Answers the place of a new one: 0, the start. */
size_t obscurlane_reader_new(const uint8_t *file, size_t file_len);

/* The line at the reader's place, which goes on to the line's `next`. When finished it stays. */
obscurlane_line obscurlane_reader_step(const uint8_t *file, size_t file_len, size_t *place);

/* How many lines a file has, an unfinished last one too, and how many of them are accepted records. */
typedef struct {
    size_t lines;
    size_t accepted;
} obscurlane_totals;

obscurlane_totals obscurlane_count(const uint8_t *file, size_t file_len);

/*
 * ---- manufacturers' record files: lines, each ended by one line feed
 *
 * A line is a record and its trailer: '#' and, as HEX(40), the SHA-1 of the record and of one line feed (0A hex). The limit of
 * OBSCURLANE_LONGEST_READ bytes is for the record in front of the '#'.
 */

/* Reads such a line, without its line feed. Answers OBSCURLANE_MISSING_TRAILER where no trailer stands at its end, then what
 * obscurlane_read_record answers to the record in front, then OBSCURLANE_WRONG_HASH: 0 to 9, 14, 19, 20, or 28. The record
 * stands at the front of the line, so that its fields have the same places in both. */
obscurlane_answer obscurlane_read_trailed(const uint8_t *line, size_t line_len);

/* The line that begins at a place of such a file. `no` is what obscurlane_read_trailed answers to the line, and before that
 * OBSCURLANE_UNFINISHED for a last line without line feed; `start` and `len` are those of the whole line with its trailer.
 * Whoever goes through a file begins at 0 and goes on at `next`. */
obscurlane_line obscurlane_trailed_at(const uint8_t *file, size_t file_len, size_t place);

/* How many lines such a file has, an unfinished last one too, and how many of them are accepted. */
obscurlane_totals obscurlane_count_trailed(const uint8_t *file, size_t file_len);

/* Writes the line of a record: the record and its trailer, without a line feed, which whoever writes a file adds. Answers what
 * obscurlane_read_record answers to the record, then OBSCURLANE_SHORT_OUTPUT for an output of fewer than
 * record_len + OBSCURLANE_TRAILER bytes: 0 to 10, 14, or 28. OBSCURLANE_LONGEST_TRAILED bytes are always enough. */
obscurlane_written obscurlane_write_trailed(const uint8_t *record, size_t record_len, uint8_t *out, size_t out_len);

/*
 * ---- records by mail: a record in a block, and the block in a text (Appendix C of STS 600-4-2)
 *
 * A block is a BEGINS line, the record folded into rows, and an ENDS line. Both name the record's kind:
 *
 *   --STS:KEY.1 BEGINS--
 *   KEY.1|000000000000000000000001|ACT19930101T000000Z;BDT19930101T0
 *   00000Z;DKG02;KEN255;KRN1;KTC2;SGC0000123456;|D80D0BA61492E51E2AF
 *   E96FC69633DB5BE92932DEAECEA6C|4726
 *   --STS:KEY.1 ENDS--
 *
 * It is written with rows of 64 characters, the last of which has the rest, and a line feed (0A hex) behind every line. Any
 * folding is read: rows may have any length, and may be empty. (A row that is itself the ENDS line ends the record; of 64
 * characters none can be.)
 *
 * A line of a text is what stands between line feeds; the bytes behind the last line feed are a line too. A BEGINS line is a
 * WHOLE line of "--STS:", a name, which may be any IDENT, and " BEGINS--". The ENDS line that matches it is a whole line of
 * "--STS:", the same name and " ENDS--". A carriage return, or a blank in front or behind, belongs to the line, so that a line
 * with one is neither: whoever is sent texts with carriage returns takes these out first.
 *
 * The first BEGINS line of a text decides, whatever it names, and the first matching ENDS line after it. The record is what
 * stands between the two without its line feeds; nothing else is dropped, so that a carriage return there, or another BEGINS or
 * ENDS line, is a part of it. What stands before the BEGINS line and behind the ENDS line is passed over. The text may have any
 * length.
 *
 * Reading a block that was written gives the same record, after any text that is empty or ends with a line feed, provided that
 * no line there is itself a BEGINS line; and whatever stands behind the block.
 */

/* Writes the block of a record. Answers what obscurlane_read_record answers to the record, then OBSCURLANE_SHORT_OUTPUT for an
 * output that is shorter than the block: 0 to 10, 14, or 28. The block of a record of n bytes has 30 + 2 * k + n +
 * (n + 63) / 64 bytes, where k is the length of its kind's name; OBSCURLANE_LONGEST_MAIL bytes are always enough. */
obscurlane_written obscurlane_write_mail(const uint8_t *record, size_t record_len, uint8_t *out, size_t out_len);

/* Writes the record that stands in a text, unfolded; its fields are found by giving it to obscurlane_read_record. Answers
 * OBSCURLANE_MISSING_BEGINS, then OBSCURLANE_MISSING_ENDS, then what obscurlane_read_record answers to the record, but
 * OBSCURLANE_UNKNOWN_KIND for a record of another kind than the BEGINS line names, and where it names no kind of record; after
 * every other number OBSCURLANE_SHORT_OUTPUT for an output of fewer bytes than the record has: 0 to 10, 14, 21, 22, or 28.
 * OBSCURLANE_TOO_LONG counts the bytes after unfolding. OBSCURLANE_LONGEST_RECORD bytes are always enough. */
obscurlane_written obscurlane_read_mail(const uint8_t *text, size_t text_len, uint8_t *out, size_t out_len);

/* ---- the newer of two public keys */

enum { OBSCURLANE_FIRST = 1, OBSCURLANE_SECOND = 2 };

/* `which` is OBSCURLANE_FIRST or OBSCURLANE_SECOND: the newer of the two, and with a refusal the one that is refused. It is 0
 * with OBSCURLANE_NOT_ALIKE, which is about both. */
typedef struct {
    uint8_t no;
    uint8_t field;
    uint8_t which;
} obscurlane_choice;

/* Which of two public keys has the Subject with the later GNT, the first when equal. Answers what obscurlane_read_record
 * answers to the first, then to the second, but OBSCURLANE_UNKNOWN_KIND for a record of another kind; then
 * OBSCURLANE_NOT_ALIKE: 0 to 9, 13, or 28. */
obscurlane_choice obscurlane_newer(const uint8_t *first, size_t first_len, const uint8_t *second, size_t second_len);

/*
 * ---- a date as a number: the seconds since 19930101T000000Z
 *
 * They are counted by the Gregorian calendar, before 1993 too, and are negative there: -1 is 19921231T235959Z. Every day has
 * 86,400 of them, there are no leap seconds; so from one date to another there are (there - here) / 86400 days. The numbers go
 * from -62861443200, 00010101T000000Z, to 252676454399, 99991231T235959Z, and the later of two dates has the greater number. A
 * clock that counts from 1970, as time() does, has 725846400 more.
 */

/* Whether a text is a TIMESTAMP, and its seconds. These are 0 with any other text. */
typedef struct {
    bool valid;
    int64_t seconds;
} obscurlane_moment;

/* The seconds of a TIMESTAMP. valid is what obscurlane_is_timestamp answers. */
obscurlane_moment obscurlane_moment_of(const uint8_t *s, size_t s_len);

/* When a public key expires. seconds is 0 with a refusal. */
typedef struct {
    uint8_t no;
    uint8_t field;
    int64_t seconds;
} obscurlane_expiry;

/* The seconds of the field Expiry of a public key. Answers what obscurlane_read_record answers to the record, but
 * OBSCURLANE_UNKNOWN_KIND for a record of another kind: 0 to 9, or 28. */
obscurlane_expiry obscurlane_expiry_of(const uint8_t *record, size_t record_len);

/*
 * ---- the centre's key cabinet: up to 64 public keys in OBSCURLANE_CABINET_SIZE bytes, which the program lends to every call
 *
 * A cabinet has OBSCURLANE_CABINET_PLACES places of OBSCURLANE_CABINET_WIDTH bytes, one behind the other. A place is free, and
 * then all zeros; or it starts with a public key, PK.ECDSA.1 or PK.ECDH.1, that obscurlane_read_record accepts or answers
 * OBSCURLANE_MODULE_UNSIGNED to, has zeros after it, in 16 bytes from OBSCURLANE_CABINET_TVP_AT on a TVP, and in its last eight
 * bytes, from OBSCURLANE_CABINET_NUMBER_AT on, the seconds of the record's Expiry: two's complement, the highest byte first. No
 * two of the records share Subject kind, Manufacturer and MID. By these three a key is found, replaced and taken out, and a
 * module by the ID_SM of its request; GNT and Fingerprint of the identity are no part of them.
 *
 * A record in a place that obscurlane_read_record answers OBSCURLANE_MODULE_UNSIGNED to is old: the unsigned key of a module,
 * from when such a key was accepted, up to version 0.11. It stays in its place until it is replaced or taken out, and counts as
 * any other. To obscurlane_find_key and to obscurlane_admit it is missing: OBSCURLANE_NOT_THERE. No call puts an old record in,
 * so a cabinet that was made by this version has none.
 *
 * The number is written with the record, and goes with it. Where it is another one the bytes are no cabinet; so it is what the
 * text says in every cabinet, and a program that wants to know which keys expire looks at the first byte of each place, which
 * is 0 where it is free, and at the number.
 *
 * The TVP is the last one that was accepted for the module, by obscurlane_admit, and 19930101T000000Z where none was. It is a
 * TIMESTAMP, and not before that; otherwise the bytes are no cabinet. A key that is replaced leaves it to the one that takes
 * its place; a key that is taken out takes it along.
 *
 * Up to version 0.10 zeros stood in the bytes of the TVP, and up to 0.9 in those of the number. Such a cabinet is none any
 * more, unless it is empty: the records in it are put into one that is made empty. A cabinet of 0.11 stays one, with the same
 * bytes.
 *
 * These bytes are all that there is of a cabinet: a program may store them in a file, copy and compare them. All other memory
 * is no cabinet. Every call but the one that makes it asks first whether the bytes are one, whoever wrote them, and so reads
 * every record in it again; where they are none it answers OBSCURLANE_NOT_CABINET, before all else. A call that refuses leaves
 * all OBSCURLANE_CABINET_SIZE bytes as they were; one that changes a place leaves all others.
 *
 * After any calls since obscurlane_make_cabinet, where nothing else has written the bytes, they are a cabinet. Its occupied
 * places number the accepted first puts less the accepted removals, and obscurlane_find_key gives the last record of these
 * three names that was put in and not removed. Since the latest first put of a module's key, no two of its requests that were
 * admitted share a TVP, and each was later than all before it. What was admitted before that put is forgotten.
 */

/* What is answered by a call that changes a cabinet, or asks whether it is one. */
typedef struct {
    uint8_t no;
    uint8_t field;
} obscurlane_filed;

/* How many places of a cabinet are occupied. count is 0 with a refusal. */
typedef struct {
    uint8_t no;
    size_t count;
} obscurlane_counted;

/* Makes the lent bytes an empty cabinet, whatever they were: all zeros. Answers OBSCURLANE_NOT_CABINET where they are not
 * OBSCURLANE_CABINET_SIZE: 0, or 23. */
obscurlane_filed obscurlane_make_cabinet(uint8_t *cabinet, size_t cabinet_len);

/* Whether the bytes are a cabinet: 0, or 23. */
obscurlane_filed obscurlane_check_cabinet(const uint8_t *cabinet, size_t cabinet_len);

/* How many keys a cabinet has, old ones with them. Answers 0, or 23. */
obscurlane_counted obscurlane_count_keys(const uint8_t *cabinet, size_t cabinet_len);

/* Puts a public key in. Where the cabinet has one of the same Subject kind, Manufacturer and MID, old or not, it is replaced in
 * its place, and the TVP there stays; else it is a first put: the lowest free place is taken, with the TVP 19930101T000000Z.
 * Answers OBSCURLANE_NOT_CABINET; then what obscurlane_read_record answers to the record, but OBSCURLANE_UNKNOWN_KIND for a
 * record of another kind; then OBSCURLANE_NOT_LATER where the GNT of its Subject is earlier than that of the record to replace,
 * or equal; then OBSCURLANE_NO_PLACE where there is none to replace and no place is free: 0 to 9, 23 to 25, or 28. A full
 * cabinet takes replacements. */
obscurlane_filed obscurlane_put_key(uint8_t *cabinet, size_t cabinet_len, const uint8_t *record, size_t record_len);

/* Takes out the public key of this identity's kind, Manufacturer and MID, old or not: its place is all zeros afterwards, the TVP
 * with it, and is used again. So requests of the module that were admitted before are admitted again once its key is put in
 * again. The identity must be accepted; its GNT and Fingerprint are ignored. Answers OBSCURLANE_NOT_CABINET, then what
 * obscurlane_read_identity answers to the identity, then OBSCURLANE_NOT_THERE: 0 to 6, 23, or 26. */
obscurlane_filed obscurlane_remove_key(uint8_t *cabinet, size_t cabinet_len, const uint8_t *identity, size_t identity_len);

/* Admits a load request, once: the key of its module, by kind, Manufacturer and MID of its ID_SM, is in the cabinet, and the
 * TVP is later than the last one that was accepted for that module. It is then stored in the 16 bytes from
 * OBSCURLANE_CABINET_TVP_AT on of the key's place, and no other byte changes. GNT and Fingerprint of ID_SM are ignored. Answers
 * OBSCURLANE_NOT_CABINET; then what obscurlane_read_record answers to the request, but OBSCURLANE_UNKNOWN_KIND for a record of
 * another kind; then OBSCURLANE_NOT_THERE where the module's key is not there, or is old; then OBSCURLANE_TVP_NOT_LATER where
 * the TVP is earlier than the one that is stored, or equal: 0 to 7, 9, 23, 26, or 27.
 *
 * What the caller owes, beside the pointers: the MacTag is not looked at, so obscurlane_confirm_request comes first. A TVP that
 * was admitted is used up, and a forged request with a late one would lock its module out. And the changed bytes are stored
 * before the request is answered, because an older copy of them admits again what they refuse. */
obscurlane_filed obscurlane_admit(uint8_t *cabinet, size_t cabinet_len, const uint8_t *request, size_t request_len);

/* Where the public key of this identity's kind, Manufacturer and MID stands in the cabinet's bytes, with the numbers of
 * obscurlane_remove_key; OBSCURLANE_NOT_THERE also where it is old. The record is the place's `len` bytes from `start` on, a
 * part of the cabinet that holds until the next call that changes it. */
obscurlane_place obscurlane_find_key(const uint8_t *cabinet, size_t cabinet_len, const uint8_t *identity, size_t identity_len);

/* ---- the Fingerprint in the Subject of a public key */

/* What a check says. */
typedef struct {
    uint8_t no;
    uint8_t field;
} obscurlane_checked;

/* Whether the Fingerprint is the right one: the first eight bytes, as HEX(16), of the SHA-384 of the Subject's kind name,
 * Manufacturer, MID and GNT and of Q's 194 characters, each followed by ':'. Answers what obscurlane_read_record answers to the
 * public key, but OBSCURLANE_UNKNOWN_KIND for a record of another kind, and after every other number
 * OBSCURLANE_WRONG_FINGERPRINT, which is about no field: 0 to 9, 15, or 28. */
obscurlane_checked obscurlane_check_fingerprint(const uint8_t *record, size_t record_len);

/* Writes the Fingerprint that is right, whatever stands in the Subject. Answers the same, but OBSCURLANE_SHORT_OUTPUT in the
 * place of OBSCURLANE_WRONG_FINGERPRINT, for an output of fewer than OBSCURLANE_LONGEST_FINGERPRINT bytes: 0 to 10, or 28. */
obscurlane_written obscurlane_write_fingerprint(const uint8_t *record, size_t record_len, uint8_t *out, size_t out_len);

/* ---- SHA-384, as FIPS 180-4 defines it */

/* The 48 bytes of a hash. */
typedef struct {
    uint8_t bytes[48];
} obscurlane_digest;

/* The hash of the bytes. */
obscurlane_digest obscurlane_sha384_of(const uint8_t *bytes, size_t bytes_len);

/* The eight words of a hash value. */
typedef struct {
    uint64_t a;
    uint64_t b;
    uint64_t c;
    uint64_t d;
    uint64_t e;
    uint64_t f;
    uint64_t g;
    uint64_t h;
} obscurlane_sha384_words;

/* The bytes given so far, as a plain value: a copy of it goes on by itself, and nothing has to be given back. A state that no
 * call gave is taken too, and gives some hash. */
typedef struct {
    obscurlane_sha384_words hash; /* the hash value of their whole blocks of 128 bytes */
    uint8_t block[128];           /* at its front the bytes that wait for a whole block, and zeros after them */
    uint64_t low;                 /* how many bytes there were: low + 2^64 * high */
    uint64_t high;
} obscurlane_sha384_state;

/* The same piece by piece: the state before the first byte, the state with these bytes too, the hash of all bytes given. */
obscurlane_sha384_state obscurlane_sha384_begin(void);
obscurlane_sha384_state obscurlane_sha384_add(obscurlane_sha384_state state, const uint8_t *bytes, size_t bytes_len);
obscurlane_digest obscurlane_sha384_end(obscurlane_sha384_state state);

/* ---- SHA-1, as FIPS 180-4 defines it */

/* The 20 bytes of a hash. */
typedef struct {
    uint8_t bytes[20];
} obscurlane_sha1_digest;

/* The hash of the bytes. */
obscurlane_sha1_digest obscurlane_sha1_of(const uint8_t *bytes, size_t bytes_len);

/* The five words of a hash value. */
typedef struct {
    uint32_t a;
    uint32_t b;
    uint32_t c;
    uint32_t d;
    uint32_t e;
} obscurlane_sha1_words;

/* The bytes given so far, as a plain value like obscurlane_sha384_state. */
typedef struct {
    obscurlane_sha1_words hash; /* the hash value of their whole blocks of 64 bytes */
    uint8_t block[64];          /* at its front the bytes that wait for a whole block, and zeros after them */
    uint64_t count;             /* how many bytes there were, modulo 2^64 */
} obscurlane_sha1_state;

/* The same piece by piece: the state before the first byte, the state with these bytes too, the hash of all bytes given. */
obscurlane_sha1_state obscurlane_sha1_begin(void);
obscurlane_sha1_state obscurlane_sha1_add(obscurlane_sha1_state state, const uint8_t *bytes, size_t bytes_len);
obscurlane_sha1_digest obscurlane_sha1_end(obscurlane_sha1_state state);

/* ---- HMAC-SHA-384-192: the leftmost 24 bytes of HMAC with SHA-384, as FIPS 198-1 defines it */

/* The 24 bytes of a tag. */
typedef struct {
    uint8_t bytes[24];
} obscurlane_tag;

/* The tag of a text under a key. Both may be of any length, and a key longer than 128 bytes is hashed first. */
obscurlane_tag obscurlane_hmac_of(const uint8_t *key, size_t key_len, const uint8_t *text, size_t text_len);

/*
 * ---- the tags that confirm a key agreement
 *
 * MacKey and KEK come from Z, the shared value of OBSCURLANE_Z_BYTES bytes, and from a load request: they are the first and the
 * last 24 bytes of the SHA-384 of Z, of the bytes 00 00 00 01 and of SharedInfo. The request's MacTag is right where it is, as
 * HEX(48), the tag of the module text under MacKey; a response's, the tag of the centre text.
 *
 * Z, MacKey and KEK are secret. What is promised of the time that the calls take, and of bytes that they leave on the stack,
 * stands in docs/TRUST.md: a tag is compared over all of its 24 bytes, whichever differs first; beyond its length, no branch
 * depends on Z but the answer 0 or OBSCURLANE_WRONG_TAG; and bytes of keys are not wiped from the stack.
 */

enum { OBSCURLANE_REQUEST = 1, OBSCURLANE_RESPONSE = 2 };

/* `which` is OBSCURLANE_REQUEST or OBSCURLANE_RESPONSE with that record's own refusal. It is 0 otherwise, and so is `field`. */
typedef struct {
    uint8_t no;
    uint8_t field;
    uint8_t which;
} obscurlane_confirmed;

/* Whether the MacTag of a load request is right for Z; where it is, MacKey and KEK are written, and otherwise neither output is
 * touched. Answers what obscurlane_read_record answers to the request, but OBSCURLANE_UNKNOWN_KIND for a record of another
 * kind; then OBSCURLANE_WRONG_Z, OBSCURLANE_SHORT_OUTPUT for an output of fewer than OBSCURLANE_KEY_BYTES bytes, and
 * OBSCURLANE_WRONG_TAG: 0 to 7, 9, 10, 16, or 18. */
obscurlane_confirmed obscurlane_confirm_request(const uint8_t *z, size_t z_len, const uint8_t *request, size_t request_len,
                                                uint8_t *mac_key, size_t mac_key_len, uint8_t *kek, size_t kek_len);

/* Whether the MacTag of a load response is right for Z and for the request that it answers. The request's own MacTag is not
 * looked at, and no key is written. Answers what obscurlane_read_record answers to the request, then to the response, but
 * OBSCURLANE_UNKNOWN_KIND for a record of another kind; then OBSCURLANE_WRONG_Z, OBSCURLANE_OTHER_REQUEST where ID_KMC, ID_SM
 * or TVP of the two differ in a byte, and OBSCURLANE_WRONG_TAG: 0 to 7, 9, or 16 to 18. */
obscurlane_confirmed obscurlane_confirm_response(const uint8_t *z, size_t z_len, const uint8_t *request, size_t request_len,
                                                 const uint8_t *response, size_t response_len);

/* ---- the check, CRC16-MODBUS, which a record has as four HEX characters, the higher byte first */

/* The check of the bytes; FFFF hex for none. */
uint16_t obscurlane_crc_of(const uint8_t *bytes, size_t bytes_len);

/* The same byte by byte: the state before the first byte, the state with one byte more, the check of all bytes given. */
uint16_t obscurlane_crc_begin(void);
uint16_t obscurlane_crc_add(uint16_t state, uint8_t byte);
uint16_t obscurlane_crc_end(uint16_t state);

/* ---- the text types: whether the bytes are of the type */

/* IDENT: 1 to OBSCURLANE_LONGEST_IDENT characters, the first alphanumeric, the others alphanumeric or one of _ - . , */
bool obscurlane_is_ident(const uint8_t *s, size_t s_len);

/* TIMESTAMP: YYYYMMDDThhmmssZ; year from 0001, month 01 to 12, a day that exists in that month of that year by the Gregorian
 * calendar, hour 00 to 23, minute and second 00 to 59. So 20230431T000000Z is none, and 20000229T000000Z is one. */
bool obscurlane_is_timestamp(const uint8_t *s, size_t s_len);

/* HEX(n): exactly n characters 0-9 and A-F. Small letters are refused. */
bool obscurlane_is_hex(size_t n, const uint8_t *s, size_t s_len);

/* POINT: HEX(194) that begins with 04. */
bool obscurlane_is_point(const uint8_t *s, size_t s_len);

/* SIG: HEX(192). */
bool obscurlane_is_sig(const uint8_t *s, size_t s_len);

/* MAC: HEX(48). */
bool obscurlane_is_mac(const uint8_t *s, size_t s_len);

/* PRINT: HEX(16). */
bool obscurlane_is_print(const uint8_t *s, size_t s_len);

/* ---- names, in names.c; every answer is a text that stays */

/* A number in words, as "the check differs" for OBSCURLANE_WRONG_CHECK. A number above 28 has words of its own. */
const char *obscurlane_reason(uint8_t no);

/* A kind's name, as "VKLOAD.REQ.1"; "none" for OBSCURLANE_KIND_NONE and any other number. */
const char *obscurlane_kind_name(size_t kind);

/* The name of a kind's field, as "TVP"; "" where the kind has no such field, so that names end where a kind's fields do. */
const char *obscurlane_field_name(size_t kind, size_t field);

#ifdef __cplusplus
}
#endif

#endif
