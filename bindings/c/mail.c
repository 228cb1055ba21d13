/* A part of every.c: records by mail. */
#include "expect.h"
#include "worked.h"

#include <stdio.h>
#include <stdlib.h>
#include <string.h>

/* ---- texts, and blocks by the definition */

enum {
    ROW = 64,
    WIDEST = 1100, /* a row that has room for every record */
    EDGE = 16,     /* so many bytes of an output stand before what is lent, and behind it */
    TEXT_ROOM = 8 * ROOM
};

struct text {
    char bytes[TEXT_ROOM];
    size_t len;
};

static void add_bytes(struct text *text, const char *bytes, size_t len)
{
    if (len > sizeof text->bytes - text->len) {
        abort();
    }
    memcpy(text->bytes + text->len, bytes, len);
    text->len += len;
}

static void add(struct text *text, const char *bytes)
{
    add_bytes(text, bytes, strlen(bytes));
}

static void add_begins(struct text *text, const char *name)
{
    add(text, "--STS:");
    add(text, name);
    add(text, " BEGINS--\n");
}

static void add_ends(struct text *text, const char *name)
{
    add(text, "--STS:");
    add(text, name);
    add(text, " ENDS--\n");
}

/* The bytes in rows of this width, the last one the rest. */
static void add_rows(struct text *text, const char *bytes, size_t len, size_t width)
{
    for (size_t at = 0; at < len; at += width) {
        add_bytes(text, bytes + at, len - at < width ? len - at : width);
        add(text, "\n");
    }
}

static void add_block(struct text *text, const char *name, const char *record, size_t len, size_t width)
{
    add_begins(text, name);
    add_rows(text, record, len, width);
    add_ends(text, name);
}

enum { NAME_ROOM = OBSCURLANE_LONGEST_IDENT + 1 };

/* What stands before the first mark; some name where there is none. */
static void write_name(const char *record, size_t len, char name[NAME_ROOM])
{
    size_t end = 0;
    while (end < len && record[end] != '|' && record[end] != ':') {
        end++;
    }
    if (end == len || !obscurlane_is_ident((const uint8_t *)record, end)) {
        record = "KEY.1";
        end = strlen(record);
    }
    memcpy(name, record, end);
    name[end] = '\0';
}

/* ---- what both calls say */

/* Reading the text answers so, with every sort of room; and what is accepted is this record, at the front of the output. */
static void expect_read(const char *text, size_t len, uint8_t no, uint8_t field, const char *record, size_t record_len)
{
    bool is_accepted = no == OBSCURLANE_ACCEPTED;
    const size_t needed = is_accepted ? record_len : 0;
    const size_t rooms[] = {0, needed / 2, needed - (needed > 0), needed, needed + 1, ROOM};
    for (size_t i = 0; i < COUNT_OF(rooms); i++) {
        uint8_t out[EDGE + ROOM + EDGE];
        memset(out, UNTOUCHED, sizeof out);
        obscurlane_written made = obscurlane_read_mail((const uint8_t *)text, len, out + EDGE, rooms[i]);
        bool is_short = rooms[i] < needed;
        size_t written = is_short ? 0 : needed;
        EXPECT(made.no == (is_short ? OBSCURLANE_SHORT_OUTPUT : no) && made.field == field && made.len == written);
        EXPECT(memcmp(out + EDGE, record, written) == 0);
        EXPECT(untouched(out, 0, EDGE) && untouched(out, EDGE + written, sizeof out));
    }
}

static void expect_refused(const struct text *text, uint8_t no, uint8_t field)
{
    expect_read(text->bytes, text->len, no, field, "", 0);
}

/* The record of the text is read and is this one. */
static void expect_found(const struct text *text, const char *record, size_t len)
{
    expect_read(text->bytes, text->len, OBSCURLANE_ACCEPTED, 0, record, len);
}

/* The record, whatever the room, is answered so by the call that writes, and its block is written where there is room. */
static void expect_written(const char *record, size_t len, uint8_t no, uint8_t field)
{
    struct text block;
    char name[NAME_ROOM];
    write_name(record, len, name);
    block.len = 0;
    add_block(&block, name, record, len, ROW);
    EXPECT(block.len == 30 + 2 * strlen(name) + len + (len + 63) / 64);
    const size_t rooms[] = {0, 1, len, block.len - 1, block.len, block.len + 1};
    for (size_t i = 0; i < COUNT_OF(rooms); i++) {
        uint8_t out[EDGE + 2 * ROOM + EDGE];
        memset(out, UNTOUCHED, sizeof out);
        obscurlane_written made = obscurlane_write_mail((const uint8_t *)record, len, out + EDGE, rooms[i]);
        bool is_short = no == OBSCURLANE_ACCEPTED && rooms[i] < block.len;
        size_t written = no == OBSCURLANE_ACCEPTED && !is_short ? block.len : 0;
        EXPECT(made.no == (is_short ? OBSCURLANE_SHORT_OUTPUT : no) && made.field == field && made.len == written);
        EXPECT(memcmp(out + EDGE, block.bytes, written) == 0);
        EXPECT(untouched(out, 0, EDGE) && untouched(out, EDGE + written, sizeof out));
    }
}

/* These bytes have this answer to the record call, with the number and field 0 where they are accepted. So has the call that
 * writes them, and the one that reads their block, alone and inside a text. Under another name they are of another kind, which
 * is told after their length and before all else; without an ENDS line the text is refused with 22, and without a BEGINS line
 * with 21, before that. */
static void expect_record(const char *record, size_t len, uint8_t no, uint8_t field)
{
    char name[NAME_ROOM];
    write_name(record, len, name);
    obscurlane_answer said = obscurlane_read_record((const uint8_t *)record, len);
    EXPECT(said.no == no && said.field == field);
    expect_written(record, len, no, field);

    struct text text;
    text.len = 0;
    add_block(&text, name, record, len, ROW);
    expect_read(text.bytes, text.len, no, field, record, len);
    expect_read(text.bytes, text.len - 1, no, field, record, len);
    text.len = 0;
    add(&text, "Dear vendor,\n\n--STS:KEY.1 ENDS--\n --STS:KEY.1 BEGINS--\n");
    add_block(&text, name, record, len, ROW);
    add(&text, "\n-- \nThe centre");
    expect_read(text.bytes, text.len, no, field, record, len);

    static const char *const others[] = {"KEY.1", "PK.ECDSA.1", "PK.ECDH.1", "VKLOAD.REQ.1", "VKLOAD.RESP.1", "SMID.1", "none"};
    for (size_t i = 0; i < COUNT_OF(others); i++) {
        text.len = 0;
        add_block(&text, others[i], record, len, ROW);
        if (strcmp(others[i], name) != 0) {
            expect_refused(&text, len > OBSCURLANE_LONGEST_READ ? OBSCURLANE_TOO_LONG : OBSCURLANE_UNKNOWN_KIND, 0);
        }
    }
    text.len = 0;
    add_begins(&text, name);
    add_rows(&text, record, len, ROW);
    expect_refused(&text, OBSCURLANE_MISSING_ENDS, 0);
    text.len = 0;
    add_rows(&text, record, len, ROW);
    add_ends(&text, name);
    expect_refused(&text, OBSCURLANE_MISSING_BEGINS, 0);
}

/* ---- any text, by the definition */

/* A line of a text: its start and its end, where its line feed stands or the text is at an end. */
struct line {
    size_t start, end;
};

static struct line line_from(const struct text *text, size_t start)
{
    const char *feed = memchr(text->bytes + start, '\n', text->len - start);
    return (struct line){start, feed != NULL ? (size_t)(feed - text->bytes) : text->len};
}

/* Whether the line is "--STS:", an IDENT and these characters; then that is its name. */
static bool is_guard(const struct text *text, struct line line, const char *behind, char name[NAME_ROOM])
{
    const char *bytes = text->bytes + line.start;
    size_t len = line.end - line.start, around = strlen("--STS:") + strlen(behind);
    if (len <= around || len - around > OBSCURLANE_LONGEST_IDENT) {
        return false;
    }
    memcpy(name, bytes + strlen("--STS:"), len - around);
    name[len - around] = '\0';
    return memcmp(bytes, "--STS:", strlen("--STS:")) == 0 &&
           memcmp(bytes + len - strlen(behind), behind, strlen(behind)) == 0 &&
           obscurlane_is_ident((const uint8_t *)name, len - around);
}

/* The answer to a text by the words of the request: the first BEGINS line, the first matching ENDS line after it, what stands
 * between without its line feeds, and of that what the record call says, as if there were no kind but the one that is named. */
static void expect_by_definition(const struct text *text)
{
    char name[NAME_ROOM], other[NAME_ROOM];
    struct line line = line_from(text, 0);
    while (!is_guard(text, line, " BEGINS--", name)) {
        if (line.end == text->len) {
            expect_refused(text, OBSCURLANE_MISSING_BEGINS, 0);
            return;
        }
        line = line_from(text, line.end + 1);
    }
    struct text record;
    record.len = 0;
    for (;;) {
        if (line.end == text->len) {
            expect_refused(text, OBSCURLANE_MISSING_ENDS, 0);
            return;
        }
        line = line_from(text, line.end + 1);
        if (is_guard(text, line, " ENDS--", other) && strcmp(name, other) == 0) {
            break;
        }
        add_bytes(&record, text->bytes + line.start, line.end - line.start);
    }
    obscurlane_answer said = obscurlane_read_record((const uint8_t *)record.bytes, record.len);
    size_t len = strlen(name);
    bool is_named = record.len > len && memcmp(record.bytes, name, len) == 0 && record.bytes[len] == '|';
    if (record.len <= OBSCURLANE_LONGEST_READ && !is_named) {
        expect_refused(text, OBSCURLANE_UNKNOWN_KIND, 0);
    } else {
        expect_read(text->bytes, text->len, said.no, said.field, record.bytes, record.len);
    }
}

/* ---- the worked example */

static const struct {
    const char *record, *block;
    size_t len, kind;
} worked[] = {
    {WORKED_REQUEST, WORKED_MAIL_REQUEST, 495, OBSCURLANE_KIND_REQ},
    {WORKED_KEY_CENTRE, WORKED_MAIL_CENTRE, 355, OBSCURLANE_KIND_ECDH},
    {WORKED_KEY_MAKER, WORKED_MAIL_MAKER, 589, OBSCURLANE_KIND_ECDSA},
};

/* As they are printed: written with just the room, and read; the record that is read has its fields. */
static void worked_blocks(void)
{
    for (size_t i = 0; i < COUNT_OF(worked); i++) {
        const char *record = worked[i].record, *block = worked[i].block;
        size_t len = strlen(record);
        uint8_t out[OBSCURLANE_LONGEST_MAIL];
        EXPECT(strlen(block) == worked[i].len);
        obscurlane_written made = obscurlane_write_mail((const uint8_t *)record, len, out, worked[i].len);
        EXPECT(made.no == OBSCURLANE_ACCEPTED && made.field == 0 && made.len == worked[i].len);
        EXPECT(memcmp(out, block, worked[i].len) == 0);

        uint8_t read[OBSCURLANE_LONGEST_RECORD];
        made = obscurlane_read_mail((const uint8_t *)block, worked[i].len, read, sizeof read);
        EXPECT(made.no == OBSCURLANE_ACCEPTED && made.field == 0 && made.len == len && memcmp(read, record, len) == 0);
        EXPECT(obscurlane_read_record(read, made.len).kind == worked[i].kind);
    }
}

/* ---- foldings */

/* Rows of every width, and rows with empty ones between them. */
static void every_folding(const char *record)
{
    char name[NAME_ROOM];
    size_t len = strlen(record);
    write_name(record, len, name);
    for (size_t width = 1; width <= WIDEST; width++) {
        struct text text;
        text.len = 0;
        add_block(&text, name, record, len, width);
        expect_found(&text, record, len);
        text.len = 0;
        add_begins(&text, name);
        add(&text, "\n");
        add_rows(&text, record, len / 2, width);
        add(&text, "\n\n");
        add_rows(&text, record + len / 2, len - len / 2, width);
        add(&text, "\n");
        add_ends(&text, name);
        expect_found(&text, record, len);
    }
}

/* Nothing but line feeds is dropped: what else stands at the end of a row, or at its front, is in the record. */
static void nothing_else_is_dropped(const char *record)
{
    static const char *const more[] = {"\r", " ", "\t", "=", "> ", "\v"};
    char name[NAME_ROOM];
    size_t len = strlen(record);
    write_name(record, len, name);
    for (size_t i = 0; i < COUNT_OF(more); i++) {
        for (size_t place = 0; place <= len; place++) {
            struct text text;
            text.len = 0;
            add_begins(&text, name);
            add_bytes(&text, record, place);
            add(&text, more[i]);
            add(&text, place % 2 == 0 ? "\n" : "");
            add_rows(&text, record + place, len - place, ROW);
            add_ends(&text, name);
            expect_by_definition(&text);
            uint8_t out[ROOM];
            EXPECT(obscurlane_read_mail((const uint8_t *)text.bytes, text.len, out, sizeof out).no != OBSCURLANE_ACCEPTED);
        }
    }
}

/* A text whose lines, or some of them, end with a carriage return and a line feed. */
static void carriage_returns(const char *block)
{
    struct text text, guards;
    text.len = 0;
    guards.len = 0;
    size_t ends = strlen(block) - 1;
    while (block[ends - 1] != '\n') {
        ends--;
    }
    const size_t begins = (size_t)(strchr(block, '\n') - block);
    for (size_t i = 0; block[i] != '\0'; i++) {
        add(&text, block[i] == '\n' ? "\r" : "");
        add_bytes(&text, block + i, 1);
        add(&guards, block[i] == '\n' && i > begins && i < ends ? "\r" : "");
        add_bytes(&guards, block + i, 1);
    }
    expect_refused(&text, OBSCURLANE_MISSING_BEGINS, 0);
    expect_refused(&guards, OBSCURLANE_MISSING_CHECK, 0);
    /* The BEGINS line has none, and the others have. */
    memmove(text.bytes + begins, text.bytes + begins + 1, text.len - begins - 1);
    text.len--;
    expect_refused(&text, OBSCURLANE_MISSING_ENDS, 0);
}

/* ---- guards, and what is none */

/* Lines that are no BEGINS lines. */
static const char *const no_begins[] = {
    "",
    " ",
    "--",
    "--STS:",
    "KEY.1",
    "KEY.1 BEGINS--",
    "--STS:KEY.1",
    "--STS:KEY.1 BEGINS",
    "--STS:KEY.1 BEGINS-",
    "-STS:KEY.1 BEGINS--",
    "STS:KEY.1 BEGINS--",
    " --STS:KEY.1 BEGINS--",
    "> --STS:KEY.1 BEGINS--",
    "---STS:KEY.1 BEGINS--",
    "--STS:KEY.1 BEGINS-- ",
    "--STS:KEY.1 BEGINS--\r",
    "--STS:KEY.1 BEGINS---",
    "--STS:KEY.1 BEGINS--.",
    "--sts:KEY.1 BEGINS--",
    "--STS:KEY.1 begins--",
    "--STS:KEY.1 Begins--",
    "--STS:KEY.1 BEGIN--",
    "--STS:KEY.1 BEGINSS--",
    "--STS:KEY.1 START--",
    "--STS:KEY.1BEGINS--",
    "--STS:KEY.1  BEGINS--",
    "--STS:KEY.1\tBEGINS--",
    "--STS: KEY.1 BEGINS--",
    "--STS KEY.1 BEGINS--",
    "--STS;KEY.1 BEGINS--",
    "--STS: BEGINS--",
    "--STS:  BEGINS--",
    "--STS:BEGINS--",
    "--STS: BEGINS BEGINS--",
    "--STS:KEY 1 BEGINS--",
    "--STS:.KEY BEGINS--",
    "--STS:-KEY.1 BEGINS--",
    "--STS:_KEY.1 BEGINS--",
    "--STS:KEY:1 BEGINS--",
    "--STS:KEY|1 BEGINS--",
    "--STS:KEY.1; BEGINS--",
    "--STS:KEY.1\x80 BEGINS--",
    "--STS:KEY.1 ENDS--",
    "--STS:KEY.1 BEGINS ENDS--",
    "--STS:A23456789012345678901234567890123 BEGINS--",
    "--STS:A234567890123456789012345678901234567890123456789012345678901234 BEGINS--",
};

/* Lines that are no ENDS lines of a KEY.1. */
static const char *const no_ends[] = {
    "",
    "--STS:",
    "--STS:KEY.1",
    "--STS:KEY.1 ENDS-",
    "--STS:KEY.1 ENDS",
    " --STS:KEY.1 ENDS--",
    "--STS:KEY.1 ENDS-- ",
    "--STS:KEY.1 ENDS--\r",
    "--STS:KEY.1 ENDS---",
    "---STS:KEY.1 ENDS--",
    "--sts:KEY.1 ENDS--",
    "--STS:key.1 ENDS--",
    "--STS:KEY.1 ends--",
    "--STS:KEY.1 END--",
    "--STS:KEY.1  ENDS--",
    "--STS: KEY.1 ENDS--",
    "--STS: ENDS--",
    "--STS:KEY ENDS--",
    "--STS:KEY.2 ENDS--",
    "--STS:KEY.11 ENDS--",
    "--STS:KEY.1. ENDS--",
    "--STS:PK.ECDH.1 ENDS--",
    "--STS:KEY.1 BEGINS--",
    "--STS:KEY.1 BEGINS ENDS--",
    "KEY.1 ENDS--",
};

static void lines_that_are_no_guards(void)
{
    const char *record = WORKED_WRAPPED_1;
    size_t len = strlen(record);
    struct text text;
    for (size_t i = 0; i < COUNT_OF(no_begins); i++) {
        text.len = 0;
        add(&text, no_begins[i]);
        expect_refused(&text, OBSCURLANE_MISSING_BEGINS, 0);
        add(&text, "\n");
        add_rows(&text, record, len, ROW);
        add_ends(&text, "KEY.1");
        expect_refused(&text, OBSCURLANE_MISSING_BEGINS, 0);
        /* It is passed over. */
        add_block(&text, "KEY.1", record, len, ROW);
        expect_found(&text, record, len);
    }
    for (size_t i = 0; i < COUNT_OF(no_ends); i++) {
        text.len = 0;
        add_begins(&text, "KEY.1");
        add_rows(&text, record, len, ROW);
        add(&text, no_ends[i]);
        expect_refused(&text, OBSCURLANE_MISSING_ENDS, 0);
        add(&text, "\n");
        expect_refused(&text, OBSCURLANE_MISSING_ENDS, 0);
        /* It is a part of the record, and behind the ENDS line it is nothing. */
        add_ends(&text, "KEY.1");
        expect_read(text.bytes, text.len, *no_ends[i] == '\0' ? OBSCURLANE_ACCEPTED : OBSCURLANE_MISSING_CHECK, 0, record, len);
        text.len = 0;
        add_block(&text, "KEY.1", record, len, ROW);
        add(&text, no_ends[i]);
        expect_found(&text, record, len);
    }
}

/* Any IDENT is a name, and the BEGINS line with it decides. */
static void any_name(void)
{
    static const char *const names[] = {
        "A",       "0",       "a",      "BEGINS", "ENDS",       "KEY",
        "KEY.2",   "KEY.11",  "key.1",  "KEY.1,", "KEY.1--",    "A_-.,",
        "SMMAN.1", "KMCID.1", "SMID.1", "VKLOAD", "PK.ECDSA.2", "A2345678901234567890123456789012",
    };
    for (size_t i = 0; i < COUNT_OF(names); i++) {
        struct text text;
        text.len = 0;
        add_block(&text, names[i], WORKED_WRAPPED_1, strlen(WORKED_WRAPPED_1), ROW);
        expect_refused(&text, OBSCURLANE_UNKNOWN_KIND, 0);
        add_block(&text, "KEY.1", WORKED_WRAPPED_1, strlen(WORKED_WRAPPED_1), ROW);
        expect_refused(&text, OBSCURLANE_UNKNOWN_KIND, 0);
        text.len = 0;
        add_begins(&text, names[i]);
        expect_refused(&text, OBSCURLANE_MISSING_ENDS, 0);
        add_block(&text, "KEY.1", WORKED_WRAPPED_1, strlen(WORKED_WRAPPED_1), ROW);
        expect_refused(&text, OBSCURLANE_MISSING_ENDS, 0);
    }
    /* An identity under its own name. */
    struct text text;
    text.len = 0;
    add_block(&text, "SMID.1", WORKED_ID_SM, strlen(WORKED_ID_SM), ROW);
    expect_refused(&text, OBSCURLANE_UNKNOWN_KIND, 0);
}

/* Guards with nothing between them, and guards without one of their line feeds. */
static void short_texts(void)
{
    static const struct {
        const char *text;
        uint8_t no;
    } texts[] = {
        {"--STS:KEY.1 BEGINS--\n--STS:KEY.1 ENDS--\n", OBSCURLANE_UNKNOWN_KIND},
        {"--STS:KEY.1 BEGINS--\n--STS:KEY.1 ENDS--", OBSCURLANE_UNKNOWN_KIND},
        {"--STS:KEY.1 BEGINS--\n\n\n--STS:KEY.1 ENDS--", OBSCURLANE_UNKNOWN_KIND},
        {"--STS:KEY.1 BEGINS--\n--STS:KEY.1 BEGINS--\n--STS:KEY.1 ENDS--", OBSCURLANE_UNKNOWN_KIND},
        {"--STS:KEY.1 BEGINS--\nKEY.1|\n--STS:KEY.1 ENDS--", OBSCURLANE_MISSING_CHECK},
        {"--STS:KEY.1 BEGINS--\nKEY.1\n--STS:KEY.1 ENDS--", OBSCURLANE_UNKNOWN_KIND},
        {"--STS:KEY.1 BEGINS--\nKEY.1:\n--STS:KEY.1 ENDS--", OBSCURLANE_UNKNOWN_KIND},
        {"--STS:KEY.1 BEGINS----STS:KEY.1 ENDS--\n", OBSCURLANE_MISSING_BEGINS},
        {"--STS:KEY.1 ENDS--\n--STS:KEY.1 BEGINS--\n", OBSCURLANE_MISSING_ENDS},
        {"--STS:KEY.1 ENDS--\n--STS:KEY.1 BEGINS--", OBSCURLANE_MISSING_ENDS},
        {"--STS:KEY.1 BEGINS--", OBSCURLANE_MISSING_ENDS},
        {"--STS:KEY.1 BEGINS--\n", OBSCURLANE_MISSING_ENDS},
        {"--STS:KEY.1 ENDS--\n", OBSCURLANE_MISSING_BEGINS},
        {"\n\n\n", OBSCURLANE_MISSING_BEGINS},
        {"", OBSCURLANE_MISSING_BEGINS},
    };
    for (size_t i = 0; i < COUNT_OF(texts); i++) {
        expect_read(texts[i].text, strlen(texts[i].text), texts[i].no, 0, "", 0);
    }
}

/* ---- several blocks */

/* The first one decides, whatever comes of it. */
static void two_blocks(void)
{
    for (size_t i = 0; i < RECORDS; i++) {
        const char *first = records[i], *second = records[(i + 1) % RECORDS];
        char name[NAME_ROOM], other[NAME_ROOM];
        size_t len = strlen(first);
        write_name(first, len, name);
        write_name(second, strlen(second), other);
        struct text text;
        text.len = 0;
        add_block(&text, name, first, len, ROW);
        add_block(&text, other, second, strlen(second), ROW);
        expect_found(&text, first, len);
        /* The first has lost its last row, in which its check stands. */
        text.len = 0;
        add_block(&text, name, first, (len - 1) / ROW * ROW, ROW);
        add_block(&text, other, second, strlen(second), ROW);
        expect_refused(&text, OBSCURLANE_MISSING_CHECK, 0);
        /* The first has lost its ENDS line: both are its record, or it has no end. */
        text.len = 0;
        add_begins(&text, name);
        add_rows(&text, first, len, ROW);
        add_block(&text, other, second, strlen(second), ROW);
        if (strcmp(name, other) == 0) {
            expect_by_definition(&text);
        } else {
            expect_refused(&text, OBSCURLANE_MISSING_ENDS, 0);
        }
        /* The first has lost its BEGINS line. */
        text.len = 0;
        add_rows(&text, first, len, ROW);
        add_ends(&text, name);
        add_block(&text, other, second, strlen(second), ROW);
        expect_found(&text, second, strlen(second));
    }
}

/* ---- texts that are cut, lines that are lost, bytes that are others */

#define BEFORE "Dear vendor,\n--STS:none ENDS--\n\n"
#define BEHIND "\n-- \nThe centre\n"

/* Every front of a text, and every end. */
static void every_cut(const char *record, const char *block)
{
    struct text text;
    text.len = 0;
    add(&text, BEFORE);
    const size_t start = text.len, begun = start + (size_t)(strchr(block, '\n') - block);
    add(&text, block);
    const size_t ended = text.len - 1;
    add(&text, BEHIND);
    for (size_t cut = 0; cut <= text.len; cut++) {
        uint8_t no = cut < begun ? OBSCURLANE_MISSING_BEGINS : cut < ended ? OBSCURLANE_MISSING_ENDS : OBSCURLANE_ACCEPTED;
        expect_read(text.bytes, cut, no, 0, record, strlen(record));
        no = cut > start ? OBSCURLANE_MISSING_BEGINS : OBSCURLANE_ACCEPTED;
        expect_read(text.bytes + cut, text.len - cut, no, 0, record, strlen(record));
    }
}

/* A block without one of its lines, with one of them twice, and with two neighbours in each other's place. */
static void every_line(const char *record, const char *block)
{
    struct text text, lines;
    size_t len = strlen(record), rows = (len + 63) / 64, count = rows + 2;
    lines.len = 0;
    add(&lines, block);
    for (size_t lost = 0; lost < count; lost++) {
        struct text twice, swapped;
        struct line held = {0, 0};
        text.len = twice.len = swapped.len = 0;
        size_t number = 0;
        for (size_t at = 0; at < lines.len; number++) {
            struct line line = line_from(&lines, at);
            const char *bytes = lines.bytes + line.start;
            size_t with_feed = line.end + 1 - line.start;
            if (number != lost) {
                add_bytes(&text, bytes, with_feed);
                add_bytes(&swapped, bytes, with_feed);
            } else {
                add_bytes(&twice, bytes, with_feed);
                held = line;
            }
            add_bytes(&twice, bytes, with_feed);
            if (number == lost + 1) {
                add_bytes(&swapped, lines.bytes + held.start, held.end + 1 - held.start);
            }
            at = line.end + 1;
        }
        EXPECT(number == count);
        expect_by_definition(&text);
        expect_by_definition(&twice);
        expect_by_definition(&swapped);
        uint8_t out[ROOM];
        uint8_t no = obscurlane_read_mail((const uint8_t *)text.bytes, text.len, out, sizeof out).no;
        bool is_first = lost == 0, is_last = lost == count - 1;
        EXPECT(no != OBSCURLANE_ACCEPTED);
        EXPECT((no == OBSCURLANE_MISSING_BEGINS) == is_first && (no == OBSCURLANE_MISSING_ENDS) == is_last);
        no = obscurlane_read_mail((const uint8_t *)twice.bytes, twice.len, out, sizeof out).no;
        EXPECT((no == OBSCURLANE_ACCEPTED) == is_last);
    }
}

/* Other bytes in every place of a block, and every byte value in its guards. */
static void every_place(const char *block)
{
    static const char others[] = {'\0', '\n', '\r', ' ', '-', '0', 'A', 'a', '|', ':', '\x80', '\xFF'};
    struct text text;
    text.len = 0;
    add(&text, "x\n");
    add(&text, block);
    for (size_t place = 0; place < text.len; place++) {
        char was = text.bytes[place];
        for (size_t i = 0; i < COUNT_OF(others); i++) {
            text.bytes[place] = others[i];
            expect_by_definition(&text);
        }
        text.bytes[place] = was;
    }
    const size_t begun = 2 + (size_t)(strchr(block, '\n') - block);
    for (size_t place = 0; place < text.len; place++) {
        char was = text.bytes[place];
        bool is_guarded = place <= begun || place + begun >= text.len;
        for (int byte = 0; is_guarded && byte <= UINT8_MAX; byte++) {
            text.bytes[place] = (char)byte;
            expect_by_definition(&text);
        }
        text.bytes[place] = was;
    }
}

/* ---- guards inside a record */

/* A wrapped key whose last attribute is so many '-' and then these characters; its length. */
static size_t write_key_with(const char *characters, size_t hyphens, char out[ROOM])
{
    char cards[ROOM];
    int len = snprintf(cards, sizeof cards, "SGC0000123456;XYZ%*s;", (int)(hyphens + strlen(characters)), "");
    size_t end = write_with(WORKED_WRAPPED_1, "SGC0000123456;", cards, out);
    char *at = strstr(out, "XYZ") + 3;
    EXPECT(len > 0 && (size_t)len < sizeof cards && at != NULL);
    memset(at, '-', hyphens);
    memcpy(at + hyphens, characters, strlen(characters));
    seal(out, end);
    return end;
}

static const struct {
    const char *guard;
    uint8_t no; /* the answer, where it is a row by itself */
} guards[] = {
    {"--STS:KEY.1 ENDS--", OBSCURLANE_MISSING_CHECK},
    {"--STS:KEY.1 BEGINS--", OBSCURLANE_ACCEPTED},
    {"--STS:PK.ECDH.1 ENDS--", OBSCURLANE_ACCEPTED},
};

/* A wrapped key whose attributes have guards in them is written and read as any other. Where a row of another folding is its
 * ENDS line, the record ends there; and a row that is a BEGINS line, or the ENDS line of another kind, is a part of it. */
static void guards_inside(void)
{
    for (size_t i = 0; i < COUNT_OF(guards); i++) {
        const size_t guard_len = strlen(guards[i].guard);
        for (size_t hyphens = 0; hyphens < 2 * ROW; hyphens++) {
            char record[ROOM];
            struct text text;
            size_t len = write_key_with(guards[i].guard, hyphens, record);
            expect_written(record, len, OBSCURLANE_ACCEPTED, 0);
            text.len = 0;
            add_block(&text, "KEY.1", record, len, ROW);
            expect_found(&text, record, len);

            const size_t at = (size_t)(strstr(record, guards[i].guard) - record), behind = at + guard_len;
            text.len = 0;
            add_begins(&text, "KEY.1");
            add_rows(&text, record, at, ROW);
            add_rows(&text, record + at, guard_len, ROW);
            add_rows(&text, record + behind, len - behind, ROW);
            add_ends(&text, "KEY.1");
            expect_read(text.bytes, text.len, guards[i].no, 0, record, len);
        }
    }
}

/* ---- the longest, and one byte more */

static void longest(void)
{
    char record[ROOM];
    struct text text;
    EXPECT(OBSCURLANE_LONGEST_MAIL == 1080);
    for (size_t len = OBSCURLANE_LONGEST_RECORD - 2; len <= OBSCURLANE_LONGEST_RECORD + 2; len++) {
        bool is_longer = len > OBSCURLANE_LONGEST_RECORD;
        EXPECT(write_wrapped_key(len, record) == len);
        expect_record(record, len, is_longer ? OBSCURLANE_TOO_LONG : OBSCURLANE_ACCEPTED, 0);
        /* Line feeds do not count, however many there are. */
        for (size_t width = 1; width <= WIDEST; width++) {
            text.len = 0;
            add_block(&text, "KEY.1", record, len, width);
            expect_read(text.bytes, text.len, is_longer ? OBSCURLANE_TOO_LONG : OBSCURLANE_ACCEPTED, 0, record, len);
        }
        uint8_t out[OBSCURLANE_LONGEST_MAIL];
        obscurlane_written made = obscurlane_write_mail((const uint8_t *)record, len, out, sizeof out);
        EXPECT(len != OBSCURLANE_LONGEST_RECORD || made.len == OBSCURLANE_LONGEST_MAIL);
    }
}

/* More than 65,536 bytes before the block, behind it and inside it. */
static void long_texts(void)
{
    enum { MORE = (1 << 16) + 1 };
    static char text[MORE + TEXT_ROOM];
    const char *record = WORKED_REQUEST, *block = WORKED_MAIL_REQUEST;
    const size_t len = strlen(record), block_len = strlen(block), begins = (size_t)(strchr(block, '\n') - block) + 1;
    static const struct {
        char filler;
        uint8_t inside; /* the number, where the filler stands between the rows */
    } fillers[] = {{'\n', OBSCURLANE_ACCEPTED}, {'A', OBSCURLANE_TOO_LONG}, {'-', OBSCURLANE_TOO_LONG}};
    for (size_t i = 0; i < COUNT_OF(fillers); i++) {
        memset(text, fillers[i].filler, sizeof text);
        expect_read(text, sizeof text, OBSCURLANE_MISSING_BEGINS, 0, "", 0);
        /* Before the block, and without a line feed there. */
        text[MORE - 1] = '\n';
        memcpy(text + MORE, block, block_len);
        expect_read(text, MORE + block_len, OBSCURLANE_ACCEPTED, 0, record, len);
        text[MORE - 1] = ' ';
        expect_read(text, MORE + block_len, OBSCURLANE_MISSING_BEGINS, 0, "", 0);
        /* Behind it. */
        memset(text, fillers[i].filler, sizeof text);
        memcpy(text, block, block_len);
        expect_read(text, sizeof text, OBSCURLANE_ACCEPTED, 0, record, len);
        /* Behind its BEGINS line, with its ENDS line and without it. */
        memcpy(text, block, begins);
        memset(text + begins, fillers[i].filler, sizeof text - begins);
        expect_read(text, sizeof text, OBSCURLANE_MISSING_ENDS, 0, "", 0);
        text[begins + MORE - 1] = '\n';
        memcpy(text + begins + MORE, block + begins, block_len - begins);
        expect_read(text, MORE + block_len, fillers[i].inside, 0, record, len);
    }
}

void call_for_mail(void)
{
    worked_blocks();
    expect_every_record(expect_record);
    for (size_t i = 0; i < RECORDS; i++) {
        every_folding(records[i]);
    }
    nothing_else_is_dropped(WORKED_RESPONSE);
    for (size_t i = 0; i < COUNT_OF(worked); i++) {
        carriage_returns(worked[i].block);
        every_cut(worked[i].record, worked[i].block);
        every_line(worked[i].record, worked[i].block);
        every_place(worked[i].block);
    }
    lines_that_are_no_guards();
    any_name();
    short_texts();
    two_blocks();
    guards_inside();
    longest();
    long_texts();
}
