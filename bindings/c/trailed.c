/* A part of every.c: manufacturers' record files. */
#include "expect.h"
#include "worked.h"

#include <stdio.h>
#include <string.h>

/* A text and its length, without its final zero. */
#define TEXT(text) (text), (sizeof(text) - 1)

/* ---- lines: what is made of a record by the definition, and what both calls say to it */

enum { NONE = OBSCURLANE_KIND_NONE, TRAILER = OBSCURLANE_TRAILER };

/* '#' and the hash of two texts, one behind the other. */
static void write_trailer(const char *record, size_t len, const char *end, char out[TRAILER + 1])
{
    obscurlane_sha1_state state = obscurlane_sha1_add(obscurlane_sha1_begin(), (const uint8_t *)record, len);
    obscurlane_sha1_digest hash = obscurlane_sha1_end(obscurlane_sha1_add(state, (const uint8_t *)end, strlen(end)));
    out[0] = '#';
    for (size_t i = 0; i < sizeof hash.bytes; i++) {
        (void)snprintf(out + 1 + 2 * i, 3, "%02X", (unsigned)hash.bytes[i]);
    }
}

size_t write_line(const char *record, size_t len, char out[LINE_ROOM])
{
    memcpy(out, record, len);
    write_trailer(record, len, "\n", out + len);
    return len + TRAILER;
}

static bool are_same_answers(const obscurlane_answer *a, const obscurlane_answer *b)
{
    return a->no == b->no && a->field == b->field && a->kind == b->kind &&
           memcmp(a->starts, b->starts, sizeof a->starts) == 0 && memcmp(a->lens, b->lens, sizeof a->lens) == 0 &&
           memcmp(a->kinds, b->kinds, sizeof a->kinds) == 0;
}

/* The line has this answer, alone and as the second line of a file; without its line feed it is unfinished. */
static void expect_line(const char *line, size_t len, const obscurlane_answer *expected)
{
    char text[LINE_ROOM + 2] = "\n";
    const uint8_t *file = (const uint8_t *)text;
    memcpy(text + 1, line, len);
    text[1 + len] = '\n';
    obscurlane_answer said = obscurlane_read_trailed((const uint8_t *)line, len);
    EXPECT(are_same_answers(&said, expected));
    const obscurlane_line in_file = {true, expected->no, expected->field, expected->kind, 1, len, len + 2};
    EXPECT(are_same_lines(obscurlane_trailed_at(file, len + 2, 1), in_file));
    obscurlane_totals totals = obscurlane_count_trailed(file, len + 2);
    EXPECT(totals.lines == 2 && totals.accepted == (expected->no == OBSCURLANE_ACCEPTED));

    const obscurlane_line unfinished = {len > 0, len > 0 ? OBSCURLANE_UNFINISHED : 0, 0, NONE, 1, len, len + 1};
    EXPECT(are_same_lines(obscurlane_trailed_at(file, len + 1, 1), unfinished));
    totals = obscurlane_count_trailed(file, len + 1);
    EXPECT(totals.lines == 1 + (size_t)(len > 0) && totals.accepted == 0);
}

static void expect_refused(const char *line, size_t len, uint8_t no, uint8_t field)
{
    obscurlane_answer refused = {.no = no, .field = field, .kind = NONE};
    for (size_t i = 0; i < COUNT_OF(refused.kinds); i++) {
        refused.kinds[i] = NONE;
    }
    expect_line(line, len, &refused);
}

/* The record, whatever the room, is answered so by the call that writes, and written where there is room. */
static void expect_written(const char *record, size_t len, uint8_t no, uint8_t field)
{
    char line[LINE_ROOM];
    size_t line_len = write_line(record, len, line);
    const size_t rooms[] = {0, 1, len, line_len - 1, line_len, line_len + 1};
    for (size_t i = 0; i < COUNT_OF(rooms); i++) {
        uint8_t out[LINE_ROOM];
        memset(out, UNTOUCHED, sizeof out);
        obscurlane_written made = obscurlane_write_trailed((const uint8_t *)record, len, out, rooms[i]);
        bool is_short = no == OBSCURLANE_ACCEPTED && rooms[i] < line_len;
        bool is_written = no == OBSCURLANE_ACCEPTED && !is_short;
        EXPECT(made.no == (is_short ? OBSCURLANE_SHORT_OUTPUT : no) && made.field == field);
        EXPECT(made.len == (is_written ? line_len : 0) && untouched(out, made.len, sizeof out));
        EXPECT(memcmp(out, line, made.len) == 0);
    }
}

/* What is no HEX character: the neighbours of those that are, small letters, blanks, and bytes beyond characters. */
static const char no_digits[] = {'/', ':', '@', 'G',  '`',  'a',  'f',    'g',    ' ',
                                 '#', '|', '-', '\r', '\t', '\0', '\x7F', '\x80', '\xFF'};

/* Where a trailer is wrong: the '#', and the first, a middle and the last digit. */
static const size_t trailer_places[] = {0, 1, 20, TRAILER - 1};

/* These bytes have this answer to the record call, with the number and field 0 where they are accepted. So has the line that
 * has the right trailer, and the call that writes it; with another hash the line is refused with 20, but after the record's
 * own number; and without a trailer with 19, before it. */
static void expect_record(const char *record, size_t len, uint8_t no, uint8_t field)
{
    char line[LINE_ROOM];
    size_t line_len = write_line(record, len, line);
    obscurlane_answer said = obscurlane_read_record((const uint8_t *)record, len);
    EXPECT(said.no == no && said.field == field);
    expect_line(line, line_len, &said);
    expect_written(record, len, no, field);
    for (size_t i = 0; i < COUNT_OF(trailer_places); i++) {
        char *at = line + len + trailer_places[i], was = *at;
        *at = was == '0' ? '1' : '0';
        bool is_digit = trailer_places[i] > 0;
        uint8_t wrong = no == OBSCURLANE_ACCEPTED ? OBSCURLANE_WRONG_HASH : no;
        expect_refused(line, line_len, is_digit ? wrong : OBSCURLANE_MISSING_TRAILER, is_digit ? field : 0);
        *at = 'G';
        expect_refused(line, line_len, OBSCURLANE_MISSING_TRAILER, 0);
        *at = was;
    }
    expect_refused(line, line_len - 1, OBSCURLANE_MISSING_TRAILER, 0);
}

/* ---- the worked example */

#define WORKED_LINE WORKED_KEY_SIGNED WORKED_TRAILER

/* As it is printed: by its own fields, and written with just the room. */
static void worked_line(void)
{
    obscurlane_answer said = obscurlane_read_trailed(BYTES(WORKED_LINE));
    EXPECT(said.no == OBSCURLANE_ACCEPTED && said.field == 0 && said.kind == OBSCURLANE_KIND_ECDH);
    EXPECT(said.starts[0] == 10 && said.lens[0] == sizeof WORKED_ID_SM - 1 && said.kinds[0] == OBSCURLANE_KIND_SMID);
    EXPECT(memcmp(&WORKED_LINE[said.starts[0]], WORKED_ID_SM, said.lens[0]) == 0);
    EXPECT(memcmp(&WORKED_LINE[said.starts[3]], WORKED_ID_MAKER, said.lens[3]) == 0 && said.lens[4] == 192);
    EXPECT(said.starts[4] + said.lens[4] + 5 + TRAILER == sizeof WORKED_LINE - 1);

    char line[LINE_ROOM];
    EXPECT(write_line(WORKED_KEY_SIGNED, sizeof WORKED_KEY_SIGNED - 1, line) == 576);
    EXPECT(memcmp(line, WORKED_LINE, 576) == 0);
    uint8_t out[576];
    obscurlane_written made = obscurlane_write_trailed(BYTES(WORKED_KEY_SIGNED), out, sizeof out);
    EXPECT(made.no == OBSCURLANE_ACCEPTED && made.field == 0 && made.len == 576);
    EXPECT(memcmp(out, WORKED_LINE, 576) == 0);
}

static void a_line_is_no_record(const char *record)
{
    char line[LINE_ROOM];
    expect_record(line, write_line(record, strlen(record), line), OBSCURLANE_MISSING_CHECK, 0);
}

/* ---- trailers that are none */

/* Bytes that are no line, of which some have a '#' or as many HEX characters. */
static const char *const no_lines[] = {
    "",
    "#",
    "# a comment",
    "# a comment, which is as long as a trailer",
    "03DEF08D021CE970F7A87E2DD999FE7970B67B5F",
    "#03DEF08D021CE970F7A87E2DD999FE7970B67B5",
    " 03DEF08D021CE970F7A87E2DD999FE7970B67B5F",
    "#03def08d021ce970f7a87e2dd999fe7970b67b5f",
    WORKED_KEY_SIGNED,
    WORKED_KEY_SIGNED "#",
    WORKED_KEY_SIGNED "03DEF08D021CE970F7A87E2DD999FE7970B67B5F",
    WORKED_KEY_SIGNED "##03DEF08D021CE970F7A87E2DD999FE7970B67B5",
    WORKED_KEY_SIGNED "#03DEF08D021CE970F7A87E2DD999FE7970B67B5",
    WORKED_KEY_SIGNED "#03DEF08D021CE970F7A87E2DD999FE7970B67B5FF",
    WORKED_KEY_SIGNED "#03def08d021ce970f7a87e2dd999fe7970b67b5f",
    WORKED_LINE " ",
    WORKED_LINE "\r",
    WORKED_LINE "#",
    " ",
    "\r",
};

static void missing_trailers(void)
{
    for (size_t i = 0; i < COUNT_OF(no_lines); i++) {
        expect_refused(no_lines[i], strlen(no_lines[i]), OBSCURLANE_MISSING_TRAILER, 0);
    }
    /* What is shorter than a trailer; the trailer alone has a record in front that is empty. */
    for (size_t len = 0; len < TRAILER; len++) {
        expect_refused(WORKED_TRAILER, len, OBSCURLANE_MISSING_TRAILER, 0);
        expect_refused(&WORKED_TRAILER[TRAILER - len], len, OBSCURLANE_MISSING_TRAILER, 0);
    }
    expect_refused(WORKED_TRAILER, TRAILER, OBSCURLANE_UNKNOWN_KIND, 0);
}

/* Every byte value but a line feed in the kinds of places that a trailer has, and no HEX character in any. */
static void characters_of_a_trailer(void)
{
    char line[] = WORKED_LINE;
    const size_t len = sizeof line - 1, start = len - TRAILER;
    const obscurlane_answer whole = obscurlane_read_trailed((const uint8_t *)line, len);
    for (size_t i = 0; i < COUNT_OF(trailer_places); i++) {
        size_t place = start + trailer_places[i];
        char was = line[place];
        for (int byte = 0; byte <= UINT8_MAX; byte++) {
            line[place] = (char)byte;
            if (line[place] == was) {
                expect_line(line, len, &whole);
            } else if (byte != '\n') {
                bool is_digit = byte != 0 && strchr("0123456789ABCDEF", byte) != NULL;
                bool is_hash = place > start && is_digit;
                expect_refused(line, len, is_hash ? OBSCURLANE_WRONG_HASH : OBSCURLANE_MISSING_TRAILER, 0);
            }
        }
        line[place] = was;
    }
    for (size_t place = start + 1; place < len; place++) {
        char was = line[place];
        for (size_t i = 0; i < COUNT_OF(no_digits); i++) {
            line[place] = no_digits[i];
            expect_refused(line, len, OBSCURLANE_MISSING_TRAILER, 0);
        }
        line[place] = was;
    }
}

/* ---- hashes that are others */

/* Another HEX character in every place. */
static void changed_hashes(void)
{
    for (size_t i = 0; i < RECORDS; i++) {
        char line[LINE_ROOM];
        size_t len = write_line(records[i], strlen(records[i]), line);
        for (size_t place = len - TRAILER + 1; place < len; place++) {
            char was = line[place];
            line[place] = was == '0' ? '1' : '0';
            expect_refused(line, len, OBSCURLANE_WRONG_HASH, 0);
            line[place] = was;
        }
    }
}

/* Of the record alone, of other ends, and of another record. */
static void hashes_of_other_bytes(void)
{
    static const char *const ends[] = {"", "\r\n", "\r", "\n\n", "#", "\n#", " \n"};
    for (size_t i = 0; i < RECORDS; i++) {
        char line[LINE_ROOM];
        const char *record = records[i], *other = records[(i + 1) % RECORDS];
        size_t len = strlen(record);
        memcpy(line, record, len);
        for (size_t j = 0; j < COUNT_OF(ends); j++) {
            write_trailer(record, len, ends[j], line + len);
            expect_refused(line, len + TRAILER, OBSCURLANE_WRONG_HASH, 0);
        }
        write_trailer(other, strlen(other), "\n", line + len);
        expect_refused(line, len + TRAILER, OBSCURLANE_WRONG_HASH, 0);
    }
}

/* ---- '#' and HEX characters inside a record */

static void sharps_inside(void)
{
    static const char *const cards[] = {"SGC0000123456;XYZ#;", "SGC0000123456;XYZ" WORKED_TRAILER ";",
                                        "SGC0000123456;XYZ" WORKED_TRAILER WORKED_TRAILER ";"};
    for (size_t i = 0; i < COUNT_OF(cards); i++) {
        char record[ROOM];
        size_t len = write_with(WORKED_WRAPPED_1, "SGC0000123456;", cards[i], record);
        expect_record(record, len, OBSCURLANE_ACCEPTED, 0);
        expect_refused(record, len, OBSCURLANE_MISSING_TRAILER, 0);
    }
}

/* ---- the longest, and one byte more */

static void longest(void)
{
    char record[ROOM], line[LINE_ROOM];
    EXPECT(write_wrapped_key(OBSCURLANE_LONGEST_RECORD, record) == OBSCURLANE_LONGEST_RECORD);
    expect_record(record, OBSCURLANE_LONGEST_RECORD, OBSCURLANE_ACCEPTED, 0);
    EXPECT(write_line(record, OBSCURLANE_LONGEST_RECORD, line) == OBSCURLANE_LONGEST_TRAILED);
    EXPECT(write_wrapped_key(OBSCURLANE_LONGEST_RECORD + 1, record) == OBSCURLANE_LONGEST_RECORD + 1);
    expect_record(record, OBSCURLANE_LONGEST_RECORD + 1, OBSCURLANE_TOO_LONG, 0);
    memset(line, 'A', sizeof line);
    expect_refused(line, OBSCURLANE_LONGEST_TRAILED + 1, OBSCURLANE_MISSING_TRAILER, 0);
    EXPECT(OBSCURLANE_TRAILER == 41 && OBSCURLANE_LONGEST_TRAILED == 1065);
}

/* ---- files */

/* A file, and the lines that are to be found in it. */
struct file {
    char bytes[12 * LINE_ROOM];
    size_t len;
    obscurlane_line lines[12];
    size_t count;
};

/* One line more, with its line feed. */
static void add(struct file *file, const char *line, size_t len, uint8_t no, uint8_t field, size_t kind)
{
    memcpy(file->bytes + file->len, line, len);
    file->bytes[file->len + len] = '\n';
    file->lines[file->count++] = (obscurlane_line){true, no, field, kind, file->len, len, file->len + len + 1};
    file->len += len + 1;
}

/* The accepted line of a record. */
static void add_record(struct file *file, const char *record, size_t kind)
{
    char line[LINE_ROOM];
    add(file, line, write_line(record, strlen(record), line), OBSCURLANE_ACCEPTED, 0, kind);
}

/* Takes away the last line feed. */
static void leave_unfinished(struct file *file)
{
    obscurlane_line *last = &file->lines[file->count - 1];
    *last = (obscurlane_line){true, OBSCURLANE_UNFINISHED, 0, NONE, last->start, last->len, last->next - 1};
    file->len--;
}

/* The file has these lines, each at the place that the one before it names, and is finished behind them; and is counted so. */
static void expect_file(const struct file *file)
{
    const uint8_t *bytes = (const uint8_t *)file->bytes;
    size_t place = 0, accepted = 0;
    for (size_t i = 0; i < file->count; i++) {
        obscurlane_line line = obscurlane_trailed_at(bytes, file->len, place);
        EXPECT(are_same_lines(line, file->lines[i]));
        accepted += line.no == OBSCURLANE_ACCEPTED;
        place = line.next;
    }
    EXPECT(place == file->len);
    const size_t behind[] = {place, place + 1, SIZE_MAX};
    for (size_t i = 0; i < COUNT_OF(behind); i++) {
        const obscurlane_line finished = {false, 0, 0, NONE, behind[i], 0, behind[i]};
        EXPECT(are_same_lines(obscurlane_trailed_at(bytes, file->len, behind[i]), finished));
    }
    obscurlane_totals totals = obscurlane_count_trailed(bytes, file->len);
    EXPECT(totals.lines == file->count && totals.accepted == accepted);
}

static void files(void)
{
    struct file file = {.len = 0, .count = 0};
    char record[ROOM], line[LINE_ROOM];
    expect_file(&file);
    add(&file, TEXT(WORKED_LINE), OBSCURLANE_ACCEPTED, 0, OBSCURLANE_KIND_ECDH);
    add(&file, TEXT(""), OBSCURLANE_MISSING_TRAILER, 0, NONE);
    add(&file, TEXT(WORKED_KEY_SIGNED), OBSCURLANE_MISSING_TRAILER, 0, NONE);
    add_record(&file, WORKED_RESPONSE, OBSCURLANE_KIND_RESP);
    size_t len = write_with(WORKED_REQUEST, "|0473", "|0573", record);
    add(&file, line, write_line(record, len, line), OBSCURLANE_WRONG_TEXT, OBSCURLANE_REQ_QE, NONE);
    add(&file, TEXT(WORKED_KEY_CENTRE WORKED_TRAILER), OBSCURLANE_WRONG_HASH, 0, NONE);
    add(&file, TEXT(WORKED_LINE "\r"), OBSCURLANE_MISSING_TRAILER, 0, NONE);
    add(&file, TEXT("# a comment"), OBSCURLANE_MISSING_TRAILER, 0, NONE);
    len = write_with(WORKED_WRAPPED_1, "KEN255", "KEN256", record);
    add(&file, line, write_line(record, len, line), OBSCURLANE_WRONG_ATTRIBUTES, 0, NONE);
    add_record(&file, WORKED_WRAPPED_2, OBSCURLANE_KIND_KEY);
    expect_file(&file);
    add(&file, TEXT(WORKED_LINE), OBSCURLANE_ACCEPTED, 0, OBSCURLANE_KIND_ECDH);
    expect_file(&file);
    leave_unfinished(&file);
    expect_file(&file);

    /* To the calls for plain files these are others. */
    EXPECT(obscurlane_line_at((const uint8_t *)file.bytes, file.len, 0).no == OBSCURLANE_MISSING_CHECK);
    EXPECT(obscurlane_count((const uint8_t *)file.bytes, file.len).accepted == 1);
}

/* Files that have one trailer for all of their lines, in a line of its own without line feed, as 000's Appendix D has it: its
 * lines have none. */
static void expect_other_form(const char *const *lines, size_t count, const char trailer[TRAILER + 1])
{
    struct file file = {.len = 0, .count = 0};
    for (size_t i = 0; i < count; i++) {
        add(&file, lines[i], strlen(lines[i]), OBSCURLANE_MISSING_TRAILER, 0, NONE);
    }
    char right[TRAILER + 1];
    write_trailer(file.bytes, file.len, "", right);
    EXPECT(strcmp(right, trailer) == 0);
    add(&file, trailer, TRAILER, OBSCURLANE_UNKNOWN_KIND, 0, NONE);
    expect_file(&file);
    leave_unfinished(&file);
    expect_file(&file);
}

/* The module's signed key, and the key load files of 003 and of Appendix A. */
static void files_of_another_form(void)
{
    static const char *const key[] = {WORKED_KEY_SIGNED};
    static const char *const load[] = {WORKED_RESPONSE, WORKED_WRAPPED_1, WORKED_WRAPPED_2};
    static const char *const appendix[] = {APPENDIX_A_RESPONSE,  APPENDIX_A_WRAPPED_1, APPENDIX_A_WRAPPED_2,
                                           APPENDIX_A_WRAPPED_3, APPENDIX_A_WRAPPED_4, APPENDIX_A_WRAPPED_5};
    expect_other_form(key, COUNT_OF(key), WORKED_TRAILER);
    expect_other_form(load, COUNT_OF(load), WORKED_LOAD_TRAILER);
    expect_other_form(appendix, COUNT_OF(appendix), APPENDIX_A_TRAILER);
}

/* ---- damage: bytes of a line within two neighbouring places */

/* What two neighbours are mixed with. None becomes a line feed by it. */
static const char damages[][2] = {{0x01, 0x01}, {0x07, 0x00}, {0x11, 0x23}};

/* Damages the line in these places, the second of which may lie behind it. */
static void damage(char *line, size_t len, size_t place, const char by[2])
{
    for (size_t i = 0; i < 2 && place + i < len; i++) {
        line[place + i] = (char)(line[place + i] ^ by[i]);
        EXPECT(line[place + i] != '\n');
    }
}

/* The number of a line that is no longer what it was: 19 for its trailer, then the record's own, then 20. */
static uint8_t number_of(const char *line, size_t len, bool is_record_damaged, uint8_t *field)
{
    const char *trailer = line + len - TRAILER;
    obscurlane_answer own = obscurlane_read_record((const uint8_t *)line, len - TRAILER);
    *field = 0;
    if (trailer[0] != '#' || !obscurlane_is_hex(TRAILER - 1, (const uint8_t *)trailer + 1, TRAILER - 1)) {
        return OBSCURLANE_MISSING_TRAILER;
    }
    EXPECT((own.no != OBSCURLANE_ACCEPTED) == is_record_damaged);
    *field = own.field;
    return is_record_damaged ? own.no : OBSCURLANE_WRONG_HASH;
}

/* In every two neighbouring places of the second line of three: it is refused, and the others answer as before. */
static void damage_between(const char *record, size_t kind)
{
    struct file file = {.len = 0, .count = 0};
    add_record(&file, WORKED_REQUEST, OBSCURLANE_KIND_REQ);
    add_record(&file, record, kind);
    add_record(&file, WORKED_KEY_CENTRE, OBSCURLANE_KIND_ECDH);
    const obscurlane_line whole = file.lines[1];
    char *line = file.bytes + whole.start, before[LINE_ROOM];
    memcpy(before, line, whole.len);
    for (size_t place = 0; place < whole.len; place++) {
        for (size_t i = 0; i < COUNT_OF(damages); i++) {
            damage(line, whole.len, place, damages[i]);
            if (memcmp(line, before, whole.len) != 0) {
                bool is_record_damaged = memcmp(line, before, whole.len - TRAILER) != 0;
                file.lines[1].no = number_of(line, whole.len, is_record_damaged, &file.lines[1].field);
                file.lines[1].kind = NONE;
                expect_file(&file);
            }
            memcpy(line, before, whole.len);
            file.lines[1] = whole;
        }
    }
    expect_file(&file);
}

/* In every line at once, each in another place. */
static void damage_everywhere(void)
{
    struct file file = {.len = 0, .count = 0};
    for (size_t i = 0; i < COUNT_OF(file.lines); i++) {
        add_record(&file, records[i], obscurlane_read_record((const uint8_t *)records[i], strlen(records[i])).kind);
    }
    expect_file(&file);
    for (size_t i = 0; i < file.count; i++) {
        obscurlane_line *line = &file.lines[i];
        size_t place = i * line->len / file.count;
        damage(file.bytes + line->start, line->len, place, damages[0]);
        line->no = number_of(file.bytes + line->start, line->len, place < line->len - TRAILER, &line->field);
        line->kind = NONE;
    }
    expect_file(&file);
}

void call_for_trailed_lines(void)
{
    worked_line();
    expect_every_record(expect_record);
    for (size_t i = 0; i < RECORDS; i++) {
        a_line_is_no_record(records[i]);
    }
    missing_trailers();
    characters_of_a_trailer();
    changed_hashes();
    hashes_of_other_bytes();
    sharps_inside();
    longest();
    files();
    files_of_another_form();
    damage_between(WORKED_KEY_SIGNED, OBSCURLANE_KIND_ECDH);
    damage_between(WORKED_RESPONSE, OBSCURLANE_KIND_RESP);
    damage_between(WORKED_WRAPPED_1, OBSCURLANE_KIND_KEY);
    damage_everywhere();
}
