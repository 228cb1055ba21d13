/* A part of every.c: bits flipped in a record, and in lines of files. Of an odd number of them before the last four bytes, or
 * two, the line is refused, and of any change of the last four bytes alone; the lines beside it stay. And flips that are not
 * noticed. */
#include "expect.h"
#include "worked.h"

#include <stdio.h>
#include <string.h>

enum {
    NONE = OBSCURLANE_KIND_NONE,
    TRAILER = OBSCURLANE_TRAILER,
    CHECK = 4,     /* so many bytes are the check, at the end of a record */
    LINES = 7,     /* so many records of 003 are accepted */
    TRIES = 10000, /* so many odd numbers of flips are drawn, and so many times two */
};

static const struct {
    const char *record;
    size_t kind;
} worked[LINES] = {
    {WORKED_KEY_CENTRE, OBSCURLANE_KIND_ECDH}, {WORKED_KEY_MAKER, OBSCURLANE_KIND_ECDSA},
    {WORKED_KEY_SIGNED, OBSCURLANE_KIND_ECDH}, {WORKED_REQUEST, OBSCURLANE_KIND_REQ},
    {WORKED_RESPONSE, OBSCURLANE_KIND_RESP},   {WORKED_WRAPPED_1, OBSCURLANE_KIND_KEY},
    {WORKED_WRAPPED_2, OBSCURLANE_KIND_KEY},
};

/* ---- bits, counted from the lowest of the first byte */

static void flip(char *bytes, size_t bit)
{
    bytes[bit / 8] = (char)((uint8_t)bytes[bit / 8] ^ 1u << bit % 8);
}

static bool is_flipped(const char *before, const char *after, size_t bit)
{
    return ((uint8_t)(before[bit / 8] ^ after[bit / 8]) >> bit % 8 & 1) == 1;
}

static size_t flips_between(const char *before, const char *after, size_t len)
{
    size_t count = 0;
    for (size_t bit = 0; bit < 8 * len; bit++) {
        count += is_flipped(before, after, bit);
    }
    return count;
}

static bool has_line_feed(const char *bytes, size_t len)
{
    return memchr(bytes, '\n', len) != NULL;
}

/* ---- files of all records, plain ones and manufacturers' */

struct file {
    char bytes[LINES * LINE_ROOM];
    size_t len;
    obscurlane_line lines[LINES]; /* what is to be answered */
    bool is_trailed;
};

static struct file plain, trailed;

static obscurlane_line line_at(const struct file *file, size_t place)
{
    const uint8_t *bytes = (const uint8_t *)file->bytes;
    return file->is_trailed ? obscurlane_trailed_at(bytes, file->len, place) : obscurlane_line_at(bytes, file->len, place);
}

static obscurlane_answer read_line(const struct file *file, const char *line, size_t len)
{
    const uint8_t *bytes = (const uint8_t *)line;
    return file->is_trailed ? obscurlane_read_trailed(bytes, len) : obscurlane_read_record(bytes, len);
}

/* Each line is found at the place that the one before it names, and the file is finished behind them. */
static void expect_lines(const struct file *file)
{
    size_t place = 0;
    for (size_t n = 0; n < LINES; n++) {
        obscurlane_line line = line_at(file, place);
        EXPECT(are_same_lines(line, file->lines[n]));
        place = line.next;
    }
    EXPECT(place == file->len && !line_at(file, place).line);
}

static void expect_counted(const struct file *file)
{
    const uint8_t *bytes = (const uint8_t *)file->bytes;
    size_t len = file->len, accepted = 0;
    obscurlane_totals totals = file->is_trailed ? obscurlane_count_trailed(bytes, len) : obscurlane_count(bytes, len);
    for (size_t n = 0; n < LINES; n++) {
        accepted += file->lines[n].no == OBSCURLANE_ACCEPTED;
    }
    EXPECT(totals.lines == LINES && totals.accepted == accepted);
}

static void write_file(struct file *file, bool is_trailed)
{
    file->len = 0;
    file->is_trailed = is_trailed;
    for (size_t n = 0; n < LINES; n++) {
        char *line = file->bytes + file->len;
        size_t len = write_line(worked[n].record, strlen(worked[n].record), line);
        len -= is_trailed ? 0 : TRAILER;
        line[len] = '\n';
        file->lines[n] = (obscurlane_line){true, OBSCURLANE_ACCEPTED, 0, worked[n].kind, file->len, len, file->len + len + 1};
        file->len += len + 1;
    }
    expect_lines(file);
}

/* Line n, which has other bytes now, is refused alone, and nothing of it is handed back; so the file's answer has to be. */
static void expect_refused(struct file *file, size_t n)
{
    obscurlane_line *line = &file->lines[n];
    obscurlane_answer said = read_line(file, file->bytes + line->start, line->len);
    EXPECT(said.no != OBSCURLANE_ACCEPTED && said.field == 0 && said.kind == NONE);
    for (size_t i = 0; i < COUNT_OF(said.kinds); i++) {
        EXPECT(said.starts[i] == 0 && said.lens[i] == 0 && said.kinds[i] == NONE);
    }
    line->no = said.no;
    line->kind = NONE;
}

/* With these bytes in the place of a record: refused for its kind, its form or its check, alone and in a file of either form,
 * where its trailer stays and the lines beside it answer as before. */
static void expect_caught(size_t n, const char *record)
{
    struct file in_plain = plain, in_trailed = trailed;
    size_t len = in_plain.lines[n].len;
    memcpy(in_plain.bytes + in_plain.lines[n].start, record, len);
    memcpy(in_trailed.bytes + in_trailed.lines[n].start, record, len);
    expect_refused(&in_plain, n);
    expect_refused(&in_trailed, n);
    uint8_t no = in_plain.lines[n].no;
    EXPECT(no == OBSCURLANE_UNKNOWN_KIND || no == OBSCURLANE_MISSING_CHECK || no == OBSCURLANE_WRONG_CHECK);
    EXPECT(in_trailed.lines[n].no == no);
    obscurlane_place place = obscurlane_record_field((const uint8_t *)record, len, 1);
    EXPECT(place.no == no && place.field == 0 && place.start == 0 && place.len == 0);
    expect_lines(&in_plain);
    expect_lines(&in_trailed);
}

/* ---- every flip */

/* None of them makes a line feed: the records have no byte that is one bit from it. */
static void every_flip(void)
{
    for (size_t n = 0; n < LINES; n++) {
        char record[ROOM];
        size_t len = strlen(worked[n].record);
        memcpy(record, worked[n].record, len);
        for (size_t bit = 0; bit < 8 * len; bit++) {
            flip(record, bit);
            EXPECT(!has_line_feed(record, len));
            expect_caught(n, record);
            flip(record, bit);
        }
    }
}

/* ---- flips that are drawn */

/* The record with so many bits flipped before its check, each of them once, and no line feed made. */
static void write_flipped(const char *record, size_t len, size_t count, char *out)
{
    do {
        memcpy(out, record, len);
        for (size_t left = count; left > 0;) {
            size_t bit = below(8 * (len - CHECK));
            if (!is_flipped(record, out, bit)) {
                flip(out, bit);
                left--;
            }
        }
    } while (has_line_feed(out, len));
    EXPECT(flips_between(record, out, len - CHECK) == count && memcmp(record + len - CHECK, out + len - CHECK, CHECK) == 0);
}

/* Mostly a small number, and now and then hundreds. */
static size_t odd(void)
{
    size_t most = below(10) == 0 ? 400 : 5;
    return 2 * below(most) + 1;
}

static size_t odd_or_two(void)
{
    bool is_odd = below(2) == 0;
    return is_odd ? odd() : 2;
}

/* In each record equally often. */
static void drawn_flips(void)
{
    for (size_t i = 0; i < 2 * TRIES; i++) {
        char damaged[ROOM];
        const char *record = worked[i % LINES].record;
        write_flipped(record, strlen(record), i < TRIES ? odd() : 2, damaged);
        expect_caught(i % LINES, damaged);
    }
}

/* Other bytes within two neighbouring places, none of them a line feed. */
static void damage_neighbours(char *line, size_t len)
{
    char before[LINE_ROOM];
    memcpy(before, line, len);
    while (memcmp(line, before, len) == 0 || has_line_feed(line, len)) {
        memcpy(line, before, len);
        size_t place = below(len);
        for (size_t at = place; at < len && at < place + 2; at++) {
            char by = (char)below(UINT8_MAX + 1);
            const char others[] = {line[at], (char)(line[at] ^ 1), by, '0', 'F', '#'};
            line[at] = others[below(COUNT_OF(others))];
        }
    }
}

/* About every second line, each in its own way: flips in its record, an odd number or two, or two neighbouring bytes of it. */
static void several_lines(const struct file *sound)
{
    for (size_t i = 0; i < TRIES / 10; i++) {
        struct file file = *sound;
        for (size_t n = 0; n < LINES; n++) {
            char *line = file.bytes + file.lines[n].start;
            const char *record = worked[n].record;
            size_t way = below(6);
            if (way == 0) {
                damage_neighbours(line, file.lines[n].len);
            } else if (way < 3) {
                write_flipped(record, strlen(record), way == 1 ? odd() : 2, line);
            }
            if (way < 3) {
                expect_refused(&file, n);
            }
        }
        expect_lines(&file);
        expect_counted(&file);
    }
}

/* Another trailer behind these bytes, or what is none: with other neighbours, with other bytes anywhere, that of no bytes, or
 * the right one of the bytes as they are now. */
static void damage_trailer(char *record, size_t len)
{
    char line[LINE_ROOM], *trailer = record + len;
    size_t way = below(4);
    if (way == 0) {
        damage_neighbours(trailer, TRAILER);
    } else if (way == 1) {
        for (size_t left = 1 + below(20); left > 0; left--) {
            damage_neighbours(trailer, TRAILER);
        }
    } else {
        const char *of = way == 2 ? "" : record;
        size_t end = write_line(of, way == 2 ? 0 : len, line);
        memcpy(trailer, line + end - TRAILER, TRAILER);
    }
}

/* Whatever becomes of the trailer, a record with flips is refused: with 19, or else with its own number, and never with 20. */
static void flips_and_trailers(void)
{
    size_t missing = 0, own = 0;
    for (size_t i = 0; i < TRIES / 5; i++) {
        struct file file = trailed;
        size_t n = i % LINES, len = strlen(worked[n].record);
        char *line = file.bytes + file.lines[n].start;
        write_flipped(worked[n].record, len, odd_or_two(), line);
        damage_trailer(line, len);
        expect_refused(&file, n);
        expect_lines(&file);
        bool is_missing = file.lines[n].no == OBSCURLANE_MISSING_TRAILER;
        EXPECT(is_missing || file.lines[n].no == obscurlane_read_record((const uint8_t *)line, len).no);
        missing += is_missing;
        own += !is_missing;
    }
    EXPECT(missing > TRIES / 50 && own > TRIES / 50);
}

/* ---- limits */

/* Two bits so far apart, which are the first and the last of so many bytes, leave the check as it was. */
enum { FARTHEST = 32767, LONG = 4096, STEP = 97 };

/* Bit 0 and one behind it, in a list that ends with that one's byte: the check tells them from zeros at every distance but the
 * last. */
static void distances(void)
{
    uint16_t of_zeros = obscurlane_crc_begin(), of_one = of_zeros;
    for (size_t byte = 0; byte < LONG; byte++) {
        const uint8_t first = byte == 0;
        const uint16_t check = obscurlane_crc_end(obscurlane_crc_add(of_zeros, 0));
        for (size_t distance = 8 * byte + first; distance < 8 * byte + 8; distance++) {
            uint8_t last = (uint8_t)(first | 1u << distance % 8);
            EXPECT((obscurlane_crc_end(obscurlane_crc_add(of_one, last)) == check) == (distance == FARTHEST));
        }
        of_zeros = obscurlane_crc_add(of_zeros, 0);
        of_one = obscurlane_crc_add(of_one, first);
    }
}

/* The same in the whole list, of some distances and of the last. */
static void distances_in_a_list(void)
{
    static char list[LONG];
    const uint16_t of_zeros = obscurlane_crc_of((const uint8_t *)list, sizeof list);
    for (size_t distance = FARTHEST; distance > STEP; distance -= STEP) {
        flip(list, 0);
        flip(list, distance);
        EXPECT((obscurlane_crc_of((const uint8_t *)list, sizeof list) == of_zeros) == (distance == FARTHEST));
        flip(list, distance);
        flip(list, 0);
    }
}

/* A character with one bit flipped. */
struct change {
    size_t place;
    char was, is;
};

/* A record that stays accepted, with other fields. In a manufacturer's line its trailer tells. */
static void expect_unnoticed(const char *record, const struct change *changes, size_t count)
{
    char changed[LINE_ROOM], line[LINE_ROOM];
    size_t len = strlen(record);
    memcpy(changed, record, len);
    for (size_t i = 0; i < count; i++) {
        EXPECT(changed[changes[i].place] == changes[i].was);
        changed[changes[i].place] = changes[i].is;
    }
    EXPECT(flips_between(record, changed, len) == count);
    EXPECT(obscurlane_read_record((const uint8_t *)record, len).no == OBSCURLANE_ACCEPTED);
    EXPECT(obscurlane_read_record((const uint8_t *)changed, len).no == OBSCURLANE_ACCEPTED);
    changed[len] = '\n';
    const obscurlane_line accepted = {true, OBSCURLANE_ACCEPTED, 0, OBSCURLANE_KIND_RESP, 0, len, len + 1};
    EXPECT(are_same_lines(obscurlane_line_at((const uint8_t *)changed, len + 1, 0), accepted));
    size_t line_len = write_line(record, len, line);
    memcpy(line, changed, len);
    EXPECT(obscurlane_read_trailed((const uint8_t *)line, line_len).no == OBSCURLANE_WRONG_HASH);
}

/* One flip before the last four bytes and two in them; one and one, in the response of ten minutes later; four before them. */
static void unnoticed(void)
{
    static const struct change three[] = {{211, '4', '0'}, {215, 'D', 'E'}, {218, '3', '2'}};
    static const struct change two[] = {{186, 'B', 'F'}, {216, 'C', 'B'}};
    static const struct change four[] = {{170, 'E', 'A'}, {174, 'A', 'E'}, {177, '1', '5'}, {178, '3', '2'}};
    expect_unnoticed(WORKED_RESPONSE, three, COUNT_OF(three));
    expect_unnoticed(WORKED_RESPONSE, four, COUNT_OF(four));
    char later[ROOM];
    size_t len = write_with(WORKED_RESPONSE, "T150000Z|", "T151000Z|", later);
    EXPECT(memcmp(later + len - CHECK, "6CE8", CHECK) == 0);
    expect_unnoticed(later, two, COUNT_OF(two));
}

/* All others than the right one are refused. */
static void every_check(void)
{
    char record[] = WORKED_RESPONSE;
    const size_t len = sizeof record - 1;
    for (unsigned check = 0; check <= UINT16_MAX; check++) {
        (void)snprintf(record + len - CHECK, CHECK + 1, "%04X", check);
        uint8_t no = check == 0xD743 ? OBSCURLANE_ACCEPTED : OBSCURLANE_WRONG_CHECK;
        EXPECT(obscurlane_read_record((const uint8_t *)record, len).no == no);
    }
}

void call_with_flips(void)
{
    write_file(&plain, false);
    write_file(&trailed, true);
    draw_from(5);
    every_flip();
    drawn_flips();
    several_lines(&plain);
    several_lines(&trailed);
    flips_and_trailers();
    distances();
    distances_in_a_list();
    unnoticed();
    every_check();
}
