/* A part of every.c: what cabinet.c and old.c share about bytes that are no cabinet. */
#include "model.h"
#include "worked.h"

#include <string.h>

void expect_no_cabinet(size_t len)
{
    static uint8_t before[sizeof lent];
    static const char *const texts[] = {WORKED_KEY_SIGNED, WORKED_KEY_CENTRE, WORKED_ID_SM, WORKED_ID_KMC, WORKED_REQUEST, ""};
    memcpy(before, lent, sizeof before);
    obscurlane_filed said = obscurlane_check_cabinet(cabinet, len);
    EXPECT(said.no == OBSCURLANE_NOT_CABINET && said.field == 0);
    obscurlane_counted counted = obscurlane_count_keys(cabinet, len);
    EXPECT(counted.no == OBSCURLANE_NOT_CABINET && counted.count == 0);
    for (size_t i = 0; i < COUNT_OF(texts); i++) {
        const uint8_t *text = (const uint8_t *)texts[i];
        size_t text_len = strlen(texts[i]);
        said = obscurlane_put_key(cabinet, len, text, text_len);
        EXPECT(said.no == OBSCURLANE_NOT_CABINET && said.field == 0);
        said = obscurlane_remove_key(cabinet, len, text, text_len);
        EXPECT(said.no == OBSCURLANE_NOT_CABINET && said.field == 0);
        said = obscurlane_admit(cabinet, len, text, text_len);
        EXPECT(said.no == OBSCURLANE_NOT_CABINET && said.field == 0);
        obscurlane_place place = obscurlane_find_key(cabinet, len, text, text_len);
        EXPECT(place.no == OBSCURLANE_NOT_CABINET && place.field == 0 && place.start == 0 && place.len == 0);
    }
    EXPECT(memcmp(before, lent, sizeof before) == 0);
}

void expect_no_cabinet_with(size_t at, uint8_t byte)
{
    uint8_t was = cabinet[at];
    if (byte == was) {
        return;
    }
    cabinet[at] = byte;
    expect_no_cabinet(SIZE);
    cabinet[at] = was;
}

void expect_no_cabinet_from(size_t n, const char *record, size_t len, const char *tvp, int64_t number)
{
    static uint8_t was[WIDTH];
    memcpy(was, cabinet + n * WIDTH, WIDTH);
    write_held(cabinet + n * WIDTH, record, len, tvp, number);
    expect_no_cabinet(SIZE);
    memcpy(cabinet + n * WIDTH, was, WIDTH);
}

void expect_no_cabinet_of(size_t n, const char *record, size_t len, int64_t number)
{
    expect_no_cabinet_from(n, record, len, START, number);
}

/* With another number in place n it is none. */
static void expect_no_number(size_t n, uint64_t number)
{
    const struct held *held = &beside.places[n];
    if (number != (uint64_t)held->expiry) {
        expect_no_cabinet_from(n, held->record.bytes, held->record.len, held->tvp, (int64_t)number);
    }
}

static uint64_t backwards(uint64_t number)
{
    uint64_t turned = 0;
    for (int i = 0; i < 8; i++) {
        turned = turned << 8 | (number >> 8 * i & 0xFF);
    }
    return turned;
}

void other_numbers(size_t n)
{
    const uint64_t right = (uint64_t)beside.places[n].expiry;
    const uint64_t others[] = {0, right + 1, right - 1, backwards(right), 0 - right, ~right, right << 32, right >> 32,
                               right << 8, right >> 8, UINT64_MAX, (uint64_t)INT64_MAX + 1, right & UINT32_MAX};
    for (size_t i = 0; i < COUNT_OF(others); i++) {
        expect_no_number(n, others[i]);
    }
    for (int bit = 0; bit < 64; bit++) {
        expect_no_number(n, right ^ (uint64_t)1 << bit);
    }
    for (size_t at = TVP_AT - 9; at < NUMBER_AT; at++) {
        expect_no_cabinet_with(n * WIDTH + at, 1);
        expect_no_cabinet_with(n * WIDTH + at, 0xFF);
    }
}
