/* A part of every.c: dates as numbers, and when a public key expires. */
#include "expect.h"
#include "worked.h"

#include <stdio.h>
#include <string.h>

enum { SECONDS_OF_A_DAY = 86400 };

/* ---- a calendar, to hold the library's against */

struct date {
    int year, month, day;
};

static int last_day_of(int year, int month)
{
    static const int lasts[] = {31, 28, 31, 30, 31, 30, 31, 31, 30, 31, 30, 31};
    bool is_leap = (year % 4 == 0 && year % 100 != 0) || year % 400 == 0;
    return month == 2 && is_leap ? 29 : lasts[month - 1];
}

static struct date next_day(struct date date)
{
    if (date.day < last_day_of(date.year, date.month)) {
        return (struct date){date.year, date.month, date.day + 1};
    }
    return date.month < 12 ? (struct date){date.year, date.month + 1, 1} : (struct date){date.year + 1, 1, 1};
}

static int64_t days_of_year(int year)
{
    int64_t days = 0;
    for (int month = 1; month <= 12; month++) {
        days += last_day_of(year, month);
    }
    return days;
}

int64_t seconds_of(const char *timestamp)
{
    int year, month, day, hour, minute, second;
    EXPECT(sscanf(timestamp, "%4d%2d%2dT%2d%2d%2dZ", &year, &month, &day, &hour, &minute, &second) == 6);
    int64_t days = day - 1;
    for (int before = 1993; before < year; before++) {
        days += days_of_year(before);
    }
    for (int since = year; since < 1993; since++) {
        days -= days_of_year(since);
    }
    for (int before = 1; before < month; before++) {
        days += last_day_of(year, before);
    }
    return days * SECONDS_OF_A_DAY + hour * 3600 + minute * 60 + second;
}

int64_t seconds_in(const char *key)
{
    for (int mark = 0; mark < 3; mark++) {
        key = strchr(key, '|') + 1;
    }
    return seconds_of(key);
}

/* ---- the seconds of a date */

static void expect_moment(const char *text, size_t len, bool valid, int64_t seconds)
{
    const uint8_t *bytes = (const uint8_t *)text;
    obscurlane_moment said = obscurlane_moment_of(bytes, len);
    EXPECT(said.valid == valid && said.seconds == seconds);
    EXPECT(obscurlane_is_timestamp(bytes, len) == valid);
}

/* Both sides of the beginning; both ends; leap days, and centuries with one and without; around 1970 and 2000; and where a
 * count of 32 bits has its ends. */
static const struct {
    const char *text;
    int64_t seconds;
} moments[] = {
    {"19930101T000000Z", 0},
    {"19930101T000001Z", 1},
    {"19930101T000100Z", 60},
    {"19930101T010000Z", 3600},
    {"19930102T000000Z", 86400},
    {"19930201T000000Z", 31 * 86400},
    {"19921231T235959Z", -1},
    {"19921231T235900Z", -60},
    {"19921231T000000Z", -86400},
    {"00010101T000000Z", -62861443200},
    {"99991231T235959Z", 252676454399},
    {"99991231T115959Z", 252676411199},
    {"19000228T235959Z", -2929737601},
    {"19000301T000000Z", -2929737600},
    {"19920229T000000Z", -26524800},
    {"19920301T000000Z", -26438400},
    {"19960229T000000Z", 99705600},
    {"20000229T000000Z", 225936000},
    {"20000301T000000Z", 226022400},
    {"24000229T000000Z", 12848716800},
    {"19691231T235959Z", -725846401},
    {"19700101T000000Z", -725846400},
    {"19991231T235959Z", 220838399},
    {"20000101T000000Z", 220838400},
    {"19241213T204551Z", -2147483649},
    {"19241213T204552Z", -2147483648},
    {"20610119T031407Z", 2147483647},
    {"20610119T031408Z", 2147483648},
    {"21290207T062815Z", 4294967295},
    {"21290207T062816Z", 4294967296},
};

static void known_moments(void)
{
    for (size_t i = 0; i < COUNT_OF(moments); i++) {
        EXPECT(seconds_of(moments[i].text) == moments[i].seconds);
        expect_moment(moments[i].text, 16, true, moments[i].seconds);
    }
}

/* Each day has 86,400 more than the one before it, 200 years on each side of the beginning. */
static void every_day(void)
{
    struct date date = {1793, 1, 1};
    int64_t seconds = -6311347200, days = 0;
    while (date.year < 1793 + 400) {
        char text[40];
        EXPECT(snprintf(text, sizeof text, "%04d%02d%02dT000000Z", date.year, date.month, date.day) == 16);
        expect_moment(text, 16, true, seconds);
        EXPECT((seconds == 0) == (date.year == 1993 && date.month == 1 && date.day == 1));
        date = next_day(date);
        seconds += SECONDS_OF_A_DAY;
        days++;
    }
    EXPECT(days == 146097 && seconds == 146097 * (int64_t)SECONDS_OF_A_DAY - 6311347200);
}

/* Of the last one before the beginning, and of the first one after it. */
static void every_second(void)
{
    static const char *const beginnings[] = {"19921231", "19930101"};
    int64_t seconds = -SECONDS_OF_A_DAY;
    for (size_t day = 0; day < COUNT_OF(beginnings); day++) {
        for (int second = 0; second < SECONDS_OF_A_DAY; second++) {
            char text[40];
            EXPECT(snprintf(text, sizeof text, "%sT%02d%02d%02dZ", beginnings[day], second / 3600, second / 60 % 60,
                            second % 60) == 16);
            expect_moment(text, 16, true, seconds++);
        }
    }
    EXPECT(seconds == SECONDS_OF_A_DAY);
}

/* What is no TIMESTAMP has 0, and is told from 19930101T000000Z by `valid` alone. */
static void no_moments(void)
{
    static const char *const others[] = {
        "00000101T000000Z", "19930001T000000Z", "19931301T000000Z", "19930100T000000Z", "19930132T000000Z", "19930229T000000Z",
        "19000229T000000Z", "21000229T000000Z", "20000230T000000Z", "20230431T000000Z", "19930101T240000Z", "19930101T006000Z",
        "19930101T000060Z", "19930101t000000Z", "19930101T000000z", "19930101 000000Z", "19930101T0000000", "1993010AT000000Z",
        "-9930101T000000Z", " 9930101T000000Z", "+9930101T000000Z", "19930101T00000-Z",
    };
    for (size_t i = 0; i < COUNT_OF(others); i++) {
        expect_moment(others[i], 16, false, 0);
    }
    static const char longer[] = "19930101T000000Z19930101T000000Z";
    for (size_t len = 0; len < sizeof longer; len++) {
        expect_moment(longer, len, len == 16, 0);
        expect_moment(longer + 1, len < 31 ? len : 31, false, 0);
    }
}

/* Every byte value in every place of a date. */
static void every_byte(void)
{
    static const char *const texts[] = {"20000229T235959Z", "19991231T000000Z", "00010101T101010Z"};
    for (size_t i = 0; i < COUNT_OF(texts); i++) {
        for (size_t at = 0; at < 16; at++) {
            for (int byte = 0; byte <= UINT8_MAX; byte++) {
                char text[16 + 1];
                memcpy(text, texts[i], sizeof text);
                text[at] = (char)byte;
                bool valid = obscurlane_is_timestamp((const uint8_t *)text, 16);
                expect_moment(text, 16, valid, valid ? seconds_of(text) : 0);
            }
        }
    }
}

/* ---- the seconds of Expiry */

/* The record's own numbers; a record that is no public key is 2, after its length. */
static void expect_expiry(const char *record, size_t len, uint8_t no, uint8_t field)
{
    if (len <= OBSCURLANE_LONGEST_READ && !is_named_as_key(record, len)) {
        no = OBSCURLANE_UNKNOWN_KIND;
        field = 0;
    }
    obscurlane_expiry said = obscurlane_expiry_of((const uint8_t *)record, len);
    EXPECT(said.no == no && said.field == field);
    EXPECT(said.seconds == (no == OBSCURLANE_ACCEPTED ? seconds_in(record) : 0));
}

static void expiries(void)
{
    EXPECT(obscurlane_expiry_of(BYTES(WORKED_KEY_CENTRE)).seconds == 884433600);
    EXPECT(obscurlane_expiry_of(BYTES(WORKED_KEY_MAKER)).seconds == 884872800);
    EXPECT(obscurlane_expiry_of(BYTES(UNSIGNED_KEY_MAKER)).seconds == 884872800);
    EXPECT(obscurlane_expiry_of(BYTES(WORKED_KEY_SIGNED)).seconds == 252676411199);
    expect_every_record(expect_expiry);
    for (size_t i = 0; i < COUNT_OF(moments); i++) {
        char record[ROOM];
        size_t len = write_with(WORKED_KEY_CENTRE, "20210110T120000Z", moments[i].text, record);
        expect_expiry(record, len, OBSCURLANE_ACCEPTED, 0);
        EXPECT(obscurlane_expiry_of((const uint8_t *)record, len).seconds == moments[i].seconds);
        /* The GNT of its Subject is another date. */
        len = write_with(WORKED_KEY_CENTRE, "20180110T120000Z", moments[i].text, record);
        expect_expiry(record, len, OBSCURLANE_ACCEPTED, 0);
        EXPECT(obscurlane_expiry_of((const uint8_t *)record, len).seconds == 884433600);
    }
}

void call_for_dates(void)
{
    known_moments();
    every_day();
    every_second();
    no_moments();
    every_byte();
    expiries();
}
