/* A part of every.c: histories of calls on the key cabinet. */
#include "model.h"

#include <stdio.h>
#include <string.h>

/* The TVPs of a module's requests that were admitted since its latest first put. */
struct admissions {
    char tvps[1000][16 + 1];
    size_t count;
};

/* No two of them are the same: each is later than all before. */
static void note(struct admissions *module, const char *tvp)
{
    for (size_t i = 0; i < module->count; i++) {
        EXPECT(strcmp(module->tvps[i], tvp) < 0);
    }
    EXPECT(module->count < COUNT_OF(module->tvps));
    memcpy(module->tvps[module->count], tvp, sizeof module->tvps[0]);
    module->count++;
}

/* A TVP of few days of 1993, or one that goes on with the calls. */
static void write_tvp(size_t call, char tvp[16 + 1])
{
    if (below(2) == 0) {
        unsigned day = 1 + (unsigned)below(2), second = (unsigned)below(3);
        (void)snprintf(tvp, 16 + 1, "199301%02uT0000%02uZ", day, second);
    } else {
        unsigned minutes = (unsigned)(call + below(5));
        (void)snprintf(tvp, 16 + 1, "20180125T%02u%02u00Z", minutes / 60 % 24, minutes % 60);
    }
}

/* Bytes that were stored by an earlier version: a key in about every second place, of modules some that are old. */
static void begin_stored(size_t subjects)
{
    for (size_t n = 0; n < PLACES && n < subjects; n++) {
        if (below(2) == 0) {
            const char *gnt = below(2) == 0 ? "20180102T000005Z" : "20180101T000000Z";
            const char digit = "0123456789ABCDEF"[below(16)];
            struct text record = key_of(nth(n), gnt, digit, below(3) == 0);
            char tvp[16 + 1];
            write_tvp(0, tvp);
            lay(n, nth(n), gnt, &record, tvp);
        }
    }
    expect_model();
}

/* Calls in no order, each held against the model: puts of keys with GNTs of few days, so that some are later and some are not;
 * removals; finds; requests of modules that are there and of such that are not; and records and identities that are refused.
 * First puts less removals is how many there are more than at the beginning, and no two requests of a module since its latest
 * first put share a TVP. */
static void history(uint32_t seed, size_t subjects, size_t calls, bool is_stored)
{
    static struct admissions admitted[SUBJECTS / 3 + 1];
    size_t first_puts = 0, removals = 0;
    draw_from(seed);
    memset(admitted, 0, sizeof admitted);
    begin((uint8_t)seed);
    if (is_stored) {
        begin_stored(subjects);
    }
    const size_t stored = count_of(&beside);
    for (size_t call = 0; call < calls; call++) {
        const size_t n = below(subjects);
        struct subject of = nth(n);
        char gnt[16 + 1];
        const unsigned day = 1 + (unsigned)below(3), second = (unsigned)below(10);
        (void)snprintf(gnt, sizeof gnt, "201801%02uT0000%02uZ", day, second);
        const bool is_signed = below(2) == 0, is_accepted = is_signed || of.kind != OBSCURLANE_KIND_SMID;
        struct text record = key_of(of, gnt, "0123456789ABCDEF"[below(16)], is_signed);
        struct text identity = identity_of(of, gnt, "0123456789ABCDEF");
        switch (below(11)) {
        case 0:
        case 1:
            record.bytes[below(record.len)] ^= 1;
            expect_refused_identity(record.bytes, record.len, OBSCURLANE_UNKNOWN_KIND, 0);
            EXPECT(obscurlane_put_key(cabinet, SIZE, (const uint8_t *)record.bytes, record.len).no != OBSCURLANE_ACCEPTED);
            expect_model();
            break;
        case 2: {
            uint8_t no = place_of(&beside, of) < PLACES ? OBSCURLANE_ACCEPTED : OBSCURLANE_NOT_THERE;
            removals += no == OBSCURLANE_ACCEPTED;
            take_out(of, no);
            break;
        }
        case 3:
            find_by(of, &identity);
            break;
        case 4:
        case 5:
        case 6: {
            /* Of the module with this MID, whichever kind of key with it is there. */
            const struct subject module = {OBSCURLANE_KIND_SMID, of.maker, of.mid};
            const size_t place = place_of(&beside, module);
            char tvp[16 + 1];
            write_tvp(call, tvp);
            bool is_there = place < PLACES && !beside.places[place].is_old;
            bool is_later = is_there && strcmp(tvp, beside.places[place].tvp) > 0;
            uint8_t no = is_later ? OBSCURLANE_ACCEPTED : (is_there ? OBSCURLANE_TVP_NOT_LATER : OBSCURLANE_NOT_THERE);
            struct text request = request_by(module, gnt, "0123456789ABCDEF", tvp);
            expect_admit(module, &request, tvp, no);
            if (no == OBSCURLANE_ACCEPTED) {
                note(&admitted[n / 3], tvp);
                expect_admit(module, &request, tvp, OBSCURLANE_TVP_NOT_LATER);
            }
            request.bytes[below(request.len)] ^= 1;
            EXPECT(obscurlane_admit(cabinet, SIZE, (const uint8_t *)request.bytes, request.len).no != OBSCURLANE_ACCEPTED);
            expect_model();
            break;
        }
        default: {
            size_t place = place_of(&beside, of);
            bool is_first = place == PLACES, is_full = count_of(&beside) == PLACES;
            bool is_later = !is_first && strcmp(gnt, beside.places[place].gnt) > 0;
            uint8_t no = is_first ? (is_full ? OBSCURLANE_NO_PLACE : OBSCURLANE_ACCEPTED)
                                  : (is_later ? OBSCURLANE_ACCEPTED : OBSCURLANE_NOT_LATER);
            first_puts += is_accepted && is_first && !is_full;
            if (is_accepted && is_first && of.kind == OBSCURLANE_KIND_SMID) {
                admitted[n / 3].count = 0;
            }
            expect_put(of, gnt, &record, is_accepted ? no : OBSCURLANE_MODULE_UNSIGNED);
            find_by(of, &identity);
            break;
        }
        }
        EXPECT(obscurlane_count_keys(cabinet, SIZE).count == stored + first_puts - removals);
    }
}

void call_in_histories(void)
{
    for (int is_stored = 0; is_stored <= 1; is_stored++) {
        history(1, 3, 300, is_stored == 1);
        history(2, 20, 300, is_stored == 1);
        history(3, SUBJECTS, 600, is_stored == 1);
        history(4, SUBJECTS, 600, is_stored == 1);
    }
}
