/* Reads the load request of the worked example once, prints its fields by their names, makes its three texts and says whether
 * its tag is right; then prints the attributes of its second wrapped key, the Fingerprint of the centre's public key, and how
 * many days the key had left when the request was made; reads and writes the line of a manufacturer's file, the module's signed
 * key with its trailer; reads the request out of a letter, and writes it as it goes by mail; and keeps the keys in a cabinet,
 * where it finds the one of the request's module, admits the request once, and finds the keys that expire soon. */
#include "obscurlane.h"
#include "worked.h"

#include <stdio.h>
#include <string.h>

static const char request[] = WORKED_REQUEST;
static const size_t request_len = sizeof request - 1;
static const char key[] = WORKED_WRAPPED_2;
static const size_t key_len = sizeof key - 1;

static void print_text(const char *name, obscurlane_written made)
{
    printf("%s: %s, %zu bytes\n", name, obscurlane_reason(made.no), made.len);
}

/* Whether the request was made with this Z; then its two keys are there. */
static void print_confirmation(void)
{
    static const char z[] = WORKED_Z;
    uint8_t mac_key[OBSCURLANE_KEY_BYTES], kek[OBSCURLANE_KEY_BYTES];
    obscurlane_confirmed said = obscurlane_confirm_request((const uint8_t *)z, OBSCURLANE_Z_BYTES, (const uint8_t *)request,
                                                           request_len, mac_key, sizeof mac_key, kek, sizeof kek);
    printf("MacTag: %s\n", obscurlane_reason(said.no));
}

/* The name is the first three characters of a card, the value all others. */
static void print_card(obscurlane_place card)
{
    printf("  %.3s     %.*s\n", key + card.start, (int)card.len - 3, key + card.start + 3);
}

static void print_attributes(void)
{
    const uint8_t *bytes = (const uint8_t *)key;
    obscurlane_place card;
    for (size_t n = 1; card = obscurlane_attribute(bytes, key_len, n), card.no == OBSCURLANE_ACCEPTED; n++) {
        print_card(card);
    }
    card = obscurlane_attribute_named(bytes, key_len, (const uint8_t *)"SGC", 3);
    if (card.no == OBSCURLANE_ACCEPTED) {
        printf("one by its name\n");
        print_card(card);
    }
}

/* What is in the Subject, checked, and what is right there. */
static void print_fingerprint(void)
{
    static const char public_key[] = WORKED_KEY_CENTRE;
    const uint8_t *bytes = (const uint8_t *)public_key;
    uint8_t right[OBSCURLANE_LONGEST_FINGERPRINT];
    obscurlane_checked said = obscurlane_check_fingerprint(bytes, sizeof public_key - 1);
    obscurlane_written made = obscurlane_write_fingerprint(bytes, sizeof public_key - 1, right, sizeof right);
    printf("Fingerprint: %s, %.*s\n", obscurlane_reason(said.no), (int)made.len, (const char *)right);
}

enum { SECONDS_OF_A_DAY = 86400 };

/* From the request's TVP to the centre's Expiry. */
static void print_days_left(const uint8_t *tvp, size_t tvp_len)
{
    static const char public_key[] = WORKED_KEY_CENTRE;
    obscurlane_expiry expiry = obscurlane_expiry_of((const uint8_t *)public_key, sizeof public_key - 1);
    obscurlane_moment then = obscurlane_moment_of(tvp, tvp_len);
    if (expiry.no == OBSCURLANE_ACCEPTED && then.valid) {
        printf("Expiry: %lld days after the request\n", (long long)((expiry.seconds - then.seconds) / SECONDS_OF_A_DAY));
    }
}

/* The line is read, and written again from the record in front of its trailer. */
static void print_line(void)
{
    static const char line[] = WORKED_KEY_SIGNED WORKED_TRAILER;
    const uint8_t *bytes = (const uint8_t *)line;
    uint8_t written[OBSCURLANE_LONGEST_TRAILED];
    obscurlane_answer said = obscurlane_read_trailed(bytes, sizeof line - 1);
    const size_t subject = OBSCURLANE_PUBKEY_SUBJECT - 1;
    printf("manufacturer's line: %s\n", obscurlane_reason(said.no));
    printf("  Subject %.*s\n", (int)said.lens[subject], line + said.starts[subject]);
    obscurlane_written made = obscurlane_write_trailed(bytes, sizeof line - 1 - OBSCURLANE_TRAILER, written, sizeof written);
    if (made.no == OBSCURLANE_ACCEPTED) {
        const uint8_t *trailer = written + made.len - OBSCURLANE_TRAILER;
        printf("  trailer %.*s, %zu bytes with it\n", OBSCURLANE_TRAILER, (const char *)trailer, made.len);
    }
}

/* The request is found in the letter, its rows are joined, and it is folded again. */
static void print_mail(void)
{
    static const char letter[] = "Dear vendor,\nplease find the request below.\n\n" WORKED_MAIL_REQUEST "\nThe centre\n";
    uint8_t record[OBSCURLANE_LONGEST_RECORD], block[OBSCURLANE_LONGEST_MAIL];
    obscurlane_written made = obscurlane_read_mail((const uint8_t *)letter, sizeof letter - 1, record, sizeof record);
    printf("letter of %zu bytes: %s, %zu bytes\n", sizeof letter - 1, obscurlane_reason(made.no), made.len);
    made = obscurlane_write_mail(record, made.len, block, sizeof block);
    if (made.no == OBSCURLANE_ACCEPTED) {
        printf("%.*s", (int)made.len, (const char *)block);
    }
}

/* The number of Expiry in a place, the highest byte first. */
static int64_t number_in(const uint8_t *place)
{
    uint64_t number = 0;
    for (size_t i = OBSCURLANE_CABINET_NUMBER_AT; i < OBSCURLANE_CABINET_WIDTH; i++) {
        number = number << 8 | place[i];
    }
    return (int64_t)number;
}

/* The keys that expire within 30 days of this moment, by the numbers in their places alone. */
static void print_expiring(const uint8_t *cabinet, int64_t now)
{
    for (size_t n = 0; n < OBSCURLANE_CABINET_PLACES; n++) {
        const uint8_t *place = cabinet + n * OBSCURLANE_CABINET_WIDTH;
        bool is_occupied = place[0] != 0;
        if (is_occupied && number_in(place) - now < 30 * SECONDS_OF_A_DAY) {
            printf("  %2lld days %.*s..\n", (long long)((number_in(place) - now) / SECONDS_OF_A_DAY), 40, (const char *)place);
        }
    }
}

/* The last TVP that was accepted for the module whose key stands here in the cabinet. */
static const char *last_tvp(const uint8_t *cabinet, size_t start)
{
    return (const char *)cabinet + start + OBSCURLANE_CABINET_TVP_AT;
}

/* A request that was delivered twice is admitted once. Its tag was confirmed before, and the cabinet would be stored before the
 * request is answered. */
static void print_admissions(uint8_t *cabinet, size_t start)
{
    enum { TVP_BYTES = OBSCURLANE_CABINET_NUMBER_AT - OBSCURLANE_CABINET_TVP_AT };
    printf("  TVP     %.*s\n", TVP_BYTES, last_tvp(cabinet, start));
    for (int delivery = 0; delivery < 2; delivery++) {
        obscurlane_filed said = obscurlane_admit(cabinet, OBSCURLANE_CABINET_SIZE, (const uint8_t *)request, request_len);
        printf("  admit   %s\n", obscurlane_reason(said.no));
        printf("  TVP     %.*s\n", TVP_BYTES, last_tvp(cabinet, start));
    }
}

/* The keys are put in, but for the module's unsigned one, which is refused; and the module's is found by the identity in the
 * request, whose GNT and Fingerprint do not matter. */
static void print_cabinet(const uint8_t *identity, size_t identity_len)
{
    static const char *const keys[] = {WORKED_KEY_CENTRE, WORKED_KEY_MAKER, WORKED_KEY_SIGNED, WORKED_KEY_MODULE};
    static uint8_t cabinet[OBSCURLANE_CABINET_SIZE];
    (void)obscurlane_make_cabinet(cabinet, sizeof cabinet);
    printf("cabinet\n");
    for (size_t i = 0; i < sizeof keys / sizeof keys[0]; i++) {
        obscurlane_filed said = obscurlane_put_key(cabinet, sizeof cabinet, (const uint8_t *)keys[i], strlen(keys[i]));
        printf("  put     %s\n", obscurlane_reason(said.no));
    }
    obscurlane_place place = obscurlane_find_key(cabinet, sizeof cabinet, identity, identity_len);
    if (place.no == OBSCURLANE_ACCEPTED) {
        printf("  found   %.*s..\n", 40, (const char *)cabinet + place.start);
        print_admissions(cabinet, place.start);
    }
    print_expiring(cabinet, obscurlane_moment_of((const uint8_t *)"20201231T120000Z", 16).seconds);
    obscurlane_filed said = obscurlane_remove_key(cabinet, sizeof cabinet, identity, identity_len);
    printf("  remove  %s, %zu keys are left\n", obscurlane_reason(said.no),
           obscurlane_count_keys(cabinet, sizeof cabinet).count);
}

int main(void)
{
    const uint8_t *bytes = (const uint8_t *)request;
    obscurlane_answer said = obscurlane_read_record(bytes, request_len);
    if (said.no != OBSCURLANE_ACCEPTED) {
        fprintf(stderr, "refused, field %u: %s\n", said.field, obscurlane_reason(said.no));
        return 1;
    }

    printf("%s\n", obscurlane_kind_name(said.kind));
    for (size_t i = 0; *obscurlane_field_name(said.kind, i + 1) != '\0'; i++) {
        printf("  %-6s  %.*s\n", obscurlane_field_name(said.kind, i + 1), (int)said.lens[i], request + said.starts[i]);
    }

    uint8_t text[OBSCURLANE_LONGEST_MODULE_TEXT];
    print_text("SharedInfo", obscurlane_shared_info(bytes, request_len, text, sizeof text));
    print_text("module text", obscurlane_module_text(bytes, request_len, text, sizeof text));
    print_text("centre text", obscurlane_centre_text(bytes, request_len, text, sizeof text));
    print_confirmation();

    printf("%s, its attributes\n", obscurlane_kind_name(OBSCURLANE_KIND_KEY));
    print_attributes();
    print_fingerprint();
    const size_t tvp = OBSCURLANE_REQ_TVP - 1;
    print_days_left(bytes + said.starts[tvp], said.lens[tvp]);
    print_line();
    print_mail();
    const size_t id_sm = OBSCURLANE_REQ_ID_SM - 1;
    print_cabinet(bytes + said.starts[id_sm], said.lens[id_sm]);
    return 0;
}
