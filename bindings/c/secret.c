/* The calls that are lent something secret. valgrind follows bytes that were never written, and tells where a branch or a place in
 * memory hangs on one: so the secret is the worked example's Z, mixed twice with such a byte. Its bytes are right, a tag that is
 * compared byte by byte is compared to its end, and valgrind follows every one of them. bindings/c/secret runs this, a call at a
 * time, and counts. */
#include "obscurlane.h"
#include "worked.h"
#include <stdlib.h>
#include <string.h>

#define BYTES(text) (const uint8_t *)(text), (sizeof(text) - 1)

/* Where an answer goes that nobody looks at. */
static volatile uint8_t nowhere;

static void call(const char *name, const uint8_t *secret)
{
    uint8_t mac_key[OBSCURLANE_KEY_BYTES] = {0};
    uint8_t kek[OBSCURLANE_KEY_BYTES] = {0};

    if (strcmp(name, "confirm_request") == 0) {
        nowhere = obscurlane_confirm_request(secret, OBSCURLANE_Z_BYTES, BYTES(WORKED_REQUEST), mac_key, sizeof mac_key, kek,
                                             sizeof kek)
                      .no;
    } else if (strcmp(name, "confirm_response") == 0) {
        nowhere = obscurlane_confirm_response(secret, OBSCURLANE_Z_BYTES, BYTES(WORKED_REQUEST), BYTES(WORKED_RESPONSE)).no;
    } else if (strcmp(name, "hmac_of") == 0) {
        nowhere = obscurlane_hmac_of(secret, OBSCURLANE_KEY_BYTES, secret, OBSCURLANE_Z_BYTES).bytes[0];
    } else if (strcmp(name, "count") == 0) {
        nowhere = (uint8_t)obscurlane_count(secret, OBSCURLANE_Z_BYTES).lines;
    } else {
        exit(2);
    }
}

int main(int count, char **names)
{
    static const char z[] = WORKED_Z;
    volatile uint8_t *unwritten = malloc(1);
    uint8_t secret[OBSCURLANE_Z_BYTES];

    if (count != 2 || unwritten == NULL) {
        return 2;
    }
    for (size_t i = 0; i < sizeof secret; i++) {
        secret[i] = (uint8_t)((uint8_t)z[i] ^ *unwritten);
        secret[i] = (uint8_t)(secret[i] ^ *unwritten);
    }
    call(names[1], secret);
    free((void *)unwritten);
    return 0;
}
