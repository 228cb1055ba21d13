/* A part of every.c: SHA-1, whole and piece by piece. */
#include "expect.h"

#include <string.h>

/* What goes by value has these sizes in the archive, and its members these places. */
_Static_assert(sizeof(obscurlane_sha1_digest) == 20, "the bytes alone");
_Static_assert(sizeof(obscurlane_sha1_words) == 20, "five words");
_Static_assert(sizeof(obscurlane_sha1_state) == 96, "a hash value, a block and a count, with four bytes between");
_Static_assert(offsetof(obscurlane_sha1_state, block) == 20, "behind the hash value");
_Static_assert(offsetof(obscurlane_sha1_state, count) == 88, "aligned behind the block");

static const struct published published[] = {
    {"", "DA39A3EE5E6B4B0D3255BFEF95601890AFD80709"},
    {"abc", "A9993E364706816ABA3E25717850C26C9CD0D89D"},
    {"abcdbcdecdefdefgefghfghighijhijkijkljklmklmnlmnomnopnopq", "84983E441C3BD26EBAAE4AA1F95129E5E54670F1"},
    {"abcdefghbcdefghicdefghijdefghijkefghijklfghijklmghijklmnhijklmnoijklmnopjklmnopqklmnopqrlmnopqrsmnopqrstnopqrstu",
     "A49B2446A02C645BF419F995B67091253A04A259"},
};

/* One letter a million times. */
#define HASH_OF_A_MILLION "34AA973CD4C4DAA4F61EEB2BDBAD27316534016F"

static bool is_start(obscurlane_sha1_words hash)
{
    return hash.a == 0x67452301 && hash.b == 0xEFCDAB89 && hash.c == 0x98BADCFE && hash.d == 0x10325476 &&
           hash.e == 0xC3D2E1F0;
}

#define HASH "SHA-1"
#define DIGEST obscurlane_sha1_digest
#define STATE obscurlane_sha1_state
#define CALL(name) obscurlane_sha1_##name
#define BLOCK 64
#define HAS_COUNT(state, bytes) ((state).count == (bytes))
#include "hash.h"

/* The hashes of so many bytes of the message, on both sides of the ends of blocks, as another implementation has them. */
static const struct {
    size_t len;
    const char *hash;
} fronts[] = {
    {1, "5BA93C9DB0CFF93F52B521D7420E43F6EDA2784F"},   {54, "424221C032811FB67BD38F4E784FC8C97EB74DC6"},
    {55, "AECD1643C9903B9BAE8CB94F53C50F8A4E18605B"},  {56, "F5D65C621C02CC8E785159FEFF8088E3072DA1BC"},
    {57, "A69640F450B01DD44B096A2A697B52E3F2AEB117"},  {63, "4952F0FE097E4D6410AE9EAB4855AA836CAF3BFF"},
    {64, "1E17AE1FC093E5DACA033553C97A5192CA164486"},  {65, "AC44F5DBE3E9B5D2733FC9537FCAD715C3C20BC3"},
    {118, "C3F1FB200964EC89E8A1A996583EDF6EA40429FC"}, {119, "B4A4E69060D0B1E7E8EBBF7041A4211C63438B57"},
    {120, "B651390C2996406336A3F6647E4B590C18CDD6F8"}, {121, "815E99FB5AE1E87A7956710E1339E69B9B91E96B"},
    {127, "374F47C1C8D4700FC2588E71F6D1E861B431B5C3"}, {128, "516846CD40BD1FE431119C3B0A0F362957992EE8"},
    {129, "A6E7C0B71257B5D5C4F15A05F915368AC52580B3"}, {300, "110B37FC519AF1BFE3548C2FB8365EB2540185D4"},
};

static void both_sides_of_blocks(void)
{
    uint8_t message[LONG];
    write_message(message);
    for (size_t i = 0; i < COUNT_OF(fronts); i++) {
        EXPECT(is_hash(obscurlane_sha1_of(message, fronts[i].len), fronts[i].hash));
    }
}

/* A state that no call gave: the bytes that its count says wait in the block. */
static void bytes_that_wait(void)
{
    obscurlane_sha1_state state;
    memset(&state, 0xFF, sizeof state);
    state = obscurlane_sha1_add(state, BYTES("ab"));
    EXPECT(state.count == 1 && state.block[0] == 'b' && are_zeros(state.block, 1, sizeof state.block));

    /* What stands behind the bytes that wait is not taken. */
    state = obscurlane_sha1_add(obscurlane_sha1_begin(), BYTES("ab"));
    memset(state.block + 2, UNTOUCHED, sizeof state.block - 2);
    EXPECT(are_same(obscurlane_sha1_end(state), obscurlane_sha1_of(BYTES("ab"))));
    state = obscurlane_sha1_add(state, BYTES("c"));
    EXPECT(is_hash(obscurlane_sha1_end(state), published[1].hash) && are_zeros(state.block, 3, sizeof state.block));
}

/* The count has 64 bits, and so has the length in bits that is hashed. */
static void long_counts(void)
{
    obscurlane_sha1_state state = obscurlane_sha1_begin(), more = state;
    state.count = UINT32_MAX;
    EXPECT(obscurlane_sha1_add(state, BYTES("ab")).count == (uint64_t)UINT32_MAX + 2);
    state.count = 0;
    for (int bit = 29; bit < 61; bit++) {
        more.count = (uint64_t)1 << bit;
        EXPECT(!are_same(obscurlane_sha1_end(more), obscurlane_sha1_end(state)));
    }
    more.count = (uint64_t)1 << 61;
    EXPECT(are_same(obscurlane_sha1_end(more), obscurlane_sha1_end(state)));
}

void call_for_sha1(void)
{
    call_for_hash();
    both_sides_of_blocks();
    bytes_that_wait();
    long_counts();
}
