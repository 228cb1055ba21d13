/*
 * The checks of a hash, whole and piece by piece: hashes.c includes them for SHA-384, and sha1.c for SHA-1. Each defines
 * before it:
 *   HASH                          its name, for what is not as expected
 *   DIGEST, STATE, CALL           its types and, as CALL(add), its functions
 *   BLOCK                         the bytes of a block
 *   HAS_COUNT(state, bytes)       whether the state was given so many bytes
 *   is_start(words)               whether a hash value is the one before the first block
 *   published, HASH_OF_A_MILLION  the published examples, of which the second is of "abc", and that of a million times 'a'
 */
#define EXPECT_HASH(holds) expect((holds), HASH ": " #holds, __FILE__, __LINE__)

_Static_assert(sizeof((STATE *)NULL)->block == BLOCK, "a block");

enum { LONG = 300 };

static bool are_same(DIGEST a, DIGEST b)
{
    return memcmp(a.bytes, b.bytes, sizeof a.bytes) == 0;
}

static bool is_hash(DIGEST digest, const char *digits)
{
    return are_digits_of(digest.bytes, sizeof digest.bytes, digits);
}

static void published_hashes(void)
{
    for (size_t i = 0; i < COUNT_OF(published); i++) {
        const uint8_t *bytes = (const uint8_t *)published[i].message;
        size_t len = strlen(published[i].message);
        EXPECT_HASH(is_hash(CALL(of)(bytes, len), published[i].hash));
        EXPECT_HASH(is_hash(CALL(end)(CALL(add)(CALL(begin)(), bytes, len)), published[i].hash));
    }
}

/* In pieces that meet the ends of blocks and miss them. */
static void a_million_letters(void)
{
    const size_t ends_in_a_block = BLOCK - 1 - BLOCK / 8; /* the longest message that does, with its length behind it */
    const size_t pieces[] = {1, BLOCK - 1, BLOCK, 0, BLOCK + 1, 2, 2 * BLOCK - 1, 2 * BLOCK, 4096, 77, ends_in_a_block, 1000};
    uint8_t letters[4096];
    size_t left = 1000000;
    STATE state = CALL(begin)();
    memset(letters, 'a', sizeof letters);
    for (size_t i = 0; left > 0; i++) {
        size_t piece = pieces[i % COUNT_OF(pieces)];
        piece = piece < left ? piece : left;
        state = CALL(add)(state, letters, piece);
        left -= piece;
    }
    EXPECT_HASH(HAS_COUNT(state, 1000000));
    EXPECT_HASH(is_hash(CALL(end)(state), HASH_OF_A_MILLION));
}

/* Bytes of many values, more than two blocks. */
static void write_message(uint8_t out[LONG])
{
    for (size_t i = 0; i < LONG; i++) {
        out[i] = (uint8_t)(7 * i + i / 256);
    }
}

/* A message in two pieces, cut at each place; and byte by byte, where a state that was ended goes on. */
static void two_pieces(void)
{
    uint8_t message[LONG];
    write_message(message);
    DIGEST whole = CALL(of)(message, sizeof message);
    STATE so_far = CALL(begin)();
    for (size_t cut = 0; cut <= sizeof message; cut++) {
        STATE state = CALL(add)(CALL(begin)(), message, cut);
        state = CALL(add)(state, message + cut, sizeof message - cut);
        EXPECT_HASH(are_same(CALL(end)(state), whole));

        EXPECT_HASH(are_same(CALL(end)(so_far), CALL(of)(message, cut)));
        if (cut < sizeof message) {
            so_far = CALL(add)(so_far, message + cut, 1);
        }
    }
}

/* The message in pieces of each size, the last one shorter. */
static void pieces_of_every_size(void)
{
    uint8_t message[LONG];
    write_message(message);
    DIGEST whole = CALL(of)(message, sizeof message);
    for (size_t size = 1; size <= sizeof message; size++) {
        STATE state = CALL(begin)();
        for (size_t at = 0; at < sizeof message; at += size) {
            size_t left = sizeof message - at;
            state = CALL(add)(state, message + at, size < left ? size : left);
        }
        EXPECT_HASH(HAS_COUNT(state, sizeof message) && are_same(CALL(end)(state), whole));
    }
}

/* Two ends of one beginning, with a copy of its state for each. */
static void forked_states(void)
{
    STATE first = CALL(add)(CALL(begin)(), BYTES("ab"));
    STATE second = first;
    first = CALL(add)(first, BYTES("c"));
    second = CALL(add)(second, BYTES("d"));
    EXPECT_HASH(is_hash(CALL(end)(first), published[1].hash));
    EXPECT_HASH(are_same(CALL(end)(second), CALL(of)(BYTES("abd"))));
    EXPECT_HASH(is_hash(CALL(end)(CALL(add)(first, BYTES(""))), published[1].hash));
}

/* Each member has its place: the hash value, the bytes that wait, and how many there were. */
static void members_of_a_state(void)
{
    const STATE begun = CALL(begin)();
    EXPECT_HASH(is_start(begun.hash));
    EXPECT_HASH(HAS_COUNT(begun, 0) && are_zeros(begun.block, 0, BLOCK));
    STATE state = CALL(add)(begun, BYTES("abc"));
    EXPECT_HASH(is_start(state.hash) && HAS_COUNT(state, 3));
    EXPECT_HASH(memcmp(state.block, "abc", 3) == 0 && are_zeros(state.block, 3, BLOCK));

    uint8_t message[LONG];
    write_message(message);
    state = CALL(add)(state, message, BLOCK - 2);
    EXPECT_HASH(state.hash.a != begun.hash.a && HAS_COUNT(state, BLOCK + 1));
    EXPECT_HASH(state.block[0] == message[BLOCK - 3] && are_zeros(state.block, 1, BLOCK));
}

/* A state that no call gave has some hash, the same each time. */
static void states_of_any_bytes(void)
{
    STATE state;
    memset(&state, UNTOUCHED, sizeof state);
    EXPECT_HASH(are_same(CALL(end)(state), CALL(end)(state)));
    memset(&state, 0xFF, sizeof state);
    EXPECT_HASH(are_same(CALL(end)(state), CALL(end)(state)));
}

static void call_for_hash(void)
{
    published_hashes();
    a_million_letters();
    two_pieces();
    pieces_of_every_size();
    forked_states();
    members_of_a_state();
    states_of_any_bytes();
}
