/*
 * Tests what base62.c does by extensions of the compiler, if it has them: u128_mul_64, u64_ilog2, and copies of
 * alphabets; and find_error. Each result of the first two is compared with long multiplication and with a shift by one
 * bit at a time. With TEST_OTHER_COMPILERS base62.c is compiled in the forms for compilers without these extensions.
 */
#include <inttypes.h>
#include <limits.h>
#include <stdbool.h>
#include <string.h>

#include "guard_pages.h"

#ifdef TEST_OTHER_COMPILERS
#undef __GNUC__
#define _MSC_VER 1
#endif
#include "base62.c"

static void expect_of(bool holds, const char *what, uint64_t a, uint64_t b) {
    if (!holds) fprintf(stderr, "0x%" PRIx64 " and 0x%" PRIx64 ": ", a, b);
    expect(holds, what);
}

static void test_highest_bit(uint64_t n) {
    uint32_t index = 0;
    while (n >> index > 1) index++;
    expect_of(n == 0 || u64_ilog2(n) == index, "u64_ilog2", n, index);
}

/* Long multiplication by the bits of b. */
static void test(uint64_t a, uint64_t b) {
    const u128 product = u128_mul_64(a, b);
    uint64_t high = 0, low = 0;
    for (int bit = 63; bit >= 0; bit--) {
        const uint64_t doubled = low << 1, addend = b >> bit & 1 ? a : 0;
        high = (high << 1) + (low >> 63) + (addend > UINT64_MAX - doubled ? 1 : 0);
        low = doubled + addend;
    }
    expect_of(product.high == high && product.low == low, "u128_mul_64", a, b);
}

enum { CORNERS = 64 * 6 };

/* The numbers next to each power of 2, and their complements. */
static uint64_t corner(size_t i) {
    const uint64_t next = (UINT64_C(1) << i / 6) + i / 2 % 3 - 1;
    return i % 2 == 0 ? next : ~next;
}

/* A copy of an alphabet encodes as the alphabet does, even if the compiler sees both the copy and base62.c: there an
 * alphabet is another struct, of the same bytes. Without its attribute may_alias, GCC leaves out the copy. */
static void test_copy(void) {
#ifdef __GNUC__
    char text[2];
    base62_alphabet alphabet;
    base62_bad_byte bad;
    expect(base62_alphabet_init(&alphabet, BASE62_ALTERNATIVE_ALPHABET, &bad) == BASE62_OK, "base62_alphabet_init");
    const base62_alphabet copy = alphabet;
    expect(base62_encode_with(&copy, base62_from_u64(1337), text, 2) == 2 && text[0] == 'l' && text[1] == 'z',
           "a copy");
#endif
}

/* If another thread has replaced the invalid byte, find_error stores the last one. Behind it is a guard page. */
static void test_changed_text(void) {
    char *memory = map_guarded();
    base62_bad_byte bad = {0, 0};
    for (size_t length = 1; length <= BASE62_MAX_DIGITS; length++) {
        const uint8_t *text = memset(place_in(memory, 1, length), '1', length);
        const base62_status status = find_error(&B62_STANDARD, text, length, 0, &bad);
        expect(status == BASE62_INVALID_BYTE && bad.byte == '1' && bad.index == length - 1, "find_error");
    }
}

int main(void) {
    test_copy();
    test_changed_text();
    for (size_t i = 0; i < CORNERS; i++) {
        test_highest_bit(corner(i));
        for (size_t k = 0; k < CORNERS; k++) test(corner(i), corner(k));
    }
    return 0;
}
