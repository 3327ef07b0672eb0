/* Times base62.c beside GMP and a plain loop: see run. */
#define _POSIX_C_SOURCE 199309L
#include <base62.h>
#include <gmp.h>
#include <stdio.h>
#include <stdlib.h>
#include <string.h>
#include <time.h>

enum { COUNT = 10000, KEY = BASE62_KEY_LENGTH };
static struct value {
    char text[KEY + 1];
    size_t length;
    base62_number number;
    unsigned char uuid[BASE62_UUID_LENGTH];
    mpz_t gmp;
} values[COUNT], to;
static unsigned char digits[256];

static size_t encode_in_loop(base62_u128 number, size_t width) {
    char places[KEY];
    size_t length = 0;
    for (; number != 0 || length < width; number /= 62) places[KEY - ++length] = BASE62_STANDARD_ALPHABET[number % 62];
    memcpy(to.text, places + KEY - length, length);
    return length;
}

static base62_number decode_in_loop(const struct value *v) {
    base62_u128 number = 0;
    for (const char *c = v->text; *c; c++) number = number * 62 + digits[(unsigned char)*c];
    return base62_from_u128(number);
}

static double now(void) {
    struct timespec time;
    clock_gettime(CLOCK_MONOTONIC, &time);
    __asm__ volatile("" : : "r"(&to) : "memory");
    return (double)time.tv_sec * 1e9 + (double)time.tv_nsec;
}

/* Times the statement, which stores a result for *v. */
#define TIME(call_and_code, ...)                                                                                       \
    start = now();                                                                                                     \
    for (const struct value *v = values; v < values + COUNT; v++) __VA_ARGS__;                                         \
    printf("C\t%s\t" call_and_code "\t%f\n", given[1], (now() - start) / COUNT)

int main(int count, char **given) {
    base62_bad_byte bad;
    double start;
    for (unsigned char i = 0; i < 62; i++) digits[(unsigned char)BASE62_STANDARD_ALPHABET[i]] = i;
    for (struct value *v = values; v < values + COUNT; v++) {
        if (scanf("%22s", v->text) != 1 || mpz_init_set_str(v->gmp, v->text, 62) != 0) return 1;
        v->length = strlen(v->text);
        if (base62_decode(v->text, v->length, &v->number, &bad) != BASE62_OK) return 1;
        base62_to_uuid(v->number, v->uuid);
        const base62_u128 number = base62_to_u128(v->number);
        if (encode_in_loop(number, v->length) != v->length || memcmp(to.text, v->text, v->length) != 0) return 1;
        if (base62_to_u128(decode_in_loop(v)) != number) return 1;
    }
    mpz_init(to.gmp);
    printf("GMP %s\n", gmp_version);
    for (int round = count == 3 ? 20 * atoi(given[2]) : 0; round > 0; round--)
        if (strcmp(given[1], "UUID") == 0) {
            TIME("encode\tbase62", base62_encode_key(base62_from_uuid(v->uuid), to.text));
            TIME("encode\ta plain loop", encode_in_loop(base62_to_u128(base62_from_uuid(v->uuid)), KEY));
            TIME("decode\tbase62", to.length = base62_decode_key(v->text, KEY, &to.number, &bad),
                 base62_to_uuid(to.number, to.uuid));
            TIME("decode\ta plain loop", base62_to_uuid(decode_in_loop(v), to.uuid));
        } else {
            TIME("encode\tbase62", to.length = base62_encode(v->number, to.text, KEY));
            TIME("encode\tGMP", mpz_get_str(to.text, 62, v->gmp));
            TIME("encode\ta plain loop", to.length = encode_in_loop(base62_to_u128(v->number), 1));
            TIME("decode\tbase62", to.length = base62_decode(v->text, v->length, &to.number, &bad));
            TIME("decode\tGMP", to.length = (size_t)mpz_set_str(to.gmp, v->text, 62));
            TIME("decode\ta plain loop", to.number = decode_in_loop(v));
        }
}
