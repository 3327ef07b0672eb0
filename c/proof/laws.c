/*
 * The promises of README, proved from base62.acsl alone. Each law is a client in C: WP proves that it returns what its
 * `ensures` says, for every number, text and alphabet. mutate_specification.py shows that each mutant of base62.acsl
 * fails a proof, except those that it lists.
 */
#include "base62.acsl"
/* -------------------- Lemmas: what the laws need to know of letters, texts and counts -------------------- */

#define LETTERS_VALID \valid_read(letters + (0 .. 61))
#define TEXT_VALID(p, n) \valid_read(p + (0 .. n - 1))

/*@ predicate are_letters{L}(unsigned char *letters, unsigned char *p, integer n) =
        \forall integer i; 0 <= i < n ==> digit(letters, p[i]) < 62;
    predicate are_same{L}(unsigned char *p, unsigned char *q, integer n) =
        \forall integer i; 0 <= i < n ==> p[i] == q[i];
    predicate begins{L}(unsigned char *p, integer n, unsigned char *prefix, integer k) =
        k <= n && are_same(p, prefix, k);
    predicate ascend{L}(unsigned char *letters) = \forall integer i, j; 0 <= i < j < 62 ==> letters[i] < letters[j];

    // The order of memcmp.
    predicate sorts_before{L}(unsigned char *p, unsigned char *q, integer n) =
        \exists integer i; 0 <= i < n && are_same(p, q, i) && p[i] < q[i];

    lemma one_digit: \forall integer x, y, a, b; 0 <= a < 62 && 0 <= b < 62 ==>
        ((x * 62 + a == y * 62 + b <==> x == y && a == b)
        && (x * 62 + a < y * 62 + b <==> x < y || (x == y && a < b)));
*/

/* The digit of a byte is its index in the letters. annotations/ proves this too, but the laws hold without these. */
/*@ requires LETTERS_VALID; assigns \nothing;
    ensures result: \result == digit(letters, byte) && 0 <= \result <= 62;
    ensures place: \result < 62 ==> letters[\result] == byte;
    ensures zero: \result == 0 <==> byte == letters[0];
*/
static size_t compute_digit(const unsigned char *letters, unsigned char byte) {
    size_t i = 0;
    /*@ loop invariant 0 <= i <= 62 && digit(letters, byte) == place_from(letters, byte, i);
        loop invariant i > 0 ==> letters[0] != byte;
        loop assigns i; loop variant 62 - i; */
    while (i < 62 && letters[i] != byte) i++;
    return i;
}

/*@ requires LETTERS_VALID && TEXT_VALID(p, n); assigns \nothing;
    ensures result: \result == bad_index(letters, p, n) && 0 <= \result <= n;
    ensures before: are_letters(letters, p, \result);
    ensures bad: \result < n ==> digit(letters, p[\result]) >= 62;
*/
static size_t compute_bad_index(const unsigned char *letters, const unsigned char *p, size_t n) {
    size_t bad = 0;
    /*@ loop invariant 0 <= bad <= i <= n && bad == bad_index(letters, p, i) && are_letters(letters, p, bad);
        loop invariant bad < i ==> digit(letters, p[bad]) >= 62;
        loop assigns i, bad; loop variant n - i; */
    for (size_t i = 0; i < n; i++)
        if (compute_digit(letters, p[i]) < 62 && bad == i) bad = i + 1;
    return bad;
}

/*@ requires LETTERS_VALID && TEXT_VALID(p, n); assigns \nothing;
    ensures result: \result == leading_zeros(letters, p, n) && 0 <= \result <= n;
    ensures value: value(letters, p, \result) == 0;
    ensures other: \result < n ==> p[\result] != letters[0];
*/
static size_t compute_leading_zeros(const unsigned char *letters, const unsigned char *p, size_t n) {
    size_t i = 0;
    /*@ loop invariant 0 <= i <= n && leading_zeros(letters, p, n) == zeros_from(letters[0], p, i, n);
        loop invariant value(letters, p, i) == 0;
        loop assigns i; loop variant n - i; */
    while (i < n && p[i] == letters[0]) i++;
    return i;
}

/* Zeros behind the digits of two numbers keep their order. */
/*@ assigns \nothing; ensures \forall integer x, y; x <= y ==> shifted(x, k) <= shifted(y, k);
    ensures strictly: \forall integer x, y; x < y ==> shifted(x, k) < shifted(y, k);
*/
static void shift_keeps_order(size_t k) {
    /*@ loop invariant 0 <= i <= k && \forall integer x, y; x <= y ==> shifted(x, i) <= shifted(y, i);
        loop invariant strictly: \forall integer x, y; x < y ==> shifted(x, i) < shifted(y, i);
        loop assigns i; loop variant k - i; */
    for (size_t i = 0; i < k; i++) {}
}

/*@ requires j <= k; assigns \nothing;
    ensures 1 <= power_of_62(j) <= power_of_62(k) == shifted(power_of_62(j), k - j);
*/
static void powers_grow(size_t j, size_t k) {
    /*@ loop invariant 0 <= i <= j && 1 <= power_of_62(i);
        loop assigns i; loop variant j - i; */
    for (size_t i = 0; i < j; i++) {}
    /*@ loop invariant j <= i <= k && 1 <= power_of_62(j) <= power_of_62(i) == shifted(power_of_62(j), i - j);
        loop assigns i; loop variant k - i; */
    for (size_t i = j; i < k; i++) {}
}

//@ assigns \nothing; ensures power_of_62(21) < ACSL_2_128 <= power_of_62(22);
static void power_22(void) {}

/* A text denotes no less than its first k letters followed by zeros, and less than the next such number. */
/*@ requires LETTERS_VALID && TEXT_VALID(p, n) && are_letters(letters, p, n) && k <= n; assigns \nothing;
    ensures least: shifted(value(letters, p, k), n - k) <= value(letters, p, n);
    ensures next: value(letters, p, n) < shifted(value(letters, p, k) + 1, n - k);
*/
static void begins_with(const unsigned char *letters, const unsigned char *p, size_t k, size_t n) {
    /*@ loop invariant k <= i <= n && shifted(value(letters, p, k), i - k) <= value(letters, p, i);
        loop invariant value(letters, p, i) < shifted(value(letters, p, k) + 1, i - k);
        loop assigns i; loop variant n - i; */
    for (size_t i = k; i < n; i++) {
        compute_digit(letters, p[i]);
        //@ assert value: value(letters, p, i + 1) == value(letters, p, i) * 62 + digit(letters, p[i]);
    }
}

/* n letters denote a number below 62^n, which is 62^(n - 1) or more exactly if the first is not a zero. */
/*@ requires LETTERS_VALID && TEXT_VALID(p, n) && are_letters(letters, p, n) && n > 0; assigns \nothing;
    ensures below: 0 <= value(letters, p, n) < power_of_62(n);
    ensures zero: p[0] == letters[0] ==> value(letters, p, n) < power_of_62(n - 1);
    ensures other: p[0] != letters[0] ==> value(letters, p, n) >= power_of_62(n - 1);
*/
static void value_within(const unsigned char *letters, const unsigned char *p, size_t n) {
    const size_t first = compute_digit(letters, p[0]);
    begins_with(letters, p, 0, n);
    begins_with(letters, p, 1, n);
    const size_t rest = n - 1;
    shift_keeps_order(rest);
    //@ assert rest: rest == n - 1;
    /*@ loop invariant 0 <= i <= n && shifted(0, i) == 0;
        loop assigns i; loop variant n - i; */
    for (size_t i = 0; i < n; i++) {}
}

/* -------------------- One text -------------------- */

/* The text of a number has 1 to 22 letters, and no text of fewer letters denotes it. */
/*@ assigns \nothing; ensures result: \result == digit_count(number_of(n)) && 1 <= \result <= 22;
    ensures enough: number_of(n) < power_of_62(\result);
    ensures least: \result > 1 ==> number_of(n) >= power_of_62(\result - 1);
*/
size_t compute_count(base62_number n) {
    const size_t count = base62_digit_count(n);
    /*@ loop invariant 1 <= i <= 22;
        loop invariant (count_from(number_of(n), 1) == count_from(number_of(n), i)
                && (i > 1 ==> number_of(n) >= power_of_62(i - 1)))
            || (1 <= count < i && number_of(n) < power_of_62(count)
                && (count > 1 ==> number_of(n) >= power_of_62(count - 1)));
        loop assigns i; loop variant 22 - i; */
    for (size_t i = 1; i < 22; i++) {}
    return count;
}

/* No shorter text denotes the number, and a longer one has a leading zero. */
/*@ requires LETTERS_VALID && TEXT_VALID(p, n); assigns \nothing;
    ensures shortest: denotes(letters, p, n, number_of(number)) ==> digit_count(number_of(number)) <= n;
    ensures leading_zero: denotes(letters, p, n, number_of(number)) && n > 1 ==>
        (p[0] == letters[0] <==> digit_count(number_of(number)) < n);
*/
void shortest(const unsigned char *letters, const unsigned char *p, size_t n, base62_number number) {
    if (n == 0 || compute_bad_index(letters, p, n) < n) return;
    value_within(letters, p, n);
    const size_t count = compute_count(number);
    const size_t fewer = count - 1, rest = n - 1;
    //@ assert fewer: fewer == count - 1 && rest == n - 1;
    if (count > n) powers_grow(n, fewer);
    if (count < n) powers_grow(count, rest);
}

/* Two texts of one length have one number exactly if they are the same. If the letters ascend, they sort by bytes as
   their numbers do. */
/*@ requires LETTERS_VALID && TEXT_VALID(p, n) && TEXT_VALID(q, n);
    requires are_letters(letters, p, n) && are_letters(letters, q, n); assigns \nothing;
    ensures same: are_same(p, q, n) <==> value(letters, p, n) == value(letters, q, n);
    ensures sorts: ascend(letters) ==> (sorts_before(p, q, n) <==> value(letters, p, n) < value(letters, q, n));
*/
void two_texts(const unsigned char *letters, const unsigned char *p, const unsigned char *q, size_t n) {
    /*@ loop invariant 0 <= i <= n && (are_same(p, q, i) <==> value(letters, p, i) == value(letters, q, i));
        loop invariant ascend(letters) ==> (sorts_before(p, q, i) <==> value(letters, p, i) < value(letters, q, i));
        loop assigns i; loop variant n - i; */
    for (size_t i = 0; i < n; i++) {
        const size_t a = compute_digit(letters, p[i]), b = compute_digit(letters, q[i]);
    }
}

/* Each text of letters that denotes a number below 2^128 is accepted. */
/*@ requires LETTERS_VALID && TEXT_VALID(p, n); assigns \nothing;
    ensures n > 0 && bad_index(letters, p, n) == n && value(letters, p, n) < ACSL_2_128 ==>
        decoding(letters, p, n) == BASE62_OK;
*/
static void is_decoded(const unsigned char *letters, const unsigned char *p, size_t n) {
    if (compute_bad_index(letters, p, n) < n) return;
    const size_t zeros = compute_leading_zeros(letters, p, n);
    if (zeros == n) return;
    const size_t first = compute_digit(letters, p[zeros]), from = zeros + 1, rest = n - from;
    //@ assert rest: from == zeros + 1 && rest == n - from;
    begins_with(letters, p, from, n);
    shift_keeps_order(rest);
    power_22();
    if (rest >= 22) powers_grow(22, rest);
    if (rest != 21) return;
    const size_t ten = zeros + 10;
    begins_with(letters, p, ten, n);
}

/* -------------------- The calls, over every alphabet -------------------- */

/*@ // Letters of a built-in alphabet, or of a caller's.
    predicate are_of{L}(unsigned char *letters, base62_alphabet *alphabet) =
        letters == STANDARD_LETTERS || letters == ALTERNATIVE_LETTERS
        || (letters == LETTERS(alphabet) && is_made(alphabet));
*/
#define ALPHABET LETTERS_VALID && \valid_read(alphabet) && are_of(letters, alphabet)
#define OVER const unsigned char *letters, const base62_alphabet *alphabet
#define APART(written) \separated(written, letters + (0 .. 61)) && \separated(written, alphabet)

/* The shortest text, one of the width of its buffer, or a key. Calls over the alternative letters only write
   shortest texts, and decode any. */
typedef enum { SHORTEST, FIXED, KEY } form;
#define FORM(size) (how == KEY ==> letters == STANDARD_LETTERS && size == BASE62_KEY_LENGTH) \
    && (how != SHORTEST ==> letters != ALTERNATIVE_LETTERS)

/* An encoder writes a text of the number and nothing behind it. It fails exactly if the buffer is too small. */
/*@ requires ALPHABET && FORM(size);
    requires \valid(buffer + (0 .. size - 1)) && APART(buffer + (0 .. size - 1));
    assigns buffer[0 .. size - 1];
    ensures rejected: \result == 0 <==> digit_count(number_of(number)) > size;
    ensures length: \result > 0 ==> \result == (how == SHORTEST ? digit_count(number_of(number)) : size);
    ensures text: \result > 0 ==> denotes(letters, BYTES(buffer), \result, number_of(number));
    ensures stays: \forall integer i; \result <= i < size ==> buffer[i] == \old(buffer[i]);
    ensures alphabet: are_of(letters, alphabet);
*/
size_t encode(OVER, form how, base62_number number, char *buffer, size_t size) {
    compute_count(number);
    if (how == KEY) {
        base62_encode_key(number, buffer);
        return size;
    }
    if (letters == standard_letters)
        return how == SHORTEST ? base62_encode(number, buffer, size) : base62_encode_fixed(number, buffer, size);
    if (letters == alternative_letters) return base62_encode_alternative(number, buffer, size);
    return how == SHORTEST ? base62_encode_with(alphabet, number, buffer, size)
        : base62_encode_fixed_with(alphabet, number, buffer, size);
}

/* The first bad byte is stored, with its index, for its status alone. */
#define TELLS_BAD_BYTE(text, length) \
    ensures index: \result == BASE62_INVALID_BYTE ==> \
        bad->index < length && are_letters{Pre}(letters, BYTES(text), bad->index); \
    ensures byte: \result == BASE62_INVALID_BYTE ==> bad->byte == \at(BYTES(text)[\at(bad->index, Post)], Pre); \
    ensures bad: \result == BASE62_INVALID_BYTE ==> digit{Pre}(letters, bad->byte) >= 62; \
    ensures others: \result != BASE62_INVALID_BYTE ==> *bad == \old(*bad);

/* What the rows of the table speak of. SHOWN is that the first ten bytes that remain show that the text overflows. */
#define ZEROS leading_zeros{Pre}(letters, BYTES(text), length)
#define BAD bad_index{Pre}(letters, BYTES(text), length)
#define VALUE value{Pre}(letters, BYTES(text), length)
#define SHOWN (length - ZEROS == 22 && shifted(value{Pre}(letters, BYTES(text), ZEROS + 10), 12) >= ACSL_2_128)

/* The conditions of DECODING, one by one. All letters are accepted or overflow by their value alone. */
/*@ requires ALPHABET && (is_strict ==> letters != ALTERNATIVE_LETTERS);
    requires TEXT_VALID(text, length) && \valid(number) && \valid(bad);
    requires \separated(number, bad, text + (0 .. length - 1)) && APART(number) && APART(bad);
    assigns *number, *bad;
    ensures empty: length == 0 ==> \result == BASE62_EMPTY_INPUT;
    ensures long_text: length - ZEROS > 22 ==> \result == BASE62_OVERFLOW;
    ensures early: length - ZEROS <= 22 && BAD < length && BAD < ZEROS + 10 ==> \result == BASE62_INVALID_BYTE;
    ensures shown: SHOWN && BAD >= ZEROS + 10 ==> \result == BASE62_OVERFLOW;
    ensures late: length - ZEROS <= 22 && ZEROS + 10 <= BAD < length && !SHOWN ==> \result == BASE62_INVALID_BYTE;
    ensures great: length > 0 && BAD == length && VALUE >= ACSL_2_128 ==> \result == BASE62_OVERFLOW;
    ensures accepted: length > 0 && BAD == length && VALUE < ACSL_2_128 ==> \result
        == (is_strict && length > 1 && BYTES(text)[0] == letters[0] ? BASE62_NOT_CANONICAL : BASE62_OK);
    ensures number: \result == BASE62_OK ==> denotes{Pre}(letters, BYTES(text), length, number_of(*number));
    ensures no_number: \result != BASE62_OK ==> *number == \old(*number);
    TELLS_BAD_BYTE(text, length)
*/
base62_status decode(OVER, int is_strict, const char *text, size_t length, base62_number *number,
                     base62_bad_byte *bad) {
    compute_bad_index(letters, BYTES(text), length);
    is_decoded(letters, BYTES(text), length);
    if (letters == standard_letters)
        return is_strict ? base62_decode_canonical(text, length, number, bad)
            : base62_decode(text, length, number, bad);
    if (letters == alternative_letters) return base62_decode_alternative(text, length, number, bad);
    return is_strict ? base62_decode_canonical_with(alphabet, text, length, number, bad)
        : base62_decode_with(alphabet, text, length, number, bad);
}

/* With a width, a text of another length is rejected unread, and any other is decoded as above. */
/*@ requires ALPHABET && FORM(width) && how != SHORTEST && \valid(number) && \valid(bad);
    requires length == width ==> TEXT_VALID(text, length);
    requires \separated(number, bad, text + (0 .. length - 1)) && APART(number) && APART(bad);
    assigns *number, *bad;
    ensures other: length != width ==> \result == BASE62_WRONG_LENGTH;
    ensures decoded: length == width ==> \result == decoding{Pre}(letters, BYTES(text), length);
    ensures number: \result == BASE62_OK ==> denotes{Pre}(letters, BYTES(text), length, number_of(*number));
    ensures no_number: \result != BASE62_OK ==> *number == \old(*number);
    TELLS_BAD_BYTE(text, length)
*/
base62_status decode_fixed(OVER, form how, size_t width, const char *text, size_t length, base62_number *number,
                           base62_bad_byte *bad) {
    if (length == width) compute_bad_index(letters, BYTES(text), length);
    if (how == KEY) return base62_decode_key(text, length, number, bad);
    if (letters == standard_letters) return base62_decode_fixed(text, length, width, number, bad);
    return base62_decode_fixed_with(alphabet, text, length, width, number, bad);
}

/* A bad byte in the prefix is an error. Otherwise a range has a number, or no text begins with the prefix. */
/*@ requires ALPHABET && FORM(width) && how != SHORTEST;
    requires TEXT_VALID(prefix, length) && \valid(range) && \valid(bad);
    requires \separated(range, bad, prefix + (0 .. length - 1)) && APART(range) && APART(bad);
    assigns *range, *bad;
    ensures rejected: \result == BASE62_INVALID_BYTE <==> bad_index{Pre}(letters, BYTES(prefix), length) < length;
    ensures status: \result == BASE62_INVALID_BYTE || \result == BASE62_NO_MATCH || \result == BASE62_OK;
    ensures result: \result == range_status{Pre}(letters, BYTES(prefix), length, width);
    ensures least: \result == BASE62_OK ==>
        number_of(range->least) == least_of{Pre}(letters, BYTES(prefix), length, width);
    ensures greatest: \result == BASE62_OK ==> number_of(range->greatest)
        == \min(next_of{Pre}(letters, BYTES(prefix), length, width), ACSL_2_128) - 1;
    ensures ends: \result == BASE62_OK ==> number_of(range->least) <= number_of(range->greatest);
    ensures no_range: \result != BASE62_OK ==> *range == \old(*range);
    TELLS_BAD_BYTE(prefix, length)
*/
base62_status find_range(OVER, form how, size_t width, const char *prefix, size_t length, base62_range *range,
                         base62_bad_byte *bad) {
    compute_bad_index(letters, BYTES(prefix), length);
    const size_t rest = width - length;
    shift_keeps_order(rest);
    /*@ assert less: shifted(value(letters, BYTES(prefix), length), rest)
            < shifted(value(letters, BYTES(prefix), length) + 1, rest); */
    /*@ assert ends: length <= width ==>
            least_of(letters, BYTES(prefix), length, width) < next_of(letters, BYTES(prefix), length, width); */
    if (how == KEY) return base62_key_range(prefix, length, range, bad);
    if (letters == standard_letters) return base62_prefix_range(prefix, length, width, range, bad);
    return base62_prefix_range_with(alphabet, prefix, length, width, range, bad);
}

/*
 * An alphabet is rejected exactly if a letter is repeated. The first letter that equals an earlier one is stored. Any
 * other 62 bytes make an alphabet of these letters, and the laws hold of it.
 */
/*@ requires \valid_read(letters + (0 .. 61)) && \valid(alphabet) && \valid(bad);
    requires \separated(alphabet, bad, letters + (0 .. 61));
    assigns *alphabet, *bad;
    ensures made: \result == BASE62_OK <==> \forall integer i, j; 0 <= i < j < 62 ==> letters[i] != letters[j];
    ensures as_good: \result == BASE62_OK ==> are_of(LETTERS(alphabet), alphabet);
    ensures letters: \result == BASE62_OK ==> are_same(LETTERS(alphabet), BYTES(letters), 62);
    ensures rejected: \result != BASE62_OK ==> \result == BASE62_REPEATED_CHARACTER;
    ensures alphabet: \result != BASE62_OK ==>
        \forall integer i; 0 <= i < 318 ==> alphabet->bytes[i] == \old(alphabet->bytes[i]);
    ensures byte: \result != BASE62_OK ==> bad->index < 62 && bad->byte == BYTES(letters)[bad->index];
    ensures repeat: \result != BASE62_OK ==>
        \exists integer i; 0 <= i < bad->index && letters[i] == letters[bad->index];
    ensures first: \result != BASE62_OK ==>
        \forall integer i, j; 0 <= i < j < bad->index ==> letters[i] != letters[j];
    ensures bad: \result == BASE62_OK ==> *bad == \old(*bad);
*/
base62_status makes(const char *letters, base62_alphabet *alphabet, base62_bad_byte *bad) {
    return base62_alphabet_init(alphabet, letters, bad);
}

/* With other bytes than those of an alphabet a call writes what it may all the same, and nothing else. */
/*@ requires \valid_read(alphabet) && TEXT_VALID(text, length) && \valid(places + (0 .. width - 1));
    requires \separated(alphabet, places + (0 .. width - 1));
    requires \separated(text + (0 .. length - 1), places + (0 .. width - 1));
    assigns places[0 .. width - 1];
*/
void uninitialized(const base62_alphabet *alphabet, const char *text, size_t length, char *places, size_t width) {
    base62_number number = {0, 0};
    base62_range range;
    base62_bad_byte bad;
    base62_encode_with(alphabet, number, places, width);
    base62_encode_fixed_with(alphabet, number, places, width);
    base62_decode_with(alphabet, text, length, &number, &bad);
    base62_decode_canonical_with(alphabet, text, length, &number, &bad);
    base62_decode_fixed_with(alphabet, text, length, width, &number, &bad);
    base62_prefix_range_with(alphabet, text, length, width, &range, &bad);
}

/* -------------------- Back again -------------------- */

//@ assigns \nothing; ensures \result == (number_of(a) == number_of(b) ? 1 : 0);
static int same(base62_number a, base62_number b) { return a.high == b.high && a.low == b.low; }

/* Each text decodes to its number. Canonical decoding rejects those with leading zeros. */
/*@ requires ALPHABET && FORM(size) && (is_strict ==> letters != ALTERNATIVE_LETTERS);
    requires \valid(buffer + (0 .. size - 1)) && APART(buffer + (0 .. size - 1));
    assigns buffer[0 .. size - 1];
    ensures \result == 1 <==> digit_count(number_of(number)) <= size
        && (is_strict && how != SHORTEST ==> digit_count(number_of(number)) == size);
*/
int back_again(OVER, form how, int is_strict, base62_number number, char *buffer, size_t size) {
    base62_number again;
    base62_bad_byte bad;
    const size_t length = encode(letters, alphabet, how, number, buffer, size);
    if (length == 0) return 0;
    shortest(letters, BYTES(buffer), length, number);
    return decode(letters, alphabet, is_strict, buffer, length, &again, &bad) == BASE62_OK && same(again, number);
}

/* Like memcmp. */
/*@ requires TEXT_VALID(p, n) && TEXT_VALID(q, n); assigns \nothing;
    ensures same: \result == 0 <==> are_same(BYTES(p), BYTES(q), n);
    ensures before: \result < 0 <==> sorts_before(BYTES(p), BYTES(q), n);
*/
static int compare(const char *p, const char *q, size_t n) {
    /*@ loop invariant 0 <= i <= n && are_same(BYTES(p), BYTES(q), i);
        loop assigns i; loop variant n - i; */
    for (size_t i = 0; i < n; i++)
        if (p[i] != q[i]) return p[i] < q[i] ? -1 : 1;
    return 0;
}

/* For each encoder there is a decoder that accepts exactly what it writes: a text is read as a number exactly if it is
   written for this number. */
/*@ requires ALPHABET && FORM(size) && (how == SHORTEST ==> size == BASE62_MAX_DIGITS) && TEXT_VALID(p, n);
    requires letters != ALTERNATIVE_LETTERS;
    requires \valid(buffer + (0 .. size - 1)) && APART(buffer + (0 .. size - 1));
    requires \separated(buffer + (0 .. size - 1), p + (0 .. n - 1));
    assigns buffer[0 .. size - 1];
    ensures \result == 1;
*/
int one_text(OVER, form how, base62_number number, const char *p, size_t n, char *buffer, size_t size) {
    base62_number again;
    base62_bad_byte bad;
    const size_t length = encode(letters, alphabet, how, number, buffer, size);
    compute_bad_index(letters, BYTES(buffer), length);
    shortest(letters, BYTES(p), n, number);
    const size_t bad_index = compute_bad_index(letters, BYTES(p), n);
    if (bad_index == n && n == length) two_texts(letters, BYTES(p), BYTES(buffer), n);
    is_decoded(letters, BYTES(p), n);
    //@ assert other: bad_index < n && n == length ==> BYTES(p)[bad_index] != BYTES(buffer)[bad_index];
    const int is_written = length > 0 && n == length && compare(p, buffer, n) == 0;
    const base62_status status = how == SHORTEST ? decode(letters, alphabet, 1, p, n, &again, &bad)
        : decode_fixed(letters, alphabet, how, size, p, n, &again, &bad);
    const int is_accepted = status == BASE62_OK && same(again, number);
    return is_written == is_accepted;
}

/* -------------------- Order -------------------- */

//@ assigns \nothing; ensures \result == (number_of(a) < number_of(b) ? 1 : 0);
static int is_less(base62_number a, base62_number b) { return a.high < b.high || (a.high == b.high && a.low < b.low); }

/* If the letters ascend, a text that an encoder writes and any other text of its width sort as their numbers. */
/*@ requires ALPHABET && FORM(width) && how != SHORTEST && ascend(letters) && TEXT_VALID(q, width);
    requires \valid(p + (0 .. width - 1)) && APART(p + (0 .. width - 1));
    requires \separated(p + (0 .. width - 1), q + (0 .. width - 1));
    assigns p[0 .. width - 1];
    ensures \result == 1;
*/
int sorts_as_numbers(OVER, form how, base62_number a, char *p, const char *q, size_t width) {
    base62_number b;
    base62_bad_byte bad;
    if (encode(letters, alphabet, how, a, p, width) == 0) return 1;
    compute_bad_index(letters, BYTES(p), width);
    if (compute_bad_index(letters, BYTES(q), width) < width) return 1;
    two_texts(letters, BYTES(p), BYTES(q), width);
    const int is_first = compare(p, q, width) < 0;
    return decode(letters, alphabet, 0, q, width, &b, &bad) != BASE62_OK || is_first == is_less(a, b);
}

/* A text of a number begins with a prefix exactly if the number is in the range of the prefix. If there is no range, no
   text begins with it. */
/*@ requires LETTERS_VALID && TEXT_VALID(p, n) && TEXT_VALID(prefix, k);
    requires denotes(letters, p, n, number_of(number)); assigns \nothing;
    ensures range: range_status(letters, prefix, k, n) == BASE62_OK ==> (begins(p, n, prefix, k) <==>
        least_of(letters, prefix, k, n) <= number_of(number) < next_of(letters, prefix, k, n));
    ensures none: range_status(letters, prefix, k, n) != BASE62_OK ==> !begins(p, n, prefix, k);
*/
void is_in_range(const unsigned char *letters, const unsigned char *p, size_t n, const unsigned char *prefix, size_t k,
                 base62_number number) {
    compute_bad_index(letters, p, n);
    const size_t bad = compute_bad_index(letters, prefix, k), rest = n - k;
    if (bad < k || k > n) return;
    //@ assert rest: rest == n - k;
    two_texts(letters, p, prefix, k);
    begins_with(letters, p, k, n);
    shift_keeps_order(rest);
}

/* A number that needs more letters than the width is in no range. */
/*@ requires LETTERS_VALID && TEXT_VALID(prefix, k) && digit_count(number_of(number)) > n; assigns \nothing;
    ensures range_status(letters, prefix, k, n) == BASE62_OK ==> number_of(number) >= next_of(letters, prefix, k, n);
*/
void is_beyond(const unsigned char *letters, const unsigned char *prefix, size_t k, size_t n, base62_number number) {
    const size_t fewer = compute_count(number) - 1, rest = n - k;
    if (compute_bad_index(letters, prefix, k) < k || k > n || n == 0) return;
    powers_grow(n, fewer);
    if (k > 0) value_within(letters, prefix, k);
    shift_keeps_order(rest);
    //@ assert next: shifted(value(letters, prefix, k) + 1, rest) <= shifted(power_of_62(k), rest);
    powers_grow(k, n);
}

/* The numbers whose texts begin with a prefix are those from the least to the greatest, and no others. */
/*@ requires ALPHABET && FORM(width) && how != SHORTEST && TEXT_VALID(prefix, length);
    requires \valid(places + (0 .. width - 1)) && APART(places + (0 .. width - 1));
    requires \separated(places + (0 .. width - 1), prefix + (0 .. length - 1));
    assigns places[0 .. width - 1];
    ensures \result == 1;
*/
int range_is_exact(OVER, form how, base62_number number, char *places, size_t width, const char *prefix,
                   size_t length) {
    base62_range range;
    base62_bad_byte bad;
    int begins = 0;
    if (encode(letters, alphabet, how, number, places, width) != 0) {
        is_in_range(letters, BYTES(places), width, BYTES(prefix), length, number);
        begins = length <= width && compare(places, prefix, length) == 0;
    } else
        is_beyond(letters, BYTES(prefix), length, width, number);
    return find_range(letters, alphabet, how, width, prefix, length, &range, &bad) == BASE62_OK
        ? begins == (!is_less(number, range.least) && !is_less(range.greatest, number)) : !begins;
}

/* -------------------- UUIDs, halves and the version -------------------- */

/* Each number has one UUID. The number of a last byte alone is that byte. */
/*@ requires \valid_read(uuid + (0 .. 15)) && \valid(again + (0 .. 15));
    requires \separated(uuid + (0 .. 15), again + (0 .. 15));
    assigns again[0 .. 15];
    ensures same: are_same(again, uuid, 16);
    ensures last: (\forall integer i; 0 <= i < 15 ==> uuid[i] == 0) ==> number_of(\result) == uuid[15];
*/
base62_number number_back_again(const unsigned char *uuid, unsigned char *again) {
    const base62_number number = base62_from_uuid(uuid);
    base62_to_uuid(number, again);
    /*@ loop invariant 0 <= i <= 16;
        loop invariant are_same(again, uuid, i) <==> uuid_value(again, i) == uuid_value{Pre}(uuid, i);
        loop invariant i < 16 && (\forall integer j; 0 <= j < i ==> uuid[j] == 0) ==> uuid_value{Pre}(uuid, i) == 0;
        loop assigns i; loop variant 16 - i; */
    for (size_t i = 0; i < 16; i++) {
        //@ assert first: uuid_value(again, i + 1) == uuid_value(again, i) * 256 + again[i];
        //@ assert second: uuid_value{Pre}(uuid, i + 1) == uuid_value{Pre}(uuid, i) * 256 + uuid[i];
    }
    return number;
}

/*@ requires \valid(value);
    assigns *value;
    ensures \result == BASE62_OK || \result == BASE62_OUT_OF_RANGE;
    ensures \result == BASE62_OK <==> number_of(number) < ACSL_2_64;
    ensures \result == BASE62_OK ==> *value == number_of(number);
    ensures \result != BASE62_OK ==> *value == \old(*value);
*/
base62_status half(base62_number number, uint64_t *value) { return base62_to_u64(number, value); }

//@ assigns \nothing; ensures number_of(\result) == value;
base62_number of_half(uint64_t value) { return base62_from_u64(value); }

/* The number of two halves, below 2^128. */
/*@ assigns \nothing; ensures number_of(\result) == high * 18446744073709551616 + low;
    ensures ACSL_2_128 == 18446744073709551616 * 18446744073709551616;
*/
base62_number of_halves(uint64_t high, uint64_t low) { return (base62_number){high, low}; }

//@ assigns \nothing; ensures \result == 1;
int version(void) { return base62_version_number() == BASE62_VERSION_NUMBER; }

/* -------------------- Examples, where a law says less -------------------- */

#define ONE(k) if (d == k) return;
#define TEN(k) ONE(k) ONE(k + 1) ONE(k + 2) ONE(k + 3) ONE(k + 4) ONE(k + 5) ONE(k + 6) ONE(k + 7) ONE(k + 8) ONE(k + 9)
#define LETTER(d, middle, last) (d < 10 ? '0' + d : d < 36 ? middle + d - 10 : last + d - 36)

/* The letter of each digit, case by case, since provers split no range of numbers. */
// == prove letter: with tables
/*@ requires d < 62; assigns \nothing;
    ensures standard: standard_letters[d] == LETTER(d, 'A', 'a');
    ensures alternative: alternative_letters[d] == LETTER(d, 'a', 'A');
*/
void letter(unsigned d) { TEN(0) TEN(10) TEN(20) TEN(30) TEN(40) TEN(50) ONE(60) ONE(61) }

/*@ assigns \nothing; ensures standard: is_alphabet(STANDARD_LETTERS) && ascend(STANDARD_LETTERS);
    ensures alternative: is_alphabet(ALTERNATIVE_LETTERS) && !ascend(ALTERNATIVE_LETTERS);
    ensures digits: digit(STANDARD_LETTERS, 'z') == 61 && digit(STANDARD_LETTERS, '-') >= 62;
*/
void letters_by_example(void) {
    /*@ loop invariant 0 <= i <= 62;
        loop invariant standard: \forall integer d; 0 <= d < i ==> standard_letters[d] == LETTER(d, 'A', 'a');
        loop invariant alternative: \forall integer d; 0 <= d < i ==> alternative_letters[d] == LETTER(d, 'a', 'A');
        loop invariant z: digit(STANDARD_LETTERS, 'z') == place_from(STANDARD_LETTERS, 'z', i < 61 ? i : 61);
        loop invariant none: digit(STANDARD_LETTERS, '-') == place_from(STANDARD_LETTERS, '-', i);
        loop assigns i; loop variant 62 - i; */
    for (unsigned i = 0; i < 62; i++) letter(i);
    //@ assert falls: alternative_letters[10] == 'a' && alternative_letters[36] == 'A';
}
