/*
 * Laws of strings for UUIDs, proved from base62.acsl as those of laws.c are: what is written are 32 digits that denote the
 * number of the UUID, and exactly what may be written for a UUID is read as this UUID.
 */

/*@ // A character of ASCII in lowercase; a digit in lowercase, and its value; the four hyphens; what may come before.
    logic integer lower_of(integer c) = 'A' <= c <= 'Z' ? c + 32 : c;
    predicate is_digit(integer c) = '0' <= c <= '9' || 'a' <= c <= 'f';
    logic integer digit_value(integer c) = c <= '9' ? c - '0' : c - 'a' + 10;
    predicate has_four_hyphens{L}(unsigned char *p, integer start) =
        p[start + 8] == '-' && p[start + 13] == '-' && p[start + 18] == '-' && p[start + 23] == '-';
    predicate is_after_urn{L}(unsigned char *p, integer n) = n > 8 && lower_of(p[0]) == 'u' && lower_of(p[1]) == 'r'
        && lower_of(p[2]) == 'n' && p[3] == ':' && lower_of(p[4]) == 'u' && lower_of(p[5]) == 'u' && lower_of(p[6]) == 'i'
        && lower_of(p[7]) == 'd' && p[8] == ':';

    // Where the digits of each byte are, and that they are digits. The number that n characters denote in base 16, in
    // which hyphens do not count.
    lemma index_of_digits: \forall integer k; 0 <= k < 16 ==> pair_index(k, 32) == 2 * k
        && pair_index(k, 36) == 2 * k + (k < 4 ? 0 : k < 6 ? 1 : k < 8 ? 2 : k < 10 ? 3 : 4);
    predicate are_digits{L}(unsigned char *p) = \forall integer k; 0 <= k < 16 ==>
        is_digit(p[pair_index(k, 36)]) && is_digit(p[pair_index(k, 36) + 1]);
    logic integer hexadecimal_number{L}(unsigned char *p, integer n) =
        n <= 0 ? 0 : p[n - 1] == '-' ? hexadecimal_number(p, n - 1)
        : 16 * hexadecimal_number(p, n - 1) + digit_value(p[n - 1]);

    // The text that is written for a UUID; whether the two characters of byte k are at i, in either case; and whether the
    // characters from start on are this text, with its hyphens or without.
    predicate is_text_of{L}(unsigned char *text, unsigned char *uuid) = \forall integer k; 0 <= k < 16 ==>
        text[pair_index(k, 36)] == hexadecimal(uuid[k] / 16) && text[pair_index(k, 36) + 1] == hexadecimal(uuid[k] % 16);
    predicate is_pair{L}(unsigned char *p, integer i, unsigned char *text, integer k) =
        lower_of(p[i]) == text[pair_index(k, 36)] && lower_of(p[i + 1]) == text[pair_index(k, 36) + 1];
    predicate are_written{L}(unsigned char *p, integer start, integer count, unsigned char *text) =
        (count == 32 || (count == 36 && has_four_hyphens(p, start)))
        && \forall integer k; 0 <= k < 16 ==> is_pair(p, start + pair_index(k, count), text, k);
*/

/* Two digits denote a byte, and a hyphen nothing. */
/*@ requires TEXT_VALID(p, n + 2) && n < 36 && p[n] == hexadecimal(byte / 16) && p[n + 1] == hexadecimal(byte % 16);
    assigns \nothing; ensures \result == n + 2;
    ensures hexadecimal_number(p, \result) == 256 * hexadecimal_number(p, n) + byte;
*/
static size_t after_byte(const unsigned char *p, size_t n, unsigned char byte) { return n + 2; }
/*@ requires TEXT_VALID(p, n + 1) && n < 36 && p[n] == '-';
    assigns \nothing; ensures \result == n + 1 && hexadecimal_number(p, \result) == hexadecimal_number(p, n);
*/
static size_t after_hyphen(const unsigned char *p, size_t n) { return n + 1; }

/* A UUID is written as 32 digits in lowercase, which denote its number, and four hyphens. */
/*@ requires \valid_read(uuid + (0 .. 15)) && \valid(text + (0 .. 35)) && \separated(uuid + (0 .. 15), text + (0 .. 35));
    assigns text[0 .. 35];
    ensures hyphens: has_four_hyphens(BYTES(text), 0);
    ensures digits: are_digits(BYTES(text));
    ensures number: hexadecimal_number(BYTES(text), 36) == uuid_value(uuid, 16);
    ensures text: is_text_of(BYTES(text), uuid);
*/
void write_uuid(const unsigned char *uuid, char *text) {
    size_t next = 0;
    base62_uuid_to_string(uuid, text);
    /*@ loop invariant 0 <= k <= 16 && next == (k < 16 ? pair_index(k, 36) : 36);
        loop invariant hexadecimal_number(BYTES(text), next) == uuid_value(uuid, k);
        loop assigns k, next; loop variant 16 - k; */
    for (size_t k = 0; k < 16; k++) {
        next = after_byte(BYTES(text), next, uuid[k]);
        if (k == 3 || k == 5 || k == 7 || k == 9) next = after_hyphen(BYTES(text), next);
    }
}

// == prove same_urn: with tables
//@ requires TEXT_VALID(p, n); assigns \nothing; ensures has_urn(p, n) <==> is_after_urn(p, n);
static void same_urn(const unsigned char *p, size_t n) {}

/* What is written is read, and what is read is written. */
/*@ requires TEXT_VALID(p, start + count) && start < 10;
    requires \valid_read(uuid + (0 .. 15)) && TEXT_VALID(text, 36) && is_text_of(text, uuid); assigns \nothing;
    ensures are_written(p, start, count, text)
        <==> are_uuid_digits(p, start, count) && are_digits_of{Here, Here}(p, start, count, uuid);
*/
static void same_digits(const unsigned char *p, size_t start, size_t count, const unsigned char *uuid,
                        const unsigned char *text) {
    if (count != 32 && count != 36) return;
    /*@ loop invariant 0 <= k <= 16;
        loop invariant \forall integer j; 0 <= j < k ==> (is_pair(p, start + pair_index(j, count), text, j)
            <==> hexadecimal_value(p[start + pair_index(j, count)]) == uuid[j] / 16
                && hexadecimal_value(p[start + pair_index(j, count) + 1]) == uuid[j] % 16);
        loop assigns k; loop variant 16 - k; */
    for (size_t k = 0; k < 16; k++) {}
}

/* Behind braces or urn:uuid: the digits do not begin at once, so no string is of two kinds. None that is read is rejected. */
/*@ requires TEXT_VALID(p, n); assigns \nothing;
    ensures braces: is_in_braces(p, n) ==> !are_uuid_digits(p, 0, n) && !has_urn(p, n);
    ensures urn: has_urn(p, n) ==> !are_uuid_digits(p, 0, n);
    ensures read: are_uuid_digits(p, 0, n) || (is_in_braces(p, n) && are_uuid_digits(p, 1, n - 2))
        || (has_urn(p, n) && are_uuid_digits(p, 9, n - 9)) ==> is_uuid_string(p, n);
*/
static void one_kind(const unsigned char *p, size_t n) {
    same_urn(p, n);
    //@ assert first: are_uuid_digits(p, 0, n) ==> hexadecimal_value(p[0 + pair_index(0, n)]) < 16;
}

/* Of a string in braces, after urn:uuid: or alone the digits are read. Otherwise nothing is stored. */
#define READS(kind, start, count) \
    ensures kind ==> (\result == BASE62_OK <==> are_uuid_digits(BYTES(p), start, count)); \
    ensures kind && \result == BASE62_OK ==> are_digits_of{Post, Post}(BYTES(p), start, count, uuid);
#define IS_BARE (!has_urn(BYTES(p), n) && !is_in_braces(BYTES(p), n))
/*@ requires TEXT_VALID(p, n) && \valid(uuid + (0 .. 15)) && \separated(uuid + (0 .. 15), p + (0 .. n - 1));
    assigns uuid[0 .. 15];
    READS(has_urn(BYTES(p), n), 9, n - 9) READS(is_in_braces(BYTES(p), n), 1, n - 2) READS(IS_BARE, 0, n)
    ensures status: \result == BASE62_OK || \result == BASE62_INVALID_UUID;
    ensures nothing: \result != BASE62_OK ==> \forall integer k; 0 <= k < 16 ==> uuid[k] == \old(uuid[k]);
*/
base62_status read_uuid(const char *p, size_t n, unsigned char *uuid) {
    one_kind(BYTES(p), n);
    const base62_status status = base62_uuid_from_string(p, n, uuid);
    //@ assert same: \forall integer i; 0 <= i < n ==> BYTES(p)[i] == \at(BYTES(p)[i], Pre);
    return status;
}

/* A string is read as a UUID exactly if it is, in either case, what is written for it, with the hyphens or without any:
   alone, in braces or after urn:uuid:. */
/*@ requires \valid_read(uuid + (0 .. 15)) && TEXT_VALID(p, n) && TEXT_VALID(text, 36) && is_text_of(text, uuid);
    assigns \nothing;
    ensures \result == 1 <==> are_written(BYTES(p), 0, n, text)
        || (n > 1 && p[0] == '{' && p[n - 1] == '}' && are_written(BYTES(p), 1, n - 2, text))
        || (is_after_urn(BYTES(p), n) && are_written(BYTES(p), 9, n - 9, text));
*/
int one_uuid(const unsigned char *uuid, const unsigned char *text, const char *p, size_t n) {
    unsigned char again[16];
    const int is_read = read_uuid(p, n, again) == BASE62_OK;
    same_urn(BYTES(p), n);
    one_kind(BYTES(p), n);
    same_digits(BYTES(p), 0, n, uuid, text);
    const size_t inner = n - 2, rest = n - 9;
    //@ assert inner: n > 1 ==> inner == n - 2;
    //@ assert rest: n > 8 ==> rest == n - 9;
    if (n > 1) same_digits(BYTES(p), 1, inner, uuid, text);
    if (n > 8) same_digits(BYTES(p), 9, rest, uuid, text);
    return is_read && compare((const char *)again, (const char *)uuid, 16) == 0;
}
