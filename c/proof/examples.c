/* The texts of errors, proved from base62.acsl as the laws are: their first and last bytes, and all that names a byte and
   an index. The escapes are those of Rust's ascii::escape_default. */
#define SHORT(byte, letter) (escape_length(byte) == 2 && escape_byte(byte, 0) == '\\' && escape_byte(byte, 1) == letter)
#define HEXADECIMAL(digit) (digit < 10 ? 48 + digit : 87 + digit)
/*@ assigns \nothing;
    ensures two: SHORT(9, 't') && SHORT(10, 'n') && SHORT(13, 'r') && SHORT(34, '"') && SHORT(39, '\'');
    ensures backslash: SHORT(92, '\\');
    ensures one: 32 <= byte <= 126 && byte != 34 && byte != 39 && byte != 92 ==>
        escape_length(byte) == 1 && escape_byte(byte, 0) == byte;
    ensures four: (byte < 32 || byte > 126) && byte != 9 && byte != 10 && byte != 13 ==>
        escape_length(byte) == 4 && escape_byte(byte, 0) == '\\' && escape_byte(byte, 1) == 'x'
        && escape_byte(byte, 2) == HEXADECIMAL(byte / 16) && escape_byte(byte, 3) == HEXADECIMAL(byte % 16);
*/
void escape(unsigned char byte) {}

/* The least count of decimal digits that is enough, at most 20. */
/*@ assigns \nothing; ensures result: \result == decimal_length(number) && 1 <= \result <= 20;
    ensures enough: without_decimals(number, \result) == 0;
    ensures least: \result > 1 ==> without_decimals(number, \result - 1) > 0;
    ensures within: \forall integer k; 0 <= k <= \result ==> 0 <= without_decimals(number, k) <= number;
*/
static size_t compute_decimals(size_t number) {
    size_t length = 1, left = number / 10;
    //@ assert twenty: without_decimals(UINT64_MAX, 20) == 0;
    /*@ loop invariant 1 <= length <= 20 && decimal_length(number) == decimal_from(number, length);
        loop invariant left == without_decimals(number, length) && 0 <= left <= without_decimals(UINT64_MAX, length);
        loop invariant length > 1 ==> without_decimals(number, length - 1) > 0;
        loop invariant \forall integer k; 0 <= k <= length ==> 0 <= without_decimals(number, k) <= number;
        loop assigns length, left; loop variant 20 - length; */
    while (length < 20 && left > 0) {
        left /= 10;
        length++;
    }
    return length;
}

/* The index stands behind the text, in decimal. */
//@ assigns \nothing; ensures \result == bad.index;
size_t index_again(base62_bad_byte bad) {
    char text[BASE62_MAX_ERROR_MESSAGE];
    size_t again = 0;
    const size_t count = compute_decimals(bad.index);
    const size_t length = base62_error_message(BASE62_INVALID_BYTE, bad, text, sizeof text);
    /*@ loop invariant 0 <= i <= count && again == without_decimals(bad.index, count - i);
        loop assigns i, again; loop variant count - i; */
    for (size_t i = 0; i < count; i++) {
        //@ assert byte: text[length - count + i] == decimal_byte(bad.index, i);
        again = again * 10 + (size_t)(text[length - count + i] - '0');
    }
    return again;
}

/* The text of a status, by its length and its first and last byte. One that names the bad byte goes on from a start. */
#define LENGTH(n) (\result == 0 ? size < n : \result == n)
#define TEXT_OF(of, n, first, last) \
    (status == of ==> LENGTH(n) && (\result > 0 ==> buffer[0] == first && buffer[n - 1] == last))
#define NAMED(start) (start + 18 + escape_length(bad.byte) + decimal_length(bad.index))
#define TEXT_THAT_NAMES(of, start, first) \
    (status == of ==> LENGTH(NAMED(start))) && (\result > 0 && status == of ==> \
    buffer[0] == first && buffer[start - 1] == ' ' && buffer[start] == 'b' && buffer[start + 6] == '\'' \
    && buffer[start + 7 + escape_length(bad.byte)] == '\'' && buffer[start + 17 + escape_length(bad.byte)] == ' ' \
    && (\forall integer i; 0 <= i < escape_length(bad.byte) ==> buffer[start + 7 + i] == escape_byte(bad.byte, i)) \
    && \forall integer i; 0 <= i < decimal_length(bad.index) ==> \
        buffer[NAMED(start) - decimal_length(bad.index) + i] == decimal_byte(bad.index, i))

/* A text is written whole, and nothing behind it, if there is room. 0 and numbers from 11 on have none. */
// == prove texts_by_example: with tables
/*@ requires \valid(buffer + (0 .. size - 1));
    assigns buffer[0 .. size - 1];
    ensures longest: \result <= BASE62_MAX_ERROR_MESSAGE;
    ensures roomy: size >= BASE62_MAX_ERROR_MESSAGE && 1 <= status <= 10 ==> \result > 0;
    ensures none: status == 0 || status > 10 ==> \result == 0;
    ensures stays: \forall integer i; \result <= i < size ==> buffer[i] == \old(buffer[i]);
    ensures too_small: TEXT_OF(1, 37, 'B', 'r');
    ensures empty: TEXT_OF(2, 32, 'E', 'g');
    ensures bad: TEXT_THAT_NAMES(3, 35, 'E');
    ensures overflow: TEXT_OF(4, 31, 'D', 'e');
    ensures no_match: TEXT_OF(5, 46, 'N', 'x');
    ensures repeated: TEXT_THAT_NAMES(6, 21, 'A');
    ensures leading_zero: TEXT_OF(7, 32, 'E', 'o');
    ensures wrong_length: TEXT_OF(8, 43, 'E', 'h');
    ensures invalid_uuid: TEXT_OF(9, 10, 'N', 'D');
    ensures out_of_range: TEXT_OF(10, 22, 'N', 'e');
*/
size_t texts_by_example(base62_status status, base62_bad_byte bad, char *buffer, size_t size) {
    compute_decimals(bad.index);
    return base62_error_message(status, bad, buffer, size);
}
