/*
 * Calls each function on the rows of the file that the command names, and compares its results and all it writes. The
 * first lines of the file say what its rows mean. What a function reads or writes begins, and then ends, at
 * inaccessible guard pages.
 */
#define _DEFAULT_SOURCE
#include <base62.h>

#include <string.h>

#include "guard_pages.h"

enum { LINE = 1024, MOST_FIELDS = 8, MOST_ALPHABETS = 8 };

/* What the file calls the statuses, by their numbers in this major version, which are compiled into callers too. */
static const char *const statuses[] = {"",         "narrow", "empty",  "byte", "overflow", "none",
                                       "repeated", "zero",   "length", "uuid", "wide"};
enum { STATUSES = sizeof statuses / sizeof *statuses };

/* What stands at a byte and at a number that no call has written. */
#define FILLER 0xa5
#define UNWRITTEN UINT64_C(0xa5a5a5a5a5a5a5a5)

/* The row, its fields, and whether arguments lie at the end of guarded memory, or at its start. */
static unsigned long row_number;
static char row[LINE];
static char *fields[MOST_FIELDS];
static size_t field_count;
static int at_end;

static void expect_of_row(int holds, const char *what) {
    if (!holds) fprintf(stderr, "row %lu, %s: ", row_number, fields[0]);
    expect(holds, what);
}

static void split_row(void) {
    row[strcspn(row, "\r\n")] = 0;
    field_count = 0;
    for (char *field = row; field != NULL && field_count < MOST_FIELDS; field_count++) {
        fields[field_count] = field;
        field = strchr(field, '\t');
        if (field != NULL) *field++ = 0;
    }
}

static base62_number number_field(size_t i) {
    base62_number number = {0, 0};
    for (const char *digit = fields[i]; *digit != 0; digit++) {
        const uint64_t low = (number.low & 0xffffffff) * 10 + (uint64_t)(*digit - '0');
        const uint64_t middle = (number.low >> 32) * 10 + (low >> 32);
        number.high = number.high * 10 + (middle >> 32);
        number.low = middle << 32 | (low & 0xffffffff);
    }
    return number;
}

/* Whether a field is an index or a width of this machine. */
static int is_size(size_t i) {
    const base62_number number = number_field(i);
    return number.high == 0 && number.low <= SIZE_MAX;
}

static size_t size_field(size_t i) {
    expect_of_row(is_size(i), "the number is too large");
    return (size_t)number_field(i).low;
}

/* Writes the bytes of a text. Returns its length. */
static size_t text_field(size_t i, char *text) {
    size_t length = 0;
    for (const char *c = fields[i]; *c != 0; length++) {
        if (*c == '%') {
            const char pair[3] = {c[1], c[2], 0};
            text[length] = (char)strtoul(pair, NULL, 16);
            c += 3;
        } else {
            text[length] = *c++;
        }
    }
    return length;
}

/* Guarded memory for what calls read, and for what they write. */
static char *readable, *written;

/* Copies a text to where just its bytes can be read. */
static const char *copy_guarded(const char *text, size_t length) {
    return memcpy(place_in(readable, at_end, length), text, length);
}

/* A place for so many bytes, of one value. */
static char *fresh(size_t size) { return memset(place_in(written, at_end, size), FILLER, size); }

/* A call has returned the length, and has written the text at the start of the place, and no other byte. */
static void expect_text(size_t returned, size_t size, const char *text, size_t length, const char *call) {
    const char *place = place_in(written, at_end, size);
    expect_of_row(returned == length, call);
    expect_of_row(memcmp(place, text, length) == 0, "the text");
    for (size_t i = length; i < size; i++) expect_of_row((unsigned char)place[i] == FILLER, "another byte is written");
}

static int same(base62_number a, base62_number b) { return a.high == b.high && a.low == b.low; }

/* What a call writes besides its status. */
struct results {
    base62_number number;
    base62_range range;
    base62_bad_byte bad;
};

static const struct results unwritten = {
    {UNWRITTEN, UNWRITTEN}, {{UNWRITTEN, UNWRITTEN}, {UNWRITTEN, UNWRITTEN}}, {(size_t)UNWRITTEN, FILLER}};

/* What a call has written. */
static struct results stored;

/* A call has returned the status and has written these results. Resets them for the next call. */
static void expect_results(base62_status returned, base62_status status, struct results wanted, const char *call) {
    expect_of_row(returned == status, call);
    expect_of_row(same(stored.number, wanted.number), "the number");
    expect_of_row(same(stored.range.least, wanted.range.least), "the least number");
    expect_of_row(same(stored.range.greatest, wanted.range.greatest), "the greatest number");
    expect_of_row(stored.bad.byte == wanted.bad.byte && stored.bad.index == wanted.bad.index, "the bad byte");
    stored = unwritten;
}

/* The status of a word. Writes the numbers, or the byte and the index, that follow it. */
static base62_status status_field(size_t i, struct results *wanted) {
    size_t status = STATUSES - 1;
    while (status > BASE62_OK && strcmp(fields[i], statuses[status]) != 0) status--;
    if (status == BASE62_INVALID_BYTE || status == BASE62_REPEATED_CHARACTER)
        wanted->bad = (base62_bad_byte){size_field(i + 2), (unsigned char)size_field(i + 1)};
    else if (strcmp(fields[i], "number") == 0)
        wanted->number = number_field(i + 1);
    else if (strcmp(fields[i], "numbers") == 0)
        wanted->range = (base62_range){number_field(i + 1), number_field(i + 2)};
    else
        expect_of_row(status > BASE62_OK, "no such status");
    return (base62_status)status;
}

/* An alphabet of the file, at the start and at the end of read-only memory. The built-in ones are its first. They have
 * characters and functions of their own, the alternative one only these two. */
struct named {
    char name[32];
    const base62_alphabet *made[2];
    const char *letters;
    size_t (*encode)(base62_number, char *, size_t);
    base62_status (*decode)(const char *, size_t, base62_number *, base62_bad_byte *);
};

static struct named alphabets[MOST_ALPHABETS] = {
    {"standard", {NULL, NULL}, BASE62_STANDARD_ALPHABET, base62_encode, base62_decode},
    {"alternative", {NULL, NULL}, BASE62_ALTERNATIVE_ALPHABET, base62_encode_alternative, base62_decode_alternative},
};
static const struct named *const standard = &alphabets[0];
static size_t alphabet_count;

static const struct named *alphabet_field(size_t i) {
    for (size_t k = 0; k < alphabet_count; k++)
        if (strcmp(alphabets[k].name, fields[i]) == 0) return &alphabets[k];
    expect_of_row(0, "no such alphabet");
    return NULL;
}

/* Makes the alphabet where all bytes are 0, as the digits of no letter but one. */
static void check_alphabet(void) {
    char letters[LINE];
    struct named *alphabet = &alphabets[alphabet_count];
    char *memory = map_guarded();
    base62_alphabet *made = (base62_alphabet *)place_in(memory, at_end, sizeof *made);
    expect_of_row(alphabet_count < MOST_ALPHABETS && strlen(fields[1]) < sizeof alphabet->name, "the alphabets");
    expect_of_row(text_field(2, letters) == BASE62_ALPHABET_LENGTH, "the count of letters");
    expect_of_row(alphabet->letters == NULL || strcmp(alphabet->name, fields[1]) == 0, "the name");
    expect_of_row(alphabet->letters == NULL || memcmp(letters, alphabet->letters, 62) == 0, "the letters");
    expect_results(base62_alphabet_init(made, copy_guarded(letters, 62), &stored.bad), BASE62_OK, unwritten,
                   "alphabet_init");
    set_read_only(memory);
    strcpy(alphabet->name, fields[1]);
    alphabet->made[at_end] = made;
    alphabet_count += (size_t)at_end;
}

static void check_repeated(void) {
    char letters[LINE];
    struct results wanted = unwritten;
    base62_alphabet *place = (base62_alphabet *)fresh(sizeof *place);
    text_field(1, letters);
    wanted.bad = (base62_bad_byte){size_field(3), (unsigned char)size_field(2)};
    expect_results(base62_alphabet_init(place, copy_guarded(letters, 62), &stored.bad), BASE62_REPEATED_CHARACTER,
                   wanted, "alphabet_init");
    expect_text(0, sizeof *place, "", 0, "no alphabet");
}

/* Expects these results of decoding and of canonical decoding, as a custom alphabet and as a built-in one. */
static void expect_decoded(const char *text, size_t length, base62_status wanted, base62_status wanted_canonical,
                           struct results results) {
    const struct named *alphabet = alphabet_field(1);
    const base62_alphabet *own = alphabet->made[at_end];
    const char *from = copy_guarded(text, length);
    const struct results canonical = wanted_canonical == wanted ? results : unwritten;
    expect_results(base62_decode_with(own, from, length, &stored.number, &stored.bad), wanted, results, "decode_with");
    expect_results(base62_decode_canonical_with(own, from, length, &stored.number, &stored.bad), wanted_canonical,
                   canonical, "decode_canonical_with");
    if (alphabet->letters == NULL) return;
    expect_results(alphabet->decode(from, length, &stored.number, &stored.bad), wanted, results, "decode");
    if (alphabet == standard)
        expect_results(base62_decode_canonical(from, length, &stored.number, &stored.bad), wanted_canonical, canonical,
                       "decode_canonical");
}

static void expect_number(const char *text, size_t length, base62_status wanted_canonical, base62_number number) {
    struct results wanted = unwritten;
    wanted.number = number;
    expect_decoded(text, length, BASE62_OK, wanted_canonical, wanted);
}

/* What the header has inline. */
static void check_inline(base62_number number) {
    const base62_number short_one = base62_from_u64(number.low);
    uint64_t value = UNWRITTEN;
    expect_of_row(short_one.high == 0 && short_one.low == number.low, "from_u64");
    expect_of_row(base62_to_u64(number, &value) == (number.high == 0 ? BASE62_OK : BASE62_OUT_OF_RANGE), "to_u64");
    expect_of_row(value == (number.high == 0 ? number.low : UNWRITTEN), "the value of to_u64");
#ifdef __SIZEOF_INT128__
    const base62_u128 wide = base62_to_u128(number);
    expect_of_row((uint64_t)(wide >> 64) == number.high && (uint64_t)wide == number.low, "to_u128");
    expect_of_row(same(base62_from_u128(wide), number), "from_u128");
#endif
}

/* The lengths of the longest texts of the rows, which are those of the header. */
static size_t most_digits, longest_message;

/* The text in a buffer of each size, just too small ones too. */
static void check_encode(void) {
    char text[LINE];
    const struct named *alphabet = alphabet_field(1);
    const base62_number number = number_field(2);
    const size_t length = text_field(3, text);
    most_digits = length > most_digits ? length : most_digits;
    for (size_t size = 0; size <= BASE62_MAX_DIGITS + 2; size++) {
        const size_t wanted = size < length ? 0 : length;
        expect_text(base62_encode_with(alphabet->made[at_end], number, fresh(size), size), size, text, wanted,
                    "encode_with");
        if (alphabet->letters != NULL)
            expect_text(alphabet->encode(number, fresh(size), size), size, text, wanted, "encode");
    }
    expect_of_row(base62_digit_count(number) == length, "digit_count");
    expect_number(text, length, BASE62_OK, number);
    check_inline(number);
}

static void check_zeros(void) {
    char text[LINE];
    const size_t length = text_field(2, text);
    expect_number(text, length, BASE62_NOT_CANONICAL, number_field(3));
}

static void check_decode_error(void) {
    char text[LINE];
    struct results wanted = unwritten;
    const size_t length = text_field(2, text);
    const base62_status status = status_field(3, &wanted);
    expect_decoded(text, length, status, status, wanted);
}

/* Without a text, the number has none of the width. */
static void check_fixed(void) {
    char text[LINE];
    const struct named *alphabet = alphabet_field(1);
    const base62_number number = number_field(2);
    const size_t width = size_field(3), length = field_count > 4 ? text_field(4, text) : 0;
    expect_text(base62_encode_fixed_with(alphabet->made[at_end], number, fresh(width), width), width, text, length,
                "encode_fixed_with");
    if (alphabet == standard)
        expect_text(base62_encode_fixed(number, fresh(width), width), width, text, length, "encode_fixed");
    if (field_count == 4) return;
    if (alphabet == standard && width == BASE62_KEY_LENGTH) {
        base62_encode_key(number, fresh(width));
        expect_text(width, width, text, length, "encode_key");
    }
    const int is_canonical = base62_digit_count(number) == width;
    expect_number(text, length, is_canonical ? BASE62_OK : BASE62_NOT_CANONICAL, number);
}

/* A text of another length is not read: here it is in a guard page. */
static void check_decode_fixed(void) {
    char text[LINE];
    struct results wanted = unwritten;
    const struct named *alphabet = alphabet_field(1);
    if (!is_size(2)) return;
    const size_t width = size_field(2), length = text_field(3, text);
    const char *from = copy_guarded(text, length);
    const base62_status status = status_field(4, &wanted);
    if (status == BASE62_WRONG_LENGTH) from = written + GUARDED;
    expect_results(base62_decode_fixed_with(alphabet->made[at_end], from, length, width, &stored.number, &stored.bad),
                   status, wanted, "decode_fixed_with");
    if (alphabet != standard) return;
    expect_results(base62_decode_fixed(from, length, width, &stored.number, &stored.bad), status, wanted,
                   "decode_fixed");
    if (width == BASE62_KEY_LENGTH)
        expect_results(base62_decode_key(from, length, &stored.number, &stored.bad), status, wanted, "decode_key");
}

static void check_range(void) {
    char prefix[LINE];
    struct results wanted = unwritten;
    const struct named *alphabet = alphabet_field(1);
    if (!is_size(2)) return;
    const size_t width = size_field(2), length = text_field(3, prefix);
    const char *from = copy_guarded(prefix, length);
    const base62_status status = status_field(4, &wanted);
    expect_results(base62_prefix_range_with(alphabet->made[at_end], from, length, width, &stored.range, &stored.bad),
                   status, wanted, "prefix_range_with");
    if (alphabet != standard) return;
    expect_results(base62_prefix_range(from, length, width, &stored.range, &stored.bad), status, wanted,
                   "prefix_range");
    if (width == BASE62_KEY_LENGTH)
        expect_results(base62_key_range(from, length, &stored.range, &stored.bad), status, wanted, "key_range");
}

/* Writes the bytes of a UUID in lowercase with hyphens. */
static void uuid_field(size_t i, char *bytes) {
    const char *c = fields[i];
    for (size_t k = 0; k < BASE62_UUID_LENGTH; k++, c += 2) {
        c += *c == '-';
        const char pair[3] = {c[0], c[1], 0};
        bytes[k] = (char)strtoul(pair, NULL, 16);
    }
}

static void check_uuid(void) {
    const base62_number number = number_field(1);
    char bytes[BASE62_UUID_LENGTH];
    uuid_field(2, bytes);
    const unsigned char *from = (const unsigned char *)copy_guarded(bytes, sizeof bytes);
    expect_of_row(same(base62_from_uuid(from), number), "from_uuid");
    base62_to_uuid(number, (unsigned char *)fresh(sizeof bytes));
    expect_text(sizeof bytes, sizeof bytes, bytes, sizeof bytes, "to_uuid");
}

/* The text in a buffer of each size, just too small ones too. */
static void check_message(void) {
    char text[LINE];
    struct results of_row = unwritten;
    const size_t length = text_field(1, text);
    if (field_count > 4 && !is_size(4)) return;
    const base62_status status = status_field(2, &of_row);
    longest_message = length > longest_message ? length : longest_message;
    for (size_t size = 0; size <= BASE62_MAX_ERROR_MESSAGE + 2; size++) {
        const size_t wanted = size < length ? 0 : length;
        expect_text(base62_error_message(status, of_row.bad, fresh(size), size), size, text, wanted, "error_message");
    }
}

static void check_uuid_string(void) {
    char string[LINE], bytes[BASE62_UUID_LENGTH];
    const size_t length = text_field(1, string);
    const char *from = copy_guarded(string, length);
    unsigned char *uuid = (unsigned char *)fresh(sizeof bytes);
    const base62_status status = base62_uuid_from_string(from, length, uuid);
    if (strcmp(fields[2], "none") == 0) {
        expect_of_row(status == BASE62_INVALID_UUID, "uuid_from_string");
        expect_text(0, sizeof bytes, "", 0, "no UUID");
        return;
    }
    uuid_field(2, bytes);
    expect_of_row(status == BASE62_OK, "uuid_from_string");
    expect_text(sizeof bytes, sizeof bytes, bytes, sizeof bytes, "the UUID");
    base62_uuid_to_string((const unsigned char *)copy_guarded(bytes, sizeof bytes), fresh(BASE62_UUID_STRING_LENGTH));
    expect_text(BASE62_UUID_STRING_LENGTH, BASE62_UUID_STRING_LENGTH, fields[2], BASE62_UUID_STRING_LENGTH,
                "uuid_to_string");
}

/* Messages of the other packages have hints. */
static void check_hint(void) {}

static struct {
    const char *name;
    void (*check)(void);
} kinds[] = {
    {"alphabet", check_alphabet},
    {"repeated", check_repeated},
    {"encode", check_encode},
    {"zeros", check_zeros},
    {"decode_error", check_decode_error},
    {"fixed", check_fixed},
    {"too_narrow", check_fixed},
    {"range", check_range},
    {"uuid", check_uuid},
    {"message", check_message},
    {"uuid_string", check_uuid_string},
    {"decode_fixed", check_decode_fixed},
    {"hint", check_hint},
};
enum { KINDS = sizeof kinds / sizeof *kinds };

static void check_row(void) {
    size_t k = 0;
    split_row();
    while (k < KINDS && strcmp(fields[0], kinds[k].name) != 0) k++;
    expect_of_row(k < KINDS, "c/tests/values.c checks no such rows");
    for (at_end = 0; at_end < 2; at_end++) kinds[k].check();
}

/* What has no row: statuses without a text, the constants of the header, and the size of an alphabet in this major version,
 * which callers of the shared library allocate. */
static void check_rest(void) {
    const base62_status none[] = {BASE62_OK, (base62_status)STATUSES, (base62_status)-1};
    for (size_t i = 0; i < sizeof none / sizeof *none; i++)
        expect(base62_error_message(none[i], unwritten.bad, fresh(100), 100) == 0, "the text of no status");
    expect(base62_version_number() == BASE62_VERSION_NUMBER, "the version");
    expect(sizeof(base62_alphabet) == 318, "the size of an alphabet");
    expect(most_digits == BASE62_MAX_DIGITS, "BASE62_MAX_DIGITS");
    expect(sizeof(size_t) < 8 || longest_message == BASE62_MAX_ERROR_MESSAGE, "BASE62_MAX_ERROR_MESSAGE");
}

int main(int count, char **words) {
    FILE *file = fopen(count == 2 ? words[1] : "", "r");
    expect(file != NULL, "usage: values FILE");
    readable = map_guarded();
    written = map_guarded();
    stored = unwritten;
    while (fgets(row, sizeof row, file) != NULL) {
        row_number++;
        if (row[0] != '#') check_row();
    }
    check_rest();
    printf("%lu rows hold\n", row_number);
    return 0;
}
