#include "base62.h"
#include <stdio.h>

int main(void) {
    char text[BASE62_MAX_DIGITS];
    unsigned char uuid[BASE62_UUID_LENGTH];
    base62_number number;
    base62_bad_byte bad;
    printf("%.*s\n", (int)base62_encode(base62_from_u64(1337), text, sizeof text), text);
    if (base62_decode("LZ", 2, &number, &bad) == BASE62_OK) printf("%d\n", (int)number.low);
    if (base62_uuid_from_string("017f22e2-79b0-7cc3-98c4-dc0c0c07398f", 36, uuid) != BASE62_OK) return 1;
    base62_encode_key(base62_from_uuid(uuid), text);
    printf("%.22s\n", text);
    return 0;
}
