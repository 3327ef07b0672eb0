-- SPDX-License-Identifier: MIT
-- Copyright (c) 2026 the maintainers of base62 for Rattle
-- Never changes once it is released: a later version has a script of its own.
\echo Use "CREATE EXTENSION base62" to load this file. \quit

-- Keys sort as their numbers by bytes alone, so they have the collation that compares bytes.
CREATE DOMAIN base62_key AS text COLLATE pg_catalog."C";
COMMENT ON DOMAIN base62_key IS 'text that is compared byte by byte, as keys are';

CREATE FUNCTION base62_version() RETURNS text
    AS 'MODULE_PATHNAME', 'pg_base62_version' LANGUAGE c STABLE STRICT PARALLEL SAFE;
COMMENT ON FUNCTION base62_version() IS 'the version of the library that is installed';

-- The other functions, each with its result and its description. Where the result is a key, so are an alphabet and a prefix:
-- a result has the collation of its arguments, and would otherwise be compared by that of a language. Another schema of the
-- search path may have a function `format` too.
DO $script$
DECLARE
    signature text; result text; description text;
BEGIN
    FOR signature, result, description IN VALUES
        ('base62_encode(number bigint)', 'text', 'the shortest base62 string of a number'),
        ('base62_encode(number bigint, alphabet text)', 'text', 'the shortest string of a number in an alphabet'),
        ('base62_encode_uuid(id uuid)', 'text', 'the shortest base62 string of a UUID'),
        ('base62_encode_uuid(id uuid, alphabet text)', 'text', 'the shortest string of a UUID in an alphabet'),
        ('base62_encode_numeric(number numeric)', 'text', 'the shortest base62 string of a numeric'),
        ('base62_encode_numeric(number numeric, alphabet text)', 'text', 'the shortest string of a numeric in an alphabet'),
        ('base62_encode_key(number bigint)', 'base62_key', 'the base62 string of a number, 22 characters wide'),
        ('base62_encode_uuid_key(id uuid)', 'base62_key', 'the base62 string of a UUID, 22 characters wide'),
        ('base62_encode_numeric_key(number numeric)', 'base62_key', 'the base62 string of a numeric, 22 characters wide'),
        ('base62_encode_fixed(number bigint, width integer)', 'base62_key', 'the base62 string of a number at a width'),
        ('base62_encode_fixed(number bigint, width integer, alphabet base62_key)', 'base62_key',
            'the string of a number at a width in an alphabet'),
        ('base62_encode_uuid_fixed(id uuid, width integer)', 'base62_key', 'the base62 string of a UUID at a width'),
        ('base62_encode_uuid_fixed(id uuid, width integer, alphabet base62_key)', 'base62_key',
            'the string of a UUID at a width in an alphabet'),
        ('base62_encode_numeric_fixed(number numeric, width integer)', 'base62_key', 'the base62 string of a numeric at a width'),
        ('base62_encode_numeric_fixed(number numeric, width integer, alphabet base62_key)', 'base62_key',
            'the string of a numeric at a width in an alphabet'),
        ('base62_decode(encoded text)', 'bigint', 'the number of a base62 string'),
        ('base62_decode(encoded text, alphabet text)', 'bigint', 'the number of a string in an alphabet'),
        ('base62_decode_uuid(encoded text)', 'uuid', 'the UUID of a base62 string'),
        ('base62_decode_uuid(encoded text, alphabet text)', 'uuid', 'the UUID of a string in an alphabet'),
        ('base62_decode_numeric(encoded text)', 'numeric', 'the numeric of a base62 string'),
        ('base62_decode_numeric(encoded text, alphabet text)', 'numeric', 'the numeric of a string in an alphabet'),
        ('base62_decode_canonical(encoded text)', 'bigint', 'the number of a shortest base62 string'),
        ('base62_decode_canonical(encoded text, alphabet text)', 'bigint', 'the number of a shortest string in an alphabet'),
        ('base62_decode_uuid_canonical(encoded text)', 'uuid', 'the UUID of a shortest base62 string'),
        ('base62_decode_uuid_canonical(encoded text, alphabet text)', 'uuid', 'the UUID of a shortest string in an alphabet'),
        ('base62_decode_numeric_canonical(encoded text)', 'numeric', 'the numeric of a shortest base62 string'),
        ('base62_decode_numeric_canonical(encoded text, alphabet text)', 'numeric',
            'the numeric of a shortest string in an alphabet'),
        ('base62_decode_fixed(encoded text, width integer)', 'bigint', 'the number of a base62 string of a width'),
        ('base62_decode_fixed(encoded text, width integer, alphabet text)', 'bigint',
            'the number of a string of a width in an alphabet'),
        ('base62_decode_uuid_fixed(encoded text, width integer)', 'uuid', 'the UUID of a base62 string of a width'),
        ('base62_decode_uuid_fixed(encoded text, width integer, alphabet text)', 'uuid',
            'the UUID of a string of a width in an alphabet'),
        ('base62_decode_numeric_fixed(encoded text, width integer)', 'numeric', 'the numeric of a base62 string of a width'),
        ('base62_decode_numeric_fixed(encoded text, width integer, alphabet text)', 'numeric',
            'the numeric of a string of a width in an alphabet'),
        ('base62_decode_key(encoded text)', 'bigint', 'the number of a base62 string of 22 characters'),
        ('base62_decode_uuid_key(encoded text)', 'uuid', 'the UUID of a base62 string of 22 characters'),
        ('base62_decode_numeric_key(encoded text)', 'numeric', 'the numeric of a base62 string of 22 characters'),
        ('base62_try_decode(encoded text)', 'bigint', 'the number of a base62 string, or null'),
        ('base62_try_decode(encoded text, alphabet text)', 'bigint', 'the number of a string in an alphabet, or null'),
        ('base62_try_decode_uuid(encoded text)', 'uuid', 'the UUID of a base62 string, or null'),
        ('base62_try_decode_uuid(encoded text, alphabet text)', 'uuid', 'the UUID of a string in an alphabet, or null'),
        ('base62_try_decode_numeric(encoded text)', 'numeric', 'the numeric of a base62 string, or null'),
        ('base62_try_decode_numeric(encoded text, alphabet text)', 'numeric', 'the numeric of a string in an alphabet, or null'),
        ('base62_try_decode_canonical(encoded text)', 'bigint', 'the number of a shortest base62 string, or null'),
        ('base62_try_decode_canonical(encoded text, alphabet text)', 'bigint',
            'the number of a shortest string in an alphabet, or null'),
        ('base62_try_decode_uuid_canonical(encoded text)', 'uuid', 'the UUID of a shortest base62 string, or null'),
        ('base62_try_decode_uuid_canonical(encoded text, alphabet text)', 'uuid',
            'the UUID of a shortest string in an alphabet, or null'),
        ('base62_try_decode_numeric_canonical(encoded text)', 'numeric', 'the numeric of a shortest base62 string, or null'),
        ('base62_try_decode_numeric_canonical(encoded text, alphabet text)', 'numeric',
            'the numeric of a shortest string in an alphabet, or null'),
        ('base62_try_decode_fixed(encoded text, width integer)', 'bigint', 'the number of a base62 string of a width, or null'),
        ('base62_try_decode_fixed(encoded text, width integer, alphabet text)', 'bigint',
            'the number of a string of a width in an alphabet, or null'),
        ('base62_try_decode_uuid_fixed(encoded text, width integer)', 'uuid', 'the UUID of a base62 string of a width, or null'),
        ('base62_try_decode_uuid_fixed(encoded text, width integer, alphabet text)', 'uuid',
            'the UUID of a string of a width in an alphabet, or null'),
        ('base62_try_decode_numeric_fixed(encoded text, width integer)', 'numeric',
            'the numeric of a base62 string of a width, or null'),
        ('base62_try_decode_numeric_fixed(encoded text, width integer, alphabet text)', 'numeric',
            'the numeric of a string of a width in an alphabet, or null'),
        ('base62_try_decode_key(encoded text)', 'bigint', 'the number of a base62 string of 22 characters, or null'),
        ('base62_try_decode_uuid_key(encoded text)', 'uuid', 'the UUID of a base62 string of 22 characters, or null'),
        ('base62_try_decode_numeric_key(encoded text)', 'numeric', 'the numeric of a base62 string of 22 characters, or null'),
        ('base62_is_valid(encoded text)', 'boolean', 'whether base62_decode_uuid accepts a string'),
        ('base62_is_valid(encoded text, alphabet text)', 'boolean', 'whether base62_decode_uuid accepts a string in an alphabet'),
        ('base62_is_canonical(encoded text)', 'boolean', 'whether a base62 string is canonical'),
        ('base62_is_canonical(encoded text, alphabet text)', 'boolean', 'whether a string in an alphabet is canonical'),
        ('base62_first_string(prefix base62_key)', 'base62_key', 'the first string of 22 characters that begins with a prefix'),
        ('base62_first_string(prefix base62_key, width integer)', 'base62_key',
            'the first string of a width that begins with a prefix'),
        ('base62_last_string(prefix base62_key)', 'base62_key', 'the last string of 22 characters that begins with a prefix'),
        ('base62_last_string(prefix base62_key, width integer)', 'base62_key',
            'the last string of a width that begins with a prefix'),
        ('base62_first_number(prefix text, width integer)', 'bigint', 'the first number whose string of a width has a prefix'),
        ('base62_first_number(prefix text, width integer, alphabet text)', 'bigint',
            'the first number with a prefix at a width in an alphabet'),
        ('base62_last_number(prefix text, width integer)', 'bigint', 'the last number whose string of a width has a prefix'),
        ('base62_last_number(prefix text, width integer, alphabet text)', 'bigint',
            'the last number with a prefix at a width in an alphabet'),
        ('base62_first_numeric(prefix text, width integer)', 'numeric', 'the first numeric whose string of a width has a prefix'),
        ('base62_first_numeric(prefix text, width integer, alphabet text)', 'numeric',
            'the first numeric with a prefix at a width in an alphabet'),
        ('base62_last_numeric(prefix text, width integer)', 'numeric', 'the last numeric whose string of a width has a prefix'),
        ('base62_last_numeric(prefix text, width integer, alphabet text)', 'numeric',
            'the last numeric with a prefix at a width in an alphabet')
    LOOP
        EXECUTE pg_catalog.format($$CREATE FUNCTION %s RETURNS %s AS 'MODULE_PATHNAME', 'pg_%s'
            LANGUAGE c IMMUTABLE STRICT PARALLEL SAFE$$, signature, result, pg_catalog.split_part(signature, '(', 1));
        EXECUTE pg_catalog.format('COMMENT ON FUNCTION %s IS %L', signature, description);
    END LOOP;
END $script$;
