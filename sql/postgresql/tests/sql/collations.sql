-- Keys in a database that sorts by the rules of a language, of a user who is not a superuser.
SET client_min_messages = warning;
DROP DATABASE IF EXISTS contrib_regression_language;
DROP ROLE IF EXISTS regress_base62;
CREATE ROLE regress_base62;
CREATE DATABASE contrib_regression_language OWNER regress_base62 TEMPLATE template0 ENCODING 'UTF8'
    LOCALE_PROVIDER icu ICU_LOCALE 'en-US' LOCALE 'C';
\c contrib_regression_language
SET SESSION AUTHORIZATION regress_base62;
-- The script runs as a superuser, so it must not call a function of the user.
CREATE FUNCTION format(text, text, text, text) RETURNS text LANGUAGE plpgsql AS $$ BEGIN RAISE 'called'; END $$;
CREATE EXTENSION base62;
SELECT 'a' < 'B' language, 'a' < 'B' COLLATE "C" bytes;

CREATE TABLE item (u uuid PRIMARY KEY, key base62_key GENERATED ALWAYS AS (base62_encode_uuid_key(u)) STORED UNIQUE);
CREATE TABLE plain (u uuid, key text PRIMARY KEY, declared text COLLATE "en-x-icu", bytes text COLLATE "C" UNIQUE);
INSERT INTO item SELECT md5(i::text)::uuid FROM generate_series(1, 20000) i;
INSERT INTO item SELECT lpad(to_hex(i), 32, '0')::uuid FROM generate_series(0, 100) i;
INSERT INTO plain SELECT u, key, key, key FROM item;
ANALYZE item, plain;

\echo The collations of results
\set own '\'zyxwvutsrqponmlkjihgfedcbaZYXWVUTSRQPONMLKJIHGFEDCBA9876543210\''
SELECT pg_collation_for(base62_encode_key(1)) key, pg_collation_for(base62_encode_fixed(1, 5, :own::text)) fixed,
    pg_collation_for(base62_first_string('1'::text)) first, pg_collation_for(base62_last_string('1'::text, 4)) last,
    pg_collation_for(base62_encode(1)) encoded;

\echo Keys sort in numeric order
SELECT count(*) FROM (SELECT u, lag(u) OVER (ORDER BY key) p FROM item) i WHERE p >= u;

\echo Prefixes that no row has, or for which BETWEEN, LIKE or UUIDs find other rows
SELECT p FROM item, unnest(ARRAY['2', '7n', '1a', '0000000', '']) p, starts_with(key, p) has GROUP BY p
    HAVING NOT bool_or(has) OR bool_or(has <> (key BETWEEN base62_first_string(p) AND base62_last_string(p)))
        OR bool_or(has <> (key LIKE p || '%')) OR bool_or(has <>
            (u BETWEEN base62_decode_uuid_key(base62_first_string(p)) AND base62_decode_uuid_key(base62_last_string(p))));

\echo Variables and results of functions with a text parameter, and with a parameter of the type
CREATE FUNCTION of_text(p text, OUT bare boolean, OUT declared boolean) LANGUAGE plpgsql AS $$
DECLARE a base62_key := base62_encode_key(11); b base62_key := base62_encode_key(36);
    c base62_key COLLATE "C" := a; d base62_key COLLATE "C" := b;
BEGIN bare := a < b; declared := c < d; END $$;
CREATE FUNCTION of_key(p base62_key) RETURNS boolean LANGUAGE plpgsql AS $$
DECLARE a base62_key := base62_encode_key(11); b base62_key := base62_encode_key(36);
BEGIN RETURN a < b; END $$;
CREATE FUNCTION key_of_text(p text) RETURNS base62_key LANGUAGE plpgsql AS $$ BEGIN RETURN base62_encode_key(11); END $$;
CREATE FUNCTION key_of_key(p base62_key) RETURNS base62_key LANGUAGE plpgsql AS $$ BEGIN RETURN base62_encode_key(11); END $$;
SELECT *, of_key('x'), pg_collation_for(key_of_text('x')), pg_collation_for(key_of_key('x')) FROM of_text('x');

\echo In text columns: the functions, an index, and a declared collation
SELECT count(*) FILTER (WHERE starts_with(key, '2a')) - count(*) FILTER
    (WHERE key BETWEEN base62_first_string('2a') AND base62_last_string('2a'::text)) "between" FROM plain;
SET enable_bitmapscan = off;
EXPLAIN (COSTS off) SELECT * FROM plain WHERE key BETWEEN base62_first_string('2a') AND base62_last_string('2a');
EXPLAIN (COSTS off) SELECT * FROM plain WHERE bytes BETWEEN base62_first_string('2a') AND base62_last_string('2a');
CREATE INDEX plain_key ON plain (key COLLATE "C");
EXPLAIN (COSTS off) SELECT * FROM plain WHERE key BETWEEN base62_first_string('2a') AND base62_last_string('2a');
\set VERBOSITY sqlstate
SELECT count(*) FROM plain WHERE declared BETWEEN base62_first_string('2a') AND base62_last_string('2a');
SELECT count(*) FILTER (WHERE starts_with(key, '2a')) - count(*) FILTER
    (WHERE declared COLLATE "C" BETWEEN base62_first_string('2a') AND base62_last_string('2a')) declared FROM plain;
