-- Functions, their attributes and arguments, and custom alphabets that change.

CREATE VIEW functions AS SELECT p.*
    FROM pg_proc p JOIN pg_depend d ON (d.classid, d.objid, d.deptype) = ('pg_proc'::regclass, p.oid, 'e')
    JOIN pg_extension e ON (d.refclassid, d.refobjid, e.extname) = ('pg_extension'::regclass, e.oid, 'base62');
\echo Their attributes
SELECT DISTINCT provolatile, proisstrict, proparallel, proleakproof, prosecdef, substring(proname, 'version')
    FROM functions ORDER BY 1;
\echo No two share a name, unless an argument is optional; each has its own description, which names its type
SELECT proname FROM functions GROUP BY proname, pronargs HAVING count(*) > 1;
SELECT count(*) - count(DISTINCT obj_description(oid, 'pg_proc')), obj_description('base62_key'::regtype, 'pg_type')
    FROM functions;
SELECT oid::regprocedure FROM functions WHERE obj_description(oid, 'pg_proc') !~ CASE WHEN proname ~ '_uuid' THEN 'UUID'
    WHEN proname ~ 'numeric' THEN 'numeric' WHEN proname ~ 'code|number' THEN 'number' ELSE '' END;
SELECT oid::regprocedure FROM functions WHERE obj_description(oid, 'pg_proc') !~ substring(proname, 'first|last');
-- Each has calls in values.sql.
SELECT proname, pronargs FROM functions WHERE proname <> 'base62_version' EXCEPT SELECT name, arguments FROM call;
SELECT extrelocatable FROM pg_extension WHERE extname = 'base62';
SELECT string_agg(DISTINCT proargnames::text, ' ') FROM functions;
-- A key has the collation of no argument that is a text.
SELECT oid::regprocedure FROM functions WHERE prorettype = 'base62_key'::regtype AND 'text'::regtype = ANY (proargtypes);

\echo Arguments of no type, of a smaller one, by their names, and of other types
\set own '\'zyxwvutsrqponmlkjihgfedcbaZYXWVUTSRQPONMLKJIHGFEDCBA9876543210\''
\set alternative '\'0123456789abcdefghijklmnopqrstuvwxyzABCDEFGHIJKLMNOPQRSTUVWXYZ\''
PREPARE untyped AS SELECT base62_encode_fixed('1337', $1), base62_encode(1337::smallint),
    base62_last_number(width => $1, alphabet => :own, prefix => $2);
EXECUTE untyped (3, 'e');
SELECT left(result_of(call), 5)
    FROM unnest(ARRAY['base62_encode(1.5)', $$base62_encode('LZ'::text)$$, 'base62_encode(gen_random_uuid())']) call;
-- Divided by 10^9 it is 2^64, of which 64 bits are zero.
SELECT base62_decode_numeric(base62_encode_numeric(18446744073709551616000000000));
SELECT base62_version() ~ '^[0-9]+\.[0-9]+\.[0-9]+$' version;

\echo A compressed text
CREATE TABLE long (t text);
INSERT INTO long VALUES (repeat('0', 1000000) || 'LZ');
SELECT pg_column_size(t) < 100000 compressed, base62_decode(t), base62_decode_uuid(t), base62_first_string(t),
    base62_is_valid(t) FROM long;

\echo Alphabets that change from call to call, and after an error, after which PL/pgSQL caches nothing
CREATE FUNCTION with_each(VARIADIC given text[]) RETURNS SETOF text LANGUAGE plpgsql AS $$
DECLARE
    one text;
BEGIN
    FOREACH one IN ARRAY given LOOP
        BEGIN
            RETURN NEXT base62_encode(1337, one) || base62_decode('LZ', one) || base62_is_valid('-', one);
        EXCEPTION WHEN invalid_parameter_value THEN
            RETURN NEXT sqlstate;
        END;
    END LOOP;
END $$;
SELECT string_agg(each, ' ')
    FROM with_each(:own, :alternative, :own, left(:own, 61), :own, repeat('0', 62), :alternative) each;
SELECT string_agg(base62_encode(61, a), '') FROM unnest(ARRAY[:own, left(:own, 61) || '-']) a;
SELECT left(result_of(format('count(base62_encode(61, a)) FROM unnest(ARRAY[%1$L, %1$L || 5]) a', :own)), 5);
\echo A constant alphabet is created once for all rows
SET client_min_messages = debug1;
SELECT count(base62_encode_fixed(n, 22, :own)) FROM generate_series(1, 1000) n;
PREPARE with_one AS SELECT string_agg(base62_encode(n, $1), ' ') FROM generate_series(61, 63) n;
EXECUTE with_one (:own);
RESET client_min_messages;
\echo Alphabets that change do not take more memory with each row
WITH taken AS MATERIALIZED (SELECT base62_encode(n, CASE n % 2 WHEN 0 THEN :own ELSE :alternative END) t,
        CASE n WHEN 1 THEN (SELECT sum(used_bytes) FROM pg_backend_memory_contexts WHERE n > 0)
            WHEN 10000 THEN (SELECT sum(used_bytes) FROM pg_backend_memory_contexts WHERE n > 0) END bytes
        FROM generate_series(1, 10000) n)
    SELECT count(t), count(bytes), max(bytes) - min(bytes) < 2000000 FROM taken;

\echo Two results of each type in one row
SELECT base62_encode(n), base62_encode(n + 1), base62_encode_key(n), base62_encode_key(n + 1), base62_decode_uuid('1' || n),
    base62_decode_uuid('2' || n), base62_decode_numeric('1' || n), base62_decode_numeric('2' || n) FROM generate_series(1, 1) n;

\echo In a schema of its own
CREATE SCHEMA tools;
ALTER EXTENSION base62 SET SCHEMA tools;
SELECT tools.base62_encode(1337), tools.base62_first_string('L', 3), tools.base62_is_valid('LZ');
\set VERBOSITY sqlstate
SELECT base62_decode('LZ');
ALTER EXTENSION base62 SET SCHEMA public;
