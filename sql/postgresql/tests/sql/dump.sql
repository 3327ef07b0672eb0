-- A dump is restored, with the generated columns.
SET client_min_messages = warning;
DROP DATABASE IF EXISTS contrib_regression_restored;
CREATE DATABASE contrib_regression_restored TEMPLATE template0;
CREATE VIEW shown AS SELECT 'link' of, count(*), max(id)::text number, max(slug COLLATE "C") generated FROM link
    UNION ALL SELECT 'item', count(*), max(id::text), max(key) FROM item
    UNION ALL SELECT 'code', count(*), max(id)::text, max(code) FROM code;
\! pg_dump contrib_regression | psql -Xq -o /dev/null -v ON_ERROR_STOP=1 contrib_regression_restored
\c contrib_regression_restored
TABLE shown;
SELECT count(*), bool_and(indisvalid) FROM pg_index
    WHERE indrelid IN ('link'::regclass, 'item'::regclass, 'code'::regclass);
SELECT id FROM link WHERE slug = base62_encode(461168601842738);

\echo Leaving as KEYS says: the column that is changed stays, with its index as it is on disk; others, and a table, go
DROP VIEW shown;
SELECT pg_relation_filenode('item_key_key') node \gset
ALTER TABLE item ALTER COLUMN key DROP EXPRESSION, ALTER COLUMN key TYPE text COLLATE "C";
DROP EXTENSION base62;
\set VERBOSITY terse
DROP EXTENSION base62 CASCADE;
SELECT pg_relation_filenode('item_key_key') = :node same, to_regclass('part'), count(*), max(key) FROM item;
SELECT attrelid::regclass, string_agg(attname, ' ') FROM pg_attribute
    WHERE attrelid IN ('link'::regclass, 'item'::regclass, 'code'::regclass) AND attnum > 0 AND NOT attisdropped GROUP BY 1 ORDER BY 2;
