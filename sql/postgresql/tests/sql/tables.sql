-- Generated columns, constraints and indexes, and the plans that use them.
CREATE TABLE link (id bigint PRIMARY KEY, slug text GENERATED ALWAYS AS (base62_encode(id)) STORED UNIQUE
    CHECK (base62_is_canonical(slug)));
CREATE TABLE item (id uuid PRIMARY KEY, key base62_key GENERATED ALWAYS AS (base62_encode_uuid_key(id)) STORED UNIQUE,
    CHECK (base62_try_decode_uuid_fixed(key, 22) IS NOT NULL AND base62_decode_uuid_fixed(key, 22) = id));
CREATE TABLE code (id bigint PRIMARY KEY, code base62_key GENERATED ALWAYS AS (base62_encode_fixed(id, 11)) STORED
    CHECK (base62_try_decode_fixed(code, 11) IS NOT NULL));
CREATE TABLE wide (id numeric(39) PRIMARY KEY);
CREATE UNIQUE INDEX item_text ON item (base62_encode_uuid(id));
CREATE INDEX item_prefix ON item (id) WHERE key < base62_last_string('3');
CREATE INDEX code_code ON code (code);
INSERT INTO link SELECT i * 461168601842738 FROM generate_series(0, 20000) i;
INSERT INTO code SELECT id FROM link;
INSERT INTO item SELECT md5(i::text)::uuid FROM generate_series(1, 20000) i;
INSERT INTO item SELECT lpad(to_hex(i), 32, '0')::uuid FROM generate_series(0, 100) i;
INSERT INTO wide SELECT i * 17014118346046923173168730371588410 FROM generate_series(0, 20000) i;
ANALYZE link, item, code, wide;
SET enable_bitmapscan = off;
EXPLAIN (COSTS off) SELECT * FROM link WHERE slug = base62_encode(1337);
EXPLAIN (COSTS off) SELECT * FROM link WHERE id = base62_try_decode_canonical('LZ');
EXPLAIN (COSTS off) SELECT * FROM link WHERE id = 9223372036854775808;
EXPLAIN (COSTS off) SELECT * FROM item WHERE base62_encode_uuid(id) = 'LZ';
EXPLAIN (COSTS off) SELECT * FROM item WHERE key LIKE '2aU%';
EXPLAIN (COSTS off) SELECT * FROM item WHERE key ^@ '2aU';
EXPLAIN (COSTS off) SELECT * FROM wide
    WHERE id BETWEEN base62_first_numeric('7n4', 22) AND base62_last_numeric('7n4', 22);
PREPARE between_bounds (text) AS WITH search (p) AS (SELECT CASE WHEN base62_is_valid('0' || $1) THEN $1 END)
    SELECT id FROM search, item WHERE key BETWEEN base62_first_string(p) AND base62_last_string(p);
PREPARE like_prefix (text) AS SELECT * FROM item WHERE key LIKE $1 || '%';
PREPARE starting_with (text) AS SELECT * FROM item WHERE key ^@ $1;
SET plan_cache_mode = force_generic_plan;
EXPLAIN (COSTS off) EXECUTE between_bounds ('2aU');
EXECUTE between_bounds ('2a-');
EXPLAIN (COSTS off) EXECUTE like_prefix ('2aU');
EXPLAIN (COSTS off) EXECUTE starting_with ('2aU');
\echo The queries of KEYS for a prefix, and those prefixes for which they find other rows
\set page `cat ../KEYS.md`
SELECT format('PREPARE search_%1$s (text) AS %2$s; CREATE FUNCTION search_%1$s(text) RETURNS SETOF text LANGUAGE sql AS %2$L',
    i, replace(replace(regexp_replace(q[1], 'VALUES \(''\w+''', 'VALUES ($1'), ', target', ''), 'SELECT name', 'SELECT key'))
    FROM regexp_matches(:'page', '\nWITH given .*?;', 'g') WITH ORDINALITY query (q, i)
\gexec
EXPLAIN (COSTS off) EXECUTE search_1 ('2a-');
EXPLAIN (COSTS off) EXECUTE search_2 ('2a-');
EXPLAIN (COSTS off) EXECUTE search_3 ('2a-');
RESET plan_cache_mode;
SELECT p FROM unnest(ARRAY['', '0', '00', '2', 'A', 'Az', 'z', '-', 'L-', '2a-', 'é', repeat('0', 23), repeat('z', 22)]) p
    WHERE ARRAY(SELECT s FROM search_1(p) s ORDER BY s) <> ARRAY(SELECT key::text FROM item WHERE starts_with(key, p) ORDER BY key)
    OR ARRAY(SELECT * FROM search_2(p)) <> ARRAY(SELECT code::text FROM code WHERE starts_with(code, p) ORDER BY id)
    OR ARRAY(SELECT * FROM search_3(p)) <> ARRAY(SELECT slug FROM link WHERE starts_with(slug, p) ORDER BY id);
SELECT pg_typeof(sum(id)) FROM link;

\echo Partitions without such keys are pruned
CREATE TABLE part (key base62_key PRIMARY KEY) PARTITION BY RANGE (key);
CREATE TABLE part_0 PARTITION OF part FOR VALUES FROM (MINVALUE) TO ('2');
CREATE TABLE part_2 PARTITION OF part FOR VALUES FROM ('2') TO (MAXVALUE);
SET enable_indexscan = off;
EXPLAIN (COSTS off) SELECT * FROM part WHERE key LIKE '2a%';
EXPLAIN (COSTS off) SELECT * FROM part WHERE key BETWEEN base62_first_string('2a') AND base62_last_string('2a');
RESET enable_indexscan;
RESET enable_bitmapscan;
\set VERBOSITY terse
BEGIN;
SELECT base62_decode('2a-');
SELECT base62_try_decode('2a-');
ROLLBACK;
CREATE PUBLICATION filtered FOR TABLE link WHERE (base62_encode(id) <> 'LZ');
