-- The results of all functions but base62_version. Only the calls that return another one are printed.
CREATE EXTENSION base62;
CREATE TABLE call (name text, arguments integer, call text, expected text);
\copy call FROM PROGRAM '$PYTHON -W error ../tests/postgresql_calls.py'
SELECT count(*) > 50000 enough FROM call;

-- The result of a call, or the code and the message of its error.
CREATE FUNCTION result_of(call text) RETURNS text LANGUAGE plpgsql AS $$
DECLARE
    found text;
BEGIN
    EXECUTE 'SELECT ' || call INTO found;
    RETURN found;
EXCEPTION WHEN OTHERS THEN
    RETURN sqlstate || ' ' || sqlerrm;
END $$;
SELECT call, result, expected FROM call, result_of(call) result WHERE result IS DISTINCT FROM expected LIMIT 20;

-- What an error names for the string of a UUID encodes it, unless it is a URN, which is no UUID for PostgreSQL.
SELECT count(DISTINCT string) > 30 enough, count(*) FILTER (WHERE result IS DISTINCT FROM 'true') wrong
    FROM (SELECT substring(call, '''(.*?)''') string, substring(expected, '; to encode a UUID use (\w+)') named FROM call) hinted,
        result_of(format('base62_decode_uuid(%s(%L%s)) = %2$L', named, string, CASE WHEN named ~ 'fixed' THEN ', 22' END)) result
    WHERE named IS NOT NULL AND string !~* '^urn';
