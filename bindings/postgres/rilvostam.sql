-- The functions, for psql; :module is the path of rilvostam_postgres.so.
CREATE FUNCTION rilvostam_number(text) RETURNS bigint AS :'module', 'rilvostam_number' LANGUAGE C STRICT IMMUTABLE PARALLEL SAFE;
CREATE FUNCTION rilvostam_write(bigint) RETURNS text AS :'module', 'rilvostam_write' LANGUAGE C STRICT IMMUTABLE PARALLEL SAFE;
CREATE FUNCTION rilvostam_numbers(text) RETURNS TABLE (value double precision, numerator bigint, denominator bigint, start integer, "end" integer, txt text)
    AS :'module', 'rilvostam_numbers' LANGUAGE C STRICT IMMUTABLE PARALLEL SAFE;
