/* The library's functions for PostgreSQL 15, with the plain table: rilvostam_number(text), the value of a line that is one number, or NULL; rilvostam_write(bigint), the numeral of a
 * number; and rilvostam_numbers(text), which number a line is: rows of value, fraction, places and txt, longest first, as rilvostam_which_numbers of the header gives them.
 * What the library refuses is an error, in its words. The database has to be in UTF-8. */
#include "postgres.h"

#include "fmgr.h"
#include "funcapi.h"
#include "mb/pg_wchar.h"
#include "utils/builtins.h"

#include "rilvostam.h"

PG_MODULE_MAGIC;

static void refuse(uint32_t status, uint64_t at) {
    rilvostam_words words = rilvostam_in_words(status);
    if (*words.place)
        ereport(ERROR, errcode(ERRCODE_DATA_EXCEPTION), errmsg("%s (%u %s; %s: %llu)", words.sentence, status, words.name, words.place, (unsigned long long)at));
    ereport(ERROR, errcode(ERRCODE_DATA_EXCEPTION), errmsg("%s (%u %s)", words.sentence, status, words.name));
}

static void need_utf8(void) {
    if (GetDatabaseEncoding() != PG_UTF8)
        ereport(ERROR, errcode(ERRCODE_FEATURE_NOT_SUPPORTED), errmsg("the database is not in UTF-8"));
}

PG_FUNCTION_INFO_V1(rilvostam_number);
Datum rilvostam_number(PG_FUNCTION_ARGS) {
    text *line = PG_GETARG_TEXT_PP(0);
    uint8_t is_number;
    uint64_t at;
    need_utf8();
    uint32_t status = rilvostam_read_field((const uint8_t *)VARDATA_ANY(line), VARSIZE_ANY_EXHDR(line), &is_number, &at);
    if (status) refuse(status, at);
    if (!is_number) PG_RETURN_NULL();
    PG_RETURN_INT64((int64)at);
}

PG_FUNCTION_INFO_V1(rilvostam_write);
Datum rilvostam_write(PG_FUNCTION_ARGS) {
    int64 n = PG_GETARG_INT64(0);
    uint8_t out[RILVOSTAM_NUMERAL];
    uint64_t at;
    need_utf8();
    if (n < 0) ereport(ERROR, errcode(ERRCODE_NUMERIC_VALUE_OUT_OF_RANGE), errmsg("a number below 0 is not written"));
    uint32_t status = rilvostam_write_number((uint64_t)n, out, sizeof out, &at);
    if (status) refuse(status, at);
    PG_RETURN_TEXT_P(cstring_to_text_with_len((const char *)out, (int)at));
}

/* One number as a row: value, numerator, denominator, start, end, txt. */
static void put_number(ReturnSetInfo *rows, const rilvostam_edge *e) {
    bool whole = (e->map & RILVOSTAM_HAS_VALUE) != 0, fraction = (e->map & RILVOSTAM_HAS_FRACTION) != 0;
    Datum values[6] = {
        Float8GetDatum(e->value), Int64GetDatum((int64)e->numerator), Int64GetDatum((int64)e->denominator),
        Int32GetDatum((int32)e->start), Int32GetDatum((int32)e->end), PointerGetDatum(cstring_to_text_with_len(e->txt.at, (int)e->txt.len)),
    };
    bool nulls[6] = {!whole, !fraction, !fraction, false, false, false};
    tuplestore_putvalues(rows->setResult, rows->setDesc, values, nulls);
}

PG_FUNCTION_INFO_V1(rilvostam_numbers);
Datum rilvostam_numbers(PG_FUNCTION_ARGS) {
    text *given = PG_GETARG_TEXT_PP(0);
    const uint8_t *line = (const uint8_t *)VARDATA_ANY(given), no_edges[2] = {0, 0};
    size_t length = VARSIZE_ANY_EXHDR(given), count;
    uint8_t table[RILVOSTAM_TABLE], *work = palloc(RILVOSTAM_WORK), *listing = palloc(RILVOSTAM_OUT);
    rilvostam_edge *numbers = palloc(RILVOSTAM_EDGES * sizeof *numbers);
    uint64_t table_length, at;
    need_utf8();
    rilvostam_plain_table(table, sizeof table, &table_length);
    uint32_t status = rilvostam_add_numbers(line, length, table, table_length, no_edges, sizeof no_edges, work, RILVOSTAM_WORK, listing, RILVOSTAM_OUT, &at);
    if (status) refuse(status, at);
    InitMaterializedSRF(fcinfo, 0);
    count = rilvostam_which_numbers(line, length, listing, at, numbers, RILVOSTAM_EDGES);
    for (size_t i = 0; i < count; i++) put_number((ReturnSetInfo *)fcinfo->resultinfo, numbers + i);
    pfree(work), pfree(listing), pfree(numbers);
    return (Datum)0;
}
