/* The library as a loadable extension of SQLite, with the plain table:
 *     rilvostam_number(line)   the value of a line that is one number, or NULL
 *     rilvostam_write(n)       the numeral of a number
 *     rilvostam_edges(line)    a table-valued function: the edges of a line in the listing's order
 *     rilvostam_edges_with_decimals(line)   the same, by the call with decimals: 一.五 is one edge
 *     rilvostam_numbers(line)  the edges that say which number the line is, longest first: rilvostam_which_numbers of the header
 * NULL gives NULL, or no edge. What the library refuses is an error, in its words. */
#include <sqlite3ext.h>
SQLITE_EXTENSION_INIT1
#include <stdlib.h>
#include <string.h>

#include "rilvostam.h"

static char *refused(const char *function, uint32_t status, uint64_t at) {
    rilvostam_words words = rilvostam_in_words(status);
    if (*words.place)
        return sqlite3_mprintf("%s: %s (%u %s; %s: %llu)", function, words.sentence, status, words.name, words.place, (unsigned long long)at);
    return sqlite3_mprintf("%s: %s (%u %s)", function, words.sentence, status, words.name);
}

static void refuse(sqlite3_context *context, const char *function, uint32_t status, uint64_t at) {
    char *message = refused(function, status, at);
    if (message) sqlite3_result_error(context, message, -1);
    else sqlite3_result_error_nomem(context);
    sqlite3_free(message);
}

/* The bytes of a text; never NULL, which SQLite answers for an empty blob. */
static const uint8_t *line_of(sqlite3_value *value, size_t *length) {
    const uint8_t *line = sqlite3_value_text(value);
    *length = (size_t)sqlite3_value_bytes(value);
    return line ? line : (const uint8_t *)"";
}

static void number(sqlite3_context *context, int count, sqlite3_value **values) {
    (void)count;
    if (sqlite3_value_type(values[0]) == SQLITE_NULL) return;
    size_t length;
    const uint8_t *line = line_of(values[0], &length);
    uint8_t is_number;
    uint64_t at;
    uint32_t status = rilvostam_read_field(line, length, &is_number, &at);
    if (status) refuse(context, "rilvostam_number", status, at);
    else if (is_number) sqlite3_result_int64(context, (sqlite3_int64)at);
}

static void write_number(sqlite3_context *context, int count, sqlite3_value **values) {
    (void)count;
    if (sqlite3_value_type(values[0]) == SQLITE_NULL) return;
    if (sqlite3_value_numeric_type(values[0]) != SQLITE_INTEGER) {
        sqlite3_result_error(context, "rilvostam_write: not a whole number", -1);
        return;
    }
    sqlite3_int64 n = sqlite3_value_int64(values[0]);
    if (n < 0) {
        sqlite3_result_error(context, "rilvostam_write: a number below 0 is not written", -1);
        return;
    }
    uint8_t out[RILVOSTAM_NUMERAL];
    uint64_t at;
    uint32_t status = rilvostam_write_number((uint64_t)n, out, sizeof out, &at);
    if (status) refuse(context, "rilvostam_write", status, at);
    else sqlite3_result_text(context, (const char *)out, (int)at, SQLITE_TRANSIENT);
}

/* ---- rilvostam_edges(line), rilvostam_edges_with_decimals(line), rilvostam_numbers(line) */
enum { START, END, TYPE, TXT, ACTIVE, ORIG_TXT, VALUE, NUMERATOR, DENOMINATOR, BASE, SCRIPT, VALUE_S, DECIMALS, LINE };

typedef struct {
    sqlite3_vtab base;
    const char *name; /* of the function */
} table_of;

static const char edges_name[] = "rilvostam_edges", decimals_name[] = "rilvostam_edges_with_decimals", numbers_name[] = "rilvostam_numbers";

typedef struct {
    sqlite3_vtab_cursor base;
    uint8_t *listing; /* of the line asked for, RILVOSTAM_OUT bytes */
    rilvostam_edge *numbers; /* NULL where all edges are asked for */
    size_t count;
    uint64_t length, next;
    uint64_t edge[RILVOSTAM_EDGE_NUMBERS];
    sqlite3_int64 row;
    int there;
} cursor;

static int connect(sqlite3 *db, void *aux, int argc, const char *const *argv, sqlite3_vtab **table, char **error) {
    (void)argc, (void)argv, (void)error;
    int status = sqlite3_declare_vtab(db, "CREATE TABLE x(start INTEGER, \"end\" INTEGER, type TEXT, txt TEXT, active INTEGER, orig_txt TEXT, value REAL, numerator INTEGER,"
                                          " denominator INTEGER, base INTEGER, script TEXT, value_s TEXT, decimals INTEGER, line HIDDEN)");
    if (status != SQLITE_OK) return status;
    table_of *made = sqlite3_malloc(sizeof *made);
    if (!made) return SQLITE_NOMEM;
    memset(made, 0, sizeof *made);
    made->name = (const char *)aux;
    *table = &made->base;
    return SQLITE_OK;
}

static int disconnect(sqlite3_vtab *table) {
    sqlite3_free(table);
    return SQLITE_OK;
}

/* The line has to be given. */
static int best_index(sqlite3_vtab *table, sqlite3_index_info *info) {
    (void)table;
    for (int i = 0; i < info->nConstraint; i++) {
        const struct sqlite3_index_constraint *c = &info->aConstraint[i];
        if (c->iColumn == LINE && c->usable && c->op == SQLITE_INDEX_CONSTRAINT_EQ) {
            info->aConstraintUsage[i].argvIndex = 1;
            info->aConstraintUsage[i].omit = 1;
            info->estimatedCost = 10;
            return SQLITE_OK;
        }
    }
    return SQLITE_CONSTRAINT;
}

static int open_cursor(sqlite3_vtab *table, sqlite3_vtab_cursor **opened) {
    int all = ((table_of *)table)->name != numbers_name;
    cursor *c = sqlite3_malloc(sizeof *c);
    if (!c) return SQLITE_NOMEM;
    memset(c, 0, sizeof *c);
    c->listing = sqlite3_malloc(RILVOSTAM_OUT);
    if (!all) c->numbers = sqlite3_malloc((int)(RILVOSTAM_EDGES * sizeof *c->numbers));
    if (!c->listing || !(all || c->numbers)) {
        sqlite3_free(c->listing);
        sqlite3_free(c->numbers);
        sqlite3_free(c);
        return SQLITE_NOMEM;
    }
    *opened = &c->base;
    return SQLITE_OK;
}

static int close_cursor(sqlite3_vtab_cursor *base) {
    cursor *c = (cursor *)base;
    sqlite3_free(c->listing);
    sqlite3_free(c->numbers);
    sqlite3_free(c);
    return SQLITE_OK;
}

static int next(sqlite3_vtab_cursor *base) {
    cursor *c = (cursor *)base;
    c->row++;
    if (c->numbers) c->next = (size_t)c->row < c->count ? c->numbers[c->row].offset : c->length;
    c->there = rilvostam_edge_at(c->listing, c->length, c->next, c->edge, &c->next) == RILVOSTAM_OK;
    return SQLITE_OK;
}

static int filter(sqlite3_vtab_cursor *base, int plan, const char *plan_text, int argc, sqlite3_value **argv) {
    (void)plan, (void)plan_text, (void)argc;
    cursor *c = (cursor *)base;
    c->row = -1;
    c->there = 0;
    if (sqlite3_value_type(argv[0]) == SQLITE_NULL) return SQLITE_OK;
    size_t length;
    const uint8_t *line = line_of(argv[0], &length);
    uint8_t table[RILVOSTAM_TABLE];
    uint64_t table_length, at;
    rilvostam_plain_table(table, sizeof table, &table_length);
    uint8_t *work = sqlite3_malloc(RILVOSTAM_WORK);
    if (!work) return SQLITE_NOMEM;
    int decimals = ((table_of *)base->pVtab)->name == decimals_name;
    uint32_t status = (decimals ? rilvostam_add_numbers_with_decimals : rilvostam_add_numbers)(line, length, table, table_length, (const uint8_t *)"\0", 2, work, RILVOSTAM_WORK, c->listing,
                                                                                               RILVOSTAM_OUT, &at);
    sqlite3_free(work);
    if (status) {
        sqlite3_free(base->pVtab->zErrMsg);
        base->pVtab->zErrMsg = refused(((table_of *)base->pVtab)->name, status, at);
        return SQLITE_ERROR;
    }
    c->length = at;
    c->next = RILVOSTAM_FIRST_EDGE;
    if (c->numbers) c->count = rilvostam_which_numbers(line, length, c->listing, c->length, c->numbers, RILVOSTAM_EDGES);
    return next(base);
}

static int at_end(sqlite3_vtab_cursor *base) {
    return !((cursor *)base)->there;
}

static void text(sqlite3_context *context, const cursor *c, int field) {
    sqlite3_result_text(context, (const char *)c->listing + c->edge[field], (int)c->edge[field + 1], SQLITE_TRANSIENT);
}

static int column(sqlite3_vtab_cursor *base, sqlite3_context *context, int asked) {
    const cursor *c = (cursor *)base;
    uint64_t map = c->edge[RILVOSTAM_EDGE_MAP];
    double value;
    switch (asked) {
    case START: sqlite3_result_int64(context, (sqlite3_int64)c->edge[RILVOSTAM_EDGE_START]); break;
    case END: sqlite3_result_int64(context, (sqlite3_int64)c->edge[RILVOSTAM_EDGE_END]); break;
    case TYPE: text(context, c, RILVOSTAM_EDGE_TYPE); break;
    case TXT: text(context, c, RILVOSTAM_EDGE_TXT); break;
    case ACTIVE:
        if (map & RILVOSTAM_IS_NUMERIC) sqlite3_result_int(context, (map & RILVOSTAM_IS_ACTIVE) != 0);
        break;
    case ORIG_TXT:
        if (map & RILVOSTAM_IS_NUMERIC) text(context, c, RILVOSTAM_EDGE_ORIG_TXT);
        break;
    case VALUE:
        memcpy(&value, &c->edge[RILVOSTAM_EDGE_VALUE], sizeof value);
        if (map & RILVOSTAM_HAS_VALUE) sqlite3_result_double(context, value);
        break;
    case NUMERATOR:
        if (map & RILVOSTAM_HAS_FRACTION) sqlite3_result_int64(context, (sqlite3_int64)c->edge[RILVOSTAM_EDGE_NUMERATOR]);
        break;
    case DENOMINATOR:
        if (map & RILVOSTAM_HAS_FRACTION) sqlite3_result_int64(context, (sqlite3_int64)c->edge[RILVOSTAM_EDGE_DENOMINATOR]);
        break;
    case BASE:
        if (map & RILVOSTAM_HAS_BASE) sqlite3_result_int64(context, (sqlite3_int64)c->edge[RILVOSTAM_EDGE_BASE]);
        break;
    case SCRIPT:
        if (map & RILVOSTAM_HAS_SCRIPT) text(context, c, RILVOSTAM_EDGE_SCRIPT);
        break;
    case VALUE_S:
        if (map & RILVOSTAM_HAS_VALUE_S) text(context, c, RILVOSTAM_EDGE_VALUE_S);
        break;
    case DECIMALS:
        if (map & RILVOSTAM_HAS_DECIMALS) sqlite3_result_int64(context, (sqlite3_int64)c->edge[RILVOSTAM_EDGE_DECIMALS]);
        break;
    }
    return SQLITE_OK;
}

static int row_id(sqlite3_vtab_cursor *base, sqlite3_int64 *row) {
    *row = ((cursor *)base)->row;
    return SQLITE_OK;
}

static const sqlite3_module module = {
    .xConnect = connect, .xBestIndex = best_index, .xDisconnect = disconnect, .xOpen = open_cursor, .xClose = close_cursor,
    .xFilter = filter, .xNext = next, .xEof = at_end, .xColumn = column, .xRowid = row_id,
};

int sqlite3_rilvostamsqlite_init(sqlite3 *db, char **error, const sqlite3_api_routines *api) {
    SQLITE_EXTENSION_INIT2(api)
    (void)error;
    int how = SQLITE_UTF8 | SQLITE_DETERMINISTIC | SQLITE_INNOCUOUS;
    int status = sqlite3_create_function(db, "rilvostam_number", 1, how, NULL, number, NULL, NULL);
    if (status == SQLITE_OK) status = sqlite3_create_function(db, "rilvostam_write", 1, how, NULL, write_number, NULL, NULL);
    if (status == SQLITE_OK) status = sqlite3_create_module(db, edges_name, &module, (void *)edges_name);
    if (status == SQLITE_OK) status = sqlite3_create_module(db, decimals_name, &module, (void *)decimals_name);
    if (status == SQLITE_OK) status = sqlite3_create_module(db, numbers_name, &module, (void *)numbers_name);
    return status;
}
