/* The proved binder, runner and readers, from the static library that `rt lib` writes in this folder (out/libsirklemet.a).
 *
 * Bytes pass as a pointer and a length. The pointer is not NULL, also where the length is 0, and as many bytes can be
 * read there. Any bytes will do otherwise: each function ends, reads nothing else, and writes nothing but what is said to
 * be written. */
#ifndef SIRKLEMET_H
#define SIRKLEMET_H

#include <stdbool.h>
#include <stddef.h>
#include <stdint.h>

#ifdef __cplusplus
extern "C" {
#endif

/* Why something is refused (docs/REFUSALS.md). Binding refuses with 1 to 9, running with any. */
enum sirklemet_refusal {
    SIRKLEMET_SCHEMA_MISMATCH = 1,
    SIRKLEMET_CONSTRAINT_VIOLATION = 2,
    SIRKLEMET_UNSUPPORTED_SQL = 3,
    SIRKLEMET_INVALID_ARGUMENT = 4,
    SIRKLEMET_NO_STATEMENT = 5,
    SIRKLEMET_NO_CATALOGUE = 6,
    SIRKLEMET_PAST_A_LIMIT = 7,
    SIRKLEMET_NAME_BEYOND_ASCII = 8,
    SIRKLEMET_NO_ROOM = 9,
    SIRKLEMET_NO_ROW = 10,
    SIRKLEMET_FAULT = 11,
    SIRKLEMET_NO_UPDATE = 12,
};

/* A refusal in words; 0 has none. */
static inline const char *sirklemet_words(uint8_t refusal)
{
    switch (refusal) {
    case SIRKLEMET_SCHEMA_MISMATCH: return
        "the statement does not fit what the table declares: no such table or column, another type, or a number out of range";
    case SIRKLEMET_CONSTRAINT_VIOLATION: return
        "the statement breaks a rule of the table: NULL where none may be, a key, a name given twice, a table that is there already";
    case SIRKLEMET_UNSUPPORTED_SQL: return
        "the statement uses SQL that is not supported";
    case SIRKLEMET_INVALID_ARGUMENT: return
        "the statement asks for nothing: an INSERT of no rows, an UPDATE of no columns";
    case SIRKLEMET_NO_STATEMENT: return
        "the bytes of the statement are no statement: damaged, cut short, or something else";
    case SIRKLEMET_NO_CATALOGUE: return
        "the bytes of the catalogue are no catalogue: damaged, cut short, or something else";
    case SIRKLEMET_PAST_A_LIMIT: return
        "the statement or the catalogue is larger than is taken: its bytes, a name, a list, or how deep an expression goes";
    case SIRKLEMET_NAME_BEYOND_ASCII: return
        "a name with letters beyond ASCII stands without quotes: put it in double quotes";
    case SIRKLEMET_NO_ROOM: return
        "the answer is longer than the room that was given for it";
    case SIRKLEMET_NO_ROW: return
        "the bytes of the row are no row of the table";
    case SIRKLEMET_FAULT: return
        "working out a value fails: a division by zero, or a result beyond 64 bits";
    case SIRKLEMET_NO_UPDATE: return
        "only an UPDATE can be run on a row";
    default: return "";
    }
}

/* Binds a statement against a catalogue. 0: *written bytes of the bound statement's image are at the front of out, and the
 * bytes behind them are as they were. Else the number of the refusal: *written is 0, and out is as it was. The bytes of
 * out and *written overlap neither each other nor the inputs. A catalogue of more than 65,536 bytes is read whole before it
 * is refused, in a time that grows with the square of its tables: who takes catalogues from strangers looks at the length
 * first. */
uint8_t sirklemet_bind(const uint8_t *statement, size_t statement_length, const uint8_t *catalogue, size_t catalogue_length,
                       uint8_t *out, size_t out_length, size_t *written);

/* Runs a statement, which is an UPDATE, on one row of its table. 0: *written bytes of the new row's image are at the front
 * of out. The rest is as of sirklemet_bind. */
uint8_t sirklemet_run(const uint8_t *statement, size_t statement_length, const uint8_t *catalogue, size_t catalogue_length,
                      const uint8_t *row, size_t row_length, uint8_t *out, size_t out_length, size_t *written);

/* Whether bytes are the image of a statement, of a catalogue, of a row of whatever table (docs/IMAGES.md), whatever its
 * size. */
bool sirklemet_is_statement(const uint8_t *bytes, size_t length);
bool sirklemet_is_catalogue(const uint8_t *bytes, size_t length);
bool sirklemet_is_row(const uint8_t *bytes, size_t length);

/* 0: a statement within the limits. 5: no statement. 7: one past a limit. 8: one with an unquoted name beyond ASCII. */
uint8_t sirklemet_read_statement(const uint8_t *bytes, size_t length);

/* 0: a catalogue within the limits. 6: no catalogue. 7: one past a limit. */
uint8_t sirklemet_read_catalogue(const uint8_t *bytes, size_t length);

/* Whether the second bytes are a catalogue that has a table of this number, from 0, and the first a row that obeys it. */
bool sirklemet_obeys(const uint8_t *bytes, size_t length, const uint8_t *tables, size_t tables_length, size_t number);

#ifdef __cplusplus
}
#endif

#endif
