/* Runs one UPDATE on one row: `run STATEMENT CATALOGUE ROW NEW`, the files of three images, and the file for the new row's. Prints
 * `row N`, or `refused R: ..`, and then NEW is not touched. */
#include "sirklemet.h"

#include <stdio.h>
#include <stdlib.h>

/* One byte more than the image of a statement or of a catalogue may have, so that a longer file is refused too. */
enum { MOST = 65537 };

static void fail(const char *path)
{
    perror(path);
    exit(2);
}

static size_t read_image(const char *path, uint8_t *to)
{
    FILE *file = fopen(path, "rb");
    if (file == NULL) {
        fail(path);
    }
    size_t length = fread(to, 1, MOST, file);
    fclose(file);
    return length;
}

static void write_image(const char *path, const uint8_t *from, size_t length)
{
    FILE *file = fopen(path, "wb");
    if (file == NULL) {
        fail(path);
    }
    size_t put = fwrite(from, 1, length, file);
    if (fclose(file) != 0 || put != length) {
        fail(path);
    }
}

int main(int count, char **words)
{
    static uint8_t statement[MOST], catalogue[MOST], row[MOST], out[65536];
    if (count != 5) {
        fputs("run STATEMENT CATALOGUE ROW NEW\n", stderr);
        return 2;
    }
    size_t statement_length = read_image(words[1], statement);
    size_t catalogue_length = read_image(words[2], catalogue);
    size_t row_length = read_image(words[3], row);
    size_t written;
    uint8_t refusal = sirklemet_run(statement, statement_length, catalogue, catalogue_length, row, row_length, out,
                                    sizeof out, &written);
    if (refusal == 0) {
        write_image(words[4], out, written);
        printf("row %zu\n", written);
    } else {
        printf("refused %u: %s\n", (unsigned)refusal, sirklemet_words(refusal));
    }
    return 0;
}
