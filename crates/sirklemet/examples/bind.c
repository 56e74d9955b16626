/* Binds one statement: `bind STATEMENT CATALOGUE`, the files of two images. Prints `bound N` or `refused R: ..`. */
#include "sirklemet.h"

#include <stdio.h>
#include <stdlib.h>

/* One byte more than an image may have, so that a longer file is refused too. */
enum { MOST = 65537 };

static size_t read_image(const char *path, uint8_t *to)
{
    FILE *file = fopen(path, "rb");
    if (file == NULL) {
        perror(path);
        exit(2);
    }
    size_t length = fread(to, 1, MOST, file);
    fclose(file);
    return length;
}

int main(int count, char **words)
{
    static uint8_t statement[MOST], catalogue[MOST], out[65536];
    if (count != 3) {
        fputs("bind STATEMENT CATALOGUE\n", stderr);
        return 2;
    }
    size_t statement_length = read_image(words[1], statement);
    size_t catalogue_length = read_image(words[2], catalogue);
    size_t written;
    uint8_t refusal =
        sirklemet_bind(statement, statement_length, catalogue, catalogue_length, out, sizeof out, &written);
    if (refusal == 0) {
        /* The first `written` bytes of out are the bound statement's image. */
        printf("bound %zu\n", written);
    } else {
        printf("refused %u: %s\n", (unsigned)refusal, sirklemet_words(refusal));
    }
    return 0;
}
