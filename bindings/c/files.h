/* What the examples share: files, and errors. */
#include <stdio.h>
#include <stdlib.h>
#include <yotremul/der.h>

enum { FILE_SPACE = 1 << 20 };

static inline void give_up(const char *why)
{
    fprintf(stderr, "%s\n", why);
    exit(1);
}

/* Ends the program if there is an error. */
static inline void must(der_error error)
{
    char text[160];
    if (error.kind == DER_OK)
        return;
    der_error_text(error, text, sizeof text);
    give_up(text);
}

static inline der_span read_file(const char *path, uint8_t *space)
{
    FILE *file = fopen(path, "rb");
    der_span octets = {space, 0};
    if (!file)
        give_up("cannot open the file");
    octets.length = fread(space, 1, FILE_SPACE, file);
    fclose(file);
    return octets;
}

static inline void write_file(const char *path, const uint8_t *octets, size_t length)
{
    FILE *file = fopen(path, "wb");
    if (!file || fwrite(octets, 1, length, file) != length || fclose(file) != 0)
        give_up("cannot write the file");
}
