/* Reads a header from standard input and writes the content of its first tag of a type, as the library finds it.
 * Usage: tag TYPE, as 0x0003 for the digest */
#include <stdio.h>
#include <stdlib.h>

#include "frondicare.h"
#include "frondicare_words.h"

int main(int argc, char **argv)
{
    if (argc != 2) {
        fprintf(stderr, "usage: tag TYPE <HEADER\n");
        return 1;
    }
    uint8_t header[FRONDICARE_HEADER_SIZE];
    size_t len = fread(header, 1, sizeof header, stdin);
    frondicare_tag tag = frondicare_find_tag(header, len, (uint16_t)strtoul(argv[1], NULL, 16));
    if (tag.number != 0) {
        fprintf(stderr, "tag %s: %s (%u)\n", argv[1], frondicare_in_words(tag.number), (unsigned)tag.number);
        return 1;
    }
    fwrite(header + tag.at, 1, tag.len, stdout);
    return fflush(stdout) == 0 ? 0 : 1;
}
