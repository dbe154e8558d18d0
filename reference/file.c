/* Reading a whole file, for the programs. */
#include "file.h"

#include <stdio.h>
#include <stdlib.h>
#include <string.h>

static void give_up(const char *what, const char *name)
{
    fprintf(stderr, "%s: ", what);
    perror(name);
    exit(2);
}

uint8_t *read_whole(const char *name, size_t *length)
{
    size_t room = 65536, there = 0, got;
    uint8_t *bytes = malloc(room);
    FILE *file = stdin;

    if (name == NULL || strcmp(name, "-") == 0)
        name = "standard input";
    else
        file = fopen(name, "rb");
    if (file == NULL)
        give_up("cannot open", name);
    if (bytes == NULL)
        give_up("no memory for", name);
    while ((got = fread(bytes + there, 1, room - there, file)) > 0) {
        there += got;
        if (there == room) {
            uint8_t *more = realloc(bytes, room *= 2);

            if (more == NULL)
                give_up("no memory for", name);
            bytes = more;
        }
    }
    if (ferror(file))
        give_up("cannot read", name);
    if (file != stdin)
        fclose(file);
    *length = there;
    return bytes;
}
