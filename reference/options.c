/* The option that some programs share. */
#include "options.h"
#include "core.h"

#include <string.h>

int take_levels(int *argc, char ***argv, uint32_t *levels)
{
    if (*argc < 2 || strcmp((*argv)[1], "--levels") != 0)
        return 1;
    if (*argc > 2 && strcmp((*argv)[2], "16") == 0)
        *levels = LEVELS_LEAST;
    else if (*argc > 2 && strcmp((*argv)[2], "32") == 0)
        *levels = LEVELS_MOST;
    else
        return 0;
    *argc -= 2;
    *argv += 2;
    return 1;
}
