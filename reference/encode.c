/*
 * encode [--levels 16|32]: makes a call log of a sequence of calls, from standard input to standard output, of the version that means so many levels
 * (16). A call a line: five decimal numbers.
 */
#include "core.h"
#include "log.h"
#include "options.h"

#include <inttypes.h>
#include <stdio.h>

int main(int argc, char **argv)
{
    char line[256];
    unsigned long lines = 0;
    uint32_t levels = LEVELS_LEAST;

    if (!take_levels(&argc, &argv, &levels) || argc != 1) {
        fprintf(stderr, "usage: encode [--levels 16|32]\n");
        return 2;
    }
    while (fgets(line, sizeof line, stdin) != NULL) {
        uint32_t n[5];
        uint8_t bytes[RECORD_BYTES];
        char more;

        lines++;
        if (sscanf(line, "%" SCNu32 " %" SCNu32 " %" SCNu32 " %" SCNu32 " %" SCNu32 " %c", &n[0], &n[1], &n[2], &n[3], &n[4], &more) != 5
            || n[0] > 255) {
            fprintf(stderr, "encode: line %lu is no call\n", lines);
            return 2;
        }
        log_write(bytes, log_version(levels), n[0], n[1], n[2], n[3], n[4]);
        fwrite(bytes, 1, sizeof bytes, stdout);
    }
    return fflush(stdout) == 0 ? 0 : 2;
}
