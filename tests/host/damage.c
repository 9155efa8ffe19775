/* The host's saved match with bytes changed, and cut off: damage SAVE SCRATCH. Loading must turn a cut file down, and a
 * changed round; a changed sheet may be one that the record bears out as well. */
#include <stdio.h>
#include <stdlib.h>
#include <string.h>

#include "app/match.h"

static uint32_t load(const char *path, const uint8_t *bytes, size_t n)
{
    static struct match m;
    FILE *f = fopen(path, "wb");
    uint32_t result;

    if (!f || fwrite(bytes, 1, n, f) != n || fclose(f) != 0) {
        puts("damage: the file is not written");
        exit(1);
    }
    result = match_load(&m, path);
    match_close(&m);
    return result;
}

int main(int argc, char **argv)
{
    static uint8_t bytes[1 << 16];
    FILE *f = argc > 2 ? fopen(argv[1], "rb") : NULL;
    size_t n = f ? fread(bytes, 1, sizeof bytes, f) : 0, k, taken = 0;

    if (!f || n < 4 + ENGINE_ROUND || load(argv[2], bytes, n) != 0) {
        puts("damage: no saved match");
        return 1;
    }
    fclose(f);
    for (k = 0; k < n; k += 7) {
        uint32_t result;

        bytes[k] ^= 0x10;
        result = load(argv[2], bytes, n);
        bytes[k] ^= 0x10;
        taken += load(argv[2], bytes, k) == 0 || (result == 0 && k < 4 + ENGINE_ROUND);
    }
    bytes[3] ^= 2; /* the layout's number */
    taken += load(argv[2], bytes, n) != MATCH_OTHER_VERSION;
    printf("damage: %lu damaged files are taken\n", (unsigned long)taken);
    return taken != 0;
}
