/* example WAD MAP [TABLE-WAD]: calls the example of docs/C-LIBRARY.md, which bench/c_library.sh compiles as it stands there.
 * Where the program's output is named, the example's table has to be the one in it; else the map has to be refused, and the
 * table all clear. */
#include "doomsight.h"
#include "wadio.h"

int put_reject(const doomsight_map *map, unsigned char **table, size_t *size);

int main(int argc, char **argv)
{
    unsigned char *table = NULL;
    size_t size = 0, i;
    int done, good;
    struct bytes wad, built;
    doomsight_map map;
    doomsight_lump want;
    if (argc < 3) return 64;
    wad = slurp(argv[1]);
    map = map_of(wad, argv[2]);
    done = put_reject(&map, &table, &size);
    if (argc > 3) {
        built = slurp(argv[3]);
        want = map_lump(built, argv[2], "REJECT");
        good = done && want.size == size && !memcmp(want.bytes, table, size);
        free(built.at);
    } else {
        good = !done && table;
        for (i = 0; good && i < size; i++) good = table[i] == 0;
    }
    free(table);
    free(wad.at);
    return good ? 0 : 1;
}
