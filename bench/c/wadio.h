/* A small WAD reader for the clients: the whole file in memory, and the lumps of a map. */
#ifndef WADIO_H
#define WADIO_H
#include "doomsight.h"
#include <stdint.h>
#include <stdio.h>
#include <stdlib.h>
#include <string.h>

struct bytes {
    uint8_t *at;
    size_t size;
};

static inline struct bytes slurp(const char *name)
{
    struct bytes b = {NULL, 0};
    FILE *f = fopen(name, "rb");
    long n = -1;
    if (f && fseek(f, 0, SEEK_END) == 0) n = ftell(f);
    if (n < 0) {
        perror(name);
        exit(90);
    }
    rewind(f);
    b.size = (size_t)n;
    b.at = (uint8_t *)malloc(b.size ? b.size : 1);
    if (!b.at || fread(b.at, 1, b.size, f) != b.size) {
        fprintf(stderr, "short read %s\n", name);
        exit(91);
    }
    fclose(f);
    return b;
}

static inline uint32_t le32(const uint8_t *p)
{
    return p[0] | (uint32_t)p[1] << 8 | (uint32_t)p[2] << 16 | (uint32_t)p[3] << 24;
}

static inline int same_name(const uint8_t *entry, const char *name)
{
    char n[9] = {0};
    memcpy(n, entry + 8, 8);
    return strcmp(n, name) == 0;
}

/* The lump `name` within the eleven entries behind the last marker `map`; no bytes where there is none. */
static inline doomsight_lump map_lump(struct bytes wad, const char *map, const char *name)
{
    doomsight_lump lump = {NULL, 0};
    uint32_t n = le32(wad.at + 4), mark = n, i;
    const uint8_t *dir = wad.at + le32(wad.at + 8);
    for (i = 0; i < n; i++)
        if (same_name(dir + 16 * i, map)) mark = i;
    for (i = mark + 1; i < n && i <= mark + 11; i++)
        if (same_name(dir + 16 * i, name)) {
            lump.bytes = wad.at + le32(dir + 16 * i);
            lump.size = le32(dir + 16 * i + 4);
            return lump;
        }
    return lump;
}

static inline doomsight_map map_of(struct bytes wad, const char *name)
{
    doomsight_map map;
    map.linedefs = map_lump(wad, name, "LINEDEFS");
    map.sidedefs = map_lump(wad, name, "SIDEDEFS");
    map.vertexes = map_lump(wad, name, "VERTEXES");
    map.sectors = map_lump(wad, name, "SECTORS");
    map.format = map_lump(wad, name, "BEHAVIOR").bytes ? DOOMSIGHT_HEXEN : DOOMSIGHT_DOOM;
    return map;
}

/* The budget of a word: a number, or `exact` for DOOMSIGHT_EXACT. */
static inline uint64_t budget_of(const char *word)
{
    return strcmp(word, "exact") ? strtoull(word, NULL, 10) : DOOMSIGHT_EXACT;
}
#endif
