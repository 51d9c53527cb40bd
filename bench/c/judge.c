/* judge: builds and judges by the library what stands on standard input, and writes its answers to standard output, as
 * bench/forge/judge.rs asks. A certificate is judged whole, whatever pieces are asked for. */
#include "doomsight.h"
#include <stdio.h>
#include <stdlib.h>

static const doomsight_options exact = {DOOMSIGHT_EXACT, 0};
static doomsight_lump lumps[4];

static void stop(const char *why)
{
    fprintf(stderr, "judge: %s\n", why);
    exit(2);
}

static uint32_t number(void)
{
    uint8_t b[4];
    if (fread(b, 1, 4, stdin) != 4) stop("the input ends");
    return b[0] | (uint32_t)b[1] << 8 | (uint32_t)b[2] << 16 | (uint32_t)b[3] << 24;
}

static doomsight_lump block(void)
{
    doomsight_lump held;
    uint8_t *bytes;
    held.size = number();
    bytes = malloc(held.size + 1);
    if (!bytes) stop("memory");
    if (fread(bytes, 1, held.size, stdin) != held.size) stop("the input ends");
    held.bytes = bytes;
    return held;
}

static void put(const uint8_t *bytes, size_t size)
{
    int k;
    for (k = 0; k < 32; k += 8) putchar((int)(size >> k & 255));
    fwrite(bytes, 1, size, stdout);
}

/* The map of the four lumps. */
static doomsight_map map_of(void)
{
    doomsight_map map;
    map.linedefs = lumps[0];
    map.sidedefs = lumps[1];
    map.vertexes = lumps[2];
    map.sectors = lumps[3];
    map.format = DOOMSIGHT_DOOM;
    return map;
}

static void build(void)
{
    doomsight_map map;
    doomsight_kept kept = DOOMSIGHT_NOTHING_KEPT;
    doomsight_counts counts;
    doomsight_fault fault;
    uint8_t *bytes;
    size_t table, cert;
    int k;
    for (k = 0; k < 4; k++) {
        free((void *)lumps[k].bytes);
        lumps[k] = block();
    }
    map = map_of();
    putchar(doomsight_keep(&map, &exact, &kept, &counts, &fault));
    table = doomsight_kept_table_size(&kept);
    cert = doomsight_kept_cert_size(&kept);
    if (!kept.at) return;
    bytes = malloc(table + cert);
    if (!bytes) stop("memory");
    doomsight_kept_table(&kept, 0, bytes, table);
    doomsight_kept_cert(&kept, 0, bytes + table, cert);
    put(bytes, table);
    put(bytes + table, cert);
    free(bytes);
    doomsight_free(&kept);
}

static void check(void)
{
    doomsight_map map = map_of();
    doomsight_counts counts;
    doomsight_fault fault;
    doomsight_lump table, cert;
    int32_t code;
    number();
    table = block();
    cert = block();
    code = doomsight_check(&map, NULL, table.bytes, table.size, cert.bytes, cert.size, &counts, &fault);
    if (code && code != DOOMSIGHT_NO) stop("a check without a verdict");
    putchar(code ? fault.kind : 0);
    free((void *)table.bytes);
    free((void *)cert.bytes);
}

int main(void)
{
    int order;
    while ((order = getchar()) != EOF) {
        if (order == 'M') build();
        else if (order == 'C') check();
        else if (order == 'F') fflush(stdout);
        else stop("no such order");
    }
    return 0;
}
