/* udmf WAD MAP [TABLE-WAD CERT]: the four lumps of a map's TEXTMAP by the library, and the table that it builds of them with every pair
 * decided. Where the program's outputs are named, table and certificate have to be those; else the line of the refusal is printed. */
#include "doomsight.h"
#include "wadio.h"

static int wrong;

static void expect(const char *what, int is)
{
    if (is) return;
    printf("WRONG: %s\n", what);
    wrong = 1;
}

static int32_t refused(int32_t code, const doomsight_fault *fault)
{
    char line[DOOMSIGHT_LINE_ROOM] = "(no line)\n";
    expect("the fault's code", code == fault->code);
    doomsight_line(fault, line, sizeof line);
    fputs(line, stdout);
    return code;
}

/* The text of a map: the entry behind the last marker of its name. */
static doomsight_lump text_of(struct bytes wad, const char *map)
{
    uint32_t n = le32(wad.at + 4), i;
    const uint8_t *dir = wad.at + le32(wad.at + 8);
    doomsight_lump lump = {NULL, 0};
    for (i = 0; i + 1 < n; i++)
        if (same_name(dir + 16 * i, map) && same_name(dir + 16 * (i + 1), "TEXTMAP")) {
            lump.bytes = wad.at + le32(dir + 16 * (i + 1));
            lump.size = le32(dir + 16 * (i + 1) + 4);
        }
    return lump;
}

/* Half of the room for each lump: its front stands there, nothing behind it is written, and the sizes are the same. */
static void try_halves(doomsight_lump text, const doomsight_map *map, const doomsight_lump_sizes *want)
{
    const doomsight_lump *lumps[4] = {&map->linedefs, &map->sidedefs, &map->vertexes, &map->sectors};
    uint8_t *halves[4];
    doomsight_lump_sizes sizes;
    doomsight_fault fault;
    int k;
    for (k = 0; k < 4; k++) {
        halves[k] = (uint8_t *)malloc(lumps[k]->size / 2 + 1);
        if (!halves[k]) exit(92);
        memset(halves[k], 0xEE, lumps[k]->size / 2 + 1);
    }
    expect("half of the room", doomsight_udmf_buffers((const uint8_t *)text.bytes, text.size, halves[0], lumps[0]->size / 2, halves[1],
        lumps[1]->size / 2, halves[2], lumps[2]->size / 2, halves[3], lumps[3]->size / 2, &sizes, &fault) == DOOMSIGHT_OK);
    expect("the sizes", !memcmp(&sizes, want, sizeof sizes));
    for (k = 0; k < 4; k++) {
        expect("a front", !memcmp(halves[k], lumps[k]->bytes, lumps[k]->size / 2) && halves[k][lumps[k]->size / 2] == 0xEE);
        free(halves[k]);
    }
}

/* A text that is cut off in a block: a refusal, which writes nothing else. Behind a block it may be the text of another map. */
static void try_cut(doomsight_lump text)
{
    doomsight_lump_sizes sizes, same;
    doomsight_fault fault;
    size_t half = text.size / 2;
    while (half > 0 && ((const uint8_t *)text.bytes)[half - 1] != '{') half--;
    memset(&sizes, 0xEE, sizeof sizes);
    same = sizes;
    expect("a text that is cut off", doomsight_udmf_sizes(text.bytes, half, &sizes, &fault) == DOOMSIGHT_BAD_LUMP && fault.kind == DOOMSIGHT_TEXT &&
        fault.at <= half);
    expect("a text that is none", doomsight_udmf_sizes(NULL, 0, &sizes, &fault) == DOOMSIGHT_BAD_LUMP && fault.code == DOOMSIGHT_BAD_LUMP);
    expect("sizes of nothing", !memcmp(&sizes, &same, sizeof same));
}

/* The unit of the map's coordinates, as `maps` of the program tells it in PLACES; none for what is no text. */
static void try_unit(doomsight_lump text)
{
    const char *want = getenv("PLACES");
    doomsight_fault fault;
    uint8_t places = 77;
    expect("a unit", doomsight_udmf_unit(text.bytes, text.size, &places, &fault) == DOOMSIGHT_OK && fault.code == 0);
    expect("the unit that the program tells", !want || places == atoi(want));
    places = 77;
    expect("the unit of no text", doomsight_udmf_unit(NULL, 0, &places, &fault) == DOOMSIGHT_OK && places == 0);
}

/* The last vertex one unit beyond 2^25: a refusal of each call that reads the lumps, which tells the vertex. */
static void try_far(const doomsight_map *map)
{
    static const uint8_t beyond[4] = {1, 0, 0, 2};
    doomsight_options options = {DOOMSIGHT_EXACT, 0};
    doomsight_kept kept = DOOMSIGHT_NOTHING_KEPT;
    doomsight_map far = *map;
    doomsight_counts counts;
    doomsight_answer answer;
    doomsight_fault fault;
    uint64_t last = map->vertexes.size / 8 - 1;
    uint8_t *vertexes = (uint8_t *)malloc(map->vertexes.size);
    if (!vertexes) exit(92);
    memcpy(vertexes, map->vertexes.bytes, map->vertexes.size);
    memcpy(vertexes + 8 * last, beyond, 4);
    far.vertexes.bytes = vertexes;
    expect("a far vertex is kept", doomsight_keep(&far, &options, &kept, &counts, &fault) == DOOMSIGHT_BAD_LUMP &&
        fault.kind == DOOMSIGHT_TEXT_OFF_GRID && fault.at == last);
    expect("a far vertex sees", doomsight_why(&far, &options, 0, 0, &answer, &fault) == DOOMSIGHT_BAD_LUMP &&
        fault.kind == DOOMSIGHT_TEXT_OFF_GRID && fault.at == last);
    free(vertexes);
}

static void compare(doomsight_kept *kept, const uint8_t *table, size_t size, char **argv)
{
    struct bytes out = slurp(argv[3]), cert = slurp(argv[4]);
    uint8_t *bytes = (uint8_t *)malloc(cert.size + 1);
    doomsight_lump want = map_lump(out, argv[2], "REJECT");
    expect("the table", want.size == size && !memcmp(want.bytes, table, size));
    expect("the certificate", doomsight_kept_cert(kept, 0, bytes, cert.size + 1) == cert.size && !memcmp(bytes, cert.at, cert.size));
    free(bytes);
    free(out.at);
    free(cert.at);
}

int main(int argc, char **argv)
{
    doomsight_options options = {DOOMSIGHT_EXACT, 0};
    doomsight_kept kept = DOOMSIGHT_NOTHING_KEPT;
    doomsight_lump_sizes sizes;
    doomsight_counts counts;
    doomsight_fault fault;
    doomsight_lump text;
    doomsight_map map;
    struct bytes wad;
    uint8_t *block, *table;
    size_t size;
    int32_t code;
    if (argc < 3) return 64;
    wad = slurp(argv[1]);
    text = text_of(wad, argv[2]);
    code = doomsight_udmf_sizes(text.bytes, text.size, &sizes, &fault);
    if (code) return refused(code, &fault);
    block = (uint8_t *)malloc(doomsight_udmf_room(&sizes));
    if (!block) return 65;
    code = doomsight_udmf_map(text.bytes, text.size, &sizes, block, &map, &fault);
    if (code) return refused(code, &fault);
    try_halves(text, &map, &sizes);
    try_cut(text);
    try_unit(text);
    code = doomsight_keep(&map, &options, &kept, &counts, &fault);
    if (code != DOOMSIGHT_BAD_LUMP && code != DOOMSIGHT_LIMIT) try_far(&map);
    if (code) {
        code = refused(code, &fault);
    } else {
        size = doomsight_kept_table_size(&kept);
        table = (uint8_t *)malloc(size + 1);
        expect("the table's size", size == doomsight_table_size(map.sectors.size) && doomsight_kept_table(&kept, 0, table, size) == size);
        if (argc > 4) compare(&kept, table, size, argv);
        doomsight_free(&kept);
        free(table);
    }
    free(block);
    free(wad.at);
    return wrong ? 99 : code;
}
