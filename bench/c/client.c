/* client WAD MAP [BUDGET [FLAGS [TABLE-WAD CERT]]]: builds the table of a map by the library and prints its counts, or the
 * line of the fault. BUDGET is a number, or `exact` for DOOMSIGHT_EXACT. Where the program's outputs are named it compares
 * table and certificate with them, those of a kept build too, and provokes faults. */
#include "doomsight.h"
#include "wadio.h"
#include <inttypes.h>

static int wrong;

static int32_t tell(const char *what, int32_t code, const doomsight_fault *f)
{
    char text[DOOMSIGHT_LINE_ROOM] = "(no line)\n";
    size_t n = doomsight_line(f, text, sizeof text);
    printf("%s: code %d kind %u (%zu): %s", what, (int)code, f->kind, n, text);
    return code;
}

/* Tells the fault, and notes where it isn't of this code and kind. */
static void expect(const char *what, int32_t found, const doomsight_fault *f, int code, int kind)
{
    tell(what, found, f);
    if (found != code || f->code != code || f->kind != kind) {
        printf("%s: WRONG, %d %d expected\n", what, code, kind);
        wrong = 1;
    }
}

static void same(const char *what, int is)
{
    printf("%s %s\n", what, is ? "same as the program's" : "DIFFERS");
    if (!is) wrong = 1;
}

static void provoke(doomsight_map map, const doomsight_options *options, uint8_t *table, size_t size, uint8_t *cert, size_t room)
{
    doomsight_counts c;
    doomsight_fault f;
    doomsight_options other = *options;
    doomsight_map cut = map;
    size_t record = map.format == DOOMSIGHT_HEXEN ? 16 : 14;
    expect("check, table short", doomsight_check(&map, options, table, size - 1, cert, room, &c, &f), &f, 1, 20);
    tell("check, no cert", doomsight_check(&map, options, table, size, NULL, 0, &c, &f), &f);
    if (f.code != DOOMSIGHT_NO) wrong = 1;
    table[0] ^= 2;
    tell("check, bit 1 turned", doomsight_check(&map, options, table, size, cert, room, &c, &f), &f);
    if (f.code != DOOMSIGHT_NO) wrong = 1;
    cert[4] = 9;
    expect("check, version 9", doomsight_check(&map, options, table, size, cert, room, &c, &f), &f, 1, 22);
    expect("build, table short", doomsight_build(&map, options, table, size - 1, NULL, 0, &c, &f), &f, 2, 15);
    if (f.at != size) wrong = 1;
    other.budget = DOOMSIGHT_EXACT - 1;
    expect("build, budget before exact", doomsight_build(&map, &other, table, size, NULL, 0, &c, &f), &f, 2, 14);
    other.budget = UINT64_C(1) << 40;
    expect("build, budget", doomsight_build(&map, &other, table, size, NULL, 0, &c, &f), &f, 2, 14);
    other = *options;
    other.flags = 2;
    expect("build, flags", doomsight_build(&map, &other, table, size, NULL, 0, &c, &f), &f, 2, 13);
    cut.format = 3;
    expect("check, format", doomsight_check(&cut, options, table, size, cert, room, &c, &f), &f, 2, 12);
    cut = map;
    cut.linedefs.size -= 1;
    expect("build, cut LINEDEFS", doomsight_build(&cut, options, table, size, NULL, 0, &c, &f), &f, 8, 1);
    cut = map;
    cut.vertexes.size = 4;
    expect("build, one vertex", doomsight_build(&cut, options, table, size, NULL, 0, &c, &f), &f, 8, 2);
    cut = map;
    cut.linedefs.size -= record;
    tell("build, a line less", doomsight_build(&cut, options, table, size, NULL, 0, &c, &f), &f);
    cut.linedefs.bytes = (const uint8_t *)map.linedefs.bytes + record;
    tell("build, the first line less", doomsight_build(&cut, options, table, size, NULL, 0, &c, &f), &f);
}

/* Copies the table or the certificate of a kept build in pieces of `step` bytes, and compares it with what the call into buffers
 * gave: no byte behind a piece may change, and there is none behind the end. */
static void copy_pieces(const char *what, size_t (*copy)(doomsight_kept *, size_t, void *, size_t), doomsight_kept *kept, size_t step,
    const uint8_t *want, size_t size)
{
    uint8_t *piece = (uint8_t *)malloc(step + 1);
    size_t at = 0, n = 0;
    int is = 1;
    do {
        memset(piece, 0xEE, step + 1);
        n = copy(kept, at, piece, step);
        if (n != (size - at < step ? size - at : step) || memcmp(piece, want + at, n) || piece[n] != 0xEE) is = 0;
        at += n;
    } while (n != 0 && is);
    if (at != size || copy(kept, size + 7, piece, step) != 0 || copy(kept, SIZE_MAX, piece, step) != 0) is = 0;
    if (copy(kept, 0, NULL, 0) != 0) is = 0;
    same(what, is);
    free(piece);
}

/* Keeps a build, and compares it with what the call into buffers gave. A refused call and a second build over the first leave no
 * memory behind, as memcheck sees; a handle that is freed is empty, and may be freed again. */
static void keep(doomsight_map map, const doomsight_options *options, const uint8_t *table, size_t size, const uint8_t *cert,
    const doomsight_counts *want)
{
    doomsight_kept kept = DOOMSIGHT_NOTHING_KEPT, moved;
    doomsight_options other = *options;
    doomsight_counts c;
    doomsight_fault f;
    size_t cert_size = (size_t)want->cert_size;
    same("sizes of nothing", doomsight_kept_table_size(&kept) == 0 && doomsight_kept_cert_size(&kept) == 0 && kept.at == NULL);
    if (doomsight_keep(&map, options, &kept, &c, &f)) {
        tell("keep", f.code, &f);
        wrong = 1;
        return;
    }
    same("kept counts", !memcmp(&c, want, sizeof c) && kept.at != NULL);
    other.budget = UINT64_C(1) << 40;
    expect("keep, budget", doomsight_keep(&map, &other, &kept, &c, &f), &f, 2, 14);
    same("kept sizes", doomsight_kept_table_size(&kept) == size && doomsight_kept_cert_size(&kept) == cert_size);
    if (doomsight_keep(&map, options, &kept, &c, &f)) wrong = 1;
    moved = kept;
    copy_pieces("kept table", doomsight_kept_table, &moved, size / 3 + 1, table, size);
    copy_pieces("kept cert, whole", doomsight_kept_cert, &moved, cert_size, cert, cert_size);
    copy_pieces("kept cert, in pieces", doomsight_kept_cert, &moved, 1021, cert, cert_size);
    doomsight_free(&moved);
    same("freed", moved.at == NULL && doomsight_kept_cert_size(&moved) == 0 && doomsight_kept_cert(&moved, 0, &other, 8) == 0);
    doomsight_free(&moved);
}

/* Builds again with room for the certificate, and compares both with the program's. */
static int compare(doomsight_map map, const doomsight_options *options, uint8_t *table, size_t size, size_t room, char **names)
{
    struct bytes out = slurp(names[1]), want_cert = slurp(names[2]);
    doomsight_lump want = map_lump(out, names[0], "REJECT");
    uint8_t *cert = (uint8_t *)malloc(room ? room : 1);
    doomsight_counts counts, yes;
    doomsight_fault fault;
    int32_t code = doomsight_build(&map, options, table, size, cert, room, &counts, &fault);
    if (code) return tell("build", code, &fault);
    if (options->budget == DOOMSIGHT_EXACT) {
        same("version 3", room > 5 && cert[4] == 3 && cert[5] == 0);
        same("none listed", counts.listed == 0);
    }
    same("table", want.size == size && !memcmp(want.bytes, table, size));
    same("cert", want_cert.size == room && !memcmp(want_cert.at, cert, room));
    code = doomsight_check(&map, options, table, size, want_cert.at, want_cert.size, &yes, &fault);
    if (code) return tell("check", code, &fault);
    printf("yes sectors %" PRIu64 " set %" PRIu64 " clear %" PRIu64 " listed %" PRIu64 "\n", yes.sectors, yes.set,
        yes.clear, yes.listed);
    same("counts", !memcmp(&counts, &yes, sizeof yes));
    keep(map, options, table, size, cert, &counts);
    provoke(map, options, table, size, cert, room);
    free(cert);
    free(out.at);
    free(want_cert.at);
    return wrong;
}

int main(int argc, char **argv)
{
    if (argc < 3 || doomsight_abi() != DOOMSIGHT_ABI || doomsight_version() != DOOMSIGHT_VERSION) return 64;
    struct bytes wad = slurp(argv[1]);
    doomsight_options options = {argc > 3 ? budget_of(argv[3]) : 16384, argc > 4 ? (uint32_t)atoi(argv[4]) : 0};
    doomsight_map map = map_of(wad, argv[2]);
    size_t size = doomsight_table_size(map.sectors.size);
    uint8_t *table = (uint8_t *)malloc(size ? size : 1);
    doomsight_counts counts = {0, 0, 0, 0, 0};
    doomsight_fault fault;
    int32_t code = doomsight_build(&map, &options, table, size, NULL, 0, &counts, &fault);
    if (code) {
        tell("build", code, &fault);
    } else {
        printf("built %s sectors %" PRIu64 " set %" PRIu64 " clear %" PRIu64 " listed %" PRIu64 "\n", argv[2],
            counts.sectors, counts.set, counts.clear, counts.listed);
        printf("cert %" PRIu64 " bytes\n", counts.cert_size);
        if (argc > 6) {
            char *names[3] = {argv[2], argv[5], argv[6]};
            code = compare(map, &options, table, size, (size_t)counts.cert_size, names);
        }
    }
    free(table);
    free(wad.at);
    return code;
}
