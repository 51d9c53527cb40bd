/* refused WAD MAP [STEP [BUDGET]]: every STEP-th allocation of a build, of a kept one, of a check, of an audit and of an answer for
 * two sectors refused, each in a call of its own. BUDGET is a number, or `exact`. Linked with this heap in the place of doomsight_heap.c: each such call has to answer
 * MEMORY, give all back and leave the table and the certificate alone, or what the handle keeps. */
#include "doomsight.h"
#include "wadio.h"

struct rattle_block {
    _Bool ok;
    void *at;
};

static long left = -1, live = 0;
static char nothing;
static doomsight_options options = {16384, 0};

static int refuses(void)
{
    if (left < 0) return 0;
    if (left == 0) return 1;
    left--;
    return 0;
}

struct rattle_block rattle_alloc(size_t size, size_t align);
struct rattle_block rattle_realloc(void *old, size_t old_size, size_t size, size_t align);
void rattle_dealloc(void *at);

struct rattle_block rattle_alloc(size_t size, size_t align)
{
    void *p = refuses() ? NULL : malloc(size ? size : align);
    struct rattle_block b = {p != NULL, p ? p : &nothing};
    if (p) live++;
    return b;
}

struct rattle_block rattle_realloc(void *old, size_t old_size, size_t size, size_t align)
{
    void *p = refuses() ? NULL : realloc(old, size ? size : align);
    struct rattle_block b = {p != NULL, p ? p : &nothing};
    (void)old_size;
    return b;
}

void rattle_dealloc(void *at)
{
    live--;
    free(at);
}

#define MANY 1000000000L

/* Refuses every STEP-th allocation of a kept build, over an empty handle and over one that keeps a build, and how many there are. */
static long refuse_kept(const doomsight_map *map, size_t cert_size, long step, long *tried, long *bad)
{
    doomsight_kept kept = DOOMSIGHT_NOTHING_KEPT;
    doomsight_counts c;
    doomsight_fault f;
    uint8_t byte;
    long keeps, i, held;
    left = MANY;
    if (doomsight_keep(map, &options, &kept, &c, &f) || c.cert_size != cert_size) ++*bad;
    keeps = MANY - left;
    held = live;
    left = 0;
    if (doomsight_kept_cert_size(&kept) != cert_size || doomsight_kept_cert(&kept, cert_size - 1, &byte, 1) != 1) ++*bad;
    if (held < 1 || live != held) ++*bad;
    for (i = 0; i < keeps; i += step, ++*tried) {
        left = i;
        if (doomsight_keep(map, &options, &kept, &c, &f) != DOOMSIGHT_MEMORY || f.code != DOOMSIGHT_MEMORY || live != held) ++*bad;
        if (i == 0 && doomsight_kept_cert_size(&kept) != cert_size) ++*bad;
        if (i > keeps / 2 && kept.at != NULL) {
            doomsight_free(&kept);
            if (live != 0) ++*bad;
            held = 0;
        }
    }
    left = 0;
    doomsight_free(&kept);
    if (live != 0 || kept.at != NULL) ++*bad;
    return keeps;
}

/* Refuses every STEP-th allocation of an audit, and of an answer for two sectors. */
static long refuse_heard(const doomsight_map *map, long step, long *tried, long *bad)
{
    doomsight_flaw flaws[2], other[2];
    doomsight_flaw_counts found, again;
    doomsight_answer answer, same;
    doomsight_fault f;
    uint32_t last = (uint32_t)(map->sectors.size / 26) - 1;
    long audits, answers, i;
    left = MANY;
    if (doomsight_audit(map, &options, flaws, 2, &found, &f)) ++*bad;
    audits = MANY - left;
    left = MANY;
    if (doomsight_why(map, &options, 0, last, &answer, &f)) ++*bad;
    answers = MANY - left;
    memset(&again, 0xAA, sizeof again);
    memset(other, 0xAA, sizeof other);
    for (i = 0; i < audits; i += step, ++*tried) {
        left = i;
        if (doomsight_audit(map, &options, other, 2, &again, &f) != DOOMSIGHT_MEMORY || live != 0) ++*bad;
        if (again.listed != UINT64_C(0xAAAAAAAAAAAAAAAA) || other[0].kind != 0xAAAA || other[1].to_y != (int32_t)0xAAAAAAAA) ++*bad;
    }
    for (i = 0; i < answers; i += step, ++*tried) {
        int32_t code;
        left = i;
        memset(&same, 0xAA, sizeof same);
        code = doomsight_why(map, &options, 0, last, &same, &f);
        /* a walk that has found its ray answers, also where the node behind it finds no room */
        if (live != 0 || (code == DOOMSIGHT_OK ? memcmp(&same, &answer, sizeof same) != 0 : code != DOOMSIGHT_MEMORY || same.answer != 0xAAAA))
            ++*bad;
    }
    return audits + answers;
}

int main(int argc, char **argv)
{
    if (argc < 3) return 64;
    struct bytes wad = slurp(argv[1]);
    doomsight_map map = map_of(wad, argv[2]);
    size_t size = doomsight_table_size(map.sectors.size), room = (size_t)64 << 20, cert_size;
    uint8_t *table = (uint8_t *)malloc(size), *other = (uint8_t *)malloc(size), *cert = (uint8_t *)malloc(room), front[64];
    long step = argc > 3 ? atol(argv[3]) : 1, builds, keeps, checks, hears, i, bad = 0, tried = 0;
    doomsight_counts c;
    doomsight_fault f;
    char text[DOOMSIGHT_LINE_ROOM];
    if (argc > 4) options.budget = budget_of(argv[4]);
    left = MANY;
    if (doomsight_build(&map, &options, table, size, cert, room, &c, &f) || c.cert_size > room) return 1;
    builds = MANY - left;
    cert_size = (size_t)c.cert_size;
    left = MANY;
    if (doomsight_check(&map, &options, table, size, cert, cert_size, &c, &f)) return 1;
    checks = MANY - left;
    for (i = 0; i < builds; i += step, tried++) {
        left = i;
        memset(other, 0xAA, size);
        memset(front, 0xAA, sizeof front);
        if (doomsight_build(&map, &options, other, size, front, sizeof front, &c, &f) != DOOMSIGHT_MEMORY) bad++;
        if (f.code != DOOMSIGHT_MEMORY || live != 0 || other[0] != 0xAA || other[size - 1] != 0xAA) bad++;
        if (front[0] != 0xAA || front[sizeof front - 1] != 0xAA || c.cert_size != cert_size) bad++;
    }
    keeps = refuse_kept(&map, cert_size, step, &tried, &bad);
    for (i = 0; i < checks; i += step, tried++) {
        left = i;
        if (doomsight_check(&map, &options, table, size, cert, cert_size, &c, &f) != DOOMSIGHT_MEMORY || live != 0) bad++;
    }
    hears = refuse_heard(&map, step, &tried, &bad);
    f.code = DOOMSIGHT_BAD_LUMP;
    f.kind = DOOMSIGHT_LUMP_VERTEX;
    f.a = 7;
    left = 0;
    if (doomsight_line(&f, text, sizeof text) != DOOMSIGHT_NO_LINE || live != 0) bad++;
    left = -1;
    if (doomsight_line(&f, text, sizeof text) != strlen(text)) bad++;
    printf("allocations: build %ld keep %ld check %ld hear %ld, refused %ld, wrong %ld, line %s", builds, keeps, checks, hears, tried,
        bad, text);
    free(table);
    free(other);
    free(cert);
    free(wad.at);
    return bad != 0;
}
