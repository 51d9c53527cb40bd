/* layout: whether the structs lie as the library lays them out. The library writes numbers into the fields, which are read back by
 * their names; and nothing may be written behind the structs, nor behind a handle. Compiled as C99, C11 and C++17. */
#include "doomsight.h"
#include <stdio.h>
#include <string.h>

#define IS(type, field, place, bytes) \
    (offsetof(type, field) == (place) && sizeof(((type *)0)->field) == (bytes))

#if defined(__cplusplus)
#define HOLDS(fact) static_assert(fact, #fact)
#elif __STDC_VERSION__ >= 201112L
#define HOLDS(fact) _Static_assert(fact, #fact)
#else
#define HOLDS(fact) typedef char holds[(fact) ? 1 : -1]
#endif

/* The numbers that the comments at DoomsightFault and DoomsightCounts give. */
HOLDS(IS(doomsight_fault, code, 0, 2) && IS(doomsight_fault, kind, 2, 2) && IS(doomsight_fault, a, 4, 2)
    && IS(doomsight_fault, b, 6, 2) && IS(doomsight_fault, line, 8, 2) && IS(doomsight_fault, left, 10, 2)
    && IS(doomsight_fault, at, 16, 8) && IS(doomsight_fault, more, 24, 8) && sizeof(doomsight_fault) == 32
    && IS(doomsight_counts, sectors, 0, 8) && IS(doomsight_counts, set, 8, 8) && IS(doomsight_counts, clear, 16, 8)
    && IS(doomsight_counts, listed, 24, 8) && IS(doomsight_counts, cert_size, 32, 8) && sizeof(doomsight_counts) == 40
    && IS(doomsight_kept, at, 0, 8) && sizeof(doomsight_kept) == 8 && IS(doomsight_answer, answer, 0, 2)
    && IS(doomsight_answer, first_line, 2, 2) && IS(doomsight_answer, first_left, 4, 2) && IS(doomsight_answer, last_line, 6, 2)
    && IS(doomsight_answer, last_left, 8, 2) && IS(doomsight_answer, a, 12, 4) && IS(doomsight_answer, b, 16, 4)
    && IS(doomsight_answer, c, 24, 8) && sizeof(doomsight_answer) == 32 && IS(doomsight_flaw, kind, 0, 2) && IS(doomsight_flaw, i, 2, 2)
    && IS(doomsight_flaw, j, 4, 2) && IS(doomsight_flaw, left, 6, 2) && IS(doomsight_flaw, x, 8, 4) && IS(doomsight_flaw, y, 12, 4)
    && IS(doomsight_flaw, to_x, 16, 4) && IS(doomsight_flaw, to_y, 20, 4) && sizeof(doomsight_flaw) == 24
    && IS(doomsight_flaw_counts, clashes, 0, 8) && IS(doomsight_flaw_counts, loose_ends, 8, 8)
    && IS(doomsight_flaw_counts, open_sides, 16, 8) && IS(doomsight_flaw_counts, tears, 24, 8)
    && IS(doomsight_flaw_counts, gaps, 32, 8) && IS(doomsight_flaw_counts, listed, 40, 8) && sizeof(doomsight_flaw_counts) == 48
    && IS(doomsight_lump_sizes, linedefs, 0, 8) && IS(doomsight_lump_sizes, sidedefs, 8, 8) && IS(doomsight_lump_sizes, vertexes, 16, 8)
    && IS(doomsight_lump_sizes, sectors, 24, 8) && sizeof(doomsight_lump_sizes) == 32);

struct guarded {
    doomsight_fault fault;
    unsigned char behind_fault[64];
    doomsight_counts counts;
    unsigned char behind_counts[64];
    doomsight_kept kept;
    unsigned char behind_kept[64];
    doomsight_answer answer;
    unsigned char behind_answer[64];
    doomsight_flaw flaw;
    unsigned char behind_flaw[64];
    doomsight_flaw_counts flaws;
    unsigned char behind_flaws[64];
    doomsight_lump_sizes lumps;
    unsigned char behind_lumps[64];
};

/* Whether the fields of the answers read as the library wrote them. */
static int are_answers(const struct guarded *g)
{
    return g->answer.answer == 1 && g->answer.first_line == 2 && g->answer.first_left == 3 && g->answer.last_line == 4
        && g->answer.last_left == 5 && g->answer.a == 6 && g->answer.b == 7 && g->answer.c == 8 && g->flaw.kind == 1 && g->flaw.i == 2
        && g->flaw.j == 3 && g->flaw.left == 4 && g->flaw.x == 5 && g->flaw.y == 6 && g->flaw.to_x == 7 && g->flaw.to_y == 8
        && g->flaws.clashes == 1 && g->flaws.loose_ends == 2 && g->flaws.open_sides == 3 && g->flaws.tears == 4 && g->flaws.gaps == 5
        && g->flaws.listed == 6 && g->lumps.linedefs == 1 && g->lumps.sidedefs == 2 && g->lumps.vertexes == 3 && g->lumps.sectors == 4;
}

int main(void)
{
    struct guarded g;
    size_t i;
    memset(&g, 0xEE, sizeof g);
    doomsight_layout(&g.fault, &g.counts);
    doomsight_layout_of_answers(&g.answer, &g.flaw, &g.flaws);
    doomsight_layout_of_lumps(&g.lumps);
    memset(&g.kept, 0, sizeof g.kept);
    if (doomsight_kept_table_size(&g.kept) != 0 || doomsight_kept_cert_size(&g.kept) != 0 || g.kept.at != NULL) return 1;
    if (doomsight_kept_table(&g.kept, 0, &i, sizeof i) != 0 || doomsight_kept_cert(&g.kept, 0, &i, sizeof i) != 0) return 1;
    doomsight_free(&g.kept);
    if (g.kept.at != NULL) return 1;
    for (i = 0; i < 64; i++)
        if (g.behind_fault[i] != 0xEE || g.behind_counts[i] != 0xEE || g.behind_kept[i] != 0xEE || g.behind_answer[i] != 0xEE
            || g.behind_flaw[i] != 0xEE || g.behind_flaws[i] != 0xEE || g.behind_lumps[i] != 0xEE)
            return 1;
    if (!are_answers(&g)) return 1;
    if (g.fault.code != 1 || g.fault.kind != 2 || g.fault.a != 3 || g.fault.b != 4 || g.fault.line != 5) return 1;
    if (g.fault.left != 6 || g.fault.at != 7 || g.fault.more != 8) return 1;
    if (g.counts.sectors != 1 || g.counts.set != 2 || g.counts.clear != 3 || g.counts.listed != 4) return 1;
    if (g.counts.cert_size != 5 || doomsight_abi() != DOOMSIGHT_ABI || doomsight_version() != DOOMSIGHT_VERSION) return 1;
    puts("layout and version as the library's");
    return 0;
}
