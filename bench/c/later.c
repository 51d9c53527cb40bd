/* later: compiled with a header whose interface isn't the library's. Each call that has a fault to tell says so, and writes nothing
 * else. */
#include "doomsight.h"
#include <stdio.h>
#include <string.h>

static int wrong;

static void expect(int32_t code, const doomsight_fault *f)
{
    if (code != DOOMSIGHT_USAGE || f->code != DOOMSIGHT_USAGE || f->kind != DOOMSIGHT_OTHER_ABI) wrong = 1;
    if (f->at != doomsight_abi() || f->more != DOOMSIGHT_ABI || f->a != 0 || f->left != 0) wrong = 1;
}

int main(void)
{
    doomsight_map map = {{NULL, 0}, {NULL, 0}, {NULL, 0}, {NULL, 0}, DOOMSIGHT_DOOM};
    doomsight_kept kept = DOOMSIGHT_NOTHING_KEPT;
    doomsight_counts counts, same;
    doomsight_flaw_counts flaws;
    doomsight_lump_sizes sizes;
    doomsight_answer answer;
    doomsight_fault f;
    if (doomsight_abi() == DOOMSIGHT_ABI) return 2;
    memset(&counts, 0xEE, sizeof counts);
    same = counts;
    expect(doomsight_build(&map, NULL, NULL, 0, NULL, 0, &counts, &f), &f);
    expect(doomsight_keep(&map, NULL, &kept, &counts, &f), &f);
    expect(doomsight_check(&map, NULL, NULL, 0, NULL, 0, &counts, &f), &f);
    expect(doomsight_audit(&map, NULL, NULL, 0, &flaws, &f), &f);
    expect(doomsight_why(&map, NULL, 0, 0, &answer, &f), &f);
    expect(doomsight_udmf_sizes(NULL, 0, &sizes, &f), &f);
    if (memcmp(&counts, &same, sizeof same) || kept.at != NULL) wrong = 1;
    return wrong;
}
