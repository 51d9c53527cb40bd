/* stack WAD MAP [BUDGET [FLAGS]]: how many bytes of stack a build, a kept build with its copies, a check with its line, and an
 * audit with the answer for two sectors touch, each in a thread whose stack was painted before. What a thread that does nothing touches is taken off. BUDGET is a
 * number, or `exact`. A map that is refused touches what its refusal does. */
#define _POSIX_C_SOURCE 200809L
#include "doomsight.h"
#include "wadio.h"
#include <pthread.h>

#define STACK ((size_t)1 << 20)
#define PAINT 0xA7

static doomsight_map map;
static doomsight_options options = {16384, 0};
static uint8_t *table, *cert;
static size_t size, room = (size_t)64 << 20;
static doomsight_counts counts;

static void *nothing(void *arg)
{
    return arg;
}

static void *build(void *arg)
{
    doomsight_fault fault;
    if (doomsight_build(&map, &options, table, size, cert, room, &counts, &fault)) counts.cert_size = 0;
    return arg;
}

static void *keep(void *arg)
{
    doomsight_kept kept = DOOMSIGHT_NOTHING_KEPT;
    doomsight_fault fault;
    uint8_t piece[64];
    doomsight_keep(&map, &options, &kept, &counts, &fault);
    doomsight_kept_table(&kept, 0, piece, sizeof piece);
    doomsight_kept_cert(&kept, doomsight_kept_cert_size(&kept) / 2, piece, sizeof piece);
    doomsight_free(&kept);
    return arg;
}

static void *check(void *arg)
{
    doomsight_counts yes;
    doomsight_fault fault;
    char text[DOOMSIGHT_LINE_ROOM];
    doomsight_check(&map, &options, table, size, cert, (size_t)counts.cert_size, &yes, &fault);
    doomsight_line(&fault, text, sizeof text);
    return arg;
}

static void *hear(void *arg)
{
    doomsight_flaw flaws[4];
    doomsight_flaw_counts found;
    doomsight_answer answer;
    doomsight_fault fault;
    uint32_t last = (uint32_t)(map.sectors.size / 26);
    doomsight_audit(&map, &options, flaws, 4, &found, &fault);
    doomsight_why(&map, &options, 0, last ? last - 1 : 0, &answer, &fault);
    return arg;
}

/* How many bytes of its stack a thread touches. */
static size_t touched(void *(*run)(void *))
{
    pthread_attr_t attr;
    pthread_t thread;
    void *stack = NULL;
    size_t i = 0;
    if (posix_memalign(&stack, 4096, STACK)) exit(92);
    memset(stack, PAINT, STACK);
    pthread_attr_init(&attr);
    if (pthread_attr_setstack(&attr, stack, STACK) || pthread_create(&thread, &attr, run, NULL)) exit(93);
    pthread_join(thread, NULL);
    while (i < STACK && ((uint8_t *)stack)[i] == PAINT) i++;
    free(stack);
    return STACK - i;
}

int main(int argc, char **argv)
{
    struct bytes wad;
    size_t least, built, kept, checked, heard;
    if (argc < 3) return 64;
    wad = slurp(argv[1]);
    map = map_of(wad, argv[2]);
    if (argc > 3) options.budget = budget_of(argv[3]);
    if (argc > 4) options.flags = (uint32_t)atoi(argv[4]);
    size = doomsight_table_size(map.sectors.size);
    table = (uint8_t *)malloc(size ? size : 1);
    cert = (uint8_t *)malloc(room);
    if (!table || !cert) return 65;
    least = touched(nothing);
    built = touched(build) - least;
    kept = touched(keep) - least;
    checked = touched(check) - least;
    heard = touched(hear) - least;
    printf("%s stack of build %lu keep %lu check %lu hear %lu\n", argv[2], (unsigned long)built, (unsigned long)kept,
        (unsigned long)checked, (unsigned long)heard);
    free(table);
    free(cert);
    free(wad.at);
    return 0;
}
