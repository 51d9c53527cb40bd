/* threads WAD MAP COUNT [BUDGET [STACK]]: so many builds and checks of the map at once, each in a thread with DOOMSIGHT_STACK
 * bytes of stack, or with so many. BUDGET is a number, or `exact`. Each keeps a build, too, which the first thread copies and
 * frees. */
#include "doomsight.h"
#include "wadio.h"
#include <pthread.h>

static doomsight_map map;
static doomsight_options options = {16384, 0};
static size_t size;
static uint8_t *first;
static doomsight_kept handles[64];
static pthread_mutex_t lock = PTHREAD_MUTEX_INITIALIZER;
static int wrong;

/* Builds, keeps, checks, and checks a table with a bit turned: 0 where all is as it should be. */
static int try_all(uint8_t *table, uint8_t *cert, size_t room, doomsight_kept *kept)
{
    doomsight_counts counts, yes;
    doomsight_fault fault;
    char text[DOOMSIGHT_LINE_ROOM];
    int bad;
    if (doomsight_build(&map, &options, table, size, cert, room, &counts, &fault) || counts.cert_size > room) return 1;
    if (doomsight_keep(&map, &options, kept, &yes, &fault) || yes.cert_size != counts.cert_size) return 1;
    if (doomsight_check(&map, NULL, table, size, cert, (size_t)counts.cert_size, &yes, &fault)) return 1;
    if (yes.set != counts.set) return 1;
    table[0] ^= 2;
    bad = doomsight_check(&map, NULL, table, size, cert, (size_t)counts.cert_size, &yes, &fault) != DOOMSIGHT_NO;
    if (doomsight_line(&fault, text, sizeof text) == 0) bad = 1;
    table[0] ^= 2;
    return bad;
}

static void *work(void *arg)
{
    size_t room = (size_t)64 << 20;
    uint8_t *table = (uint8_t *)malloc(size), *cert = (uint8_t *)malloc(room);
    int bad = try_all(table, cert, room, (doomsight_kept *)arg);
    pthread_mutex_lock(&lock);
    if (!first) {
        first = table;
        table = NULL;
    } else if (memcmp(first, table, size)) {
        bad = 1;
    }
    wrong += bad;
    pthread_mutex_unlock(&lock);
    free(table);
    free(cert);
    return NULL;
}

/* Copies the table that another thread kept, compares it with the first, and frees it: 0 where all is as it should be. */
static int take(doomsight_kept *kept)
{
    uint8_t *table = (uint8_t *)malloc(size);
    int bad = doomsight_kept_table(kept, 0, table, size) != size || memcmp(first, table, size);
    doomsight_free(kept);
    free(table);
    return bad;
}

int main(int argc, char **argv)
{
    pthread_attr_t attr;
    pthread_t t[64];
    int i, count;
    if (argc < 4) return 64;
    struct bytes wad = slurp(argv[1]);
    map = map_of(wad, argv[2]);
    size = doomsight_table_size(map.sectors.size);
    count = atoi(argv[3]);
    if (count > 64) return 64;
    if (argc > 4) options.budget = budget_of(argv[4]);
    pthread_attr_init(&attr);
    if (pthread_attr_setstacksize(&attr, argc > 5 ? strtoul(argv[5], NULL, 10) : DOOMSIGHT_STACK)) return 65;
    for (i = 0; i < count; i++)
        if (pthread_create(&t[i], &attr, work, &handles[i])) return 66;
    for (i = 0; i < count; i++) pthread_join(t[i], NULL);
    for (i = 0; i < count; i++) wrong += take(&handles[i]);
    free(first);
    free(wad.at);
    printf("%d threads, %d wrong\n", count, wrong);
    return wrong != 0;
}
