/* hook WAD MAP [BUDGET]: a build, a kept build, a check, an audit and an answer for two sectors, each first under a hook that only
 * counts, and then stopped by one at its first block, in the middle and at its last one. A stopped call has to answer MEMORY, to leave
 * buffers and handle as they were, and not to ask again; but the answer for two sectors may be there before the last block. A thread
 * without a hook builds meanwhile. BUDGET is a number, or `exact`. Prints how many blocks the build took, and the longest time between
 * two of them, in milliseconds. */
#define _POSIX_C_SOURCE 200809L
#include "doomsight.h"
#include "wadio.h"
#include <pthread.h>
#include <time.h>

#define FILLED 0xAA

/* What the hook is handed: how often it was asked, at which block it says stop (0: at none), and when it was asked last. */
struct watch {
    uint64_t asked, stop;
    double last, longest;
};

struct outputs {
    uint8_t *table, *cert;
    doomsight_counts counts;
    doomsight_answer answer;
    doomsight_flaw flaws[4];
    doomsight_flaw_counts found;
    doomsight_kept kept;
};

static doomsight_map map;
static doomsight_options options = {16384, 0};
static size_t size, room = (size_t)64 << 20, cert_size;
static uint8_t *right_table, *right_cert;
static int wrong;

static void expect(const char *what, int is)
{
    if (is) return;
    printf("WRONG: %s\n", what);
    wrong = 1;
}

static double now(void)
{
    struct timespec t;
    clock_gettime(CLOCK_MONOTONIC, &t);
    return 1e3 * (double)t.tv_sec + 1e-6 * (double)t.tv_nsec;
}

static int ask(void *data, uint64_t blocks)
{
    struct watch *w = (struct watch *)data;
    double t = now();
    w->asked++;
    if (blocks != w->asked) wrong = 1;
    if (t - w->last > w->longest) w->longest = t - w->last;
    w->last = t;
    return blocks == w->stop;
}

static int32_t build(struct outputs *o, doomsight_fault *f)
{
    return doomsight_build(&map, &options, o->table, size, o->cert, room, &o->counts, f);
}

static int32_t keep(struct outputs *o, doomsight_fault *f)
{
    return doomsight_keep(&map, &options, &o->kept, &o->counts, f);
}

static int32_t check(struct outputs *o, doomsight_fault *f)
{
    return doomsight_check(&map, &options, right_table, size, right_cert, cert_size, &o->counts, f);
}

static int32_t audit(struct outputs *o, doomsight_fault *f)
{
    return doomsight_audit(&map, &options, o->flaws, 4, &o->found, f);
}

static int32_t why(struct outputs *o, doomsight_fault *f)
{
    return doomsight_why(&map, &options, 0, (uint32_t)(map.sectors.size / 26) - 1, &o->answer, f);
}

/* Fills all but the handle. */
static void fill(struct outputs *o)
{
    memset(o->table, FILLED, size);
    memset(o->cert, FILLED, cert_size);
    memset(&o->counts, FILLED, sizeof o->counts);
    memset(&o->answer, FILLED, sizeof o->answer);
    memset(o->flaws, FILLED, sizeof o->flaws);
    memset(&o->found, FILLED, sizeof o->found);
}

static int is_filled(const void *at, size_t n)
{
    const uint8_t *p = (const uint8_t *)at;
    while (n > 0 && p[n - 1] == FILLED) n--;
    return n == 0;
}

static void expect_as_before(const char *what, const struct outputs *o, const void *kept)
{
    expect(what, is_filled(o->table, size) && is_filled(o->cert, cert_size) && is_filled(&o->counts, sizeof o->counts) &&
        is_filled(&o->answer, sizeof o->answer) && is_filled(o->flaws, sizeof o->flaws) && is_filled(&o->found, sizeof o->found) &&
        o->kept.at == kept);
}

/* The call under a hook that counts, and then stopped. */
static struct watch try_call(const char *what, int32_t (*call)(struct outputs *, doomsight_fault *), struct outputs *o)
{
    struct watch counting = {0, 0, 0, 0}, stopping = {0, 0, 0, 0};
    doomsight_fault fault;
    uint64_t stops[3];
    int32_t code;
    void *kept;
    int k;
    counting.last = now();
    doomsight_set_hook(ask, &counting);
    expect(what, call(o, &fault) == DOOMSIGHT_OK && counting.asked > 0);
    stops[0] = 1;
    stops[1] = counting.asked / 2 + 1;
    stops[2] = counting.asked;
    kept = o->kept.at;
    for (k = 0; k < 3; k++) {
        fill(o);
        stopping.asked = 0;
        stopping.stop = stops[k];
        doomsight_set_hook(ask, &stopping);
        code = call(o, &fault);
        expect("asked after a stop", stopping.asked == stops[k]);
        if (k == 2 && call == why && code == DOOMSIGHT_OK) continue;
        expect(what, code == DOOMSIGHT_MEMORY && fault.code == DOOMSIGHT_MEMORY && fault.kind == DOOMSIGHT_NONE);
        expect_as_before(what, o, kept);
    }
    doomsight_set_hook(NULL, NULL);
    expect("asked without a hook", call(o, &fault) == DOOMSIGHT_OK && stopping.asked == stops[2]);
    return counting;
}

/* A build in a thread that has set no hook. */
static void *apart(void *arg)
{
    struct outputs *o = (struct outputs *)arg;
    doomsight_fault fault;
    if (build(o, &fault)) o->counts.sectors = 0;
    return NULL;
}

static void open_outputs(struct outputs *o)
{
    memset(o, 0, sizeof *o);
    o->table = (uint8_t *)malloc(size ? size : 1);
    o->cert = (uint8_t *)malloc(room);
    if (!o->table || !o->cert) exit(92);
}

static void close_outputs(struct outputs *o)
{
    doomsight_free(&o->kept);
    free(o->table);
    free(o->cert);
}

int main(int argc, char **argv)
{
    struct bytes wad;
    struct outputs right, here, there;
    struct watch built;
    doomsight_fault fault;
    pthread_t thread;
    if (argc < 3) return 64;
    wad = slurp(argv[1]);
    map = map_of(wad, argv[2]);
    if (argc > 3) options.budget = budget_of(argv[3]);
    size = doomsight_table_size(map.sectors.size);
    open_outputs(&right);
    open_outputs(&here);
    open_outputs(&there);
    if (build(&right, &fault) || right.counts.cert_size > room) return 65;
    right_table = right.table;
    right_cert = right.cert;
    cert_size = (size_t)right.counts.cert_size;
    if (pthread_create(&thread, NULL, apart, &there)) return 93;
    built = try_call("build", build, &here);
    expect("the same table", !memcmp(here.table, right.table, size) && !memcmp(here.cert, right.cert, cert_size));
    try_call("keep", keep, &here);
    expect("kept", doomsight_kept_cert_size(&here.kept) == cert_size);
    try_call("check", check, &here);
    try_call("audit", audit, &here);
    try_call("why", why, &here);
    pthread_join(thread, NULL);
    expect("the other thread", !memcmp(&there.counts, &right.counts, sizeof there.counts) && !memcmp(there.table, right.table, size));
    printf("hook %s blocks %lu longest %.3f ms\n", argv[2], (unsigned long)built.asked, built.longest);
    close_outputs(&right);
    close_outputs(&here);
    close_outputs(&there);
    free(wad.at);
    return wrong;
}
