/* ears WAD MAP audit [FLAGS]: all faults of a map by the library, counted a second time here: clashes by all pairs of lines, and
 * loose ends. Then the line by which the program's `audit` would end, or `sound`.
 * ears WAD MAP why A B [BUDGET [FLAGS]]: the line of the program's `why`, or that of the refusal. */
#include "doomsight.h"
#include "wadio.h"
#include <inttypes.h>

typedef struct place {
    int64_t x, y;
} place;

typedef struct segment {
    place p, q;
    size_t record;
} segment;

static int wrong;

static void expect(const char *what, int is)
{
    if (is) return;
    printf("WRONG: %s\n", what);
    wrong = 1;
}

static uint32_t le16(const uint8_t *p)
{
    return p[0] | (uint32_t)p[1] << 8;
}

static place place_of(doomsight_lump vertexes, uint32_t k)
{
    const uint8_t *at = (const uint8_t *)vertexes.bytes + 4 * (size_t)k;
    place p;
    p.x = (int16_t)le16(at);
    p.y = (int16_t)le16(at + 2);
    return p;
}

static int same_place(place p, place q)
{
    return p.x == q.x && p.y == q.y;
}

/* Twice the area of p q r, positive where it turns left. */
static int64_t turn(place p, place q, place r)
{
    return (q.x - p.x) * (r.y - p.y) - (q.y - p.y) * (r.x - p.x);
}

static int sign(int64_t n)
{
    return (n > 0) - (n < 0);
}

static int64_t along(segment s, place p)
{
    return (p.x - s.p.x) * (s.q.x - s.p.x) + (p.y - s.p.y) * (s.q.y - s.p.y);
}

/* Whether a point that is on the line of the segment lies within it, its ends left out. */
static int within(segment s, place p)
{
    int64_t at = along(s, p);
    return at > 0 && at < along(s, s.q);
}

/* What two segments have in common that isn't an end of both, as a kind, or 0. */
static int clash(segment s, segment t)
{
    int a = sign(turn(s.p, s.q, t.p)), b = sign(turn(s.p, s.q, t.q)), c = sign(turn(t.p, t.q, s.p)), d = sign(turn(t.p, t.q, s.q));
    if (a == 0 && b == 0) {
        int64_t from = along(s, t.p), to = along(s, t.q), least = from < to ? from : to, most = from < to ? to : from;
        return least < along(s, s.q) && most > 0 ? DOOMSIGHT_FLAW_OVERLAP : 0;
    }
    if (a * b < 0 && c * d < 0) return DOOMSIGHT_FLAW_CROSS;
    if ((a == 0 && within(s, t.p)) || (b == 0 && within(s, t.q)) || (c == 0 && within(t, s.p)) || (d == 0 && within(t, s.q)))
        return DOOMSIGHT_FLAW_TOUCH;
    return 0;
}

/* The lines of the map that have a length. */
static size_t segments_of(const doomsight_map *map, segment *found)
{
    size_t record = map->format == DOOMSIGHT_HEXEN ? 16 : 14, n = 0, i;
    for (i = 0; i < map->linedefs.size / record; i++) {
        const uint8_t *at = (const uint8_t *)map->linedefs.bytes + i * record;
        segment s;
        s.p = place_of(map->vertexes, le16(at));
        s.q = place_of(map->vertexes, le16(at + 2));
        s.record = i;
        if (!same_place(s.p, s.q)) found[n++] = s;
    }
    return n;
}

static int is_loose(const segment *lines, size_t n, size_t i, place p)
{
    size_t k;
    for (k = 0; k < n; k++)
        if (k != i && (same_place(lines[k].p, p) || same_place(lines[k].q, p))) return 0;
    return 1;
}

/* Counts clashes and loose ends of all pairs, and looks each of the first clashes up among the flaws. */
static void count_again(const doomsight_map *map, const doomsight_flaw *flaws, const doomsight_flaw_counts *counts)
{
    segment *lines = (segment *)malloc((map->linedefs.size / 14 + 1) * sizeof *lines);
    size_t n = segments_of(map, lines), i, k;
    uint64_t clashes = 0, loose = 0;
    for (i = 0; i < n; i++) {
        for (k = i + 1; k < n; k++) {
            int kind = clash(lines[i], lines[k]);
            if (kind && clashes < 1000 && (flaws[clashes].kind != kind || flaws[clashes].i != lines[i].record
                || flaws[clashes].j != lines[k].record))
                expect("a clash and its place in the list", 0);
            if (kind) clashes++;
        }
        loose += (uint64_t)(is_loose(lines, n, i, lines[i].p) + is_loose(lines, n, i, lines[i].q));
    }
    expect("the number of clashes", clashes == counts->clashes);
    expect("the number of loose ends", loose == counts->loose_ends);
    free(lines);
}

/* With less room the same front is put, and nothing behind it. */
static void less_room(const doomsight_map *map, const doomsight_options *options, const doomsight_flaw *flaws,
    const doomsight_flaw_counts *counts, size_t room)
{
    doomsight_flaw *fewer = (doomsight_flaw *)malloc((room + 1) * sizeof *fewer);
    doomsight_flaw_counts again;
    doomsight_fault fault;
    size_t put = room < counts->listed ? room : (size_t)counts->listed;
    const uint8_t *rest = (const uint8_t *)(fewer + put);
    size_t i;
    memset(fewer, 0xEE, (room + 1) * sizeof *fewer);
    expect("an audit with less room", doomsight_audit(map, options, room ? fewer : NULL, room, &again, &fault) == DOOMSIGHT_OK);
    expect("the same counts", !memcmp(&again, counts, sizeof again));
    expect("the same front", !memcmp(fewer, flaws, put * sizeof *fewer));
    for (i = 0; i < (room + 1 - put) * sizeof *fewer; i++)
        if (rest[i] != 0xEE) expect("nothing behind it", 0);
    free(fewer);
}

/* The first flaw for which a map has no table. */
static const doomsight_flaw *refused_by(const doomsight_flaw *flaws, const doomsight_flaw_counts *counts)
{
    size_t i;
    for (i = 0; i < counts->listed; i++)
        if (flaws[i].kind <= DOOMSIGHT_FLAW_OPEN) return &flaws[i];
    return NULL;
}

static int audit(const doomsight_map *map, const doomsight_options *options)
{
    size_t room = 400000, i;
    doomsight_flaw *flaws = (doomsight_flaw *)malloc(room * sizeof *flaws);
    doomsight_flaw_counts counts;
    doomsight_fault fault, as;
    const doomsight_flaw *first;
    char line[DOOMSIGHT_LINE_ROOM];
    int32_t code = doomsight_audit(map, options, flaws, room, &counts, &fault);
    if (code) {
        expect("a line", doomsight_line(&fault, line, sizeof line) < sizeof line);
        fputs(line, stdout);
        free(flaws);
        return code;
    }
    expect("room for all", counts.listed <= room);
    expect("all are listed", counts.listed == (counts.clashes < 1000 ? counts.clashes : 1000) + counts.loose_ends + counts.open_sides
        + counts.tears + counts.gaps);
    for (i = 0; i < counts.listed; i++) expect("a text", doomsight_flaw_text(flaws[i].kind)[0] != '\0');
    count_again(map, flaws, &counts);
    less_room(map, options, flaws, &counts, 0);
    less_room(map, options, flaws, &counts, (size_t)counts.listed / 2);
    less_room(map, options, flaws, &counts, (size_t)counts.listed + 3);
    first = refused_by(flaws, &counts);
    expect("a fault where there is one", (first == NULL) == (counts.clashes == 0 && counts.open_sides == 0));
    printf("clashes %" PRIu64 " loose %" PRIu64 " open %" PRIu64 " torn %" PRIu64 " gaps %" PRIu64 "\n", counts.clashes,
        counts.loose_ends, counts.open_sides, counts.tears, counts.gaps);
    if (first) {
        memset(&as, 0, sizeof as);
        as.code = DOOMSIGHT_BAD_MAP;
        as.kind = first->kind;
        as.a = as.line = first->i;
        as.b = first->j;
        as.left = first->left;
        expect("a line", doomsight_line(&as, line, sizeof line) < sizeof line);
        fputs(line, stdout);
    } else {
        puts("sound");
    }
    free(flaws);
    return wrong ? 66 : 0;
}

static int why(const doomsight_map *map, const doomsight_options *options, uint32_t a, uint32_t b)
{
    static const char *const words[5] = {"", "sight", "touch", "blind", "listed"};
    doomsight_answer answer, same;
    doomsight_fault fault;
    char line[DOOMSIGHT_LINE_ROOM];
    int32_t code;
    memset(&same, 0xEE, sizeof same);
    answer = same;
    expect("no sector above 65535", doomsight_why(map, options, a, 65536, &answer, &fault) == DOOMSIGHT_USAGE
        && fault.kind == DOOMSIGHT_BAD_SECTOR && fault.at == 65536 && !memcmp(&answer, &same, sizeof same));
    code = doomsight_why(map, options, a, b, &answer, &fault);
    if (code) {
        expect("nothing else was written", !memcmp(&answer, &same, sizeof same));
        expect("a line", doomsight_line(&fault, line, sizeof line) < sizeof line);
        expect("texts", doomsight_code_text(code)[0] && doomsight_kind_text(fault.kind)[0]);
        fputs(line, stdout);
        return wrong ? 66 : code;
    }
    expect("an answer", answer.answer >= 1 && answer.answer <= 4);
    printf("%s %" PRIu32 " %" PRIu32, words[answer.answer > 4 ? 0 : answer.answer], a, b);
    if (answer.answer == DOOMSIGHT_ANSWER_SIGHT)
        printf(" by %u%c,%u%c,%" PRId32 ",%" PRId32 ",%" PRId64, answer.first_line, answer.first_left ? 'L' : 'R', answer.last_line,
            answer.last_left ? 'L' : 'R', answer.a, answer.b, answer.c);
    putchar('\n');
    return wrong ? 66 : 0;
}

int main(int argc, char **argv)
{
    struct bytes wad;
    doomsight_map map;
    doomsight_options options = {DOOMSIGHT_FULL, 0};
    int code = 64;
    if (argc < 4) return 64;
    wad = slurp(argv[1]);
    map = map_of(wad, argv[2]);
    if (!strcmp(argv[3], "audit")) {
        if (argc > 4) options.flags = (uint32_t)atoi(argv[4]);
        code = audit(&map, argc > 4 ? &options : NULL);
    } else if (argc > 5) {
        if (argc > 6) options.budget = budget_of(argv[6]);
        if (argc > 7) options.flags = (uint32_t)atoi(argv[7]);
        code = why(&map, argc > 6 ? &options : NULL, (uint32_t)atol(argv[4]), (uint32_t)atol(argv[5]));
    }
    free(wad.at);
    return code;
}
