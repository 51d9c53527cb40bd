/* doomsight.h: REJECT tables of Doom maps, built and checked in the process of the caller; all faults of a map at their places, and
 * whether two sectors see each other.
 *
 * Link with libdoomsight_c.a and doomsight_heap.o (or the kit's liblibc_c.a), in this order; nothing else but the C library is
 * needed: the archive asks for rattle_alloc, rattle_realloc and rattle_dealloc, memcpy, memmove and memset, and for __udivti3 of the
 * library that each compiler links by itself (texts of UDMF divide numbers of 128 bits).
 *
 * docs/C-LIBRARY.md says what is proved of these calls, and what the caller owes.
 *
 * - All outputs are buffers of the caller. There is no global state but the hook of a thread, and one thing to free: what
 *   doomsight_keep leaves behind a handle is freed by doomsight_free.
 * - Calls may run in several threads at once, on buffers and handles that they don't share (inputs may be shared, if nobody writes
 *   them).
 * - No call starts a thread, reads or writes a file, or prints, or calls anything back but the hook. Each takes its memory by malloc
 *   and, but for what doomsight_keep keeps, gives all of it back by free before it returns. Don't call from a signal handler, or in
 *   the child of a fork of a process with threads.
 * - A call is stopped by a hook: see doomsight_set_hook.
 *   For a build in several threads run the program (doomsight build --workers N), and check what it made by doomsight_check.
 * - A call needs some stack: see DOOMSIGHT_STACK.
 * - Buffers of one call must not overlap one another, but inputs may.
 */
#ifndef DOOMSIGHT_H
#define DOOMSIGHT_H

#include <stddef.h>
#include <stdint.h>

#ifdef __cplusplus
extern "C" {
#endif

/* The interface of this header; doomsight_abi() tells that of the library. They differ where one of them is to be replaced: then
 * each call that has a fault to tell ends at once, with DOOMSIGHT_USAGE and DOOMSIGHT_OTHER_ABI, and wrote nothing else. */
#define DOOMSIGHT_ABI 1
uint32_t doomsight_abi(void);

/* The version of this header: 10000 times its first number, 100 times its second, and its third. doomsight_version() tells that
 * of the library. */
#define DOOMSIGHT_VERSION 10100
uint32_t doomsight_version(void);

/* Bytes of stack that a call has to find free, whatever the map: three times what any was seen to touch. Tried by bench/c_library.sh,
 * not proved. Where there is less the thread ends by SIGSEGV at its guard page. A thread of musl has 128 KiB, one of macOS 512 KiB. */
#define DOOMSIGHT_STACK (64u * 1024u)

/* What a call answers. Each is the exit status of the program `doomsight` that has the same meaning. */
enum doomsight_code {
    DOOMSIGHT_OK = 0,        /* done; of a check: yes */
    DOOMSIGHT_NO = 1,        /* of a check: no */
    DOOMSIGHT_USAGE = 2,     /* a number of the call or the size of the table's buffer isn't in order */
    DOOMSIGHT_BAD_LUMP = 8,  /* the lumps are no map */
    DOOMSIGHT_LIMIT = 9,     /* more than 4096 sectors, 16384 lines or 4096 points; see DOOMSIGHT_LARGE */
    DOOMSIGHT_BAD_MAP = 10,  /* lines cross, touch or overlap, or a face is open */
    DOOMSIGHT_MEMORY = 12    /* malloc refused, or the hook stopped the call */
};

/* What exactly, and which numbers of a fault tell more. Each kind has one code; kind 0 is that of DOOMSIGHT_OK and of
 * DOOMSIGHT_MEMORY. */
enum doomsight_kind {
    DOOMSIGHT_NONE = 0,
    /* BAD_LUMP */
    DOOMSIGHT_LUMP_SIZE = 1,         /* a: 0 LINEDEFS, 1 SIDEDEFS, 2 VERTEXES, 3 SECTORS */
    DOOMSIGHT_LUMP_VERTEX = 2,       /* a: the LINEDEFS record */
    DOOMSIGHT_LUMP_SIDE = 3,         /* a: the LINEDEFS record */
    DOOMSIGHT_LUMP_SECTOR = 4,       /* a: the SIDEDEFS record */
    /* LIMIT */
    DOOMSIGHT_SECTORS = 5,
    DOOMSIGHT_LINES = 6,
    DOOMSIGHT_POINTS = 7,
    /* BAD_MAP */
    DOOMSIGHT_CROSS = 8,             /* a, b: two LINEDEFS records, here and in the next two */
    DOOMSIGHT_TOUCH = 9,
    DOOMSIGHT_OVERLAP = 10,
    DOOMSIGHT_OPEN = 11,             /* line, left: the side whose face is open */
    /* USAGE */
    DOOMSIGHT_BAD_FORMAT = 12,       /* at: the format */
    DOOMSIGHT_BAD_FLAGS = 13,        /* at: the flags */
    DOOMSIGHT_BAD_BUDGET = 14,       /* at: the budget */
    DOOMSIGHT_BAD_TABLE_SIZE = 15,   /* at: the size that the table of this map has */
    DOOMSIGHT_BAD_SECTOR = 16,       /* at: a sector's number above 65535, which no map has */
    DOOMSIGHT_OTHER_ABI = 17,        /* at: the library's interface, more: the header's */
    /* NO */
    DOOMSIGHT_TABLE_LENGTH = 20,     /* at: bytes found, more: bytes expected */
    DOOMSIGHT_CERT_MAGIC = 21,
    DOOMSIGHT_CERT_VERSION = 22,
    DOOMSIGHT_CERT_SHORT = 23,       /* at: the byte, here and in the next three */
    DOOMSIGHT_CERT_RANGE = 24,
    DOOMSIGHT_CERT_ORDER = 25,
    DOOMSIGHT_CERT_TRAILING = 26,
    DOOMSIGHT_MESH_FLAT = 30,        /* a: the triangle, here and in the next two */
    DOOMSIGHT_MESH_TWICE = 31,
    DOOMSIGHT_MESH_MATE = 32,
    DOOMSIGHT_MESH_SIDE = 33,        /* line, left: the side */
    DOOMSIGHT_MESH_MEETS = 34,       /* a: the triangle, b: the line */
    DOOMSIGHT_MESH_INSIDE = 35,      /* a: the triangle, b: the point */
    DOOMSIGHT_RAY_ELSEWHERE = 40,    /* a, b: the pair of groups of the ray, here and in the next six */
    DOOMSIGHT_RAY_RANGE = 41,
    DOOMSIGHT_RAY_SIDE = 42,         /* line, left: the side */
    DOOMSIGHT_RAY_NOT_SPLIT = 43,    /* line */
    DOOMSIGHT_RAY_WRONG_WAY = 44,    /* line */
    DOOMSIGHT_RAY_BACKWARDS = 45,
    DOOMSIGHT_RAY_BLOCKED = 46,      /* line */
    DOOMSIGHT_TREE = 50,             /* a: the source of the tree, at: its node */
    DOOMSIGHT_LISTED_SET = 51,       /* a, b: the pair of sectors, here and in the next two */
    DOOMSIGHT_UNPROVED = 52,
    DOOMSIGHT_UNCOVERED = 53,
    DOOMSIGHT_GROUP = 54,            /* a: the triangle */
    DOOMSIGHT_UNUSED = 55,           /* a: the group */
    DOOMSIGHT_NO_SECTOR = 56,        /* a: the number; the map has no such sector */
    /* BAD_LUMP, of a text of UDMF */
    DOOMSIGHT_TEXT = 70,             /* at: the byte where the text is no UDMF, here and in the next two */
    DOOMSIGHT_TEXT_NAMESPACE = 71,
    DOOMSIGHT_TEXT_VALUE = 72,
    DOOMSIGHT_TEXT_PORTAL = 73,      /* at: the block of the line, counted from 0 */
    DOOMSIGHT_TEXT_OFF_GRID = 74,    /* at: the block of the vertex, or its record in lumps with DOOMSIGHT_UDMF, counted from 0 */
    /* LIMIT, of a text of UDMF */
    DOOMSIGHT_TEXT_VERTICES = 75,
    DOOMSIGHT_TEXT_SIDES = 76
};

/* After DOOMSIGHT_OK all of its numbers are 0. */
typedef struct doomsight_fault {
    uint16_t code;  /* an enum doomsight_code */
    uint16_t kind;  /* an enum doomsight_kind */
    uint16_t a, b;
    uint16_t line, left; /* a side: its LINEDEFS record, and 1 where it is the left one */
    uint64_t at, more;
} doomsight_fault;

/* Pairs (a, b) with a <= b. */
typedef struct doomsight_counts {
    uint64_t sectors;
    uint64_t set;       /* proved blind: their bit is set */
    uint64_t clear;     /* proved to see */
    uint64_t listed;    /* clear, since the budget ran out; none with DOOMSIGHT_ENOUGH, DOOMSIGHT_FULL and DOOMSIGHT_EXACT */
    uint64_t cert_size; /* bytes of the whole certificate, whatever room the buffer has */
} doomsight_counts;

/* What is answered for two sectors. */
enum doomsight_answer_kind {
    DOOMSIGHT_ANSWER_SIGHT = 1, /* they see each other along the ray */
    DOOMSIGHT_ANSWER_TOUCH = 2, /* they see each other: a face belongs to both, so nothing lies between them */
    DOOMSIGHT_ANSWER_BLIND = 3, /* they don't see each other */
    DOOMSIGHT_ANSWER_LISTED = 4 /* left open, since the budget ran out; never without a bound */
};

/* The ray lies on the line of the points with a * x + b * y + c = 0, in units of VERTEXES, and goes in direction (b, -a). It begins on a
 * side of one line, at a face of the first sector, and ends on one of another line, at a face of the second. All its numbers are 0 where
 * the answer isn't DOOMSIGHT_ANSWER_SIGHT. */
typedef struct doomsight_answer {
    uint16_t answer; /* an enum doomsight_answer_kind */
    uint16_t first_line, first_left; /* a side: its LINEDEFS record, and 1 where it is the left one */
    uint16_t last_line, last_left;
    int32_t a, b;
    int64_t c;
} doomsight_answer;

/* What is at fault in a map. `i` and `j` are LINEDEFS records, (x, y) and (to_x, to_y) places in units of VERTEXES; what isn't named is
 * 0. */
enum doomsight_flaw_kind {
    DOOMSIGHT_FLAW_CROSS = 8,      /* lines i and j cross; (x, y), and (to_x, to_y) too: where, rounded down */
    DOOMSIGHT_FLAW_TOUCH = 9,      /* an end of one lies within the other, at (x, y), and (to_x, to_y) too */
    DOOMSIGHT_FLAW_OVERLAP = 10,   /* they have a stretch in common; line i goes from (x, y) to (to_x, to_y) */
    DOOMSIGHT_FLAW_OPEN = 11,      /* the face of this side of line i, `left` or not, leads out of the map; the line as above */
    DOOMSIGHT_FLAW_LOOSE_END = 60, /* no other line ends where line i does, at (x, y), and (to_x, to_y) too */
    DOOMSIGHT_FLAW_TEAR = 61,      /* at (x, y), an end of this side of line i, there is a hole: the next edge, of which and of the
                                    * side just one names a sector, goes from there to (to_x, to_y) */
    DOOMSIGHT_FLAW_GAP = 62        /* from (x, y) to (to_x, to_y) no line closes the hull of the map */
};

typedef struct doomsight_flaw {
    uint16_t kind; /* an enum doomsight_flaw_kind */
    uint16_t i, j;
    uint16_t left; /* 1 for the left side of line i */
    int32_t x, y, to_x, to_y;
} doomsight_flaw;

/* How many there are of each. A map has a table exactly where it has no clashes (which cross, touch or overlap) and no open sides.
 * The others say where to look: most maps have gaps, and a loose end may be meant. */
typedef struct doomsight_flaw_counts {
    uint64_t clashes;
    uint64_t loose_ends;
    uint64_t open_sides; /* where lines clash, none of these three is looked for */
    uint64_t tears;
    uint64_t gaps;
    uint64_t listed;     /* all of them, but of the clashes at most the first 1000 */
} doomsight_flaw_counts;

/* How many bytes each of the four lumps has. */
typedef struct doomsight_lump_sizes {
    uint64_t linedefs, sidedefs, vertexes, sectors;
} doomsight_lump_sizes;

#if defined(__cplusplus) && __cplusplus >= 201103L
#define DOOMSIGHT_HOLDS(fact) static_assert(fact, #fact)
#elif defined(__STDC_VERSION__) && __STDC_VERSION__ >= 201112L
#define DOOMSIGHT_HOLDS(fact) _Static_assert(fact, #fact)
#else
#define DOOMSIGHT_HOLDS(fact) typedef char doomsight_holds[(fact) ? 1 : -1]
#endif
DOOMSIGHT_HOLDS(sizeof(doomsight_fault) == 32 && sizeof(doomsight_counts) == 40 && sizeof(doomsight_answer) == 32
    && sizeof(doomsight_flaw) == 24 && sizeof(doomsight_flaw_counts) == 48 && sizeof(doomsight_lump_sizes) == 32
    && sizeof(void *) == 8);
#undef DOOMSIGHT_HOLDS

/* Budgets: 1 to 4294967296, or one of these. The program's default is 16384. */
#define DOOMSIGHT_ENOUGH UINT64_C(0)    /* as much as this map needs */
#define DOOMSIGHT_FULL UINT64_MAX       /* no bound */
/* Not a budget, but the program's --exact: every pair is decided in another way, none is listed, and the certificate is of version
 * 3. A library that doesn't know it refuses it with DOOMSIGHT_BAD_BUDGET. */
#define DOOMSIGHT_EXACT (UINT64_MAX - 1)

/* UDMF is the format of the lumps that doomsight_udmf_map writes: Doom's, but that the coordinates in VERTEXES have 32 bits.
 * It writes none that is farther than 2^25 from 0. In VERTEXES of other origin such a coordinate is refused, as TEXT_OFF_GRID. */
enum doomsight_format { DOOMSIGHT_DOOM = 0, DOOMSIGHT_HEXEN = 1, DOOMSIGHT_UDMF = 2 };

/* Flags. LARGE is the program's --large: at most 16384 sectors, 32768 lines and 16383 points. */
enum doomsight_flag { DOOMSIGHT_LARGE = 1 };

/* A lump: bytes and how many. `bytes` may be NULL where `size` is 0. */
typedef struct doomsight_lump {
    const void *bytes;
    size_t size;
} doomsight_lump;

/* The four lumps that a table depends on, as they stand in a WAD (little-endian records). */
typedef struct doomsight_map {
    doomsight_lump linedefs, sidedefs, vertexes, sectors;
    uint32_t format; /* an enum doomsight_format */
} doomsight_map;

typedef struct doomsight_options {
    uint64_t budget; /* of a build or of two sectors, or DOOMSIGHT_EXACT; a check and an audit don't look at it */
    uint32_t flags;  /* 0, or DOOMSIGHT_LARGE */
} doomsight_options;

/* The handle of a build that the library keeps. It keeps nothing where `at` is NULL, and so begins as DOOMSIGHT_NOTHING_KEPT, or as
 * zero bytes. Whoever has one that keeps something owes one call, doomsight_free. Its owner may move it, also to another thread, but
 * may not use two copies of one, and gives it to one call at a time. Nobody but the library writes `at`, or follows it. */
typedef struct doomsight_kept {
    void *at;
} doomsight_kept;

#define DOOMSIGHT_NOTHING_KEPT {NULL}

/* How many bytes the table of a SECTORS lump of so many bytes has; 0 where it has none, or more than 16384 sectors. */
static inline size_t doomsight_table_size(size_t sectors_size)
{
    size_t n = sectors_size / 26;
    return n > 16384 ? 0 : (n * n + 7) / 8;
}

/* ---- The functions of the library. A `&[u8]` of Rattle is a pointer that isn't NULL, and a length. */

int32_t doomsight_build_buffers(const uint8_t *linedefs, size_t linedefs_size, const uint8_t *sidedefs, size_t sidedefs_size,
    const uint8_t *vertexes, size_t vertexes_size, const uint8_t *sectors, size_t sectors_size, uint32_t format, uint32_t flags,
    uint64_t budget, uint8_t *reject, size_t reject_size, uint8_t *cert, size_t cert_room, doomsight_counts *counts,
    doomsight_fault *fault);

int32_t doomsight_check_buffers(const uint8_t *linedefs, size_t linedefs_size, const uint8_t *sidedefs, size_t sidedefs_size,
    const uint8_t *vertexes, size_t vertexes_size, const uint8_t *sectors, size_t sectors_size, uint32_t format, uint32_t flags,
    const uint8_t *reject, size_t reject_size, const uint8_t *cert, size_t cert_size, doomsight_counts *counts,
    doomsight_fault *fault);

int32_t doomsight_keep_buffers(const uint8_t *linedefs, size_t linedefs_size, const uint8_t *sidedefs, size_t sidedefs_size,
    const uint8_t *vertexes, size_t vertexes_size, const uint8_t *sectors, size_t sectors_size, uint32_t format, uint32_t flags,
    uint64_t budget, doomsight_kept *kept, doomsight_counts *counts, doomsight_fault *fault);

size_t doomsight_kept_table_buffer(doomsight_kept *kept, size_t offset, uint8_t *bytes, size_t room);

size_t doomsight_kept_cert_buffer(doomsight_kept *kept, size_t offset, uint8_t *bytes, size_t room);

size_t doomsight_line_buffer(const doomsight_fault *fault, uint8_t *text, size_t room);

int32_t doomsight_why_buffers(const uint8_t *linedefs, size_t linedefs_size, const uint8_t *sidedefs, size_t sidedefs_size,
    const uint8_t *vertexes, size_t vertexes_size, const uint8_t *sectors, size_t sectors_size, uint32_t format, uint32_t flags,
    uint64_t budget, uint32_t a, uint32_t b, doomsight_answer *answer, doomsight_fault *fault);

int32_t doomsight_audit_buffers(const uint8_t *linedefs, size_t linedefs_size, const uint8_t *sidedefs, size_t sidedefs_size,
    const uint8_t *vertexes, size_t vertexes_size, const uint8_t *sectors, size_t sectors_size, uint32_t format, uint32_t flags,
    doomsight_flaw *flaws, size_t room, doomsight_flaw_counts *counts, doomsight_fault *fault);

int32_t doomsight_udmf_buffers(const uint8_t *text, size_t text_size, uint8_t *linedefs, size_t linedefs_room, uint8_t *sidedefs,
    size_t sidedefs_room, uint8_t *vertexes, size_t vertexes_room, uint8_t *sectors, size_t sectors_room, doomsight_lump_sizes *sizes,
    doomsight_fault *fault);
int32_t doomsight_udmf_places(const uint8_t *text, size_t text_size, uint8_t *places, doomsight_fault *fault);

/* Writes 1, 2, 3 and so on into the fields, in the order in which they stand above. Where they read otherwise, this header isn't
 * that of the library, or the compiler lays out structs in another way. */
void doomsight_layout(doomsight_fault *fault, doomsight_counts *counts);
void doomsight_layout_of_answers(doomsight_answer *answer, doomsight_flaw *flaw, doomsight_flaw_counts *counts);
void doomsight_layout_of_lumps(doomsight_lump_sizes *sizes);

/* ---- What programs call. */

#define DOOMSIGHT_LINE_ROOM 128 /* room for every line and its NUL */

static inline const uint8_t *doomsight_some(const void *bytes)
{
    static const uint8_t none[1] = {0};
    return bytes ? (const uint8_t *)bytes : none;
}

/* Whether the library has another interface than this header; then the fault says so. */
static inline int doomsight_is_other(doomsight_fault *fault)
{
    const uint32_t abi = doomsight_abi();
    if (abi == DOOMSIGHT_ABI) return 0;
    fault->code = DOOMSIGHT_USAGE;
    fault->kind = DOOMSIGHT_OTHER_ABI;
    fault->a = fault->b = fault->line = fault->left = 0;
    fault->at = abi;
    fault->more = DOOMSIGHT_ABI;
    return 1;
}

/* Builds the table of the map into `reject`, whose size is to be doomsight_table_size(map->sectors.size). Where `options` is
 * NULL the budget is 16384 and no flag is set.
 *
 * `cert` is a buffer for the certificate, of `cert_room` bytes; NULL and 0 where none is wanted. The certificate is whole where
 * counts->cert_size <= cert_room; else its front stands there. Where its size isn't known before, doomsight_keep builds once for
 * whatever room there will be.
 *
 * The answer is DOOMSIGHT_OK, or the code of the fault; then nothing but *fault was written. */
static inline int32_t doomsight_build(const doomsight_map *map, const doomsight_options *options, void *reject, size_t reject_size,
    void *cert, size_t cert_room, doomsight_counts *counts, doomsight_fault *fault)
{
    uint8_t nothing[1];
    if (doomsight_is_other(fault)) return DOOMSIGHT_USAGE;
    return doomsight_build_buffers(doomsight_some(map->linedefs.bytes), map->linedefs.size, doomsight_some(map->sidedefs.bytes),
        map->sidedefs.size, doomsight_some(map->vertexes.bytes), map->vertexes.size, doomsight_some(map->sectors.bytes),
        map->sectors.size, map->format, options ? options->flags : 0, options ? options->budget : 16384,
        reject ? (uint8_t *)reject : nothing,
        reject ? reject_size : 0, cert ? (uint8_t *)cert : nothing, cert ? cert_room : 0, counts, fault);
}

/* Builds as doomsight_build does, and keeps the table and the whole certificate, which has counts->cert_size bytes, behind the
 * handle `kept`; what that kept before is freed. The caller copies what it wants, and then calls doomsight_free:
 *
 *     doomsight_kept kept = DOOMSIGHT_NOTHING_KEPT;
 *     if (!doomsight_keep(&map, NULL, &kept, &counts, &fault)) {
 *         cert = malloc(doomsight_kept_cert_size(&kept));
 *         if (cert) doomsight_kept_cert(&kept, 0, cert, doomsight_kept_cert_size(&kept));
 *     }
 *     doomsight_free(&kept);
 *
 * The answer is DOOMSIGHT_OK, or the code of the fault, never of the kind DOOMSIGHT_BAD_TABLE_SIZE; then nothing but *fault was
 * written, and the handle keeps what it kept. */
static inline int32_t doomsight_keep(const doomsight_map *map, const doomsight_options *options, doomsight_kept *kept,
    doomsight_counts *counts, doomsight_fault *fault)
{
    if (doomsight_is_other(fault)) return DOOMSIGHT_USAGE;
    return doomsight_keep_buffers(doomsight_some(map->linedefs.bytes), map->linedefs.size, doomsight_some(map->sidedefs.bytes),
        map->sidedefs.size, doomsight_some(map->vertexes.bytes), map->vertexes.size, doomsight_some(map->sectors.bytes),
        map->sectors.size, map->format, options ? options->flags : 0, options ? options->budget : 16384, kept, counts, fault);
}

/* How many bytes the kept table has, and the kept certificate; 0 where nothing is kept. Neither builds, copies or frees. */
size_t doomsight_kept_table_size(doomsight_kept *kept);
size_t doomsight_kept_cert_size(doomsight_kept *kept);

/* Copies the bytes of the kept table from `offset` on to the front of `buffer`, as many as there are and as `room` has place for:
 * the answer is how many, 0 at its end and behind it. What is behind them in the buffer stays. Nothing is built or freed, so pieces
 * of any size, in any order, are those of one table. */
static inline size_t doomsight_kept_table(doomsight_kept *kept, size_t offset, void *buffer, size_t room)
{
    uint8_t nothing[1];
    return doomsight_kept_table_buffer(kept, offset, buffer ? (uint8_t *)buffer : nothing, buffer ? room : 0);
}

/* The same of the bytes of the kept certificate. */
static inline size_t doomsight_kept_cert(doomsight_kept *kept, size_t offset, void *buffer, size_t room)
{
    uint8_t nothing[1];
    return doomsight_kept_cert_buffer(kept, offset, buffer ? (uint8_t *)buffer : nothing, buffer ? room : 0);
}

/* Frees what the handle keeps: afterwards it keeps nothing, and nothing is owed. One that keeps nothing stays as it is. */
void doomsight_free(doomsight_kept *kept);

/* Whether the table is right for the map, by the certificate, which may be of version 1, 2 or 3: DOOMSIGHT_OK and the counts for
 * yes; else the code of the fault, DOOMSIGHT_NO where the table or the certificate is wrong; then nothing but *fault was written.
 * `options` may be NULL. */
static inline int32_t doomsight_check(const doomsight_map *map, const doomsight_options *options, const void *reject,
    size_t reject_size, const void *cert, size_t cert_size, doomsight_counts *counts, doomsight_fault *fault)
{
    if (doomsight_is_other(fault)) return DOOMSIGHT_USAGE;
    return doomsight_check_buffers(doomsight_some(map->linedefs.bytes), map->linedefs.size, doomsight_some(map->sidedefs.bytes),
        map->sidedefs.size, doomsight_some(map->vertexes.bytes), map->vertexes.size, doomsight_some(map->sectors.bytes),
        map->sectors.size, map->format, options ? options->flags : 0, doomsight_some(reject), reject ? reject_size : 0,
        doomsight_some(cert), cert ? cert_size : 0, counts, fault);
}

/* Whether the sectors `a` and `b` of the map see each other, and along which ray: the answer of the program's `why`. Where `options`
 * is NULL nothing bounds the search, and no flag is set. An answer is DOOMSIGHT_OK, also where they are blind; else the code of the
 * fault, as the map isn't sound, or has no such sector (DOOMSIGHT_NO); then nothing but *fault was written. */
static inline int32_t doomsight_why(const doomsight_map *map, const doomsight_options *options, uint32_t a, uint32_t b,
    doomsight_answer *answer, doomsight_fault *fault)
{
    if (doomsight_is_other(fault)) return DOOMSIGHT_USAGE;
    return doomsight_why_buffers(doomsight_some(map->linedefs.bytes), map->linedefs.size, doomsight_some(map->sidedefs.bytes),
        map->sidedefs.size, doomsight_some(map->vertexes.bytes), map->vertexes.size, doomsight_some(map->sectors.bytes),
        map->sectors.size, map->format, options ? options->flags : 0, options ? options->budget : DOOMSIGHT_FULL, a, b, answer, fault);
}

/* All faults of the map, each at its place: clashes, by their records; loose ends; and where no lines clash open sides, tears and
 * gaps. The first of them stand in `flaws`, which has room for `room` of them (NULL and 0 where none is wanted): as many as there are
 * of the counts->listed. The answer is DOOMSIGHT_OK, whatever was found; else the code of the fault, where the lumps are no map; then
 * nothing but *fault was written. `options` may be NULL. */
static inline int32_t doomsight_audit(const doomsight_map *map, const doomsight_options *options, doomsight_flaw *flaws, size_t room,
    doomsight_flaw_counts *counts, doomsight_fault *fault)
{
    doomsight_flaw nothing[1];
    if (doomsight_is_other(fault)) return DOOMSIGHT_USAGE;
    return doomsight_audit_buffers(doomsight_some(map->linedefs.bytes), map->linedefs.size, doomsight_some(map->sidedefs.bytes),
        map->sidedefs.size, doomsight_some(map->vertexes.bytes), map->vertexes.size, doomsight_some(map->sectors.bytes),
        map->sectors.size, map->format, options ? options->flags : 0, flaws ? flaws : nothing, flaws ? room : 0, counts, fault);
}

/* ---- A text of UDMF, the bytes of a TEXTMAP, becomes the four lumps of the same map, which every call takes:
 *
 *     doomsight_lump_sizes sizes;
 *     doomsight_map map;
 *     if (!doomsight_udmf_sizes(text, size, &sizes, &fault)) {
 *         block = malloc(doomsight_udmf_room(&sizes));
 *         if (block && !doomsight_udmf_map(text, size, &sizes, block, &map, &fault)) .. doomsight_build(&map, ..) ..
 *     }
 *
 * Records stand in the order of their blocks. Coordinates are in the map's unit: the most decimal places that a vertex of a line has
 * tell it, and doomsight_udmf_unit has them. The map points into the block, which the caller frees behind it. The answers are
 * DOOMSIGHT_OK, or the code of the fault; then nothing but *fault was written. */
static inline int32_t doomsight_udmf_sizes(const void *text, size_t size, doomsight_lump_sizes *sizes, doomsight_fault *fault)
{
    uint8_t nothing[4];
    if (doomsight_is_other(fault)) return DOOMSIGHT_USAGE;
    return doomsight_udmf_buffers(doomsight_some(text), text ? size : 0, nothing, 0, nothing + 1, 0, nothing + 2, 0, nothing + 3, 0,
        sizes, fault);
}

/* How many bytes the block for lumps of these sizes has; at least 1. */
static inline size_t doomsight_udmf_room(const doomsight_lump_sizes *sizes)
{
    return (size_t)(sizes->linedefs + sizes->sidedefs + sizes->vertexes + sizes->sectors) + 1;
}

/* Writes the lumps of the text, whose sizes these are, into a block of so many bytes, and their places into the map. */
static inline int32_t doomsight_udmf_map(const void *text, size_t size, const doomsight_lump_sizes *sizes, void *block,
    doomsight_map *map, doomsight_fault *fault)
{
    uint8_t *linedefs = (uint8_t *)block;
    uint8_t *sidedefs = linedefs + (size_t)sizes->linedefs;
    uint8_t *vertexes = sidedefs + (size_t)sizes->sidedefs;
    uint8_t *sectors = vertexes + (size_t)sizes->vertexes;
    doomsight_lump_sizes found;
    int32_t code;
    if (doomsight_is_other(fault)) return DOOMSIGHT_USAGE;
    code = doomsight_udmf_buffers(doomsight_some(text), text ? size : 0, linedefs, (size_t)sizes->linedefs, sidedefs,
        (size_t)sizes->sidedefs, vertexes, (size_t)sizes->vertexes, sectors, (size_t)sizes->sectors, &found, fault);
    if (code != DOOMSIGHT_OK) return code;
    map->linedefs.bytes = linedefs;
    map->linedefs.size = (size_t)sizes->linedefs;
    map->sidedefs.bytes = sidedefs;
    map->sidedefs.size = (size_t)sizes->sidedefs;
    map->vertexes.bytes = vertexes;
    map->vertexes.size = (size_t)sizes->vertexes;
    map->sectors.bytes = sectors;
    map->sectors.size = (size_t)sizes->sectors;
    map->format = DOOMSIGHT_UDMF;
    return code;
}

/* How many decimal places the map's unit has: 3 where coordinates are told in thousandths of a map unit, 0 for a map on whole
 * coordinates, and for bytes that are no text of UDMF. Of a text that spells no map it tells nothing: ask doomsight_udmf_sizes. The
 * answer is DOOMSIGHT_OK, or DOOMSIGHT_MEMORY; then nothing but *fault was written. */
static inline int32_t doomsight_udmf_unit(const void *text, size_t size, uint8_t *places, doomsight_fault *fault)
{
    if (doomsight_is_other(fault)) return DOOMSIGHT_USAGE;
    return doomsight_udmf_places(doomsight_some(text), text ? size : 0, places, fault);
}

/* ---- A hook, by which a long call shows that it goes on, and is stopped. It is asked before each block of memory that a call takes
 * or grows, in the thread of the call: thousands of times in a build, most of all between the walks of two groups. `blocks` counts
 * them, from 1 since the hook was set: it only grows, and doesn't tell how many there will be.
 *
 * 0 lets the call go on. Any other answer stops it: the block is refused, as malloc might have refused it, and the call ends as it
 * does then. Its answer is DOOMSIGHT_MEMORY, it gave back all of its memory, and wrote nothing but *fault: buffers, counts and what a
 * handle keeps are as they were before the call. That is proved of each block, whoever refuses it. Whether it was the hook the
 * hook knows. (At the very end a call may have its answer and need the block no more: then it gives the answer.)
 *
 * The hook is that of the thread that sets it, for all of its calls, doomsight_line too, until it sets another, or NULL for none. It
 * may read and write whatever isn't handed to the running call, as a flag that another thread sets. It calls no function of the
 * library, and comes back: no longjmp, no exception. It stands in doomsight_heap.c, and not in the kit's liblibc_c.a. */
typedef int (*doomsight_hook)(void *data, uint64_t blocks);
void doomsight_set_hook(doomsight_hook hook, void *data);

/* What doomsight_line answers where malloc refuses. */
#define DOOMSIGHT_NO_LINE SIZE_MAX

/* The line by which the program tells this fault, with its '\n' and a NUL, as "refused: bad map: open 0R\n". The answer is its
 * length without the NUL; where `room` isn't more than that, nothing is written. It is 0 for DOOMSIGHT_MEMORY, for which the
 * program has no line, and DOOMSIGHT_NO_LINE, with nothing written, where malloc refuses. All kinds of DOOMSIGHT_USAGE have one
 * line. */
static inline size_t doomsight_line(const doomsight_fault *fault, char *text, size_t room)
{
    uint8_t nothing[1];
    return doomsight_line_buffer(fault, text ? (uint8_t *)text : nothing, text ? room : 0);
}

/* ---- Texts that are always there: constant, without an end of line, and nobody frees them. */

/* What the number of a code means; of a number that is none it says so. */
static inline const char *doomsight_code_text(int32_t code)
{
    switch (code) {
    case DOOMSIGHT_OK: return "done";
    case DOOMSIGHT_NO: return "no";
    case DOOMSIGHT_USAGE: return "a number of the call is out of order";
    case DOOMSIGHT_BAD_LUMP: return "the lumps are no map";
    case DOOMSIGHT_LIMIT: return "the map is above a limit";
    case DOOMSIGHT_BAD_MAP: return "lines of the map clash, or a side is open";
    case DOOMSIGHT_MEMORY: return "out of memory";
    }
    return "no code of this library";
}

/* What the kind of a fault means, in words; its numbers tell which. */
static inline const char *doomsight_kind_text(uint32_t kind)
{
    switch (kind) {
    case DOOMSIGHT_NONE: return "nothing more to tell";
    case DOOMSIGHT_LUMP_SIZE: return "a lump isn't a whole number of records";
    case DOOMSIGHT_LUMP_VERTEX: return "a line names a vertex that isn't there";
    case DOOMSIGHT_LUMP_SIDE: return "a line names a side that isn't there";
    case DOOMSIGHT_LUMP_SECTOR: return "a side names a sector that isn't there";
    case DOOMSIGHT_SECTORS: return "too many sectors";
    case DOOMSIGHT_LINES: return "too many lines";
    case DOOMSIGHT_POINTS: return "too many points";
    case DOOMSIGHT_CROSS: return "two lines cross";
    case DOOMSIGHT_TOUCH: return "an end of a line lies within another line";
    case DOOMSIGHT_OVERLAP: return "two lines have a stretch in common";
    case DOOMSIGHT_OPEN: return "the face of a side leads out of the map";
    case DOOMSIGHT_BAD_FORMAT: return "no such format";
    case DOOMSIGHT_BAD_FLAGS: return "no such flag";
    case DOOMSIGHT_BAD_BUDGET: return "no such budget";
    case DOOMSIGHT_BAD_TABLE_SIZE: return "the buffer hasn't the size of the table";
    case DOOMSIGHT_BAD_SECTOR: return "no sector has a number above 65535";
    case DOOMSIGHT_OTHER_ABI: return "the library has another interface than the header";
    case DOOMSIGHT_TABLE_LENGTH: return "the table has another length";
    case DOOMSIGHT_CERT_MAGIC: return "the bytes are no certificate";
    case DOOMSIGHT_CERT_VERSION: return "the certificate has an unknown version";
    case DOOMSIGHT_CERT_SHORT: return "the certificate is cut short";
    case DOOMSIGHT_CERT_RANGE: return "a number of the certificate is out of range";
    case DOOMSIGHT_CERT_ORDER: return "the certificate isn't in order";
    case DOOMSIGHT_CERT_TRAILING: return "bytes stand behind the certificate";
    case DOOMSIGHT_MESH_FLAT: return "a triangle of the certificate doesn't turn left";
    case DOOMSIGHT_MESH_TWICE: return "two triangles of the certificate have one edge";
    case DOOMSIGHT_MESH_MATE: return "a triangle of the certificate has no neighbour where it needs one";
    case DOOMSIGHT_MESH_SIDE: return "a side has no triangle of its sector";
    case DOOMSIGHT_MESH_MEETS: return "an edge of a triangle meets a line";
    case DOOMSIGHT_MESH_INSIDE: return "a point lies in a triangle";
    case DOOMSIGHT_RAY_ELSEWHERE: return "a ray joins other sectors";
    case DOOMSIGHT_RAY_RANGE: return "a number of a ray is out of range";
    case DOOMSIGHT_RAY_SIDE: return "a ray begins or ends on no side";
    case DOOMSIGHT_RAY_NOT_SPLIT: return "a ray doesn't pass between the ends of a line";
    case DOOMSIGHT_RAY_WRONG_WAY: return "a ray passes a line the wrong way";
    case DOOMSIGHT_RAY_BACKWARDS: return "a ray goes backwards";
    case DOOMSIGHT_RAY_BLOCKED: return "a line blocks a ray";
    case DOOMSIGHT_TREE: return "a node of a tree is wrong";
    case DOOMSIGHT_LISTED_SET: return "the bit of a listed pair is set";
    case DOOMSIGHT_UNPROVED: return "nothing proves that a pair sees";
    case DOOMSIGHT_UNCOVERED: return "nothing proves that a pair is blind";
    case DOOMSIGHT_GROUP: return "a triangle has another group";
    case DOOMSIGHT_UNUSED: return "a group has no triangle";
    case DOOMSIGHT_NO_SECTOR: return "the map has no such sector";
    case DOOMSIGHT_TEXT: return "the text is no UDMF";
    case DOOMSIGHT_TEXT_NAMESPACE: return "the text has no namespace that is read";
    case DOOMSIGHT_TEXT_VALUE: return "a value in the text isn't of the kind that its key takes";
    case DOOMSIGHT_TEXT_PORTAL: return "a line of the text may show a far place";
    case DOOMSIGHT_TEXT_OFF_GRID: return "a vertex is too far away, or isn't on the map's grid";
    case DOOMSIGHT_TEXT_VERTICES: return "too many vertices in the text";
    case DOOMSIGHT_TEXT_SIDES: return "too many sides in the text";
    }
    return "no kind of this header";
}

/* What is at fault, in words. */
static inline const char *doomsight_flaw_text(uint32_t kind)
{
    switch (kind) {
    case DOOMSIGHT_FLAW_LOOSE_END: return "just one line ends here";
    case DOOMSIGHT_FLAW_TEAR: return "there is a hole at the end of this side";
    case DOOMSIGHT_FLAW_GAP: return "no line closes the hull here";
    }
    return doomsight_kind_text(kind);
}

#ifdef __cplusplus
}
#endif
#endif
