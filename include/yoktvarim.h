/* Yoktvarim: tessellates a patch by the Vulkan rules, for C and C++.
 *
 * Link with target/staticlib/libyoktvarim.a, which `tools/library` proves and writes (x86-64 Linux); or, after `tools/install PREFIX`,
 * with what `pkg-config --cflags --libs yoktvarim` prints. `tools/library aarch64` and `tools/library wasm32` write the same functions
 * for ARM and for WebAssembly. Lengths have 64 bits on every target, also where pointers and size_t have 32.
 *
 * In this order: settings and levels, measuring and drawing, drawing with floats, job files, checking a mesh, two designers on shared
 * lists, comparing two meshes, replaying a recording. A part begins with the answers of its calls, and with a question that is 1 for
 * success alone; drawing with floats has the answers of drawing. docs/rules.md lists the numbers of all answers in one table. Comments
 * leave out the beginning of a name: DRAWN is YOKTVARIM_DRAWN, and WRITTEN, in the part on job files, is YOKTVARIM_JOB_WRITTEN.
 *
 *     static uint32_t vertices[YOKTVARIM_VERTEX_WORDS];
 *     static uint16_t indices[YOKTVARIM_INDEX_WORDS];
 *     yoktvarim_settings settings = { YOKTVARIM_TRIANGLES, YOKTVARIM_EQUAL, YOKTVARIM_COUNTER_CLOCKWISE,
 *                                     YOKTVARIM_LOWER_LEFT, YOKTVARIM_PRIMITIVES, YOKTVARIM_GREATEST_TOP };
 *     yoktvarim_levels levels = { { 1, 1, 1 }, { 2 } };
 *     uint32_t points, corners;
 *     if (yoktvarim_is_drawn(yoktvarim_draw_points(&settings, &levels, vertices, YOKTVARIM_VERTEX_WORDS, &points)) &&
 *         yoktvarim_is_drawn(yoktvarim_draw_indices(&settings, &levels, indices, YOKTVARIM_INDEX_WORDS, &corners)))
 *         use(vertices, points, indices, corners);
 *
 * For every call in this header: the caller owns all memory. No pointer is NULL, not even that of a list of 0 words. Each pointer is
 * aligned for its type. What a call writes overlaps nothing else that is passed to it; what it only reads may overlap. The calls
 * require nothing else, whatever the numbers are, and keep nothing after they return. They use no heap; YOKTVARIM_STACK_.. gives the
 * stack that each call takes.
 *
 * A call returns no number that its part does not list. 0 alone means success: use the question, such as yoktvarim_is_drawn, and not
 * `if (answer)`, which takes every refusal for success.
 */
#ifndef YOKTVARIM_H
#define YOKTVARIM_H

#include <stdint.h>
#include <string.h>

/* The version of this header and of the library it belongs to; tools/version writes these lines. */
#define YOKTVARIM_VERSION_MAJOR 0
#define YOKTVARIM_VERSION_MINOR 1
#define YOKTVARIM_VERSION_PATCH 0
#define YOKTVARIM_VERSION "0.1.0"

#ifdef __cplusplus
extern "C" {
#endif

#if defined(__GNUC__) || defined(__clang__)
#define YOKTVARIM_MUST_USE __attribute__((warn_unused_result))
#else
#define YOKTVARIM_MUST_USE
#endif

/* The greatest stack of each call in bytes, on x86-64 and aarch64: a thread that makes the call needs this much besides its own. The
 * figures are measured and not proved: tests/stack and tests/aarch64 make each call on its largest inputs and on inputs that take other
 * paths through it. The WebAssembly module has a stack of its own of 512 kB. */
enum {
    YOKTVARIM_STACK_MEASURE = 4096,
    YOKTVARIM_STACK_DRAW = 28672,     /* points, indices */
    YOKTVARIM_STACK_FLOATS = 28672,   /* drawing with floats */
    YOKTVARIM_STACK_JOB = 4096,       /* writing and reading job files */
    YOKTVARIM_STACK_CHECK = 131072,   /* checking a mesh */
    YOKTVARIM_STACK_SHARE = 28672,    /* starting, drawing and clearing on shared lists */
    YOKTVARIM_STACK_COMPARE = 172032, /* comparing two meshes */
    YOKTVARIM_STACK_REPLAY = 131072,  /* replaying a recording */
};

/* ---------------------------------------------------------------- settings and levels */

/* Values of yoktvarim_settings.kind, and the levels that count for each; the others are ignored. */
enum yoktvarim_kind {
    YOKTVARIM_TRIANGLES = 0, /* outer[0] to outer[2] for the edges u = 0, v = 0, w = 0; inner[0] */
    YOKTVARIM_QUADS = 1,     /* outer[0] to outer[3] for the edges u = 0, v = 0, u = 1, v = 1; inner[0] for rows, inner[1] for columns */
    YOKTVARIM_ISOLINES = 2,  /* outer[0] for the number of lines, outer[1] for the segments along each */
};

/* Values of yoktvarim_settings.spacing. */
enum yoktvarim_spacing {
    YOKTVARIM_EQUAL = 0,
    YOKTVARIM_FRACTIONAL_EVEN = 1,
    YOKTVARIM_FRACTIONAL_ODD = 2,
};

/* Values of yoktvarim_settings.vertex_order: the way triangles turn. */
enum yoktvarim_vertex_order {
    YOKTVARIM_CLOCKWISE = 0,
    YOKTVARIM_COUNTER_CLOCKWISE = 1,
};

/* Values of yoktvarim_settings.domain_origin: the corner where (0, 0) lies when the turn of a triangle is judged. */
enum yoktvarim_domain_origin {
    YOKTVARIM_UPPER_LEFT = 0,
    YOKTVARIM_LOWER_LEFT = 1,
};

/* Values of yoktvarim_settings.point_mode. */
enum yoktvarim_point_mode {
    YOKTVARIM_PRIMITIVES = 0, /* triangles, or lines for isolines */
    YOKTVARIM_POINTS = 1,     /* each point once: the indices 0, 1, 2 and so on */
};

/* The greatest value of yoktvarim_settings.top. */
enum {
    YOKTVARIM_GREATEST_TOP = 64,
};

/* Six bytes, in this order. A struct filled with zeros has the top 0, which every call that takes settings refuses as a bad top. */
typedef struct yoktvarim_settings {
    uint8_t kind;
    uint8_t spacing;
    uint8_t vertex_order;
    uint8_t domain_origin;
    uint8_t point_mode;
    uint8_t top; /* the most segments a level gives, one less with odd spacing: an even number from 2 to 64 */
} yoktvarim_settings;

/* The tessellation levels. Any value is allowed, also NaN and the infinities. */
typedef struct yoktvarim_levels {
    float outer[4];
    float inner[2];
} yoktvarim_levels;

/* ---------------------------------------------------------------- measuring and drawing */

/* The answers of measuring and drawing, with floats too. Where several refusals apply, the call returns BAD_TOP first, then
 * UNKNOWN_SETTING, then the lowest number. */
typedef enum yoktvarim_answer {
    YOKTVARIM_DRAWN = 0,     /* the call wrote as many points, or indices, as the count says */
    YOKTVARIM_MEASURED = 0,  /* 0 from yoktvarim_measure: drawing would write as many as the counts say */
    YOKTVARIM_DISCARDED = 1, /* an outer level that counts is NaN or not above 0 */
    /* 2 meant more points than an index can number, which no patch has; it is not used again */
    YOKTVARIM_NO_ROOM_FOR_VERTICES = 3, /* the vertex list has fewer than 3 words for each point */
    YOKTVARIM_NO_ROOM_FOR_INDICES = 4,  /* the index list is too short */
    YOKTVARIM_UNKNOWN_SETTING = 8,      /* the count, or counts[0], is the place, 0 to 4, of the first setting out of range */
    YOKTVARIM_NO_ROOM_FOR_FLOATS = 9,   /* the float list has fewer than 3 words for each point */
    YOKTVARIM_BAD_TOP = 11,             /* the top is not an even number from 2 to 64 */
} yoktvarim_answer;

/* 1 for YOKTVARIM_DRAWN and YOKTVARIM_MEASURED, which are the same number; 0 for every other answer. */
YOKTVARIM_MUST_USE static inline unsigned yoktvarim_is_drawn(yoktvarim_answer answer)
{
    return answer == YOKTVARIM_DRAWN;
}

/* Values of yoktvarim_clamps: where a level lies against the range it is clamped to. The ends of the range are inside. The range is 1 to
 * the top for equal spacing, 2 to the top for fractional even, and 1 to one less than the top for fractional odd. The number of
 * isolines always has the range of equal spacing. */
enum yoktvarim_clamp {
    YOKTVARIM_NOT_TOLD = 0, /* the level does not count for the kind, or the patch was not measured */
    YOKTVARIM_BELOW = 1,    /* replaced by the low end; also an inner NaN */
    YOKTVARIM_INSIDE = 2,
    YOKTVARIM_ABOVE = 3, /* replaced by the high end */
};

/* Six bytes, one for each of yoktvarim_levels. */
typedef struct yoktvarim_clamps {
    uint8_t outer[4];
    uint8_t inner[2];
} yoktvarim_clamps;

/* Lists of these sizes have room for every patch at every top: 4,225 points of 3 words each, and 8,192 triangles. */
enum {
    YOKTVARIM_VERTEX_WORDS = 12675,
    YOKTVARIM_INDEX_WORDS = 24576,
};

/* The number that means 1 in the coordinates of a point. */
enum {
    YOKTVARIM_ONE_IN_TRIANGLES = 196608, /* triangles: u + v + w of every point */
    YOKTVARIM_ONE_IN_QUADS = 65536,      /* quads and isolines, whose w is 0 */
};

/* Counts how many points and indices drawing would write, without lists: MEASURED, DISCARDED, UNKNOWN_SETTING or BAD_TOP.
 * counts has two words, both always written. With MEASURED counts[0] is the number of points and counts[1] that of indices; drawing
 * needs 3 * counts[0] words for vertices and counts[1] for indices. With UNKNOWN_SETTING they are the setting's place and 0, else 0 and 0.
 * All of clamps is always written: with MEASURED it is BELOW, INSIDE or ABOVE for each level that counts, and NOT_TOLD elsewhere. */
YOKTVARIM_MUST_USE yoktvarim_answer yoktvarim_measure(const yoktvarim_settings *settings, const yoktvarim_levels *levels, uint32_t *counts,
                                                      yoktvarim_clamps *clamps);

/* Drawing is two calls, each with a list of its own. Each call writes to the front of its list and leaves the words after that as they
 * were; every answer but DRAWN leaves the whole list as it was. *count is always written: with UNKNOWN_SETTING it is the setting's
 * place, with every other refusal 0. With lists that have room for every patch, either both calls draw or neither does. To get both or
 * neither with shorter lists, measure first and test the room in the order of the numbers:
 *
 *     yoktvarim_answer answer = yoktvarim_measure(&settings, &levels, counts, &clamps);
 *     if (answer != YOKTVARIM_MEASURED)
 *         return answer;
 *     if (vertex_words < 3 * counts[0])
 *         return YOKTVARIM_NO_ROOM_FOR_VERTICES;
 *     if (index_words < counts[1])
 *         return YOKTVARIM_NO_ROOM_FOR_INDICES;
 *
 * Then both calls return DRAWN. */

/* Writes the points of the patch as three words u, v, w each to vertices, which has vertex_words words; *count is the number of points.
 * DRAWN, DISCARDED, NO_ROOM_FOR_VERTICES, UNKNOWN_SETTING or BAD_TOP. */
YOKTVARIM_MUST_USE yoktvarim_answer yoktvarim_draw_points(const yoktvarim_settings *settings, const yoktvarim_levels *levels,
                                                          uint32_t *vertices, uint64_t vertex_words, uint32_t *count);

/* Writes the indices of the patch, which number its points from 0, to indices, which has index_words words; *count is the number of
 * indices. DRAWN, DISCARDED, NO_ROOM_FOR_INDICES, UNKNOWN_SETTING or BAD_TOP.
 * Indices may be kept while points are drawn again. Take two patches of the same kind, point mode, vertex order and origin that are not
 * discarded. Their indices are equal if both are the plain patch, which nothing divides; or if neither is, and each level that counts
 * gives as many segments in both (an inner level's 1 raised as the rules say). */
YOKTVARIM_MUST_USE yoktvarim_answer yoktvarim_draw_indices(const yoktvarim_settings *settings, const yoktvarim_levels *levels,
                                                           uint16_t *indices, uint64_t index_words, uint32_t *count);

/* ---------------------------------------------------------------- drawing with floats */

/* Draws points, indices and floats by one call, into all three lists or into none of them: it tests all room before it writes.
 * vertices and indices get what yoktvarim_draw_points and yoktvarim_draw_indices write. floats, which has float_words words, gets the
 * three coordinates of each point again, each as a float from 0 to 1: the whole number divided once by YOKTVARIM_ONE_IN_TRIANGLES or
 * YOKTVARIM_ONE_IN_QUADS. For quads and isolines that is exact; for triangles it differs from the quotient by at most 2^-25, and 0 and 1
 * are exact. A greater coordinate is a greater float. The three floats of a triangle's point need not add up to 1.
 * counts has two words, both always written: with DRAWN counts[0] is the number of points and counts[1] that of indices, and the call
 * wrote 3 * counts[0] floats; with UNKNOWN_SETTING the setting's place and 0, else 0 and 0.
 * DRAWN, DISCARDED, NO_ROOM_FOR_VERTICES, NO_ROOM_FOR_INDICES, UNKNOWN_SETTING, NO_ROOM_FOR_FLOATS or BAD_TOP. */
YOKTVARIM_MUST_USE yoktvarim_answer yoktvarim_draw_with_floats(const yoktvarim_settings *settings, const yoktvarim_levels *levels,
                                                               uint32_t *vertices, uint64_t vertex_words, uint16_t *indices,
                                                               uint64_t index_words, float *floats, uint64_t float_words, uint32_t *counts);

/* ---------------------------------------------------------------- job files */

/* A job file is a header of 5 bytes, then records of 29 bytes in version 1 and of 30 in version 2, which has the top. These calls write
 * and read them, so that no caller needs to know the order of bytes. What was written reads back as the same settings and the same bits
 * of all six levels, and an accepted header or record, written again, is the same bytes.
 *
 *     uint8_t job[YOKTVARIM_HEADER_BYTES + YOKTVARIM_RECORD_BYTES];
 *     yoktvarim_patterns patterns = yoktvarim_patterns_of(&levels);
 *     uint32_t head, body;
 *     if (yoktvarim_is_written(yoktvarim_write_header(2, job, sizeof job, &head)) &&
 *         yoktvarim_is_written(yoktvarim_write_record(2, &settings, &patterns, job + head, sizeof job - head, &body)))
 *         fwrite(job, 1, head + body, file);
 */

/* The answers of the calls for job files. Each call gives the order of its refusals. */
typedef enum yoktvarim_job_answer {
    YOKTVARIM_JOB_WRITTEN = 0,         /* the call wrote *count bytes */
    YOKTVARIM_JOB_READ = 0,            /* 0 from reading: the call read a header, or a record */
    YOKTVARIM_JOB_NOT_A_JOB = 5,       /* fewer than 5 bytes, or another mark */
    YOKTVARIM_JOB_UNKNOWN_VERSION = 6, /* the version is neither 1 nor 2 */
    YOKTVARIM_JOB_CUT_RECORD = 7,      /* the file ends within the record */
    YOKTVARIM_JOB_UNKNOWN_SETTING = 8, /* a setting is out of range; *count of writing, *place of reading is its place */
    YOKTVARIM_JOB_NO_ROOM = 10,        /* the list is too short for a header or a record */
    YOKTVARIM_JOB_BAD_TOP = 11,        /* writing: the version cannot hold the top; version 1 holds 64 only, version 2 the even
                                        * numbers from 2 to 64 */
    YOKTVARIM_JOB_END = 255,           /* reading a record: no byte is left, which is neither a refusal nor a record */
} yoktvarim_job_answer;

/* 1 for YOKTVARIM_JOB_WRITTEN, 0 for every other answer. */
YOKTVARIM_MUST_USE static inline unsigned yoktvarim_is_written(yoktvarim_job_answer answer)
{
    return answer == YOKTVARIM_JOB_WRITTEN;
}

/* 1 for YOKTVARIM_JOB_READ, 0 for every other answer, also at the end. */
YOKTVARIM_MUST_USE static inline unsigned yoktvarim_is_read(yoktvarim_job_answer answer)
{
    return answer == YOKTVARIM_JOB_READ;
}

/* The size of a header, and the greatest size of a record. */
enum {
    YOKTVARIM_HEADER_BYTES = 5,
    YOKTVARIM_RECORD_BYTES = 30,
};

/* The bits of yoktvarim_levels. A record keeps all six, also those that do not count for its kind, and every bit of a NaN. */
typedef struct yoktvarim_patterns {
    uint32_t outer[4];
    uint32_t inner[2];
} yoktvarim_patterns;

/* The bits of levels, copied. */
YOKTVARIM_MUST_USE static inline yoktvarim_patterns yoktvarim_patterns_of(const yoktvarim_levels *levels)
{
    yoktvarim_patterns patterns;
    memcpy(&patterns, levels, sizeof patterns);
    return patterns;
}

/* The levels of bits, copied. */
YOKTVARIM_MUST_USE static inline yoktvarim_levels yoktvarim_levels_of(const yoktvarim_patterns *patterns)
{
    yoktvarim_levels levels;
    memcpy(&levels, patterns, sizeof levels);
    return levels;
}

/* Writes the header of a job file of version 1 or 2 to the front of bytes, which has length bytes; *count is how many it wrote, 5.
 * WRITTEN, else the first that applies of UNKNOWN_VERSION and NO_ROOM. Every answer but WRITTEN leaves all bytes as they were, with the
 * count 0. */
YOKTVARIM_MUST_USE yoktvarim_job_answer yoktvarim_write_header(uint32_t version, uint8_t *bytes, uint64_t length, uint32_t *count);

/* Writes a record in the form of a version to the front of bytes; *count is how many bytes it wrote, 29 or 30. WRITTEN, else the first
 * that applies of UNKNOWN_VERSION, BAD_TOP, UNKNOWN_SETTING and NO_ROOM. Every answer but WRITTEN leaves all bytes as they were; with
 * UNKNOWN_SETTING *count is the place, 0 to 4, of the first setting that is out of range, else it is 0. */
YOKTVARIM_MUST_USE yoktvarim_job_answer yoktvarim_write_record(uint32_t version, const yoktvarim_settings *settings,
                                                               const yoktvarim_patterns *patterns, uint8_t *bytes, uint64_t length,
                                                               uint32_t *count);

/* Reads the header of a job file of length bytes. READ, else the first that applies of NOT_A_JOB and UNKNOWN_VERSION. *version is 1 or 2
 * with READ, else 0. The first record is at byte 5. */
YOKTVARIM_MUST_USE yoktvarim_job_answer yoktvarim_read_header(const uint8_t *bytes, uint64_t length, uint32_t *version);

/* Reads the record at the byte `at` of a job file whose header has this version:
 *
 *     for (uint64_t at = YOKTVARIM_HEADER_BYTES;; at = next) {
 *         answer = yoktvarim_read_record(bytes, length, version, at, &settings, &patterns, &next, &place);
 *         if (answer == YOKTVARIM_JOB_END)
 *             break;
 *         if (yoktvarim_is_read(answer))
 *             use(&settings, &patterns);
 *     }
 *
 * READ, else the first that applies of END (no byte is left at this place, whatever the version), UNKNOWN_VERSION, CUT_RECORD and
 * UNKNOWN_SETTING. settings, patterns, next and place are always written. *next is where to read on: after the record with READ and
 * UNKNOWN_SETTING, else length, so that every answer but END moves on and a loop as above ends. *place is the place of the first
 * unknown setting, 0 to 4, or 5 for the top, else 0. With READ settings and patterns are those of the record, with the top 64 in
 * version 1. Else all of them are 0: whoever takes these for a record gets a bad top from every call that takes settings. */
YOKTVARIM_MUST_USE yoktvarim_job_answer yoktvarim_read_record(const uint8_t *bytes, uint64_t length, uint32_t version, uint64_t at,
                                                              yoktvarim_settings *settings, yoktvarim_patterns *patterns, uint64_t *next,
                                                              uint32_t *place);

/* ---------------------------------------------------------------- checking a mesh */

/* The answers of yoktvarim_check_mesh: accepted, else the first that applies of CHECK_BAD_TOP, CHECK_UNKNOWN_SETTING and the faults in
 * the order of their numbers. All places count from 0: in the index list, of points, of triangles, of a triangle's corners, and of the
 * outline's pieces in the order of the outline. */
typedef enum yoktvarim_verdict {
    YOKTVARIM_ACCEPTED = 0,                   /* no hole, no overlap and no turned triangle; or a discarded patch and two empty lists */
    YOKTVARIM_CHECK_UNKNOWN_SETTING = 8,      /* places[0] is the place, 0 to 4, of the first setting that is out of range */
    YOKTVARIM_CHECK_BAD_TOP = 11,             /* the top is not an even number from 2 to 64 */
    YOKTVARIM_FAULT_ISOLINES = 20,            /* isolines have no triangles */
    YOKTVARIM_FAULT_DOTS = 21,                /* a patch in point mode has no triangles */
    YOKTVARIM_FAULT_SHOULD_BE_DISCARDED = 22, /* the patch is discarded, and a list is not empty */
    YOKTVARIM_FAULT_NOT_THREES = 23,          /* the number of point words or of indices is not a multiple of three */
    YOKTVARIM_FAULT_UNKNOWN_INDEX = 24,       /* no point has the number at place places[0] of the index list */
    YOKTVARIM_FAULT_OUTSIDE = 25,             /* point places[0] lies outside the patch */
    YOKTVARIM_FAULT_EQUAL_POINTS = 26,        /* points places[0] and places[1] are equal */
    YOKTVARIM_FAULT_TURNED = 27,              /* triangle places[0] has no area or turns the wrong way */
    YOKTVARIM_FAULT_SIDE_TWICE = 28,          /* triangles places[0] and places[1] have a directed side in common */
    YOKTVARIM_FAULT_OPEN_SIDE = 29,           /* the side of triangle places[0] from its corner places[1], 0 to 2, has no
                                               * reverse and is not a piece of the outline */
    YOKTVARIM_FAULT_MISSING_PIECE = 30,       /* piece places[0] of the outline is not a side of any triangle */
} yoktvarim_verdict;

/* 1 for YOKTVARIM_ACCEPTED, 0 for every other verdict. */
YOKTVARIM_MUST_USE static inline unsigned yoktvarim_is_accepted(yoktvarim_verdict verdict)
{
    return verdict == YOKTVARIM_ACCEPTED;
}

/* Checks a mesh that anybody made for a patch: whether points, three words u, v, w each, and indices, three to a triangle, are a right
 * mesh of the patch. Lists of any length and content may be given; they are only read. places has two words, both always written; one
 * that the verdict does not mention is 0. */
YOKTVARIM_MUST_USE yoktvarim_verdict yoktvarim_check_mesh(const yoktvarim_settings *settings, const yoktvarim_levels *levels,
                                                          const uint32_t *points, uint64_t point_words, const uint16_t *indices,
                                                          uint64_t index_words, uint64_t *places);

/* ---------------------------------------------------------------- two designers on shared lists */

/* Two designers share one vertex list and one index list, each with a quota of words in both. The first designer's part of a list begins
 * at word 0, the second designer's part right after it. Drawing appends a patch to a designer's part, points and indices or neither,
 * with indices that count from the part's beginning.
 *
 * Take any calls since a start. Each gets the state that the last one left and, unless it is refused, the same two lists, which
 * nobody else writes. What one designer gets (every answer, every count and every word of the own part) is the same as if the other had
 * made no call, and the answers depend only on the own quotas, the own calls and the lengths of the two lists at the start. A fresh
 * start ends both designs and begins this anew. This does not cover time: how long a call takes may depend on everything. Calls on one
 * state or on the same lists must not run at the same time. */

/* The answers of the calls on shared lists. Where several refusals apply, the call returns the first in this list; so BAD_STATE comes
 * before UNKNOWN_SETTING and DISCARDED, whatever their numbers are. */
typedef enum yoktvarim_share_answer {
    YOKTVARIM_SHARE_DONE = 0,                 /* started, cleared, or drawn: the call appended counts[0] points and counts[1] indices */
    YOKTVARIM_SHARE_QUOTAS_TOO_LARGE = 12,    /* start: together the quotas exceed a list */
    YOKTVARIM_SHARE_BAD_TOP = 11,             /* draw: as YOKTVARIM_BAD_TOP */
    YOKTVARIM_SHARE_BAD_STATE = 14,           /* draw, clear: a list has another length than at the start, or in the state the quotas
                                               * exceed a list, more than a quota is used, or part of a point is used */
    YOKTVARIM_SHARE_UNKNOWN_DESIGNER = 15,    /* draw, clear: the designer is neither 0 nor 1 */
    YOKTVARIM_SHARE_UNKNOWN_SETTING = 8,      /* draw: as YOKTVARIM_UNKNOWN_SETTING, with the place in counts[0] */
    YOKTVARIM_SHARE_DISCARDED = 1,            /* draw: as YOKTVARIM_DISCARDED */
    YOKTVARIM_SHARE_TOO_MANY_POINTS = 13,     /* draw: the part would have more than 65,535 points */
    YOKTVARIM_SHARE_NO_ROOM_FOR_VERTICES = 3, /* draw: too little is left of this designer's quota of vertex words */
    YOKTVARIM_SHARE_NO_ROOM_FOR_INDICES = 4,  /* draw: too little is left of this designer's quota of index words */
} yoktvarim_share_answer;

/* 1 for YOKTVARIM_SHARE_DONE, 0 for every other answer. */
YOKTVARIM_MUST_USE static inline unsigned yoktvarim_is_done(yoktvarim_share_answer answer)
{
    return answer == YOKTVARIM_SHARE_DONE;
}

/* What a designer asks for at the start, in words. */
typedef struct yoktvarim_quota {
    uint64_t vertices;
    uint64_t indices;
} yoktvarim_quota;

/* One designer's part of a list: how many words it has, and how many of them are used, from its first word on. */
typedef struct yoktvarim_part {
    uint64_t quota;
    uint64_t used;
} yoktvarim_part;

/* A list's length at the start, and both designers' parts. */
typedef struct yoktvarim_shared_list {
    uint64_t length;
    yoktvarim_part share[2];
} yoktvarim_shared_list;

/* The state, which the caller keeps: start fills it, draw and clear change it, and every answer but DONE leaves it as it was. Its ten
 * numbers may have any value: draw and clear refuse an impossible state with BAD_STATE. */
typedef struct yoktvarim_shared {
    yoktvarim_shared_list vertices;
    yoktvarim_shared_list indices;
} yoktvarim_shared;

/* Gives the designers their quotas of both lists, quotas[0] to designer 0 and quotas[1] to designer 1, with nothing used. It uses only
 * the lengths of the lists. DONE or QUOTAS_TOO_LARGE. */
YOKTVARIM_MUST_USE yoktvarim_share_answer yoktvarim_share_start(const uint32_t *vertices, uint64_t vertex_words, const uint16_t *indices,
                                                                uint64_t index_words, const yoktvarim_quota *quotas,
                                                                yoktvarim_shared *state);

/* Appends the points and the indices of a patch to the parts of designer 0 or 1 in both lists. DONE, else the first that applies of
 * BAD_TOP, BAD_STATE, UNKNOWN_DESIGNER, UNKNOWN_SETTING, DISCARDED, TOO_MANY_POINTS, NO_ROOM_FOR_VERTICES and NO_ROOM_FOR_INDICES; then the
 * state and both lists are as they were. counts has two words, both always written: points and indices with DONE, the setting's place
 * and 0 with UNKNOWN_SETTING, else 0 and 0. */
YOKTVARIM_MUST_USE yoktvarim_share_answer yoktvarim_share_draw(yoktvarim_shared *state, uint32_t designer,
                                                               const yoktvarim_settings *settings, const yoktvarim_levels *levels,
                                                               uint32_t *vertices, uint64_t vertex_words, uint16_t *indices,
                                                               uint64_t index_words, uint32_t *counts);

/* Frees the room of the designer's part; its words stay until a later call writes over them. It uses only the lengths of the lists.
 * DONE, else the first that applies of BAD_STATE and UNKNOWN_DESIGNER. */
YOKTVARIM_MUST_USE yoktvarim_share_answer yoktvarim_share_clear(yoktvarim_shared *state, uint32_t designer, const uint32_t *vertices,
                                                                uint64_t vertex_words, const uint16_t *indices, uint64_t index_words);

/* ---------------------------------------------------------------- comparing two meshes */

/* The answers of yoktvarim_compare_meshes. COMPARED means that the meshes were compared; *count says whether they are the same. Every
 * other answer leaves the list of differences as it was. Where several refusals apply, the three of the left mesh come first, in the
 * order of their numbers, then the three of the right mesh, and NO_ROOM_FOR_DIFFERENCES last. */
typedef enum yoktvarim_comparison {
    YOKTVARIM_COMPARED = 0,                 /* the call wrote *count differences; 0: the same points and the same triangles */
    YOKTVARIM_NO_ROOM_FOR_DIFFERENCES = 40, /* the list has fewer than 3 words for each of the *count differences */
    YOKTVARIM_LEFT_NOT_THREES = 41,         /* the number of the left mesh's point words or of its indices is not a multiple of three */
    YOKTVARIM_LEFT_UNKNOWN_INDEX = 42,      /* the left mesh has an index that is not the number of a point */
    YOKTVARIM_LEFT_EQUAL_POINTS = 43,       /* the left mesh has two equal points */
    YOKTVARIM_RIGHT_NOT_THREES = 44,        /* the same three refusals of the right mesh */
    YOKTVARIM_RIGHT_UNKNOWN_INDEX = 45,
    YOKTVARIM_RIGHT_EQUAL_POINTS = 46,
} yoktvarim_comparison;

/* 1 for YOKTVARIM_COMPARED, 0 for every other answer. Two meshes are the same where this is 1 and *count is 0. */
YOKTVARIM_MUST_USE static inline unsigned yoktvarim_is_compared(yoktvarim_comparison answer)
{
    return answer == YOKTVARIM_COMPARED;
}

/* The three words of a difference; the list holds one difference after the other. */
typedef struct yoktvarim_difference {
    uint64_t what;   /* 0 a point, 1 a triangle */
    uint64_t side;   /* 0 only the left mesh has it, 1 only the right mesh */
    uint64_t number; /* its number in its own mesh, from 0; the lowest, if a triangle is repeated */
} yoktvarim_difference;

/* Compares two meshes of any origin: points of three words, and three indices for each triangle. Two points are the same if their three
 * coordinates agree, whatever their numbers. Two triangles are the same if their corners agree by coordinates up to rotation; a flip
 * makes another triangle.
 *
 * Writes the differences to the front of the list, which has difference_words words: first the points of the left mesh that the right
 * mesh lacks, then those of the right mesh that the left mesh lacks, then the triangles in the same way, each in the order of its own
 * list and each once. *count is always written: the number of differences with COMPARED and NO_ROOM_FOR_DIFFERENCES, else 0. A list of
 * 0 words serves to count them. The list may be an array of yoktvarim_difference. */
YOKTVARIM_MUST_USE yoktvarim_comparison yoktvarim_compare_meshes(const uint32_t *left_points, uint64_t left_point_words,
                                                                 const uint16_t *left_indices, uint64_t left_index_words,
                                                                 const uint32_t *right_points, uint64_t right_point_words,
                                                                 const uint16_t *right_indices, uint64_t right_index_words,
                                                                 uint64_t *differences, uint64_t difference_words, uint64_t *count);

/* ---------------------------------------------------------------- replaying a recording */

/* The answers of yoktvarim_replay. It returns CUT_ENTRY only where all whole entries before the cut agree. */
typedef enum yoktvarim_replay_answer {
    YOKTVARIM_ALL_AGREE = 0,              /* told->entry is the number of entries, 0 for a header alone */
    YOKTVARIM_REPLAY_NOT_A_RECORDING = 5, /* fewer than 5 bytes, or they do not begin with "TSR" */
    YOKTVARIM_REPLAY_UNKNOWN_VERSION = 6, /* the version is not 1 */
    YOKTVARIM_REPLAY_CUT_ENTRY = 7,       /* every whole entry agrees, and 1 to 33 bytes are left after them */
    YOKTVARIM_REPLAY_DIFFERS = 60,        /* told->entry is the first entry that differs, counted from 0; recorded and replayed are
                                           * its two sides */
} yoktvarim_replay_answer;

/* 1 for YOKTVARIM_ALL_AGREE, 0 for every other answer. */
YOKTVARIM_MUST_USE static inline unsigned yoktvarim_all_agree(yoktvarim_replay_answer answer)
{
    return answer == YOKTVARIM_ALL_AGREE;
}

/* One side of an entry: the number of an answer and the counts of points and indices, which are 0 unless the number is 0, drawn. The
 * recorded side can be any number of one byte and any two counts of two bytes. */
typedef struct yoktvarim_replay_side {
    uint64_t answer;
    uint64_t points;
    uint64_t indices;
} yoktvarim_replay_side;

/* What a replay found: the number of entries alone with ALL_AGREE, all of it with DIFFERS; everything else is 0. */
typedef struct yoktvarim_replay_told {
    uint64_t entry;
    yoktvarim_replay_side recorded;
    yoktvarim_replay_side replayed;
} yoktvarim_replay_told;

/* Replays a recording of byte_count bytes: a header, which is the letters "TSR" and the version 1 in two bytes, and then entries of 34
 * bytes. Each entry is a job record of version 1, the number of the answer in one byte, and points and indices in two bytes each, low
 * byte first. The call draws each record into full-size lists of its own, on the stack, and compares number and counts. A record with
 * a setting out of range agrees exactly if it carries 8 and zero counts. *told is always written. */
YOKTVARIM_MUST_USE yoktvarim_replay_answer yoktvarim_replay(const uint8_t *bytes, uint64_t byte_count, yoktvarim_replay_told *told);

/* ---------------------------------------------------------------- sizes */

/* The library reads and writes exactly these sizes. An enum has 32 bits unless -fshort-enums is given. */
#ifdef __cplusplus
#define YOKTVARIM_ASSERT static_assert
#else
#define YOKTVARIM_ASSERT _Static_assert
#endif
YOKTVARIM_ASSERT(sizeof(yoktvarim_answer) == 4, "an answer is 32 bits: compile without -fshort-enums");
YOKTVARIM_ASSERT(sizeof(yoktvarim_job_answer) == 4, "an answer is 32 bits: compile without -fshort-enums");
YOKTVARIM_ASSERT(sizeof(yoktvarim_verdict) == 4, "a verdict is 32 bits: compile without -fshort-enums");
YOKTVARIM_ASSERT(sizeof(yoktvarim_share_answer) == 4, "an answer is 32 bits: compile without -fshort-enums");
YOKTVARIM_ASSERT(sizeof(yoktvarim_comparison) == 4, "an answer is 32 bits: compile without -fshort-enums");
YOKTVARIM_ASSERT(sizeof(yoktvarim_replay_answer) == 4, "an answer is 32 bits: compile without -fshort-enums");
YOKTVARIM_ASSERT(sizeof(yoktvarim_settings) == 6, "six setting bytes");
YOKTVARIM_ASSERT(sizeof(yoktvarim_levels) == 24, "six 32-bit floats");
YOKTVARIM_ASSERT(sizeof(yoktvarim_clamps) == 6, "a byte for each level");
YOKTVARIM_ASSERT(sizeof(yoktvarim_patterns) == sizeof(yoktvarim_levels), "a pattern for each level");
YOKTVARIM_ASSERT(sizeof(yoktvarim_quota) == 16, "two 64-bit numbers");
YOKTVARIM_ASSERT(sizeof(yoktvarim_shared) == 80, "ten 64-bit numbers");
YOKTVARIM_ASSERT(sizeof(yoktvarim_difference) == 24, "three 64-bit words");
YOKTVARIM_ASSERT(sizeof(yoktvarim_replay_told) == 56, "seven 64-bit words");
#undef YOKTVARIM_ASSERT

#ifdef __cplusplus
}
#endif

#endif
