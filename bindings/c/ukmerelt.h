/*
 * Ukmerelt: closed contours of whole numbers, cleaned and asked about.
 *
 * Link libukmerelt.a, which `tools/build ukmerelt_c` writes into target/staticlib.
 *
 * Rows. A row is a pointer and a length in elements. A contour is a row of numbers x, y, x, y, read as closed, so its
 * length is twice its count of points. A contour set is points and a row of ranges, one for each contour; a shape set
 * has a second row of ranges, which count contours. A shape is a contour set whose first contour is the outline.
 * An empty row may be passed as NULL with length 0. Any other row is aligned for its elements and readable, and if it
 * is lent for writing writable, over its whole length. A row lent for writing overlaps no other row of the call; rows
 * that are only read may overlap. Nothing is kept after the call, nothing is allocated, and there is no shared state:
 * calls may run at the same time in many threads.
 *
 * Answers. `reply` is 0, or the number of the first refusal in the order 1, 2, 6, 3, 12, 4, 5, 8, 7; ukm_read_set,
 * ukm_write_set_2, ukm_salvage, ukm_import_mm and the calls on a pool have orders of their own. On a refusal every
 * other field is 0 or false and every row is as it was, but for 7, which reports its decisions and turns and leaves the
 * scratch zeroed, and for ukm_compare_sets, which says whose set was refused. Whatever numbers arrive are answered or
 * refused; none traps.
 *
 * Scratch. A cleaner is lent three rows, next, prev and mark, with at least as many entries each as the input has
 * points. After 0 and 7 that many entries of each are 0; what they held before plays no part.
 *
 * Output. What is kept stands in front of the rows, and the rest of each row is as it was.
 */
#ifndef UKMERELT_H
#define UKMERELT_H

#include <stdbool.h>
#include <stddef.h>
#include <stdint.h>

#ifdef __cplusplus
extern "C" {
#endif

/* The version of this header and of the library that it declares; CHANGELOG.md has what each brought. The number is
 * 10000 * major + 100 * minor + patch. */
#define UKM_VERSION "0.2.0"
#define UKM_VERSION_NUMBER 200

/* The largest coordinate of the grid, either side of 0: of contours, of sets, and of points asked about. */
#define UKM_LIMIT 1073741823

/* The largest coordinate of the narrow grid, either side of 0: of edition 1 files, read, written or salvaged, and of
 * drawings in millimetres, in and out. */
#define UKM_NARROW_LIMIT 536870912

/* The most points of a contour or a set, and the most bytes of a file. */
#define UKM_MOST 65536

/* What rows need, in elements: with so many no call is refused with 4 or 5. points and contours are counts, of type
 * size_t; a row of points has two numbers for each. */

/* Each row of scratch, and the output of a cleaning, a packing or an addition. */
#define UKM_SCRATCH_NEED(points) (points)
#define UKM_OUT_NEED(points) (2 * (points))

/* The bytes of ukm_write_set, exactly, and of ukm_write_set_2, at most. */
#define UKM_FILE_NEED(points, contours) (2 + 2 * (contours) + 8 * (points))
#define UKM_FILE_2_NEED(points, contours) (2 + (22 * (contours) + 64 * (points) + 7) / 8)

/* The output of ukm_read_set, at most; its records and its groups, and those of ukm_salvage, by a file's first two bytes. */
#define UKM_READ_OUT_NEED(bytes_len) (8 * (bytes_len) < 2 * UKM_MOST ? 8 * (bytes_len) : 2 * UKM_MOST)
#define UKM_READ_RECORDS_NEED(bytes) ((size_t)((bytes)[0] & 15) * 256 + (bytes)[1])

/* The points of ukm_import_mm, exactly, and its records, at most; the kinds of ukm_export_mm, at most, and its floats. */
#define UKM_IMPORT_POINTS_NEED(floats_len) (floats_len)
#define UKM_IMPORT_RECORDS_NEED(floats_len) ((floats_len) / 2)
#define UKM_EXPORT_KINDS_NEED(points) (2 * (points))
#define UKM_EXPORT_FLOATS_NEED(points) (2 * (points))

/* The listing of ukm_compare_sets, by both counts of contours, and the rows of a pool. */
#define UKM_LISTING_NEED(contours, others) ((contours) < (others) ? (others) : (contours))
#define UKM_POOL_POINTS_NEED (2 * UKM_MOST)
#define UKM_POOL_RECORDS_NEED UKM_MOST

/* The replies: number, name and words. UKM_REPLIES(X) is X(number, name, words) for each of them. */
#define UKM_REPLIES(X) \
    X(0, UKM_DONE, "done") \
    X(1, UKM_ODD, "an odd count of coordinates") \
    X(2, UKM_TOO_MANY, "over 65,536 points, or a file of over 65,536 bytes") \
    X(3, UKM_OFF_GRID, "a coordinate beyond 1,073,741,823 either side of 0; of an edition 1 file or a drawing, beyond 536,870,912") \
    X(4, UKM_SCRATCH, "a scratch row with fewer entries than there are points") \
    X(5, UKM_ROOM, "an output row that is too short; for a program, over 8,192 points") \
    X(6, UKM_RANGES, "ranges that are not sound") \
    X(7, UKM_COLLAPSED, "collapsed: fewer than three points would stay") \
    X(8, UKM_EMPTY, "the area or the winding of an empty contour, or the area of a set that has one") \
    X(9, UKM_EDITION, "the file's edition is neither 1 nor 2, or, to be salvaged, not 1") \
    X(10, UKM_LENGTH, "the file ends too soon, or has bytes left over") \
    X(11, UKM_NO_SHAPE, "the file's first contour begins no shape") \
    X(12, UKM_CANT_CARRY, "no file carries it: over 4,095 contours, over 32,767 points in one, or an empty shape") \
    X(13, UKM_NO_DRAWING, "kinds and floats whose lengths don't match, no kind, or a Line or Close with nothing open") \
    X(14, UKM_NOT_FINITE, "a place that is a NaN or an infinity") \
    X(15, UKM_WIDTH, "the file has a contour in another width than the smallest") \
    X(16, UKM_FILL, "the file's last byte is not filled up with zero bits") \
    X(17, UKM_FULL, "the press's points would pass the pool less the other's part") \
    X(18, UKM_NONE_LEFT, "the press has no contour left to remove") \
    X(19, UKM_TOOL, "another tool than 0, which no file carries") \
    X(20, UKM_NO_STEP, "a step of another kind or press, with a count below 0, or cut short") \
    X(21, UKM_FIGURES_FULL, "over 65,535 contours and refused sets in all")

enum {
#define UKM_NUMBER(number, name, words) name = number,
    UKM_REPLIES(UKM_NUMBER)
#undef UKM_NUMBER
    UKM_REPLIES_END /* one past the last */
};

/* A reply in words. This is no function of the library: it stands here. */
static inline const char *ukm_reply_text(uint32_t reply)
{
    switch (reply) {
#define UKM_WORDS(number, name, words) \
    case number: \
        return words;
        UKM_REPLIES(UKM_WORDS)
#undef UKM_WORDS
    }
    return "a number that is no reply";
}

/* The kinds of command in a drawing. */
enum {
    UKM_MOVE = 0, /* ends an open contour and begins one at its place */
    UKM_LINE = 1, /* adds its place to the open contour */
    UKM_CLOSE = 2 /* ends the open contour */
};

/* Where a point lies of a contour. */
enum {
    UKM_OUTSIDE = 0,  /* neither of these */
    UKM_BOUNDARY = 1, /* on a closed edge: its ends and all between; a single point is one too */
    UKM_INSIDE = 2    /* on no edge, and an odd count of edges is to its right */
};

/* A part of a row: from start up to end, which is not part of it. Points for a contour, contours for a shape. */
typedef struct UkmRange {
    size_t start;
    size_t end;
} UkmRange;

/* A contour of a pool: a part of its points, the tool that cuts it, and its press, 0 or 1. */
typedef struct UkmRecord {
    size_t start;
    size_t end;
    size_t tool;
    size_t press;
} UkmRecord;

typedef struct UkmVerdict {
    uint32_t reply;
    bool yes;
} UkmVerdict;

/* place: UKM_OUTSIDE, UKM_BOUNDARY or UKM_INSIDE; 0 where the reply is not 0. */
typedef struct UkmLocated {
    uint32_t reply;
    uint8_t place;
} UkmLocated;

typedef struct UkmArea {
    uint32_t reply;
    int64_t value;
} UkmArea;

/* points: how many are kept. decisions: how often the walk looked at a vertex and decided. turns: how often it was at
 * one, to decide or to step over one that it had marked; at most five for each point of the input. */
typedef struct UkmCleaned {
    uint32_t reply;
    size_t points;
    size_t decisions;
    size_t turns;
} UkmCleaned;

/* The same, of a set. */
typedef struct UkmCleanedSet {
    uint32_t reply;
    size_t points;
    size_t contours;
    size_t shapes;
    size_t decisions;
    size_t turns;
} UkmCleanedSet;

/* How many of each are written. */
typedef struct UkmPacked {
    uint32_t reply;
    size_t points;
    size_t contours;
    size_t shapes;
} UkmPacked;

/* Which edition the file is, 1 or 2, and how many of each are written. */
typedef struct UkmRead {
    uint32_t reply;
    uint32_t edition;
    size_t points;
    size_t contours;
    size_t shapes;
} UkmRead;

/* How many bytes are written. */
typedef struct UkmWritten {
    uint32_t reply;
    size_t bytes;
} UkmWritten;

/* How many bytes are written, how many contours are dropped and listed, how many promised ones are not there, or not in
 * full, and how many bytes stand past the promised count. */
typedef struct UkmSalvaged {
    uint32_t reply;
    size_t bytes;
    size_t dropped;
    size_t missing;
    size_t past;
} UkmSalvaged;

/* A contour of a file that was dropped: its number, from 0, and why, UKM_OFF_GRID or UKM_NO_SHAPE. */
typedef struct UkmDropped {
    size_t contour;
    size_t reason;
} UkmDropped;

/* How many commands and floats are written. */
typedef struct UkmDrawn {
    uint32_t reply;
    size_t commands;
    size_t floats;
} UkmDrawn;

/* How many contours of two sets are listed. Of a refusal, refused says whose set it is about: 1, 2, or 0 for neither. */
typedef struct UkmCompared {
    uint32_t reply;
    uint32_t refused;
    size_t contours;
} UkmCompared;

/* What two sets have under one contour number: one of the kinds below, and the place that goes with it, or 0. */
typedef struct UkmLine {
    size_t kind;
    size_t place;
} UkmLine;

/* The kinds of a line. */
enum {
    UKM_SAME = 0,        /* the two contours are the same, point by point, or both empty */
    UKM_ELSEWHERE = 1,   /* the same once the second starts at its point number place, the smallest such, from 1 on */
    UKM_DIFFERENT = 2,   /* different, first at the point number place, from 0; the shorter count, if one is the
                          * beginning of the other */
    UKM_ONLY_FIRST = 3,  /* only the first set has so many contours */
    UKM_ONLY_SECOND = 4  /* only the second */
};

typedef struct UkmCounted {
    uint32_t reply;
    size_t count;
} UkmCounted;

/* One contour. */

/* The doubled area, counter-clockwise positive, modulo 2^64 in the range of int64_t. Refuses with 1, 2, 3, and 8 if
 * there are no points. */
UkmArea ukm_area_two(const int32_t *points, size_t points_len);

/* Its half, cut toward zero. Refuses as ukm_area_two does. */
UkmArea ukm_area(const int32_t *points, size_t points_len);

/* Whether all turns have one sign and no edge reverses, equal neighbours skipped; two points or fewer are convex.
 * Refuses with 1, 2, 3. */
UkmVerdict ukm_is_convex(const int32_t *points, size_t points_len);

/* Whether the doubled area that ukm_area_two reports is at or below 0. Refuses with 1, 2, 3, and 8 if there are no
 * points. */
UkmVerdict ukm_is_clockwise(const int32_t *points, size_t points_len);

/* Whether there are three or more points and no vertex whose two edges have cross product 0. Refuses with 1, 2, 3. */
UkmVerdict ukm_is_simple(const int32_t *points, size_t points_len);

/* Whether, equal neighbours skipped, three or more points are left and the way turns back at none. Refuses with
 * 1, 2, 3. */
UkmVerdict ukm_has_no_spikes(const int32_t *points, size_t points_len);

/* Whether the point x, y is inside, by the parity of the edges to its right. On the boundary the answer is half-open,
 * as i_shape's is: of a square yes on its left and lower edges and no on the others; ukm_locate tells the boundary.
 * Refuses with 1, 2, and 3 also for a point x, y off the grid. */
UkmVerdict ukm_contains(const int32_t *points, size_t points_len, int32_t x, int32_t y);

/* Where the point x, y lies: on the boundary if it is on any closed edge, the closing one, single points and doubled
 * edges included; else inside or outside, as ukm_contains says. An empty contour has no boundary and no inside. Refuses
 * as ukm_contains does. */
UkmLocated ukm_locate(const int32_t *points, size_t points_len, int32_t x, int32_t y);

/* The contour without the vertices whose two edges have cross product 0. Refuses with 1, 2, 3, with 4 if a scratch row
 * has fewer entries than there are points, with 5 if out is shorter than points, and with 7 if fewer than three
 * points would stay. */
UkmCleaned ukm_simplified(const int32_t *points, size_t points_len,
                          uint32_t *next, size_t next_len,
                          uint32_t *prev, size_t prev_len,
                          uint8_t *mark, size_t mark_len,
                          int32_t *out, size_t out_len);

/* The contour without its spikes and without equal neighbours. Refuses as ukm_simplified does. */
UkmCleaned ukm_despiked(const int32_t *points, size_t points_len,
                        uint32_t *next, size_t next_len,
                        uint32_t *prev, size_t prev_len,
                        uint8_t *mark, size_t mark_len,
                        int32_t *out, size_t out_len);

/* Contour sets. */

/* Whether the ranges are sound: the first starts at 0, each starts where the one before ends, none runs backward, and
 * the last ends at count; no ranges are sound for count 0. Refuses nothing. */
bool ukm_ranges_sound(const UkmRange *ranges, size_t ranges_len, size_t count);

/* Whether every contour is simple. Refuses with 1, 2, 6, 3. */
UkmVerdict ukm_set_is_simple(const int32_t *points, size_t points_len, const UkmRange *ranges, size_t ranges_len);

/* Whether no contour has spikes. Refuses with 1, 2, 6, 3. */
UkmVerdict ukm_set_has_no_spikes(const int32_t *points, size_t points_len, const UkmRange *ranges, size_t ranges_len);

/* The sum of the contours' doubled areas, modulo 2^64 in the range of int64_t. Refuses with 1, 2, 6, 3, and 8 if a
 * contour is empty. */
UkmArea ukm_set_area_two(const int32_t *points, size_t points_len, const UkmRange *ranges, size_t ranges_len);

/* Its half, cut toward zero. Refuses as ukm_set_area_two does. */
UkmArea ukm_set_area(const int32_t *points, size_t points_len, const UkmRange *ranges, size_t ranges_len);

/* Whether the shape of these contours has the point x, y: it is inside the first or on its boundary, and inside no
 * later one. So the rims of the outline and of the holes belong to the shape. Refuses with 1, 2, 6, and 3 also for a
 * point x, y off the grid. */
UkmVerdict ukm_in_shape(const int32_t *points, size_t points_len, const UkmRange *ranges, size_t ranges_len,
                        int32_t x, int32_t y);

/* Shape sets. The reply is 6 where the contour ranges or the shape ranges are not sound. */

/* Whether every contour of every shape is simple. Refuses with 1, 2, 6, 3. */
UkmVerdict ukm_shapes_is_simple(const int32_t *points, size_t points_len,
                                const UkmRange *contours, size_t contours_len,
                                const UkmRange *shapes, size_t shapes_len);

/* Whether no contour of any shape has spikes. Refuses with 1, 2, 6, 3. */
UkmVerdict ukm_shapes_has_no_spikes(const int32_t *points, size_t points_len,
                                    const UkmRange *contours, size_t contours_len,
                                    const UkmRange *shapes, size_t shapes_len);

/* The sum of the contours' doubled areas, modulo 2^64 in the range of int64_t. Refuses with 1, 2, 6, 3, and 8 if a
 * contour is empty. */
UkmArea ukm_shapes_area_two(const int32_t *points, size_t points_len,
                            const UkmRange *contours, size_t contours_len,
                            const UkmRange *shapes, size_t shapes_len);

/* Its half, cut toward zero. Refuses as ukm_shapes_area_two does. */
UkmArea ukm_shapes_area(const int32_t *points, size_t points_len,
                        const UkmRange *contours, size_t contours_len,
                        const UkmRange *shapes, size_t shapes_len);

/* Cleaning shapes. A contour that already passes (ukm_is_simple, ukm_has_no_spikes) is copied and adds no decisions
 * and no turns. A later contour that collapses is dropped. */

/* The shape with each contour simplified; shapes is 1 on 0. Refuses with 1, 2, 6, 3, with 4 if a scratch row has fewer
 * entries than the whole shape has points, with 5 if out is shorter than points or records than ranges, and with 7 if
 * the first contour collapses. */
UkmCleanedSet ukm_simplified_shape(const int32_t *points, size_t points_len,
                                   const UkmRange *ranges, size_t ranges_len,
                                   uint32_t *next, size_t next_len,
                                   uint32_t *prev, size_t prev_len,
                                   uint8_t *mark, size_t mark_len,
                                   int32_t *out, size_t out_len,
                                   UkmRange *records, size_t records_len);

/* The shape with each contour despiked. Refuses as ukm_simplified_shape does. */
UkmCleanedSet ukm_despiked_shape(const int32_t *points, size_t points_len,
                                 const UkmRange *ranges, size_t ranges_len,
                                 uint32_t *next, size_t next_len,
                                 uint32_t *prev, size_t prev_len,
                                 uint8_t *mark, size_t mark_len,
                                 int32_t *out, size_t out_len,
                                 UkmRange *records, size_t records_len);

/* The shapes of a set, each simplified; one whose first contour collapses is dropped, and one of no contours stays.
 * Refuses with 1, 2, 6, 3, with 4 if a scratch row has fewer entries than the whole set has points, and with 5 if out
 * is shorter than points, records than contours, or groups than shapes. */
UkmCleanedSet ukm_simplified_shapes(const int32_t *points, size_t points_len,
                                    const UkmRange *contours, size_t contours_len,
                                    const UkmRange *shapes, size_t shapes_len,
                                    uint32_t *next, size_t next_len,
                                    uint32_t *prev, size_t prev_len,
                                    uint8_t *mark, size_t mark_len,
                                    int32_t *out, size_t out_len,
                                    UkmRange *records, size_t records_len,
                                    UkmRange *groups, size_t groups_len);

/* The shapes of a set, each despiked. Refuses as ukm_simplified_shapes does. */
UkmCleanedSet ukm_despiked_shapes(const int32_t *points, size_t points_len,
                                  const UkmRange *contours, size_t contours_len,
                                  const UkmRange *shapes, size_t shapes_len,
                                  uint32_t *next, size_t next_len,
                                  uint32_t *prev, size_t prev_len,
                                  uint8_t *mark, size_t mark_len,
                                  int32_t *out, size_t out_len,
                                  UkmRange *records, size_t records_len,
                                  UkmRange *groups, size_t groups_len);

/* What becomes of a contour when its shape is cleaned. */
enum {
    UKM_FATE_KEPT = 0,      /* it is kept */
    UKM_FATE_COLLAPSED = 1, /* it collapsed */
    UKM_FATE_BEHIND = 2     /* it stood behind an outline that collapsed, and went with it */
};

/* What becomes of each contour when ukm_simplified_shapes cleans the set: one of these for contour i in fates[i]; count
 * is how many are kept. No point is written, so out, records and groups are not lent. Refuses with 1, 2, 6, 3, with 4 if
 * a scratch row has fewer entries than the whole set has points, and with 5 if fates is shorter than contours. */
UkmCounted ukm_simplified_fates(const int32_t *points, size_t points_len,
                                const UkmRange *contours, size_t contours_len,
                                const UkmRange *shapes, size_t shapes_len,
                                uint32_t *next, size_t next_len,
                                uint32_t *prev, size_t prev_len,
                                uint8_t *mark, size_t mark_len,
                                uint8_t *fates, size_t fates_len);

/* The same of ukm_despiked_shapes. */
UkmCounted ukm_despiked_fates(const int32_t *points, size_t points_len,
                              const UkmRange *contours, size_t contours_len,
                              const UkmRange *shapes, size_t shapes_len,
                              uint32_t *next, size_t next_len,
                              uint32_t *prev, size_t prev_len,
                              uint8_t *mark, size_t mark_len,
                              uint8_t *fates, size_t fates_len);

/* Packing: a set written in front of out (points), records (contour ranges) and groups (shape ranges). */

/* One shape of one contour. Refuses with 1, 2, 3, and 5 if an output row is too short for what is written. */
UkmPacked ukm_pack_contour(const int32_t *contour, size_t contour_len,
                           int32_t *out, size_t out_len,
                           UkmRange *records, size_t records_len,
                           UkmRange *groups, size_t groups_len);

/* One shape. Refuses with 1, 2, 6, 3, and 5 if an output row is too short for what is written. */
UkmPacked ukm_pack_shape(const int32_t *points, size_t points_len,
                         const UkmRange *ranges, size_t ranges_len,
                         int32_t *out, size_t out_len,
                         UkmRange *records, size_t records_len,
                         UkmRange *groups, size_t groups_len);

/* A shape set. Refuses with 1, 2, 6, 3, and 5 if an output row is too short for what is written. */
UkmPacked ukm_pack_shapes(const int32_t *points, size_t points_len,
                          const UkmRange *contours, size_t contours_len,
                          const UkmRange *shapes, size_t shapes_len,
                          int32_t *out, size_t out_len,
                          UkmRange *records, size_t records_len,
                          UkmRange *groups, size_t groups_len);

/* A contour set and one contour more; shapes is 0. Refuses with 1, 2 also where both together have too many points, 6,
 * 3, and 5 if an output row is too short for what is written. */
UkmPacked ukm_add_contour(const int32_t *points, size_t points_len,
                          const UkmRange *ranges, size_t ranges_len,
                          const int32_t *contour, size_t contour_len,
                          int32_t *out, size_t out_len,
                          UkmRange *records, size_t records_len);

/* A shape set and one shape more, of the points in more and the contours in ranges. Refuses with 1, 2 also where both
 * together have too many points, 6, 3, and 5 if an output row is too short for what is written. */
UkmPacked ukm_add_shape(const int32_t *points, size_t points_len,
                        const UkmRange *contours, size_t contours_len,
                        const UkmRange *shapes, size_t shapes_len,
                        const int32_t *more, size_t more_len,
                        const UkmRange *ranges, size_t ranges_len,
                        int32_t *out, size_t out_len,
                        UkmRange *records, size_t records_len,
                        UkmRange *groups, size_t groups_len);

/* Set files. There are two editions. Edition 1 has each point in 64 bits, on the narrow grid: 3 is for a coordinate
 * beyond UKM_NARROW_LIMIT. Edition 2 has each point but a contour's first as its differences from the one before, in
 * the smallest width, 1 to 32 bits, that carries all of the contour's, and goes to UKM_LIMIT. */

/* The shape set of a file of either edition. Refuses with 2; with 10 if there are under two bytes; with 9; then contour
 * by contour with 10 for a missing header and 11 for a first contour that begins no shape; in edition 1 with 10 for
 * missing points; in edition 2 with 2 if the points promised so far pass 65,536, 10 for bits missing by the width as
 * written, and 15. Then with 10 for whole bytes left over; in edition 2 with 16; with 3, also where later differences
 * come back to the grid; and with 5 if an output row is too short for what the file holds. */
UkmRead ukm_read_set(const uint8_t *bytes, size_t bytes_len,
                     int32_t *out, size_t out_len,
                     UkmRange *records, size_t records_len,
                     UkmRange *groups, size_t groups_len);

/* The edition 1 file of a shape set, in front of bytes. Refuses with 1, with 2 for too many points or too long a file,
 * with 6, 3, 12, and 5 if bytes is shorter than the file. */
UkmWritten ukm_write_set(const int32_t *points, size_t points_len,
                         const UkmRange *contours, size_t contours_len,
                         const UkmRange *shapes, size_t shapes_len,
                         uint8_t *bytes, size_t bytes_len);

/* The edition 2 file of a shape set, in front of bytes. Refuses with 1, with 2 for too many points, with 6, 3, 12, with
 * 2 for a file of over 65,536 bytes, and with 5 if bytes is shorter than the file. */
UkmWritten ukm_write_set_2(const int32_t *points, size_t points_len,
                           const UkmRange *contours, size_t contours_len,
                           const UkmRange *shapes, size_t shapes_len,
                           uint8_t *bytes, size_t bytes_len);

/* What is sound of a damaged file of edition 1, as a file in front of out, and which contours are left out, in front of
 * dropped. Contours are taken from the front as long as they are there in full. One with a coordinate off the narrow
 * grid is dropped, and if it began a shape, those behind it up to the next that begins one; a first contour that begins
 * no shape is dropped in the same way. A contour that is off the narrow grid is listed as UKM_OFF_GRID, any other as
 * UKM_NO_SHAPE. What is written is a file that ukm_read_set takes; a sound file is written as it is. Refuses with 2;
 * with 10 if there are under two bytes; with 9; and with 5 if out is shorter than bytes, or dropped than the count of
 * contours that the file promises, which is at most 4,095. */
UkmSalvaged ukm_salvage(const uint8_t *bytes, size_t bytes_len,
                        uint8_t *out, size_t out_len,
                        UkmDropped *dropped, size_t dropped_len);

/* Two contour sets compared: line i of the listing is of contour number i, from 0, as many lines as the larger set has
 * contours. The time is linear in the points, also of contours that repeat, and no scratch is lent. Refuses with 1, 2, 6,
 * 3 of the first set, then of the second, and with 5 if listing has fewer entries than the larger set has contours. */
UkmCompared ukm_compare_sets(const int32_t *points, size_t points_len,
                             const UkmRange *contours, size_t contours_len,
                             const int32_t *others, size_t others_len,
                             const UkmRange *other_contours, size_t other_contours_len,
                             UkmLine *listing, size_t listing_len);

/* Drawings in millimetres. A drawing is a row of kinds and a row of floats, two for each UKM_MOVE or UKM_LINE, x and y
 * of its place. A millimetre is 1,024 of the library's units. Drawings lie on the narrow grid, which ends 524,288 mm
 * either side of 0: 3 is for a coordinate beyond that, or beyond UKM_NARROW_LIMIT. */

/* The contour set of a drawing, in front of points and records; shapes is 0. Each coordinate becomes the whole number
 * nearest to 1,024 times the float's exact value, halves away from zero. What is open at the end is ended, and a
 * UKM_MOVE behind another leaves a contour of one point. Refuses with 13 if there are not two floats for each UKM_MOVE
 * and UKM_LINE; then by the first faulty command with 13 if it is of no kind, or a UKM_LINE or UKM_CLOSE with nothing
 * open, with 14, or with 3; then with 2; and with 5 if points is shorter than floats, or records has fewer entries than
 * there are UKM_MOVEs. */
UkmPacked ukm_import_mm(const uint8_t *kinds, size_t kinds_len,
                        const double *floats, size_t floats_len,
                        int32_t *points, size_t points_len,
                        UkmRange *records, size_t records_len);

/* The drawing of a contour set, in front of kinds and floats: each contour as UKM_MOVE, UKM_LINEs and UKM_CLOSE, an
 * empty one as nothing. Each coordinate is divided by 1,024, which is exact: ukm_import_mm gives the same contours
 * back. Refuses with 1, 2, 6, 3, and 5 if floats is shorter than points, or kinds than the points and the contours that
 * have some. */
UkmDrawn ukm_export_mm(const int32_t *points, size_t points_len,
                       const UkmRange *contours, size_t contours_len,
                       uint8_t *kinds, size_t kinds_len,
                       double *floats, size_t floats_len);

/* A pool that two presses share. It lies in rows of the caller's: points, a record for each contour, and in contours how
 * many records are in use, 0 at first. The pool holds 65,536 points; 16,384 are kept for each press, and the rest goes to
 * whoever asks first. An empty contour counts as one point held. second is false for press 0 and true for press 1. The
 * reply is 6 for a pool that is not sound: more records in use than there are, records that are not laid end to end from
 * 0 or end past the points, a press over 1, a tool over 255, a press that holds over 49,152, or both over 65,536. */

/* A press adds a contour behind the others, with tool 0. Refuses with 1; with 2 for the contour alone; with 6, 3; with 17
 * if what the press then held would pass the pool less the other's part, which is what the other holds or 16,384,
 * whichever is more; and with 5 if points has fewer than 131,072 numbers or records fewer than 65,536 entries, whatever
 * the pool holds. */
uint32_t ukm_pool_add(int32_t *points, size_t points_len,
                      UkmRecord *records, size_t records_len,
                      size_t *contours, bool second,
                      const int32_t *contour, size_t contour_len);

/* A press removes its newest contour; those behind it move down, and where nothing moved over them the old numbers stay.
 * Refuses with 6, and with 18 if the press has none. */
uint32_t ukm_pool_remove(int32_t *points, size_t points_len,
                         UkmRecord *records, size_t records_len,
                         size_t *contours, bool second);

/* How many contours a press has. Refuses with 6. */
UkmCounted ukm_pool_contours(const int32_t *points, size_t points_len,
                             const UkmRecord *records, size_t records_len,
                             size_t contours, bool second);

/* How many points a press holds. Refuses with 6. */
UkmCounted ukm_pool_held(const int32_t *points, size_t points_len,
                         const UkmRecord *records, size_t records_len,
                         size_t contours, bool second);

/* The free count: 65,536 less all held. Refuses with 6. */
UkmCounted ukm_pool_free(const int32_t *points, size_t points_len,
                         const UkmRecord *records, size_t records_len,
                         size_t contours);

#ifdef __cplusplus
}
#endif

#endif
