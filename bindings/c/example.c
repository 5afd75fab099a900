/* A worked example: ask about a contour, clean it, ask where pins lie, clean a shape with a hole, ask what goes, ask about shapes,
 * build a set, write it in both editions and read it, bring in a drawing, and salvage a damaged file. */
#include <inttypes.h>
#include <math.h>
#include <stdio.h>
#include <stdlib.h>

#include "ukmerelt.h"

#define LENGTH(row) (sizeof(row) / sizeof *(row))

static void print_points(const int32_t *points, size_t from, size_t to)
{
    for (size_t i = from; i < to; i++)
        printf(" (%" PRId32 ",%" PRId32 ")", points[2 * i], points[2 * i + 1]);
    printf("\n");
}

/* A contour with a point in its lower edge. */
static void one_contour(void)
{
    const int32_t contour[] = {0, 0, 2, 0, 4, 0, 4, 4, 0, 4};
    size_t n = LENGTH(contour) / 2;

    UkmArea area = ukm_area_two(contour, LENGTH(contour));
    printf("doubled area %" PRId64 "\n", area.value);
    printf("simple: %s\n", ukm_is_simple(contour, LENGTH(contour)).yes ? "yes" : "no");
    printf("contains (1,1): %s\n", ukm_contains(contour, LENGTH(contour), 1, 1).yes ? "yes" : "no");

    uint32_t *next = malloc(UKM_SCRATCH_NEED(n) * sizeof *next);
    uint32_t *prev = malloc(UKM_SCRATCH_NEED(n) * sizeof *prev);
    uint8_t *mark = malloc(UKM_SCRATCH_NEED(n) * sizeof *mark);
    int32_t *out = malloc(UKM_OUT_NEED(n) * sizeof *out);
    UkmCleaned cleaned = ukm_simplified(contour, LENGTH(contour), next, n, prev, n, mark, n, out, LENGTH(contour));
    if (cleaned.reply == UKM_DONE) {
        printf("simplified, after %zu decisions in %zu turns:", cleaned.decisions, cleaned.turns);
        print_points(out, 0, cleaned.points);
    }
    free(next);
    free(prev);
    free(mark);
    free(out);
}

/* A plate with a hole, asked about locating pins: on the hole's left and right rim, in the plate and in the hole. */
static void pins(void)
{
    const int32_t points[] = {0, 0, 9, 0, 9, 9, 0, 9, /* hole */ 3, 3, 3, 6, 6, 6, 6, 3};
    const UkmRange ranges[] = {{0, 4}, {4, 8}};
    const int32_t asked[][2] = {{3, 4}, {6, 4}, {1, 1}, {4, 4}};
    const char *const places[] = {"outside", "on the boundary of", "inside"};

    for (size_t i = 0; i < LENGTH(asked); i++) {
        int32_t x = asked[i][0], y = asked[i][1];
        UkmLocated hole = ukm_locate(points + 8, 8, x, y);
        bool held = ukm_in_shape(points, LENGTH(points), ranges, LENGTH(ranges), x, y).yes;
        printf("a pin at (%" PRId32 ",%" PRId32 "), %s the hole: %s\n", x, y, places[hole.place],
               held ? "material" : "no material");
    }
}

/* An outline with a spike, and a hole that collapses. */
static void one_shape(void)
{
    const int32_t points[] = {0, 0, 8, 0, 8, 8, 8, 12, 8, 8, 0, 8, /* hole */ 2, 2, 4, 4, 6, 6};
    const UkmRange ranges[] = {{0, 6}, {6, 9}};
    uint32_t next[9], prev[9];
    uint8_t mark[9];
    int32_t out[18];
    UkmRange records[2];

    UkmCleanedSet cleaned = ukm_despiked_shape(points, LENGTH(points), ranges, LENGTH(ranges), next, LENGTH(next), prev,
                                               LENGTH(prev), mark, LENGTH(mark), out, LENGTH(out), records,
                                               LENGTH(records));
    printf("despiked: reply %" PRIu32 ", contours %zu of %zu\n", cleaned.reply, cleaned.contours, LENGTH(ranges));
    for (size_t i = 0; i < cleaned.contours; i++)
        print_points(out, records[i].start, records[i].end);
}

/* A plate, and a line with a hole behind it: what becomes of each contour, and a word for each that goes. */
static void fates(void)
{
    const int32_t points[] = {0, 0, 8, 0, 8, 8, 0, 8, /* line */ 9, 0, 11, 0, 13, 0, /* hole */ 9, 1, 10, 1, 9, 2};
    const UkmRange contours[] = {{0, 4}, {4, 7}, {7, 10}}, shapes[] = {{0, 1}, {1, 3}};
    const char *const words[] = {"kept", "collapsed", "gone with its outline"};
    uint32_t next[10], prev[10];
    uint8_t mark[10], told[3];

    UkmCounted kept = ukm_despiked_fates(points, LENGTH(points), contours, LENGTH(contours), shapes, LENGTH(shapes), next,
                                         LENGTH(next), prev, LENGTH(prev), mark, LENGTH(mark), told, LENGTH(told));
    printf("fates: reply %" PRIu32 ", %zu of %zu contours kept\n", kept.reply, kept.count, LENGTH(contours));
    for (size_t i = 0; i < LENGTH(told); i++)
        printf("contour %zu %s\n", i, words[told[i]]);
}

/* Two shapes, the first with a hole; then the same points with a shape that names contours which are not there. */
static void two_shapes(void)
{
    const int32_t points[] = {0, 0, 8, 0, 8, 8, 0, 8, /* hole */ 2, 2, 2, 6, 6, 6, 6, 2, /* second */ 9, 0, 13, 0, 9, 4};
    const UkmRange contours[] = {{0, 4}, {4, 8}, {8, 11}};
    const UkmRange shapes[] = {{0, 2}, {2, 3}}, beyond[] = {{5, 99}};

    UkmArea area = ukm_shapes_area_two(points, LENGTH(points), contours, LENGTH(contours), shapes, LENGTH(shapes));
    printf("doubled area of the shapes %" PRId64 "\n", area.value);

    area = ukm_shapes_area_two(points, LENGTH(points), contours, LENGTH(contours), beyond, LENGTH(beyond));
    printf("with a shape of contours 5 to 99: reply %" PRIu32 "\n", area.reply);
}

/* A set that starts empty, whose rows are then NULL, and is enlarged by a contour. */
static void a_set(void)
{
    const int32_t triangle[] = {0, 0, 4, 0, 0, 4};
    int32_t out[6];
    UkmRange records[1];

    UkmPacked set = ukm_add_contour(NULL, 0, NULL, 0, triangle, LENGTH(triangle), out, LENGTH(out), records, 1);
    printf("set: %zu contour of %zu points\n", set.contours, set.points);

    set = ukm_add_contour(NULL, 0, NULL, 0, triangle, LENGTH(triangle), out, 5, records, 1);
    printf("with room for 5 numbers: reply %" PRIu32 "\n", set.reply);
}

/* A triangle in millimetres brought onto the grid and given back, and one with a coordinate that is no number. */
static void a_drawing(void)
{
    const uint8_t kinds[] = {UKM_MOVE, UKM_LINE, UKM_LINE, UKM_CLOSE};
    const double floats[] = {0, 0, 25.4, 0, 0, 12.7}, wild[] = {0, 0, NAN, 0, 0, 12.7};
    int32_t points[6];
    UkmRange records[1];

    UkmPacked set = ukm_import_mm(kinds, LENGTH(kinds), floats, LENGTH(floats), points, LENGTH(points), records,
                                  LENGTH(records));
    printf("drawing: %zu contour of %zu points:", set.contours, set.points);
    print_points(points, 0, set.points);

    uint8_t kinds_back[4];
    double floats_back[6];
    UkmDrawn drawn = ukm_export_mm(points, LENGTH(points), records, LENGTH(records), kinds_back, LENGTH(kinds_back),
                                   floats_back, LENGTH(floats_back));
    printf("back: %zu commands, the second a line to %.9f\n", drawn.commands, floats_back[2]);

    set = ukm_import_mm(kinds, LENGTH(kinds), wild, LENGTH(wild), points, LENGTH(points), records, LENGTH(records));
    printf("with a NaN: reply %" PRIu32 "\n", set.reply);
}

/* A square with a tack place in its lower edge as a file of either edition, read again; and the second with a fill bit
 * set. */
static void two_editions(void)
{
    const int32_t points[] = {0, 0, 2, 0, 4, 0, 4, 4, 0, 4};
    const UkmRange contours[] = {{0, 5}}, shapes[] = {{0, 1}};
    uint8_t first[UKM_FILE_NEED(5, 1)], second[UKM_FILE_2_NEED(5, 1)];
    int32_t out[10];
    UkmRange records[1], groups[1];

    UkmWritten one = ukm_write_set(points, LENGTH(points), contours, 1, shapes, 1, first, sizeof first);
    UkmWritten two = ukm_write_set_2(points, LENGTH(points), contours, 1, shapes, 1, second, sizeof second);
    printf("written: %zu bytes in edition 1, %zu in edition 2\n", one.bytes, two.bytes);

    UkmRead read = ukm_read_set(second, two.bytes, out, LENGTH(out), records, 1, groups, 1);
    printf("read: edition %" PRIu32 ", %zu points:", read.edition, read.points);
    print_points(out, 0, read.points);

    second[two.bytes - 1] |= 1;
    read = ukm_read_set(second, two.bytes, out, LENGTH(out), records, 1, groups, 1);
    printf("with a fill bit set: reply %" PRIu32 "\n", read.reply);
}

/* A file of three contours of a point each: the first begins a shape, the second is a hole off the grid, and of the
 * third the last byte is gone. */
static void a_damaged_file(void)
{
    const uint8_t file[] = {0x10, 3, 0x80, 1, 0, 0, 0, 5, 0, 0, 0, 6, /* hole */ 0, 1, 0x7f, 0, 0, 0, 0, 0, 0, 7,
                            /* third */ 0x80, 1, 0, 0, 0, 8, 0, 0, 0};
    uint8_t out[sizeof file];
    UkmDropped dropped[3];

    UkmSalvaged salvaged = ukm_salvage(file, sizeof file, out, sizeof out, dropped, LENGTH(dropped));
    printf("salvaged: %zu bytes of %zu, %zu contour missing\n", salvaged.bytes, sizeof file, salvaged.missing);
    for (size_t i = 0; i < salvaged.dropped; i++)
        printf("contour %zu dropped: %s\n", dropped[i].contour,
               dropped[i].reason == UKM_OFF_GRID ? "off the grid" : "no shape");

    salvaged = ukm_salvage(file, sizeof file, out, sizeof out, dropped, 2);
    printf("with room to list 2 of 3: reply %" PRIu32 "\n", salvaged.reply);
}

/* A plate with a hole before and after: the plate starts at another corner, a corner of the hole has moved, and a
 * second hole has come. */
static void two_sets(void)
{
    static const char *const words[] = {"the same", "the same from point", "different at point", "only in the first",
                                        "only in the second"};
    const int32_t before[] = {0, 0, 8, 0, 8, 8, 0, 8, /* hole */ 2, 2, 2, 3, 3, 3};
    const UkmRange before_contours[] = {{0, 4}, {4, 7}};
    const int32_t after[] = {8, 8, 0, 8, 0, 0, 8, 0, /* hole */ 2, 2, 2, 3, 4, 3, /* second */ 5, 5, 5, 6, 6, 6};
    const UkmRange after_contours[] = {{0, 4}, {4, 7}, {7, 10}};
    UkmLine listing[3];

    UkmCompared compared = ukm_compare_sets(before, LENGTH(before), before_contours, LENGTH(before_contours), after,
                                            LENGTH(after), after_contours, LENGTH(after_contours), listing,
                                            LENGTH(listing));
    for (size_t i = 0; i < compared.contours; i++)
        printf("contour %zu: %s %zu\n", i, words[listing[i].kind], listing[i].place);

    compared = ukm_compare_sets(before, LENGTH(before), before_contours, LENGTH(before_contours), after, 5,
                                after_contours, LENGTH(after_contours), listing, LENGTH(listing));
    printf("with five numbers in the second set: reply %" PRIu32 " of set %" PRIu32 "\n", compared.reply,
           compared.refused);
}

/* Two presses put contours in one pool; the first removes its newest, and the other's moves down. */
static void two_presses(void)
{
    static int32_t points[UKM_POOL_POINTS_NEED];
    static UkmRecord records[UKM_POOL_RECORDS_NEED];
    const int32_t triangle[] = {0, 0, 4, 0, 0, 4}, pin[] = {7, 8};
    size_t contours = 0;

    ukm_pool_add(points, LENGTH(points), records, LENGTH(records), &contours, false, triangle, LENGTH(triangle));
    ukm_pool_add(points, LENGTH(points), records, LENGTH(records), &contours, true, pin, LENGTH(pin));
    UkmCounted free = ukm_pool_free(points, LENGTH(points), records, LENGTH(records), contours);
    printf("pool: %zu contours, %zu points free\n", contours, free.count);

    uint32_t reply = ukm_pool_remove(points, LENGTH(points), records, LENGTH(records), &contours, false);
    printf("removed: reply %" PRIu32 ", the pin now at point %zu:", reply, records[0].start);
    print_points(points, records[0].start, records[0].end);
    reply = ukm_pool_remove(points, LENGTH(points), records, LENGTH(records), &contours, false);
    printf("none left: reply %" PRIu32 "\n", reply);
    reply = ukm_pool_add(points, LENGTH(points), records, 9, &contours, false, pin, LENGTH(pin));
    printf("with 9 records: reply %" PRIu32 "\n", reply);
}

int main(void)
{
    one_contour();
    pins();
    one_shape();
    fates();
    two_shapes();
    a_set();
    two_editions();
    a_drawing();
    a_damaged_file();
    two_sets();
    two_presses();

    uint32_t reply = ukm_area(NULL, 0).reply;
    printf("area of nothing: reply %" PRIu32 ", %s\n", reply, ukm_reply_text(reply));
    return 0;
}
