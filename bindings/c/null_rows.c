/* Every function takes NULL with length 0 for an empty row: for all rows at once, and for each row that may be empty
 * beside others that are not. Prints what differs from the answer that is due, and how many answers were as due. */
#include <stdio.h>
#include <string.h>

#include "ukmerelt.h"

static int right, wrong;

static void due(const char *call, int as_due)
{
    if (as_due) {
        right++;
    } else {
        wrong++;
        printf("not as due: %s\n", call);
    }
}

#define DUE(call, test)             \
    do {                            \
        __typeof__(call) a = (call); \
        due(#call, (test));         \
    } while (0)

#define NO NULL, 0
#define NO_SCRATCH NO, NO, NO

int main(void)
{
    static const int32_t triangle[] = {0, 0, 4, 0, 0, 4};
    static const UkmRange empty_contour[] = {{0, 0}}, one[] = {{0, 1}}, three[] = {{0, 3}};
    static const uint8_t begin[] = {UKM_MOVE}, end[] = {UKM_CLOSE};
    static const double place[] = {1.5, -2};
    int32_t out[6];
    UkmRange records[2], groups[2];
    uint32_t next[3], prev[3];
    uint8_t mark[3];

    DUE(ukm_area_two(NO), a.reply == 8 && a.value == 0);
    DUE(ukm_area(NO), a.reply == 8 && a.value == 0);
    DUE(ukm_is_convex(NO), a.reply == 0 && a.yes);
    DUE(ukm_is_clockwise(NO), a.reply == 8 && !a.yes);
    DUE(ukm_is_simple(NO), a.reply == 0 && !a.yes);
    DUE(ukm_has_no_spikes(NO), a.reply == 0 && !a.yes);
    DUE(ukm_contains(NO, 1, 1), a.reply == 0 && !a.yes);
    DUE(ukm_contains(NO, UKM_LIMIT, -UKM_LIMIT), a.reply == 0 && !a.yes);
    DUE(ukm_contains(NO, UKM_LIMIT + 1, 1), a.reply == 3 && !a.yes);
    DUE(ukm_locate(NO, 1, 1), a.reply == 0 && a.place == UKM_OUTSIDE);
    DUE(ukm_locate(NO, 1, UKM_LIMIT + 1), a.reply == 3 && a.place == 0);
    DUE(ukm_simplified(NO, NO_SCRATCH, NO), a.reply == 7 && a.points == 0 && a.decisions == 0 && a.turns == 0);
    DUE(ukm_despiked(NO, NO_SCRATCH, NO), a.reply == 7 && a.points == 0 && a.decisions == 0 && a.turns == 0);
    DUE(ukm_simplified(triangle, 6, NO, NO, NO, out, 6), a.reply == 4);
    DUE(ukm_simplified(triangle, 6, next, 3, prev, 3, NO, out, 6), a.reply == 4);
    DUE(ukm_despiked(triangle, 6, next, 3, prev, 3, mark, 3, NO), a.reply == 5);

    DUE(ukm_ranges_sound(NO, 0), a);
    DUE(ukm_ranges_sound(NO, 1), !a);
    DUE(ukm_set_is_simple(NO, NO), a.reply == 0 && a.yes);
    DUE(ukm_set_is_simple(triangle, 6, NO), a.reply == 6 && !a.yes);
    DUE(ukm_set_is_simple(NO, three, 1), a.reply == 6 && !a.yes);
    DUE(ukm_set_has_no_spikes(NO, NO), a.reply == 0 && a.yes);
    DUE(ukm_set_has_no_spikes(NO, empty_contour, 1), a.reply == 0 && !a.yes);
    DUE(ukm_set_area_two(NO, NO), a.reply == 0 && a.value == 0);
    DUE(ukm_set_area(NO, NO), a.reply == 0 && a.value == 0);
    DUE(ukm_set_area(NO, empty_contour, 1), a.reply == 8 && a.value == 0);
    DUE(ukm_in_shape(NO, NO, 1, 1), a.reply == 0 && !a.yes);
    DUE(ukm_in_shape(NO, empty_contour, 1, 1, 1), a.reply == 0 && !a.yes);

    DUE(ukm_shapes_is_simple(NO, NO, NO), a.reply == 0 && a.yes);
    DUE(ukm_shapes_is_simple(NO, NO, empty_contour, 1), a.reply == 0 && a.yes);
    DUE(ukm_shapes_is_simple(triangle, 6, three, 1, NO), a.reply == 6 && !a.yes);
    DUE(ukm_shapes_is_simple(triangle, 6, NO, NO), a.reply == 6 && !a.yes);
    DUE(ukm_shapes_has_no_spikes(NO, NO, NO), a.reply == 0 && a.yes);
    DUE(ukm_shapes_has_no_spikes(NO, empty_contour, 1, one, 1), a.reply == 0 && !a.yes);
    DUE(ukm_shapes_has_no_spikes(NO, empty_contour, 1, NO), a.reply == 6 && !a.yes);
    DUE(ukm_shapes_area_two(NO, NO, NO), a.reply == 0 && a.value == 0);
    DUE(ukm_shapes_area_two(triangle, 6, three, 1, NO), a.reply == 6 && a.value == 0);
    DUE(ukm_shapes_area(NO, NO, NO), a.reply == 0 && a.value == 0);
    DUE(ukm_shapes_area(NO, empty_contour, 1, one, 1), a.reply == 8 && a.value == 0);
    DUE(ukm_shapes_area(NO, empty_contour, 1, NO), a.reply == 6 && a.value == 0);

    DUE(ukm_simplified_shape(NO, NO, NO_SCRATCH, NO, NO), a.reply == 0 && a.contours == 0 && a.shapes == 1);
    DUE(ukm_despiked_shape(NO, NO, NO_SCRATCH, NO, NO), a.reply == 0 && a.contours == 0 && a.shapes == 1);
    DUE(ukm_simplified_shape(NO, empty_contour, 1, NO_SCRATCH, NO, records, 1), a.reply == 7 && a.decisions == 0 && a.turns == 0);
    DUE(ukm_simplified_shape(NO, empty_contour, 1, NO_SCRATCH, NO, NO), a.reply == 5);
    DUE(ukm_simplified_shapes(NO, NO, NO, NO_SCRATCH, NO, NO, NO), a.reply == 0 && a.shapes == 0);
    DUE(ukm_despiked_shapes(NO, NO, NO, NO_SCRATCH, NO, NO, NO), a.reply == 0 && a.shapes == 0);
    DUE(ukm_simplified_shapes(NO, NO, empty_contour, 1, NO_SCRATCH, NO, NO, groups, 1), a.reply == 0 && a.shapes == 1);

    DUE(ukm_simplified_fates(NO, NO, NO, NO_SCRATCH, NO), a.reply == 0 && a.count == 0);
    DUE(ukm_despiked_fates(NO, NO, empty_contour, 1, NO_SCRATCH, NO), a.reply == 0 && a.count == 0);
    DUE(ukm_simplified_fates(NO, empty_contour, 1, one, 1, NO_SCRATCH, NO), a.reply == 5 && a.count == 0);
    DUE(ukm_despiked_fates(NO, empty_contour, 1, one, 1, NO_SCRATCH, mark, 1),
        a.reply == 0 && a.count == 0 && mark[0] == UKM_FATE_COLLAPSED);
    DUE(ukm_despiked_fates(triangle, 6, three, 1, one, 1, NO_SCRATCH, mark, 1), a.reply == 4);

    DUE(ukm_pack_contour(NO, NO, NO, NO), a.reply == 5);
    DUE(ukm_pack_contour(NO, NO, records, 1, groups, 1), a.reply == 0 && a.contours == 1 && a.shapes == 1);
    DUE(ukm_pack_shape(NO, NO, NO, NO, NO), a.reply == 5);
    DUE(ukm_pack_shape(NO, NO, NO, NO, groups, 1), a.reply == 0 && a.contours == 0 && a.shapes == 1);
    DUE(ukm_pack_shapes(NO, NO, NO, NO, NO, NO), a.reply == 0 && a.points == 0 && a.shapes == 0);
    DUE(ukm_add_contour(NO, NO, NO, NO, NO), a.reply == 5);
    DUE(ukm_add_contour(NO, NO, NO, NO, records, 1), a.reply == 0 && a.points == 0 && a.contours == 1);
    DUE(ukm_add_contour(NO, NO, triangle, 6, out, 6, records, 1),
        a.reply == 0 && a.points == 3 && !memcmp(out, triangle, sizeof triangle));
    DUE(ukm_add_shape(NO, NO, NO, NO, NO, NO, NO, NO), a.reply == 5);
    DUE(ukm_add_shape(NO, NO, NO, NO, NO, NO, NO, groups, 1), a.reply == 0 && a.contours == 0 && a.shapes == 1);

    DUE(ukm_read_set(NO, NO, NO, NO), a.reply == 10 && a.edition == 0);
    DUE(ukm_read_set((const uint8_t *)"\x10", 2, NO, NO, NO),
        a.reply == 0 && a.edition == 1 && a.points == 0 && a.shapes == 0);
    DUE(ukm_read_set((const uint8_t *)"\x20", 2, NO, NO, NO),
        a.reply == 0 && a.edition == 2 && a.points == 0 && a.shapes == 0);
    DUE(ukm_write_set(NO, NO, NO, NO), a.reply == 5);
    DUE(ukm_write_set(NO, NO, NO, mark, 3), a.reply == 0 && a.bytes == 2 && mark[0] == 16 && mark[1] == 0);
    DUE(ukm_write_set_2(NO, NO, NO, NO), a.reply == 5);
    DUE(ukm_write_set_2(NO, NO, NO, mark, 3), a.reply == 0 && a.bytes == 2 && mark[0] == 32 && mark[1] == 0);
    DUE(ukm_write_set_2(triangle, 6, NO, NO, NO), a.reply == 6);
    DUE(ukm_salvage(NO, NO, NO), a.reply == 10);
    DUE(ukm_salvage((const uint8_t *)"\x10", 2, NO, NO), a.reply == 5);
    DUE(ukm_salvage((const uint8_t *)"\x10\x01", 2, mark, 3, NO), a.reply == 5);
    DUE(ukm_salvage((const uint8_t *)"\x10", 2, mark, 3, NO),
        a.reply == 0 && a.bytes == 2 && a.dropped == 0 && mark[0] == 16 && mark[1] == 0);

    DUE(ukm_import_mm(NO, NO, NO, NO), a.reply == 0 && a.points == 0 && a.contours == 0 && a.shapes == 0);
    DUE(ukm_import_mm(begin, 1, NO, NO, NO), a.reply == 13);
    DUE(ukm_import_mm(NO, place, 2, NO, NO), a.reply == 13);
    DUE(ukm_import_mm(end, 1, NO, NO, NO), a.reply == 13);
    DUE(ukm_import_mm(begin, 1, place, 2, NO, NO), a.reply == 5);
    DUE(ukm_import_mm(begin, 1, place, 2, out, 6, NO), a.reply == 5);
    DUE(ukm_export_mm(NO, NO, NO, NO), a.reply == 0 && a.commands == 0 && a.floats == 0);
    DUE(ukm_export_mm(NO, empty_contour, 1, NO, NO), a.reply == 0 && a.commands == 0 && a.floats == 0);
    DUE(ukm_export_mm(triangle, 6, NO, NO, NO), a.reply == 6);
    DUE(ukm_export_mm(triangle, 6, three, 1, NO, NO), a.reply == 5);

    DUE(ukm_compare_sets(NO, NO, NO, NO, NO), a.reply == 0 && a.refused == 0 && a.contours == 0);
    DUE(ukm_compare_sets(NO, empty_contour, 1, NO, NO, NO), a.reply == 5 && a.refused == 0 && a.contours == 0);
    DUE(ukm_compare_sets(triangle, 6, NO, NO, NO, NO), a.reply == 6 && a.refused == 1);
    DUE(ukm_compare_sets(NO, NO, triangle, 6, NO, NO), a.reply == 6 && a.refused == 2);
    DUE(ukm_pool_free(NO, NO, 0), a.reply == 0 && a.count == 65536);
    DUE(ukm_pool_contours(NO, NO, 0, true), a.reply == 0 && a.count == 0);
    DUE(ukm_pool_held(NO, NO, 1, false), a.reply == 6 && a.count == 0);

    printf("%d answers as due, %d not\n", right, wrong);
    return wrong != 0;
}
