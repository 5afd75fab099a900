/* Rows as long as the header says they need to be are taken, and where that is exact a row one shorter is refused; every
 * reply has words of its own. Prints what is not as due, and how many answers were. */
#include <stdio.h>
#include <string.h>

#include "ukmerelt.h"

#define N 5
#define CONTOURS 2

static int right, wrong;

static void due(const char *what, int as_due)
{
    if (as_due) {
        right++;
    } else {
        wrong++;
        printf("not as due: %s\n", what);
    }
}

#define DUE(test) due(#test, (test))

/* A triangle and a hole of two points, with steps that need 32 bits. */
static const int32_t points[2 * N] = {-UKM_NARROW_LIMIT, 0, UKM_NARROW_LIMIT, 0, 0, 4, 7, -UKM_NARROW_LIMIT,
                                      7, UKM_NARROW_LIMIT};
static const UkmRange contours[CONTOURS] = {{0, 3}, {3, 5}}, shapes[1] = {{0, 2}};

static void cleanings(void)
{
    uint32_t next[UKM_SCRATCH_NEED(N)], prev[UKM_SCRATCH_NEED(N)];
    uint8_t mark[UKM_SCRATCH_NEED(N)];
    int32_t out[UKM_OUT_NEED(N)];

    DUE(ukm_despiked(points, 2 * N, next, N, prev, N, mark, N, out, UKM_OUT_NEED(N)).reply == 0);
    DUE(ukm_despiked(points, 2 * N, next, N, prev, N, mark, UKM_SCRATCH_NEED(N) - 1, out, 2 * N).reply == 4);
    DUE(ukm_despiked(points, 2 * N, next, N, prev, N, mark, N, out, UKM_OUT_NEED(N) - 1).reply == 5);
}

static void files(void)
{
    uint8_t one[UKM_FILE_NEED(N, CONTOURS)], two[UKM_FILE_2_NEED(N, CONTOURS)];
    int32_t out[UKM_READ_OUT_NEED(sizeof one)];
    UkmRange records[CONTOURS], groups[CONTOURS];
    UkmDropped dropped[CONTOURS];
    uint8_t mended[sizeof one];

    DUE(ukm_write_set(points, 2 * N, contours, CONTOURS, shapes, 1, one, sizeof one).bytes == sizeof one);
    DUE(ukm_write_set(points, 2 * N, contours, CONTOURS, shapes, 1, one, sizeof one - 1).reply == 5);
    UkmWritten second = ukm_write_set_2(points, 2 * N, contours, CONTOURS, shapes, 1, two, sizeof two);
    DUE(second.reply == 0 && second.bytes <= sizeof two);
    DUE(UKM_READ_RECORDS_NEED(one) == CONTOURS && UKM_READ_RECORDS_NEED(two) == CONTOURS);
    DUE(ukm_read_set(one, sizeof one, out, UKM_READ_OUT_NEED(sizeof one), records, CONTOURS, groups, CONTOURS).points == N);
    DUE(ukm_read_set(two, second.bytes, out, UKM_READ_OUT_NEED(second.bytes), records, CONTOURS, groups, CONTOURS).points == N);
    DUE(memcmp(out, points, sizeof points) == 0);
    DUE(ukm_salvage(one, sizeof one, mended, sizeof one, dropped, UKM_READ_RECORDS_NEED(one)).bytes == sizeof one);
    DUE(ukm_salvage(one, sizeof one, mended, sizeof one, dropped, UKM_READ_RECORDS_NEED(one) - 1).reply == 5);
}

/* One-bit steps take the most points for their bytes. */
static void most_points(void)
{
    static const uint8_t file[] = {0x20, 1, 0x80, 9, 4, 0, 0, 0, 0, 0, 0, 0, 0, 0, 0};
    int32_t out[UKM_READ_OUT_NEED(sizeof file)];
    UkmRange records[1], groups[1];

    DUE(ukm_read_set(file, sizeof file, out, UKM_READ_OUT_NEED(sizeof file), records, 1, groups, 1).points == 9);
    DUE(UKM_READ_OUT_NEED((size_t)1 << 40) == 2 * UKM_MOST);
}

static void drawings(void)
{
    uint8_t kinds[UKM_EXPORT_KINDS_NEED(N)];
    double floats[UKM_EXPORT_FLOATS_NEED(N)];
    int32_t out[UKM_IMPORT_POINTS_NEED(2 * N)];
    UkmRange records[UKM_IMPORT_RECORDS_NEED(2 * N)];

    UkmDrawn drawn = ukm_export_mm(points, 2 * N, contours, CONTOURS, kinds, UKM_EXPORT_KINDS_NEED(N), floats, 2 * N);
    DUE(drawn.reply == 0 && drawn.commands == N + CONTOURS);
    DUE(ukm_import_mm(kinds, drawn.commands, floats, drawn.floats, out, 2 * N, records, N).points == N);
    DUE(memcmp(out, points, sizeof points) == 0);
}

static void comparing(void)
{
    UkmLine listing[UKM_LISTING_NEED(CONTOURS, 1)];

    DUE(UKM_LISTING_NEED(1, 2) == 2 && UKM_LISTING_NEED(2, 1) == 2);
    DUE(ukm_compare_sets(points, 2 * N, contours, CONTOURS, points, 6, contours, 1, listing, 2).contours == 2);
    DUE(ukm_compare_sets(points, 2 * N, contours, CONTOURS, points, 6, contours, 1, listing, 1).reply == 5);
}

static void words(void)
{
    for (uint32_t i = 0; i < UKM_REPLIES_END; i++)
        for (uint32_t j = 0; j < i; j++)
            DUE(strcmp(ukm_reply_text(i), ukm_reply_text(j)) != 0);
    DUE(strcmp(ukm_reply_text(UKM_LENGTH), "the file ends too soon, or has bytes left over") == 0);
    DUE(strcmp(ukm_reply_text(UKM_REPLIES_END), ukm_reply_text(UINT32_MAX)) == 0);
}

int main(void)
{
    cleanings();
    files();
    most_points();
    drawings();
    comparing();
    words();
    printf("%d answers as due, %d not\n", right, wrong);
    return wrong != 0;
}
