// GEOS by its C interface, Debian's libgeos-dev.
#include "library.hpp"
#include <cstdarg>
#include <geos_c.h>
#include <memory>

struct Destroy {
    void operator()(GEOSGeometry *geometry) const { GEOSGeom_destroy(geometry); }
};

using Polygon = std::unique_ptr<GEOSGeometry, Destroy>;

static void said(const char *format, ...) {
    va_list words;
    va_start(words, format);
    std::vfprintf(stderr, format, words);
    va_end(words);
    std::fputc('\n', stderr);
}

// Its last point is its first.
static Polygon made(const Contour &contour) {
    GEOSCoordSequence *row = GEOSCoordSeq_create(contour.size() + 1, 2);
    for (size_t i = 0; i <= contour.size(); i++) {
        Point p = contour[i % contour.size()];
        GEOSCoordSeq_setXY(row, i, p.x, p.y);
    }
    return Polygon(GEOSGeom_createPolygon(GEOSGeom_createLinearRing(row), nullptr, 0));
}

static const GEOSCoordSequence *row_of(const Polygon &polygon) {
    return GEOSGeom_getCoordSeq(GEOSGetExteriorRing(polygon.get()));
}

static size_t count(const Polygon &kept) {
    int points = GEOSGetNumCoordinates(kept.get());
    return points < 2 ? 0 : points - 1;
}

static Contour contour(const Polygon &kept) {
    Contour points;
    for (size_t i = 0; i < count(kept); i++) {
        double x, y;
        GEOSCoordSeq_getXY(row_of(kept), i, &x, &y);
        points.push_back({(int32_t)x, (int32_t)y});
    }
    return points;
}

static Polygon simplified(const Polygon &polygon) { return Polygon(GEOSSimplify(polygon.get(), 0)); }

static int64_t area_two(const Polygon &polygon) {
    double area = 0;
    GEOSArea(polygon.get(), &area);
    return std::llround(2 * area);
}

static int64_t is_clockwise(const Polygon &polygon) {
    char counter_clockwise = 0;
    GEOSCoordSeq_isCCW(row_of(polygon), &counter_clockwise);
    return !counter_clockwise;
}

static int64_t contains(const Polygon &polygon) {
    static Polygon point(GEOSGeom_createPointFromXY(asked.x, asked.y));
    return GEOSContains(polygon.get(), point.get()) == 1;
}

int main(int argc, char **argv) {
    initGEOS(said, said);
    return run<Polygon, Polygon>(argc, argv, made, count, contour, {{"simplified", simplified}},
                                 {{"area_two", area_two}, {"is_clockwise", is_clockwise}, {"contains", contains}});
}
