// Boost.Geometry, Debian's libboost-dev.
#include "library.hpp"
#include <boost/geometry.hpp>
#include <boost/geometry/algorithms/is_convex.hpp>
#include <boost/geometry/algorithms/remove_spikes.hpp>
#include <boost/geometry/geometries/point_xy.hpp>
#include <boost/geometry/geometries/ring.hpp>

namespace bg = boost::geometry;

using At = bg::model::d2::point_xy<int32_t>;
using Ring = bg::model::ring<At, false, true>; // counter-clockwise; its last point is its first

static Ring made(const Contour &contour) {
    Ring ring;
    for (Point p : contour) ring.emplace_back(p.x, p.y);
    bg::append(ring, ring.front());
    return ring;
}

static size_t count(const Ring &kept) { return kept.size() < 2 ? 0 : kept.size() - 1; }

static Contour contour(const Ring &kept) {
    Contour points;
    for (size_t i = 0; i < count(kept); i++) points.push_back({kept[i].x(), kept[i].y()});
    return points;
}

static Ring simplified(const Ring &ring) {
    Ring out;
    bg::simplify(ring, out, 0.0);
    return out;
}

static Ring despiked(const Ring &ring) {
    Ring out = ring;
    bg::unique(out);
    bg::remove_spikes(out);
    return out;
}

static int64_t area_two(const Ring &ring) { return std::llround(2 * bg::area(ring)); }

static int64_t is_convex(const Ring &ring) { return bg::is_convex(ring); }

static int64_t contains(const Ring &ring) { return bg::within(At(asked.x, asked.y), ring); }

int main(int argc, char **argv) {
    return run<Ring, Ring>(argc, argv, made, count, contour, {{"simplified", simplified}, {"despiked", despiked}},
                           {{"is_convex", is_convex}, {"area_two", area_two}, {"contains", contains}});
}
