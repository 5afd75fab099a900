// Clipper 6.4, Debian's libpolyclipping-dev.
#include "library.hpp"
#include <polyclipping/clipper.hpp>

using ClipperLib::Path;

static Path made(const Contour &contour) {
    Path path;
    for (Point p : contour) path.emplace_back(p.x, p.y);
    return path;
}

static size_t count(const Path &kept) { return kept.size(); }

static Contour contour(const Path &kept) {
    Contour points;
    for (auto &p : kept) points.push_back({(int32_t)p.X, (int32_t)p.Y});
    return points;
}

// At its own default distance, 1.415.
static Path cleaned(const Path &path) {
    Path out;
    ClipperLib::CleanPolygon(path, out);
    return out;
}

static int64_t area_two(const Path &path) { return std::llround(2 * ClipperLib::Area(path)); }

static int64_t is_clockwise(const Path &path) { return !ClipperLib::Orientation(path); }

static int64_t contains(const Path &path) { return ClipperLib::PointInPolygon({asked.x, asked.y}, path) == 1; }

int main(int argc, char **argv) {
    return run<Path, Path>(argc, argv, made, count, contour, {{"simplified", cleaned}},
                           {{"area_two", area_two}, {"is_clockwise", is_clockwise}, {"contains", contains}});
}
