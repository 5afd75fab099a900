// What the programs of the three libraries share. A library names a shape that it works on, how it is made of a contour,
// and its functions; `run` then takes the words of the command as the program `rust` does:
//   PROGRAM time INPUTS         a line for each kind and function, with tabs between the kind, the function, the points,
//                               the nanoseconds and the sum of the answers
//   PROGRAM answers x y x y ..  a line for each function of this one contour: its name, a tab and the answer
#pragma once

#include <algorithm>
#include <chrono>
#include <cmath>
#include <cstdint>
#include <cstdio>
#include <cstdlib>
#include <fstream>
#include <iostream>
#include <limits>
#include <sstream>
#include <string>
#include <vector>

struct Point {
    int32_t x, y;
};

using Contour = std::vector<Point>;

// The point that each contour is asked about, as in inputs.rs.
constexpr Point asked{7, 40};

// A question has a number as its answer: the doubled area, or 1 for yes.
template <class Shape>
struct Question {
    const char *name;
    int64_t (*answer)(const Shape &);
};

// A cleaner answers what it keeps; `count` says how many points that has, the closing one not counted.
template <class Shape, class Kept>
struct Cleaner {
    const char *name;
    Kept (*kept)(const Shape &);
};

struct Kind {
    std::string name;
    std::vector<Contour> contours;
};

inline Contour read_contour(std::istream &numbers) {
    Contour contour;
    for (Point p; numbers >> p.x >> p.y;) contour.push_back(p);
    return contour;
}

inline std::vector<Kind> read_kinds(const char *path) {
    std::ifstream file(path);
    std::vector<Kind> kinds;
    for (std::string name, row; std::getline(file, name, '\t') && std::getline(file, row);) {
        if (kinds.empty() || kinds.back().name != name) kinds.push_back({name, {}});
        std::istringstream numbers(row);
        kinds.back().contours.push_back(read_contour(numbers));
    }
    return kinds;
}

// As in time.rs: the least of all samples of 0.5 ms or more that fit into 0.03 s, and of five at least. Work that takes over
// 0.1 s is done once.
template <class Work>
double nanoseconds(Work work) {
    using Clock = std::chrono::steady_clock;
    auto since = [](Clock::time_point start) { return std::chrono::duration<double>(Clock::now() - start).count(); };
    auto sample = [&](uint64_t repeat) {
        volatile int64_t seen;
        auto start = Clock::now();
        for (uint64_t i = 0; i < repeat; i++) seen = work();
        (void)seen;
        return since(start);
    };
    double least = sample(1);
    if (least > 0.1) return least * 1e9;
    uint64_t repeat = 1;
    while (std::min({sample(repeat), sample(repeat), sample(repeat)}) < 0.0005) repeat *= 2;
    least = std::numeric_limits<double>::max();
    auto start = Clock::now();
    for (int taken = 0; taken < 5 || since(start) < 0.03; taken++) least = std::min(least, sample(repeat));
    return least * 1e9 / repeat;
}

template <class Shape, class Answer>
void time_line(const Kind &kind, const std::vector<Shape> &shapes, const char *function, Answer answer) {
    auto work = [&] {
        int64_t sum = 0;
        for (const Shape &shape : shapes) sum += answer(shape);
        return sum;
    };
    size_t points = 0;
    for (const Contour &contour : kind.contours) points += contour.size();
    std::printf("%s\t%s\t%zu\t%f\t%lld\n", kind.name.c_str(), function, points, nanoseconds(work), (long long)work());
    std::fflush(stdout);
}

inline std::string shown(const Contour &contour) {
    std::string text;
    for (Point p : contour) text += "(" + std::to_string(p.x) + "," + std::to_string(p.y) + ")";
    return text.empty() ? "nothing" : text;
}

// `made` makes a shape of a contour, `count` and `contour` read what a cleaner kept.
template <class Shape, class Kept>
int run(int argc, char **argv, Shape (*made)(const Contour &), size_t (*count)(const Kept &),
        Contour (*contour)(const Kept &), const std::vector<Cleaner<Shape, Kept>> &cleaners,
        const std::vector<Question<Shape>> &questions) {
    std::string word = argc > 1 ? argv[1] : "";
    if (word == "time" && argc == 3) {
        for (const Kind &kind : read_kinds(argv[2])) {
            std::vector<Shape> shapes;
            for (const Contour &c : kind.contours) shapes.push_back(made(c));
            for (auto &cleaner : cleaners)
                time_line(kind, shapes, cleaner.name, [&](const Shape &s) { return (int64_t)count(cleaner.kept(s)); });
            for (auto &question : questions) time_line(kind, shapes, question.name, question.answer);
        }
        return 0;
    }
    if (word == "answers") {
        std::stringstream numbers;
        for (int i = 2; i < argc; i++) numbers << argv[i] << ' ';
        Shape shape = made(read_contour(numbers));
        for (auto &cleaner : cleaners) std::printf("%s\t%s\n", cleaner.name, shown(contour(cleaner.kept(shape))).c_str());
        for (auto &question : questions) std::printf("%s\t%lld\n", question.name, (long long)question.answer(shape));
        return 0;
    }
    std::cerr << argv[0] << " time INPUTS or answers x y x y ...\n";
    return 2;
}
