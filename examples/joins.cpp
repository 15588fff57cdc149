// Which curves lead from a first leg to a last leg over a travel, and how long is each?
//
//     g++ examples/joins.cpp $(pkg-config --cflags --libs yard) -o target/joins
//     target/joins 4 0 -16 0 -13 6
//
// `./yard install` makes the library. The curves begin at (0, 0). Status 0 is an answer, 1 a refusal, 2 a mistake in
// the words.
#include <array>
#include <cstdint>
#include <iostream>
#include <stdexcept>
#include <string>

#include "yard.h"

// A point, a leg or a pair. The product is that of complex numbers.
struct Pair {
    std::int64_t x, y;
};

static Pair operator+(Pair a, Pair b) {
    return {a.x + b.x, a.y + b.y};
}

static Pair operator*(Pair a, Pair b) {
    return {a.x * b.x - a.y * b.y, a.x * b.y + a.y * b.x};
}

static Pair operator/(Pair a, std::int64_t d) {
    return {a.x / d, a.y / d};
}

// The legs of a triple, as yard.h has them: every one is whole.
static std::array<Pair, 5> legs_of(Pair w0, Pair v, Pair w2) {
    return {w0 * w0, w0 * v / 2, (v * v + w0 * w2 + w0 * w2) / 6, v * w2 / 2, w2 * w2};
}

using Points = std::array<std::int64_t, YARD_QUINTIC_NUMBERS>;

static Points points_of(const std::array<Pair, 5> &legs) {
    Points points{};
    Pair at{0, 0};
    std::size_t k = 2;
    for (Pair leg : legs) {
        at = at + leg;
        points[k++] = at.x;
        points[k++] = at.y;
    }
    return points;
}

static void print_curve(std::int64_t number, const Points &points) {
    std::cout << number << ":";
    for (std::size_t k = 0; k < points.size(); k += 2)
        std::cout << " (" << points[k] << ", " << points[k + 1] << ")";
    std::array<std::int64_t, YARD_LENGTH_NUMBERS> length;
    int refusal = yard_refusal(yard_length(points.data(), points.size(), length.data(), length.size()));
    if (refusal != 0)
        std::cout << ", length refused " << refusal << "\n";
    else
        std::cout << ", length sqrt(" << length[0] << ") * " << length[1] << " / " << length[2] << "\n";
}

static std::int64_t whole_number(const std::string &word) {
    std::size_t end;
    std::int64_t number = std::stoll(word, &end);
    if (end != word.size())
        throw std::invalid_argument(word);
    return number;
}

int main(int count, char **words) try {
    if (count != 7)
        throw std::invalid_argument("too few words, or too many");
    std::array<std::int64_t, 6> x;
    for (std::size_t k = 0; k < x.size(); k++)
        x[k] = whole_number(words[k + 1]);
    std::array<std::int64_t, YARD_JOIN_NUMBERS> out;
    std::int64_t returned = yard_joins(x[0], x[1], x[2], x[3], x[4], x[5], out.data(), out.size());
    if (yard_refusal(returned) != 0) {
        std::cout << "refused " << yard_refusal(returned) << "\n";
        return 1;
    }
    std::cout << returned << " joins\n";
    for (std::int64_t k = 0; k < returned; k++) {
        const std::int64_t *w = &out[k * YARD_TRIPLE_NUMBERS];
        print_curve(k + 1, points_of(legs_of({w[0], w[1]}, {w[2], w[3]}, {w[4], w[5]})));
    }
    return 0;
} catch (const std::logic_error &) {
    std::cerr << "joins: six whole numbers: the first leg, the last leg and the travel, each as x y\n";
    return 2;
}
