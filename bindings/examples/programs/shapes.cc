// Member functions that are declared in a class, a template, a constructor and a function that is
// inlined and also called.
#include <cstdio>
#include <stdexcept>

namespace shapes {
struct Shape {
    explicit Shape(int sides);
    virtual ~Shape() = default;
    int area(int width) const;
    int sides;
};

template <typename Number> __attribute__((noinline)) Number squared(Number number) { return number * number; }

inline int doubled(int number) { return squared(number) + squared(number + 1); }

__attribute__((noinline)) Shape::Shape(int number) : sides(number) {
    if (number < 3) throw std::invalid_argument("a shape has three sides or more");
}

__attribute__((noinline)) int Shape::area(int width) const { return doubled(width) * sides; }
}

int main(int argc, char **) {
    shapes::Shape shape(argc + 2);
    std::printf("%d %f\n", shape.area(argc), shapes::squared(0.5 * argc));
    int (*kept)(int) = shapes::doubled;
    return kept(argc) == 0;
}
