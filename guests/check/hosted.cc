// What people know of C++: containers, streams, virtual functions, smart pointers, and objects that are made before main.
#include <algorithm>
#include <functional>
#include <iostream>
#include <map>
#include <memory>
#include <sstream>
#include <string>
#include <vector>

struct Shape {
    virtual ~Shape() = default;
    virtual double area() const = 0;
};

struct Square : Shape {
    explicit Square(double side) : side(side) {}
    double area() const override { return side * side; }
    double side;
};

static std::map<std::string, int> counts{{"one", 1}, {"two", 2}};

int main() {
    std::vector<std::unique_ptr<Shape>> shapes;
    for (int i = 1; i < 4; i++)
        shapes.push_back(std::make_unique<Square>(i + 0.5));
    double all = 0;
    for (const auto &shape : shapes)
        all += shape->area();
    counts["three"] = 3;
    std::string names;
    for (const auto &[name, count] : counts)
        names += name + (count > 2 ? "!" : ",");
    std::ostringstream text;
    text << names << ' ' << all << ' ' << std::hex << 255;
    std::cout << text.str() << std::endl;
    std::vector<int> numbers{5, 3, 8};
    std::sort(numbers.begin(), numbers.end(), std::greater<int>());
    std::cout << numbers[0] << numbers[1] << numbers[2] << (dynamic_cast<Square *>(shapes[0].get()) != nullptr ? " square" : " none") << '\n';
}
