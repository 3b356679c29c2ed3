// A program whose debugging information the benchmark reads: maps, texts, closures and templates.
#include <algorithm>
#include <functional>
#include <map>
#include <memory>
#include <numeric>
#include <string>
#include <vector>
#ifdef MORE
#include <optional>
#include <set>
#include <sstream>
#include <unordered_map>
#endif
namespace words {
template <int N> struct Key {
    int number = N;
    std::string text;
    bool operator<(const Key &other) const { return number < other.number || (number == other.number && text < other.text); }
};
struct Shape {
    virtual ~Shape() = default;
    virtual double area() const = 0;
};
struct Square final : Shape {
    double side = 1;
    double area() const override { return side * side; }
};
template <int N> int exercise(const std::string &text) {
    std::map<Key<N>, std::vector<std::string>> index;
    std::string word;
    for (char letter : text) {
        if (letter == ' ') { index[Key<N>{static_cast<int>(word.size()), word}].push_back(word); word.clear(); }
        else { word += letter; }
    }
    std::vector<std::unique_ptr<Shape>> shapes;
    for (auto &[key, values] : index) { (void)key; if (!values.empty()) shapes.push_back(std::make_unique<Square>()); }
    std::function<double(double, const std::unique_ptr<Shape> &)> add = [](double sum, const auto &shape) { return sum + shape->area(); };
    double area = std::accumulate(shapes.begin(), shapes.end(), 0.0, add);
    std::sort(shapes.begin(), shapes.end(), [](const auto &one, const auto &other) { return one->area() < other->area(); });
#ifdef MORE
    std::unordered_map<std::string, int> counts;
    for (auto &pair : index) counts[pair.first.text] += static_cast<int>(pair.second.size());
    std::set<int> sorted;
    for (auto &pair : counts) sorted.insert(pair.second);
    std::ostringstream out;
    out << sorted.size() << area;
    if (std::optional<int> first = sorted.empty() ? std::nullopt : std::optional<int>(*sorted.begin())) area += *first;
#endif
    if constexpr (N > 1) return exercise<N - 1>(word) + static_cast<int>(area);
    return static_cast<int>(area);
}
}
int main(int count, char **names) {
    int total = 0;
    for (int at = 0; at < count; ++at) total += words::exercise<DEPTH>(names[at]);
    return total & 1;
}
