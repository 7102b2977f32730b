// Races whose words test_words.py knows: in a vector that a vector holds, in a member of a base, and in blocks of the heap.
#include <cstdio>
#include <map>
#include <memory>
#include <string>
#include <vector>

namespace plates {
struct Base {
    long id;
    int counts[3];
};

struct Derived : Base {
    static int shared;
    int own;
};
int Derived::shared;
Derived derived[2];
} // namespace plates

// A name that is longer than a line.
template <typename Key, typename Value> struct Table {
    std::map<Key, std::vector<Value>> rows;
    void add(const Key &key, const Value &value) { rows[key][0] += value; } // [add]
};

class Counter {
    int hits = 0;
    double sum = 0;

  public:
    void add(double value) {
        sum += value, ++hits; // [hits]
    }
};

int main() {
    Table<std::pair<std::string, std::vector<std::string>>, double> table;
    std::pair<std::string, std::vector<std::string>> key("key", {"a"});
    table.rows[key].resize(4); // [resize]
#pragma omp parallel for
    for (int i = 0; i < 2; i++) {
        table.add(key, i); // [call add]
        plates::derived[1].counts[2] = i; // [member]
        plates::Derived::shared = i; // [shared]
    }
    auto counter = std::make_unique<Counter>();
    std::vector<Counter> counters(3);
    int last = 0;
    auto note = [&](int i) { // [lambda]
        last = i;
        counter->add(i);
        counters[2].add(i);
    };
#pragma omp parallel for
    for (int i = 0; i < 2; i++)
        note(i);
    std::printf("%g\n", table.rows[key][0]);
}
