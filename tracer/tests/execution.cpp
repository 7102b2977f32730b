// The parallel algorithms of C++17. With the word clean there is no race; with racy each has one, and a tag says how many
// bytes race, and on which lines. It prints the same both times. The tag told is where a line says what isn't run.
#include <algorithm>
#include <cstdio>
#include <cstring>
#include <execution>
#include <forward_list>
#include <numeric>
#include <vector>

using namespace std::execution;

static bool is_racy;

static void print(long number) { std::printf("%ld ", number); }

template <class Container> static void print_all(const Container &numbers) {
    for (const auto &number : numbers)
        print(number);
    std::printf("\n");
}

// ---- Each element ----

int each, each_n, mapped, paired, filled, replaced, last;

static void elements() {
    std::vector<int> numbers(6), others(6);
    std::iota(numbers.begin(), numbers.end(), 1);
    std::forward_list<int> list(numbers.begin(), numbers.end());
    std::for_each(par, list.begin(), list.end(), [](int &number) {
        number *= 2;
        if (is_racy)
            each++; // [4 each first] [4 each second]
    });
    std::for_each_n(par_unseq, numbers.begin(), 3, [](int) {
        if (is_racy)
            each_n++; // [4 number first] [4 number second]
    });
    std::transform(par, list.begin(), list.end(), others.begin(), [](int number) {
        if (is_racy)
            mapped++; // [4 mapped first] [4 mapped second]
        return number + 1;
    });
    std::transform(unseq, numbers.begin(), numbers.end(), others.begin(), numbers.begin(), [](int one, int other) {
        if (is_racy)
            paired++; // [4 paired first] [4 paired second]
        return one * other;
    });
    print_all(numbers);
    std::copy(par, numbers.begin(), numbers.end(), others.begin());
    std::generate(par, others.begin(), others.begin() + 2, [] { return is_racy ? 3 + filled++ * 0 : 3; }); // [4 filled first] [4 filled second]
    std::fill(par, others.begin() + 4, others.end(), 9);
    std::replace_if(par, others.begin(), others.end(), [](int number) {
        if (is_racy)
            replaced++; // [4 replaced first] [4 replaced second]
        return number > 9;
    }, 0);
    std::reverse(par, others.begin(), others.end());
    print_all(others);
    // In its serial order nothing is parallel.
    std::for_each(seq, numbers.begin(), numbers.end(), [](int number) { last = number; });
}

// ---- Sums ----

int added, squared, scanned;

static void sums() {
    std::vector<int> numbers{5, 1, 4, 2, 3};
    print(std::reduce(par, numbers.begin(), numbers.end(), 0, [](int one, int other) { // [told]
        if (is_racy)
            added++; // [4 added first] [4 added second]
        return one + other;
    }));
    print(std::transform_reduce(par, numbers.begin(), numbers.end(), 0, std::plus<>(), [](int number) {
        if (is_racy)
            squared++; // [4 squared first] [4 squared second]
        return number * number;
    }));
    print(std::transform_reduce(par, numbers.begin(), numbers.end(), numbers.begin(), 0));
    print(std::reduce(par, numbers.begin(), numbers.end(), 0, [](auto one, auto other) { return std::max(one, other); }));
    // Each sum has memory of its own.
    std::vector<std::vector<int>> lists{{1}, {2}, {3}};
    print_all(std::reduce(par, lists.begin(), lists.end(), std::vector<int>{0}, [](std::vector<int> one, // [told]
                                                                                   const std::vector<int> &other) {
        one.insert(one.end(), other.begin(), other.end());
        return one;
    }));
    // An output may be the input.
    std::inclusive_scan(par, numbers.begin(), numbers.end(), numbers.begin(), [](int one, int other) { // [told]
        if (is_racy)
            scanned++; // [4 scanned first] [4 scanned second]
        return one + other;
    });
    print_all(numbers);
    std::exclusive_scan(par, numbers.begin(), numbers.end(), numbers.begin(), 1);
    print_all(numbers);
}

// ---- Questions, and what is moved by their answers ----

int counted, found, removed, parted, doubled;

static void questions() {
    std::vector<int> numbers{5, 1, 4, 4, 2, 3};
    print(std::count_if(par, numbers.begin(), numbers.end(), [](int number) {
        if (is_racy)
            counted++; // [4 counted first] [4 counted second]
        return number > 2;
    }));
    print(std::find_if(par, numbers.begin(), numbers.end(), [](int number) {
        if (is_racy)
            found++; // [4 found first] [4 found second]
        return number == 4;
    }) - numbers.begin());
    auto is_small = [](int number) { return number < 5; };
    print(std::all_of(par, numbers.begin(), numbers.end(), is_small) +
          2 * std::any_of(par, numbers.begin(), numbers.end(), is_small) +
          4 * std::none_of(par, numbers.begin(), numbers.end(), is_small));
    auto end = std::unique(par, numbers.begin(), numbers.end(), [](int one, int other) { // [told]
        if (is_racy)
            doubled++; // [4 doubled first] [4 doubled second]
        return one == other;
    });
    end = std::remove_if(par, numbers.begin(), end, [](int number) { // [told]
        if (is_racy)
            removed++; // [4 removed first] [4 removed second]
        return number == 2;
    });
    end = std::remove_if(par, numbers.begin(), end, [](const int &number) -> bool { return number == 7; });
    end = std::remove_if(par, numbers.begin(), end, [](const int &number) { return *(&number + (number > 99)) == 8; }); // [told]
    end = std::remove(par, numbers.begin(), end, 9);
    numbers.erase(end, numbers.end());
    std::partition(par, numbers.begin(), numbers.end(), [](int number) { // [told]
        if (is_racy)
            parted++; // [4 parted first] [4 parted second]
        return number % 2 == 0;
    });
    print_all(numbers);
}

// ---- Comparisons ----

int sorted, sorted_stably, greatest, merged;

static void comparisons() {
    std::vector<int> numbers{5, 1, 4, 8, 2, 3, 7, 6}, others{3, 1, 2, 9}, all(12);
    std::sort(par, numbers.begin(), numbers.end(), [](int one, int other) {
        if (is_racy)
            sorted++; // [4 sorted first] [4 sorted second]
        return one < other;
    });
    std::stable_sort(par, others.begin(), others.end(), [](int one, int other) {
        if (is_racy)
            sorted_stably++; // [4 stably first] [4 stably second]
        return one < other;
    });
    print(*std::max_element(par, others.begin(), others.end(), [](int one, int other) {
        if (is_racy)
            greatest++; // [4 greatest first] [4 greatest second]
        return one < other;
    }));
    print(std::min_element(par, numbers.begin(), numbers.end()) - numbers.begin());
    std::merge(par, numbers.begin(), numbers.end(), others.begin(), others.end(), all.begin(), [](int one, int other) {
        if (is_racy)
            merged++; // [4 merged first] [4 merged second]
        return one < other;
    });
    print_all(all);
}

int main(int, char **words) {
    is_racy = std::strcmp(words[1], "racy") == 0;
    elements();
    sums();
    questions();
    comparisons();
    // This one is run as one part, which a line says.
    std::vector<int> numbers{3, 1, 2};
    if (std::strcmp(words[1], "one") == 0)
        std::nth_element(par, numbers.begin(), numbers.begin() + 1, numbers.end()); // [one part]
}
