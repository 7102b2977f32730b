// oneTBB, each construct once. With the word clean there is no race; with racy each has one, and a tag says how many bytes
// race, and on which lines. It prints the same both times. With thrown exceptions leave children; mixed has what a trace
// can't say.
#include <cstdio>
#include <cstring>
#include <functional>
#include <list>
#include <oneapi/tbb.h>
#include <tbb/blocked_range3d.h>
#include <tbb/parallel_for.h>
#include <vector>

static bool is_racy;
static long printed[40];
static int print_at;

static void print(long number) { printed[print_at++] = number; }

// ---- parallel_for ----

// The compiler keeps what others may read.
int by_index, by_step, by_range, by_rows, by_pages, by_iterators;

static void loops() {
    std::vector<int> found(12);
    tbb::parallel_for(0, 12, [&](int i) {
        found[i] = i;
        if (is_racy)
            by_index++; // [4 index first] [4 index second]
    });
    tbb::parallel_for(size_t(1), found.size(), size_t(3), [&](size_t i) {
        found[i] += 100;
        if (is_racy)
            by_step++; // [4 step first] [4 step second]
    }, tbb::auto_partitioner());
    tbb::affinity_partitioner affinity;
    tbb::parallel_for(tbb::blocked_range<int>(0, 12), [&](const tbb::blocked_range<int> &range) {
        for (int i = range.begin(); i != range.end(); ++i) {
            found[i] *= 2;
            if (is_racy && i > 5)
                by_range = i; // [4 range first] [4 range second]
        }
    }, affinity);
    for (int number : found)
        print(number);
}

// Iterations of one leaf aren't parallel: leaves of 8 with a grain of 4 have four each.
static void grains() {
    int sums[2] = {};
    tbb::parallel_for(tbb::blocked_range<int>(0, 8, 4), [&](tbb::blocked_range<int> range) {
        for (int i = range.begin(); i != range.end(); ++i)
            sums[i / 4] += i;
    }, tbb::simple_partitioner());
    print(sums[0] * 100 + sums[1]);
    std::vector<int> numbers{1, 2, 3};
    typedef std::vector<int>::iterator Place;
    tbb::parallel_for(tbb::blocked_range<Place>(numbers.begin(), numbers.end()),
                      [&](const tbb::blocked_range<Place> &range) {
                          for (int &number : range)
                              number *= 2;
                          if (is_racy)
                              by_iterators = *range.begin(); // [4 iterators first] [4 iterators second]
                      });
    print(numbers[2]);
}

static void ranges_of_more() {
    int table[3][4], cube[2][2][2];
    tbb::parallel_for(tbb::blocked_range2d<int>(0, 3, 0, 4), [&](const tbb::blocked_range2d<int> &range) {
        for (int row = range.rows().begin(); row != range.rows().end(); ++row)
            for (int column = range.cols().begin(); column != range.cols().end(); ++column)
                table[row][column] = row + column;
        if (is_racy)
            by_rows++; // [4 rows first] [4 rows second]
    });
    tbb::parallel_for(tbb::blocked_range3d<int>(0, 2, 0, 2, 0, 2), [&](const tbb::blocked_range3d<int> &range) {
        cube[range.pages().begin()][range.rows().begin()][range.cols().begin()] = 7;
        if (is_racy)
            by_pages++; // [4 pages first] [4 pages second]
    });
    print(table[2][3] + cube[1][1][1]);
}

// A range that has memory of its own, which a child ends with.
struct Listed {
    std::vector<int> numbers;
    explicit Listed(std::vector<int> all) : numbers(std::move(all)) {}
    Listed(Listed &other, tbb::split) : numbers(other.numbers.begin() + 2, other.numbers.end()) {
        other.numbers.resize(2);
    }
    bool empty() const { return numbers.empty(); }
    bool is_divisible() const { return numbers.size() > 2; }
};
int by_listed;

static void ranges_with_memory() {
    std::vector<int> doubled(7);
    tbb::parallel_for(Listed({1, 2, 3, 4, 5, 6}), [&](const Listed &part) {
        for (int number : part.numbers)
            doubled[number] = 2 * number;
        if (is_racy)
            by_listed += part.numbers[0]; // [4 listed first] [4 listed second]
    });
    print(doubled[1] + doubled[6]);
}

// ---- parallel_for_each, parallel_invoke ----

int by_item, by_added, by_function, seen[40];

static void items() {
    std::list<int> items{1, 2, 3};
    tbb::parallel_for_each(items, [](int &item) {
        item += 10;
        if (is_racy)
            by_item++; // [4 item first] [4 item second]
    });
    print(items.back());
    // What is added is parallel to the rest of what adds it, and waited for at the end.
    tbb::parallel_for_each(items.begin(), items.end(), [](int item, tbb::feeder<int> &feeder) {
        seen[item] = item;
        if (item == 11) {
            feeder.add(30);
            if (is_racy)
                by_added = item; // [4 added second]
        }
        if (is_racy && item == 30)
            by_added = item; // [4 added first]
    });
    print(seen[11] + seen[30]);
}

static void functions() {
    int one = 0, other = 0;
    tbb::parallel_invoke([&] { one = 1; }, [&] { by_function = 2; }, // [4 function first]
                         [&] { (is_racy ? by_function : other) = 3; }); // [4 function second]
    print(one);
}

// ---- Reductions ----

int by_part, by_join, by_body;

struct Largest {
    const std::vector<int> &numbers;
    int largest;
    explicit Largest(const std::vector<int> &of) : numbers(of), largest(0) {}
    // Runs beside what the other body does.
    Largest(Largest &other, tbb::split) : numbers(other.numbers), largest(0) {
        if (is_racy && other.largest > 100) // [4 body second]
            largest = 1;
    }
    void operator()(const tbb::blocked_range<size_t> &range) {
        for (size_t i = range.begin(); i != range.end(); ++i)
            largest = std::max(largest, numbers[i]); // [4 body first]
    }
    void join(const Largest &other) { largest = std::max(largest, other.largest); }
};

static void sums() {
    std::vector<int> numbers{3, 9, 4, 8, 5, 7};
    auto add = [&](const tbb::blocked_range<size_t> &range, long sum) {
        for (size_t i = range.begin(); i != range.end(); ++i)
            sum += numbers[i];
        if (is_racy)
            by_part++; // [4 part first] [4 part second]
        return sum;
    };
    tbb::blocked_range<size_t> all(0, numbers.size());
    print(tbb::parallel_reduce(all, 0L, add, [](long one, long other) { // [told]
        if (is_racy)
            by_join++; // [4 join first] [4 join second]
        return one + other;
    }));
    print(tbb::parallel_deterministic_reduce(all, 0L, [&](const tbb::blocked_range<size_t> &range, long sum) {
        return sum + numbers[range.begin()];
    }, std::plus<long>(), tbb::simple_partitioner()));
    // This one has one grouping, and with a static partitioner several.
    long (*join)(long, long) = [](long one, long other) { return one + other; };
    print(tbb::parallel_deterministic_reduce(all, 0L, add, join));
    print(tbb::parallel_deterministic_reduce(all, 0L, add, join, tbb::static_partitioner())); // [told]
    print(tbb::parallel_reduce(all, 0L, add, [](long one, long other) { return one + other; }));
    auto sum = [](long one, long other) { return one + other; };
    print(tbb::parallel_reduce(all, 0L, add, sum));
    // Two leaves: their bodies are this one and one that is split off it.
    Largest largest(numbers);
    tbb::parallel_reduce(tbb::blocked_range<size_t>(0, 6, 3), largest); // [told]
    print(largest.largest);
}

// ---- task_group ----

int by_task, after_wait, by_nested;

static void add_tasks(tbb::task_group &group, int &from) {
    group.run([&from] { from = 1; }); // [4 from first]
}

// The tasks aren't waited for where the function that runs them ends.
static void groups() {
    tbb::task_group group;
    int from = 0, inner = 0;
    add_tasks(group, from);
    if (is_racy)
        from = 2; // [4 from second]
    group.run([&] {
        tbb::task_group nested;
        nested.run([&] { inner = 4; });
        nested.wait();
        inner++;
        group.run([&] { by_task = 5; }); // [4 task first]
        if (is_racy)
            by_task = 6; // [4 task second]
    });
    group.wait();
    after_wait = from + inner + by_task;
    print(after_wait > 0);
}

// A group's wait waits for its own tasks alone.
static void groups_beside() {
    int older = 0, newer = 0;
    tbb::task_group first;
    first.run([&] { older = 1; }); // [4 older first]
    tbb::task_group second;
    second.run([&] { newer = 1; });
    second.wait();
    int sum = newer;
    if (is_racy)
        older = 2; // [4 older second]
    first.wait();
    print(sum + (older > 0));
}

static int fibonacci(int number) {
    if (number < 2)
        return number;
    int one, other;
    tbb::task_group group;
    group.run([&] { one = fibonacci(number - 1); });
    other = fibonacci(number - 2);
    group.run_and_wait([] {});
    return one + other;
}

static int thrown() {
    int caught = 0;
    try {
        tbb::parallel_for(0, 4, [](int i) { // [leaves]
            if (i == 2)
                throw i;
        });
    } catch (int number) {
        caught += number;
    }
    try {
        tbb::task_group group;
        group.run([] { throw 5; }); // [leaves too]
        group.wait();
    } catch (int number) {
        caught += number;
    }
    return caught;
}

// What no fork and join says. Each has a line.
static void mixed() {
    tbb::task_group first, second;
    first.run([] {});
    second.run([] {});
    first.run([] {}); // [mixed]
    second.wait();
    tbb::parallel_for(0, 2, [&](int) { // [outlives]
        first.run([] {});
    });
    first.wait();
}

int main(int, char **words) {
    is_racy = std::strcmp(words[1], "racy") == 0;
    loops();
    grains();
    ranges_of_more();
    ranges_with_memory();
    items();
    functions();
    sums();
    groups();
    groups_beside();
    print(fibonacci(7));
    if (std::strcmp(words[1], "thrown") == 0)
        print(thrown());
    if (std::strcmp(words[1], "mixed") == 0)
        mixed();
    for (int at = 0; at < print_at; at++)
        std::printf("%ld ", printed[at]);
    std::printf("\n");
}
