// The containers and locks of oneTBB. With the word clean there is no race; with racy a tag says how many bytes race, and
// on which lines. What races under a lock, or inside a container's operations, has a name with held: it is no data race.
#include <cstdio>
#include <cstring>
#include <tbb/tbb.h>
#include <vector>

static bool is_racy;
static long printed[60];
static int print_at;

static void print(long number) { printed[print_at++] = number; }

// ---- Locks ----

int under_lock, under_readers, beside_readers, read_only = 1, seen[10];
static tbb::spin_mutex lock;
static tbb::spin_rw_mutex rw_lock;

static void locks() {
    if (is_racy)
        tbb::parallel_for(0, 2, [](int i) {
            tbb::spin_mutex::scoped_lock held(lock);
            under_lock += i; // [4 heldlock first] [4 heldlock second]
        });
    tbb::parallel_for(0, 3, [](int i) {
        tbb::spin_rw_mutex::scoped_lock held(rw_lock, false);
        seen[i] = read_only;
        if (is_racy)
            under_readers += i; // [4 readers first] [4 readers second]
    });
    if (is_racy)
        tbb::parallel_invoke(
            [] {
                tbb::spin_rw_mutex::scoped_lock held(rw_lock);
                beside_readers = 1; // [4 heldrw first]
            },
            [] {
                tbb::spin_rw_mutex::scoped_lock held(rw_lock, false);
                seen[3] = beside_readers; // [4 heldrw second]
            });
    tbb::queuing_mutex other;
    {
        tbb::queuing_mutex::scoped_lock held;
        print(held.try_acquire(other));
    }
    tbb::rw_mutex mutex;
    tbb::rw_mutex::scoped_lock reader(mutex, false);
    print(mutex.try_lock_shared());
    mutex.unlock_shared();
    print(mutex.try_lock());
}

// ---- Vectors and queues ----

static void vectors() {
    tbb::concurrent_vector<int> numbers(4, 1);
    // Elements are no part of what grows.
    tbb::parallel_invoke([&] { numbers.push_back(2); }, // [8 heldgrowth first]
                         [&] { numbers[0]++; },         // [4 element first]
                         [&] {
                             if (is_racy) {
                                 numbers[0]++;                               // [4 element second]
                                 seen[4] = static_cast<int>(numbers.size()); // [8 heldgrowth second]
                             }
                         });
    print(numbers.size());
    long sum = 0;
    for (int number : numbers)
        sum += number;
    print(sum > 0);
    print(*numbers.grow_by(3));
    tbb::parallel_for(numbers.range(), [](const tbb::concurrent_vector<int>::range_type &range) {
        for (int &number : range)
            number = 5;
    });
    print(numbers.back());
}

static void queues() {
    tbb::concurrent_queue<std::vector<int>> lists;
    lists.push({1, 2});
    if (is_racy)
        tbb::parallel_invoke([&] { lists.push({3}); }, [&] { // [8 heldqueue first]
            std::vector<int> list;
            lists.try_pop(list); // [8 heldqueue second]
        });
    std::vector<int> list;
    print(lists.try_pop(list));
    tbb::concurrent_bounded_queue<int> numbers;
    numbers.set_capacity(1);
    print(numbers.try_push(7) * 2 + numbers.try_push(8));
    int number = 0;
    numbers.pop(number);
    print(number);
    tbb::concurrent_priority_queue<int> by_size;
    by_size.push(3);
    by_size.push(9);
    by_size.try_pop(number);
    print(number);
}

// ---- Keys ----

typedef std::vector<int> Word;

struct By_first {
    size_t hash(const Word &word) const { return static_cast<size_t>(word[0]); }
    bool equal(const Word &one, const Word &other) const { return one == other; }
};

typedef tbb::concurrent_hash_map<Word, int, By_first> Counts;

static void counts() {
    Counts counts;
    std::vector<Word> words{{'a'}, {'b'}, {'c'}};
    const Word more{'d'};
    // Each task has a key of its own.
    tbb::parallel_for(0, 3, [&](int i) {
        Counts::accessor found;
        counts.insert(found, words[i]);
        found->second += i;
    });
    if (is_racy)
        tbb::parallel_for(0, 2, [&](int i) {
            Counts::accessor found;
            counts.find(found, words[2]);
            found->second = i; // [4 heldelement first] [4 heldelement second]
        });
    if (is_racy)
        tbb::parallel_invoke([&] { counts.insert({more, 1}); }, // [8 heldkey first]
                             [&] { seen[5] = static_cast<int>(counts.count(more)); }); // [8 heldkey second]
    long sum = 0;
    for (auto &count : counts)
        sum += count.second;
    print(sum > 0);
    print(counts.erase(words[0]));
    Counts::const_accessor found;
    print(counts.find(found, words[0]) * 2 + counts.find(found, words[1]));
    print(found->second);
}

static void sets() {
    tbb::concurrent_unordered_map<int, long> squares;
    tbb::concurrent_unordered_set<int> beside;
    tbb::concurrent_map<int, int> ordered{{2, 1}, {1, 2}};
    tbb::parallel_for(0, 5, [&](int i) {
        squares[i] = i * i;
        ordered.insert({i + 10, i});
    });
    // Whoever looks at all keys has a race with whoever adds one.
    tbb::parallel_invoke([&] { seen[6] = is_racy ? static_cast<int>(beside.size()) : 0; }, // [8 heldsize first]
                         [&] { beside.insert(3); });                                      // [8 heldsize second]
    long sum = 0;
    for (auto &square : squares)
        sum += square.second;
    print(sum);
    print(ordered.begin()->second * 100 + ordered.lower_bound(5)->first);
    print(squares.size() * 10 + beside.contains(3));
}

// Keys that may be there several times.
static void multisets() {
    tbb::concurrent_multimap<int, int> pairs{{1, 4}};
    tbb::concurrent_multiset<int> numbers{2};
    tbb::concurrent_unordered_multimap<int, int> hashed;
    tbb::concurrent_unordered_multiset<int> all;
    tbb::parallel_for(0, 3, [&](int i) {
        pairs.insert({i, 10 * i});
        numbers.insert(i);
        hashed.emplace(i, i);
        all.insert(i);
    });
    print(pairs.count(1) * 100 + numbers.count(2) * 10 + hashed.size() + all.count(2));
    // The order of those with one key depends on the schedule.
    if (is_racy)
        tbb::parallel_for(0, 2, [&](int i) { pairs.insert({7, i}); }); // [8 heldpair first] [8 heldpair second]
    if (is_racy)
        tbb::parallel_invoke([&] { numbers.insert(8); }, // [8 heldnumber first]
                             [&] { seen[7] = static_cast<int>(numbers.count(8)); }); // [8 heldnumber second]
    if (is_racy)
        tbb::parallel_invoke([&] { hashed.insert({8, 1}); }, // [8 heldhashed first]
                             [&] { seen[8] = hashed.find(8) != hashed.end(); }); // [8 heldhashed second]
    if (is_racy)
        tbb::parallel_invoke([&] { all.insert(8); }, // [8 heldall first]
                             [&] { seen[9] = all.contains(8); }); // [8 heldall second]
}

// ---- What threads have of their own ----

static void own_values() {
    tbb::enumerable_thread_specific<long> sums(0);
    tbb::combinable<int> most([] { return 0; });
    tbb::parallel_for(0, 10, [&](int i) {
        sums.local() += i;
        most.local() = std::max(most.local(), i);
    });
    long sum = 0;
    for (long each : sums)
        sum += each;
    print(sum);
    print(sums.combine([](long one, long other) { return one + other; }));
    print(most.combine([](int one, int other) { return std::max(one, other); }));
}

// ---- The other algorithms ----

int in_scan, in_body, in_sort;

// A part is summed up by one body and scanned by another one.
struct Sums {
    const std::vector<int> &numbers;
    std::vector<int> &sums;
    int sum = 0;
    Sums(const std::vector<int> &of, std::vector<int> &to) : numbers(of), sums(to) {}
    Sums(Sums &other, tbb::split) : numbers(other.numbers), sums(other.sums) {}
    template <class Tag> void operator()(const tbb::blocked_range<size_t> &range, Tag) {
        for (size_t i = range.begin(); i != range.end(); ++i) {
            sum += numbers[i];
            if (Tag::is_final_scan())
                sums[i] = sum;
            else if (is_racy)
                in_body++; // [4 body first] [4 body second]
        }
    }
    void reverse_join(Sums &before) { sum = before.sum + sum; }
    void assign(Sums &other) { sum = other.sum; }
};

static void others() {
    std::vector<int> numbers{5, 3, 8, 1, 9, 2}, sums(numbers.size());
    tbb::task_arena arena(2);
    int total = arena.execute([&] {
        return tbb::parallel_scan(
            tbb::blocked_range<size_t>(0, numbers.size()), 0,
            [&](const tbb::blocked_range<size_t> &range, int sum, bool is_final) {
                for (size_t i = range.begin(); i != range.end(); ++i) {
                    sum += numbers[i];
                    if (is_final)
                        sums[i] = sum;
                }
                if (is_racy)
                    in_scan++; // [4 scan first] [4 scan second]
                return sum;
            },
            [](int one, int other) { return one + other; });
    });
    print(total);
    print(sums[3]);
    std::fill(sums.begin(), sums.end(), 0);
    Sums body(numbers, sums);
    tbb::parallel_scan(tbb::blocked_range<size_t>(0, numbers.size()), body); // [told]
    print(body.sum + sums[3]);
    tbb::parallel_sort(numbers.begin(), numbers.end(), [](int one, int other) {
        if (is_racy)
            in_sort++; // [4 sort first] [4 sort second]
        return one > other;
    });
    print(numbers[0] * 10 + numbers[5]);
    tbb::parallel_sort(numbers);
    print(numbers[0] * 10 + numbers[5]);
}

int main(int, char **words) {
    is_racy = std::strcmp(words[1], "racy") == 0;
    locks();
    vectors();
    queues();
    counts();
    sets();
    multisets();
    own_values();
    others();
    for (int at = 0; at < print_at; at++)
        std::printf("%ld ", printed[at]);
    std::printf("\n");
}
