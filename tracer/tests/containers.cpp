/* Containers of C++ whose code is partly in the library. It prints what it prints without hooks. With a word a child
   looks through a container that its parent changes. */
#include <cstdio>
#include <list>
#include <map>
#include <set>
#include <string>
#include <unordered_map>

static std::map<int, int> tree;
static std::list<int> list;
static int sums[2];

static unsigned next(unsigned &seed, unsigned below) {
    seed = seed * 1103515245 + 12345;
    return seed / 65536 % below;
}

/* Random changes, each looked at from both ends. */
static unsigned trees(unsigned seed) {
    std::set<int> set;
    unsigned sum = 0;
    for (int i = 0; i < 400; i++) {
        int key = (int)next(seed, 90);
        if (next(seed, 5) < 3)
            set.insert(key);
        else
            set.erase(key);
        int place = 1;
        for (int each : set)
            sum += (unsigned)(each * place++);
        for (auto each = set.rbegin(); each != set.rend(); ++each)
            sum = sum * 31 + (unsigned)*each;
    }
    return sum;
}

static unsigned lists(unsigned seed) {
    std::list<int> one, other;
    unsigned sum = 0;
    for (int i = 0; i < 60; i++) {
        one.push_front((int)next(seed, 90));
        other.insert(other.begin(), (int)next(seed, 90));
        if (i % 7 == 0)
            one.swap(other);
        if (i % 11 == 0)
            one.splice(one.begin(), other, other.begin(), other.end());
        if (i % 5 == 0)
            one.reverse();
        if (i % 13 == 0)
            one.sort();
        if (i % 3 == 0)
            one.pop_back();
        for (int each : one)
            sum = sum * 31 + (unsigned)each;
        for (auto each = other.rbegin(); each != other.rend(); ++each)
            sum = sum * 31 + (unsigned)*each;
    }
    return sum;
}

static unsigned tables(unsigned seed) {
    std::unordered_map<std::string, int> made;
    for (int i = 0; i < 60; i++)
        made[std::to_string(next(seed, 40))] += i;
    unsigned sum = 0;
    for (auto &each : made)
        sum += (unsigned)each.second * (unsigned)each.first.size();
    return sum;
}

static void change_side_by_side() {
#pragma omp parallel
#pragma omp single
    {
#pragma omp task
        for (auto &each : tree) /* [tree] */
            sums[0] += each.second;
        tree.insert({5, 1}); /* [into tree] */
#pragma omp taskwait
#pragma omp task
        for (int each : list) /* [list] */
            sums[1] += each;
        list.push_back(4); /* [into list] */
#pragma omp taskwait
    }
}

int main(int count, char **) {
    unsigned found[6];
#pragma omp parallel for
    for (unsigned i = 0; i < 6; i++)
        found[i] = i < 2 ? trees(i) : i < 4 ? lists(i) : tables(i);
    for (unsigned each : found)
        printf("%u\n", each);
    for (int i = 0; i < 20; i += 2) {
        tree[i] = i;
        list.push_back(i);
    }
    if (count > 1)
        change_side_by_side();
}
