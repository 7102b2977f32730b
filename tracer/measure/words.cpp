/* Counts words, without a race: each child fills a hash table of its own, and what all have comes into a map. */
#include "measured.h"

#include <map>
#include <string>
#include <unordered_map>
#include <vector>

#ifndef WORDS
#define WORDS 200000
#endif
enum { CHILDREN = 16, DIFFERENT = 5000 };
using Counts = std::unordered_map<std::string, int>;

static void count(Counts *counts, int first) {
    for (int i = first; i < WORDS; i += CHILDREN)
        ++(*counts)["word" + std::to_string(i * 7919L % DIFFERENT)];
}

int main() {
    std::vector<Counts> parts(CHILDREN);
    for (int child = 0; child < CHILDREN; child++)
        cilk_spawn count(&parts[child], child);
    cilk_sync;
    std::map<std::string, int> all;
    for (const Counts &part : parts)
        for (const auto &[word, many] : part)
            all[word] += many;
    printf("%zu words\n", all.size());
}
