// Races in what objects of the C++ library have on the heap, whose names test_words.py knows.
#include <cilk/cilk.h>
#include <map>
#include <string>

static void count(std::map<int, int> &numbers, int key) { numbers[key]++; }

static void add(std::string &text) {
    text += "what is too long for the string itself";
    text[0] = 'W';
}

int main() {
    std::map<int, int> known;
    cilk_spawn count(known, 1);
    count(known, 1);
    cilk_sync;
    std::string text("a text that is rather long");
    cilk_spawn add(text);
    add(text);
}
