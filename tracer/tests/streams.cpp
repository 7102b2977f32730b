// Two tasks do what the first word says, at once or with the word `order` one after the other.
#include <fstream>
#include <functional>
#include <iomanip>
#include <iostream>
#include <map>
#include <sstream>
#include <string>

static std::ostringstream shared;
static std::ofstream file("/dev/null");
static std::string text = "a text that is no small one";

static const std::map<std::string, std::function<void(int)>> uses = {
    {"cout", [](int who) { std::cout << who; }},                                        /* [cout] */
    {"text", [](int) { std::cout << text; }},                                           /* [text] */
    {"endl", [](int) { std::cout << std::endl; }},                                      /* [endl] */
    {"double", [](int who) { std::cerr << std::setprecision(3) << who / 2.0; }},        /* [double] */
    {"mix", [](int who) { who == 0 ? void(std::cout << "a") : void(std::puts("b")); }}, /* [mix] */
    {"string", [](int who) { shared << who; }},                                         /* [string] */
    {"file", [](int who) { file << "text" << who; }},                                   /* [file] */
    {"critical",
     [](int who) {
#pragma omp critical
         std::cout << who << '\n'; /* [critical] */
     }},
    {"unsynced", [](int who) { std::cout << who; }},                                     /* [unsynced] */
    {"set", [](int who) { who == 0 ? void(text = "other") : void(std::cout << text); }}, /* [set] */
};

int main(int count, char **words) {
    auto found = count > 1 ? uses.find(words[1]) : uses.end();
    if (found == uses.end())
        return 0;
    if (words[1] == std::string("unsynced"))
        std::ios::sync_with_stdio(false);
#pragma omp parallel num_threads(2)
#pragma omp single
    {
#pragma omp task
        found->second(0);
        if (count > 2) {
#pragma omp taskwait
        }
#pragma omp task
        found->second(1);
    }
}
