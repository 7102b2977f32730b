#include <string>
extern "C" void add(int);
static std::string name("twice");
std::string &named() { return name; }
void twice(int n) { add(n); add((int)name.size()); }
