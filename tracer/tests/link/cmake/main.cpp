#include <string>
void twice(int);
std::string &named();
static const std::string mine = named() + "!";
int main() {
#pragma omp parallel for
    for (int i = 0; i < 8; i++)
        twice(i);
    return (int)mine.size() - 6;
}
