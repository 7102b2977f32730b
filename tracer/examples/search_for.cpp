// Searches a grid layer by layer: the places of a layer look at once, and what they find goes into a list, a reducer. When
// all have looked, the distances are set. RACY: who finds a place sets its distance.
#include <cilk/cilk.h>
#include <cilk/reducer_list.h>
#include <cilk/reducer_opadd.h>
#include <cstdio>
#include <vector>

enum { SIDE = 4 };

static int distances[SIDE * SIDE];

static std::list<int> found_from(const std::vector<int> &layer, int distance, cilk::reducer_opadd<int> &looks) {
    cilk::reducer<cilk::op_list_append<int>> found;
    cilk_for (std::size_t at = 0; at < layer.size(); at++) {
        int place = layer[at], x = place % SIDE, y = place / SIDE;
        for (int next : {x + 1 < SIDE ? place + 1 : place, y + 1 < SIDE ? place + SIDE : place}) {
            looks += 1;
            if (distances[next] >= 0) /* [look] */
                continue;
#ifdef RACY
            distances[next] = distance; /* [set] */
#endif
            found->push_back(next);
        }
    }
    (void)distance;
    std::list<int> places;
    found.move_out(places);
    return places;
}

int main() {
    std::vector<int> layer(1, 0);
    cilk::reducer_opadd<int> looks;
    for (int place = 1; place < SIDE * SIDE; place++)
        distances[place] = -1;
    for (int distance = 1; !layer.empty(); distance++) {
        std::vector<int> next;
        for (int place : found_from(layer, distance, looks)) {
#ifndef RACY
            if (distances[place] >= 0)
                continue;
#endif
            distances[place] = distance;
            next.push_back(place);
        }
        layer = next;
    }
    std::printf("%d after %d looks\n", distances[SIDE * SIDE - 1], looks.get_value());
}
