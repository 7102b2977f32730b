/* Of a concurrent container a trace has its state: how many elements there are, or whether a key is there. Where two
   operations may come in either order that is a race of two that hold the container, and so no data race. How the
   container is made isn't in the trace. */
#ifndef SPBAGS_TBB_CONTAINERS_H
#define SPBAGS_TBB_CONTAINERS_H
#pragma GCC system_header

#include <cstddef>
#include <deque>
#include <functional>
#include <initializer_list>
#include <memory>
#include <type_traits>
#include <utility>

#include "detail_split.h"
#include "mutex.h"
#include <spbags/parallel.h>

namespace tbb {
namespace spbags_detail {

/* While this lives the container is held. */
class Held {
    const void *container;

public:
    Held(const void *which, const char *name) : container(which) { __spbags_hold(container, name); }
    Held(const Held &) = delete;
    ~Held() { __spbags_release(container); }
};

/* While this lives nothing is recorded. */
struct Paused {
    Paused() { __spbags_pause(1); }
    Paused(const Paused &) = delete;
    ~Paused() { __spbags_pause(-1); }
};

/* What is handed to an operation is read: by a copy that comes to nothing, or as far as the object itself reaches. */
template <class Type>
typename std::enable_if<std::is_copy_constructible<Type>::value && !std::is_trivially_copyable<Type>::value>::type
read_argument(const Type &argument) {
    Type copy(argument);
}
template <class Type>
typename std::enable_if<!std::is_copy_constructible<Type>::value || std::is_trivially_copyable<Type>::value>::type
read_argument(const Type &argument) {
    __spbags_touch(&argument, sizeof argument, 0);
}

inline void read_arguments() {}
template <class Type, class... Types> void read_arguments(const Type &argument, const Types &...rest) {
    read_argument(argument);
    read_arguments(rest...);
}

/* One thing that operations read or change. */
class alignas(8) State {
    unsigned char memory[8];

public:
    void read() const { __spbags_touch(memory, sizeof memory, 0); }
    void write() { __spbags_touch(memory, sizeof memory, 1); }
};

/* For each key whether it is there, in the order in which they came up. Whoever looks at all reads those that come up
   next too; two that change different keys have nothing in common. */
class Presence {
    enum { MANY = 64 };
    struct alignas(8) Cells {
        unsigned char bytes[8 * MANY];
    };
    std::deque<std::unique_ptr<Cells>> blocks;
    std::size_t used = 0;

public:
    Presence() { blocks.emplace_back(new Cells); }
    std::size_t add() {
        if ((used + 1) / MANY + 1 >= blocks.size())
            blocks.emplace_back(new Cells);
        return used++;
    }
    unsigned char *cell(std::size_t at) const { return blocks[at / MANY]->bytes + 8 * (at % MANY); }
    void touch_all(int writes) const {
        for (std::size_t at = 0; at < number_of_blocks(); at++)
            __spbags_touch(block(at), sizeof(Cells), writes);
    }

private:
    std::size_t number_of_blocks() const {
        Paused paused;
        return blocks.size();
    }
    const void *block(std::size_t at) const {
        Paused paused;
        return blocks[at].get();
    }
};

} // namespace spbags_detail
} // namespace tbb

#endif
