/* The locks of oneTBB. What one task holds no other one takes in a serial run, but for a task that runs inside of it: that
   one would wait for ever. */
#ifndef SPBAGS_TBB_MUTEX_H
#define SPBAGS_TBB_MUTEX_H
#pragma GCC system_header

#include <pthread.h>
#include <unistd.h>

#include "detail_split.h"
#include <spbags/parallel.h>

#define SPBAGS_UNTRACED __attribute__((spbags_untraced))

namespace tbb {
namespace spbags_detail {

template <class Mutex> class Lock {
    Mutex *held = nullptr;

public:
    Lock() {}
    explicit Lock(Mutex &mutex) { acquire(mutex); }
    Lock(const Lock &) = delete;
    Lock &operator=(const Lock &) = delete;
    ~Lock() {
        if (held)
            release();
    }
    void acquire(Mutex &mutex) {
        mutex.lock();
        held = &mutex;
    }
    bool try_acquire(Mutex &mutex) {
        bool is_free = mutex.try_lock();
        held = is_free ? &mutex : nullptr;
        return is_free;
    }
    void release() {
        Mutex *was = held;
        held = nullptr;
        was->unlock();
    }
};

/* Each use has a type of its own, as in oneTBB. */
template <int> class Mutex {
    pthread_mutex_t lock_of_system = PTHREAD_MUTEX_INITIALIZER;

public:
    typedef Lock<Mutex> scoped_lock;
    static constexpr bool is_rw_mutex = false;
    static constexpr bool is_recursive_mutex = false;
    static constexpr bool is_fair_mutex = false;

    Mutex() {}
    Mutex(const Mutex &) = delete;
    Mutex &operator=(const Mutex &) = delete;
    void lock() { pthread_mutex_lock(&lock_of_system); }
    bool try_lock() { return pthread_mutex_trylock(&lock_of_system) == 0; }
    void unlock() { pthread_mutex_unlock(&lock_of_system); }
};

template <class Mutex> class Lock_for_two {
    Mutex *held = nullptr;
    bool writes = false;

public:
    Lock_for_two() {}
    explicit Lock_for_two(Mutex &mutex, bool write = true) { acquire(mutex, write); }
    Lock_for_two(const Lock_for_two &) = delete;
    Lock_for_two &operator=(const Lock_for_two &) = delete;
    ~Lock_for_two() {
        if (held)
            release();
    }
    void acquire(Mutex &mutex, bool write = true) {
        write ? mutex.lock() : mutex.lock_shared();
        held = &mutex;
        writes = write;
    }
    bool try_acquire(Mutex &mutex, bool write = true) {
        bool is_free = write ? mutex.try_lock() : mutex.try_lock_shared();
        held = is_free ? &mutex : nullptr;
        writes = write;
        return is_free;
    }
    void release() {
        Mutex *was = held;
        held = nullptr;
        writes ? was->unlock() : was->unlock_shared();
    }
    /* Another writer may have come between. */
    bool upgrade_to_writer() {
        if (!writes) {
            held->unlock_shared();
            held->lock();
            writes = true;
        }
        return true;
    }
    bool downgrade_to_reader() {
        if (writes) {
            held->unlock();
            held->lock_shared();
            writes = false;
        }
        return true;
    }
    bool is_writer() const { return writes; }
};

/* One writer, or some readers. Two readers exclude nothing, so what a reader holds is another guard: the one with the
   number behind the writer's. */
class alignas(8) Two_kinds {
    long readers = 0, writers = 0;

    SPBAGS_UNTRACED bool is_free(bool write) const { return writers == 0 && (!write || readers == 0); }
    SPBAGS_UNTRACED void count(bool write, long more) { (write ? writers : readers) += more; }
    const char *guard(bool write) const { return reinterpret_cast<const char *>(this) + !write; }

public:
    void take(bool write, const char *name) {
        if (!is_free(write)) {
            __spbags_endless_wait();
            for (;;)
                ::pause();
        }
        count(write, 1);
        __spbags_hold(guard(write), name);
    }
    bool try_take(bool write, const char *name) {
        bool free = is_free(write);
        if (free)
            take(write, name);
        return free;
    }
    void give(bool write) {
        __spbags_release(guard(write));
        count(write, -1);
    }
};

template <int> class Mutex_for_two {
    Two_kinds kinds;

public:
    typedef Lock_for_two<Mutex_for_two> scoped_lock;
    static constexpr bool is_rw_mutex = true;
    static constexpr bool is_recursive_mutex = false;
    static constexpr bool is_fair_mutex = false;

    Mutex_for_two() {}
    Mutex_for_two(const Mutex_for_two &) = delete;
    Mutex_for_two &operator=(const Mutex_for_two &) = delete;
    void lock() { kinds.take(true, "the lock "); }
    bool try_lock() { return kinds.try_take(true, "the lock "); }
    void unlock() { kinds.give(true); }
    void lock_shared() { kinds.take(false, "the lock "); }
    bool try_lock_shared() { return kinds.try_take(false, "the lock "); }
    void unlock_shared() { kinds.give(false); }
};

struct No_mutex {
    void lock() {}
    bool try_lock() { return true; }
    void unlock() {}
    void lock_shared() {}
    bool try_lock_shared() { return true; }
    void unlock_shared() {}
};

} // namespace spbags_detail

inline namespace v1 {

typedef spbags_detail::Mutex<0> mutex;
typedef spbags_detail::Mutex<1> spin_mutex;
typedef spbags_detail::Mutex<2> queuing_mutex;
typedef spbags_detail::Mutex<3> speculative_spin_mutex;
typedef spbags_detail::Mutex_for_two<0> rw_mutex;
typedef spbags_detail::Mutex_for_two<1> spin_rw_mutex;
typedef spbags_detail::Mutex_for_two<2> queuing_rw_mutex;
typedef spbags_detail::Mutex_for_two<3> speculative_spin_rw_mutex;

class null_mutex : public spbags_detail::No_mutex {
public:
    typedef spbags_detail::Lock<null_mutex> scoped_lock;
};
class null_rw_mutex : public spbags_detail::No_mutex {
public:
    typedef spbags_detail::Lock_for_two<null_rw_mutex> scoped_lock;
};

} // namespace v1
} // namespace tbb

#endif
