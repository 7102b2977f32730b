/* One program for all: a child is a spawned function, with -DTHREADS a thread, and with -DSERIAL an ordinary call. */
#include <pthread.h>
#include <stdio.h>
#include <stdlib.h>

#ifdef THREADS
#define CHILD(thread) pthread_t thread
#define SPAWN(thread, function, with) pthread_create(&thread, NULL, function, with)
#define SYNC(thread) pthread_join(thread, NULL)
#else
#ifndef SERIAL
#include <cilk/cilk.h>
#else
#define cilk_spawn
#define cilk_sync
#endif
#define CHILD(thread)
#define SPAWN(thread, function, with) cilk_spawn function(with)
#define SYNC(thread) cilk_sync
#endif
