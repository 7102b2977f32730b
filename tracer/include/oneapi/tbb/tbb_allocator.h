#pragma once
#include "cache_aligned_allocator.h"
