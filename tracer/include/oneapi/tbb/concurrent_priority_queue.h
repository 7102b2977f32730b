#pragma once
#include "concurrent_queue.h"
