#pragma once
#include "concurrent_unordered_map.h"
