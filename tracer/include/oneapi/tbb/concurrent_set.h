#pragma once
#include "concurrent_map.h"
