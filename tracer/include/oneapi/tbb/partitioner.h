#pragma once
#include "detail_split.h"
