#include "deep/c.h"
