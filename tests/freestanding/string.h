/* string.h: all of it stands in freestanding.h. */
#include "freestanding.h"
