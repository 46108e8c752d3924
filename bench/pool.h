/* The pool value of finder/pool.h, under the names of crates/tables. */
#include "../finder/pool.h"
#include <stdbool.h>

typedef pool_free_region FreeRegion;
typedef pool_live_buffer LiveBuffer;
typedef pool_hole Hole;
typedef pool_zombie Zombie;
typedef pool_page Page;
typedef pool_value Pool;
