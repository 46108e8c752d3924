/* Holds the version of finder/pool.h to that of the library that is linked. */
#include "../pool.h"
#include <inttypes.h>
#include <stdio.h>

int main(void) {
    const uint64_t library = pool_version();
    if (library != POOL_VERSION) {
        fprintf(stderr, "version: the library has %" PRIu64 " where pool.h has %" PRIu64 "\n", library, (uint64_t)POOL_VERSION);
        return 1;
    }
    printf("version: %" PRIu64 "\n", library);
    return 0;
}
