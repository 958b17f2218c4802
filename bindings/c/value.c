/* Prints 8: the value of the table 1, 2, 3, 4 at the point (2, 3). */
#include "mlu.h"
#include <inttypes.h>
#include <stdio.h>

int main(void) {
    const uint32_t table[] = {1, 2, 3, 4};
    const uint32_t point[] = {2, 0, 0, 0, 3, 0, 0, 0};
    uint32_t value[4];
    uint32_t status = mlu_eval_base(table, 4, point, 8, value, 4);
    if (status != MLU_DONE) {
        fprintf(stderr, "status %" PRIu32 "\n", status);
        return 1;
    }
    printf("%" PRIu32 "\n", value[0]);
    return 0;
}
