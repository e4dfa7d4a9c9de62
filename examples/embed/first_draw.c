#include "lot.h"
#include <stdio.h>
int main(void) {
    lot_sizes sizes = lot_sizes_small();
    lot_event events[3] = {lot_make_funded(10, lot_name_of("base"), lot_name_of("first"), 1),
                           lot_make_funded(5, lot_name_of("base"), lot_name_of("second"), 1),
                           lot_draw(1, lot_wide_of(9))};
    lot_reply replies[3];
    size_t done = 0;
    lot_kernel kernel = LOT_KERNEL_NONE;
    if (lot_kernel_new(&sizes, &kernel) != LOT_DONE ||
        lot_kernel_run(&kernel, events, 3, replies, 3, &done) != LOT_DONE) {
        return 1;
    }
    printf("thread %u\n", replies[2].thread);
    lot_kernel_free(&kernel);
    return 0;
}
