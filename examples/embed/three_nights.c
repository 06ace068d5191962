/* Solves the problem of examples/three-nights from numbers, and prints the value and the price of each night. */
#include "bidprice.h"
#include <inttypes.h>
#include <stdio.h>

int main(void)
{
    const uint64_t rooms[] = {2, 1, 2};
    const uint32_t from[] = {0, 1, 0, 2}, to[] = {2, 3, 1, 3};
    const uint64_t rate[] = {100, 150, 60, 40}, forecast[] = {3, 1, 1, 5};
    uint64_t value, sell[4], prices[3];
    struct bidprice_refusal refused;
    uint32_t status = bidprice_solve_numbers(rooms, 3, from, 4, to, 4, rate, 4, forecast, 4,
                                             &value, sell, 4, prices, 3, &refused);
    if (status == BIDPRICE_REFUSED)
        fprintf(stderr, "limit %" PRIu32 " refuses %" PRIu32 "\n", refused.limit, refused.place);
    if (status != BIDPRICE_DONE)
        return (int)status;
    printf("value %" PRIu64 "\nprices", value);
    for (int night = 0; night < 3; night++)
        printf(" %" PRIu64, prices[night]);
    puts("");
    return 0;
}
