/* A pool's first day: opened, swapped both ways, a deposit, calls that are refused, and all withdrawn
 * but what is locked. Then a pool whose tokens are charged, and whose ring has an entry each hour. */
#include "cp_swap.h"

#include <inttypes.h>
#include <stdio.h>
#include <stdlib.h>

static uint64_t pool[CP_SWAP_POOL_LENGTH];
static uint64_t ring[CP_SWAP_RING_LENGTH];
static uint64_t receipt[CP_SWAP_RECEIPT_LENGTH];

static void show(const char *call, uint64_t number)
{
    uint64_t nets[2];
    if (cp_swap_nets(pool, nets) != CP_SWAP_ACCEPTED) {
        exit(EXIT_FAILURE);
    }
    if (number == CP_SWAP_ACCEPTED) {
        printf("%s: in %" PRIu64 " and %" PRIu64 ", out %" PRIu64 " and %" PRIu64
               ", charges %" PRIu64 " and %" PRIu64,
               call, receipt[CP_SWAP_IN_0], receipt[CP_SWAP_IN_1], receipt[CP_SWAP_OUT_0],
               receipt[CP_SWAP_OUT_1], receipt[CP_SWAP_CHARGE_0], receipt[CP_SWAP_CHARGE_1]);
    } else {
        printf("%s: refused with %" PRIu64, call, number);
    }
    printf("; nets %" PRIu64 " and %" PRIu64 ", LP %" PRIu64 "\n", nets[0], nets[1],
           pool[CP_SWAP_SUPPLY]);
}

int main(void)
{
    struct cp_swap_opening opening = {
        .amount_0 = 1000000,
        .amount_1 = 4000000,
        .trade_rate = 2500,
        .protocol_rate = 120000,
        .fund_rate = 40000,
        .spacing = CP_SWAP_DEFAULT_SPACING,
        .length = CP_SWAP_DEFAULT_LENGTH,
    };

    show("opening", cp_swap_open(pool, ring, receipt, &opening));
    show("swap by input", cp_swap_base_input(pool, ring, receipt, CP_SWAP_0_FOR_1, 10000, 1, 100));
    show("swap by output",
         cp_swap_base_output(pool, ring, receipt, CP_SWAP_1_FOR_0, 9000, UINT64_MAX, 115));
    show("deposit", cp_swap_deposit(pool, ring, receipt, 1000, UINT64_MAX, UINT64_MAX));
    show("closing the swaps", cp_swap_set_status(pool, ring, receipt, CP_SWAP_SWAPS, CP_SWAP_CLOSED));
    show("swap by input", cp_swap_base_input(pool, ring, receipt, CP_SWAP_0_FOR_1, 10000, 1, 130));
    show("withdrawal of all", cp_swap_withdraw(pool, ring, receipt, 2001000, 2001000, 0, 0));
    show("withdrawal of all but the locked",
         cp_swap_withdraw(pool, ring, receipt, 2001000 - CP_SWAP_LOCK_LP_AMOUNT, 2001000, 0, 0));

    opening.points_0 = 100;
    opening.maximum_0 = 50;
    opening.points_1 = 25;
    opening.maximum_1 = UINT64_MAX;
    opening.spacing = 3600;
    opening.length = 24;
    show("opening with charges", cp_swap_open(pool, ring, receipt, &opening));
    show("10000 sent for at least 39210",
         cp_swap_base_input(pool, ring, receipt, CP_SWAP_0_FOR_1, 10000, 39210, 100));
    show("1 sent", cp_swap_base_input(pool, ring, receipt, CP_SWAP_0_FOR_1, 1, 0, 115));
    return EXIT_SUCCESS;
}
