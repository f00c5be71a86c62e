/* A register of three entries: holders come and go, and take the entries that others left. Each answer,
 * and the list after it, is checked. */
#include "cp_swap.h"

#include <inttypes.h>
#include <stdio.h>
#include <stdlib.h>
#include <string.h>

enum { COUNT = 3 };

static uint64_t pool[CP_SWAP_POOL_LENGTH];
static uint64_t ring[CP_SWAP_RING_LENGTH];
static uint64_t receipt[CP_SWAP_RECEIPT_LENGTH];
static struct cp_swap_holder holders[COUNT];

enum kind { DEPOSIT, WITHDRAWAL };

/* Of so many LP tokens, by this holder; what it answers, and the list then. */
static const struct call {
    enum kind kind;
    uint64_t lp;
    uint64_t holder;
    uint64_t number;
    struct cp_swap_holder after[COUNT];
} calls[] = {
    {DEPOSIT, 1000, 8, CP_SWAP_ACCEPTED, {{7, 1999900}, {8, 1000}, {0, 0}}},
    {DEPOSIT, 500, 9, CP_SWAP_ACCEPTED, {{7, 1999900}, {8, 1000}, {9, 500}}},
    {DEPOSIT, 500, 10, CP_SWAP_REGISTER_FULL, {{7, 1999900}, {8, 1000}, {9, 500}}},
    {WITHDRAWAL, 1000, 8, CP_SWAP_ACCEPTED, {{7, 1999900}, {8, 0}, {9, 500}}},
    {WITHDRAWAL, 1, 8, CP_SWAP_REQUIRE_VIOLATED, {{7, 1999900}, {8, 0}, {9, 500}}},
    {DEPOSIT, 500, 10, CP_SWAP_ACCEPTED, {{7, 1999900}, {10, 500}, {9, 500}}},
    {DEPOSIT, 5, 8, CP_SWAP_REGISTER_FULL, {{7, 1999900}, {10, 500}, {9, 500}}},
    {WITHDRAWAL, 500, 10, CP_SWAP_ACCEPTED, {{7, 1999900}, {10, 0}, {9, 500}}},
    {DEPOSIT, 5, 8, CP_SWAP_ACCEPTED, {{7, 1999900}, {8, 5}, {9, 500}}},
    {WITHDRAWAL, 5, 0, CP_SWAP_INVALID_INPUT, {{7, 1999900}, {8, 5}, {9, 500}}},
};

static void fail(const char *what)
{
    fprintf(stderr, "not as expected: %s\n", what);
    exit(EXIT_FAILURE);
}

static void show(uint64_t number, uint64_t expected, const struct cp_swap_holder after[COUNT])
{
    if (number == CP_SWAP_ACCEPTED) {
        printf(": accepted;");
    } else {
        printf(": refused with %" PRIu64 ";", number);
    }
    for (size_t at = 0; at < COUNT; at++) {
        printf(" (%" PRIu64 ", %" PRIu64 ")", holders[at].number, holders[at].balance);
    }
    printf("\n");
    if (number != expected) {
        fail("the answer");
    }
    if (memcmp(holders, after, sizeof holders) != 0) {
        fail("the list");
    }
}

static uint64_t answer_to(const struct call *call)
{
    if (call->kind == DEPOSIT) {
        printf("deposit of %" PRIu64 " by %" PRIu64, call->lp, call->holder);
        return cp_swap_deposit_by(pool, ring, receipt, holders, COUNT, call->holder, call->lp,
                                  UINT64_MAX, UINT64_MAX);
    }
    printf("withdrawal of %" PRIu64 " by %" PRIu64, call->lp, call->holder);
    return cp_swap_withdraw_by(pool, ring, receipt, holders, COUNT, call->holder, call->lp, 0, 0);
}

int main(void)
{
    const struct cp_swap_opening opening = {
        .amount_0 = 1000000,
        .amount_1 = 4000000,
        .trade_rate = 2500,
        .protocol_rate = 120000,
        .fund_rate = 40000,
        .spacing = CP_SWAP_DEFAULT_SPACING,
        .length = CP_SWAP_DEFAULT_LENGTH,
    };
    const struct cp_swap_holder opened[COUNT] = {{7, 1999900}};

    printf("opening by 7");
    show(cp_swap_open_by(pool, ring, receipt, holders, COUNT, 7, &opening), CP_SWAP_ACCEPTED, opened);
    for (size_t at = 0; at < sizeof calls / sizeof *calls; at++) {
        show(answer_to(&calls[at]), calls[at].number, calls[at].after);
    }

    uint64_t held = CP_SWAP_LOCK_LP_AMOUNT;
    for (uint64_t holder = 7; holder <= 10; holder++) {
        uint64_t balance;
        if (cp_swap_balance_of(holders, COUNT, holder, &balance) != CP_SWAP_ACCEPTED) {
            fail("a balance");
        }
        printf("%" PRIu64 " holds %" PRIu64 "\n", holder, balance);
        held += balance;
    }
    printf("with the locked %d that is %" PRIu64 ", the supply %" PRIu64 "\n", CP_SWAP_LOCK_LP_AMOUNT,
           held, pool[CP_SWAP_SUPPLY]);
    if (held != pool[CP_SWAP_SUPPLY]) {
        fail("the supply");
    }
    return EXIT_SUCCESS;
}
