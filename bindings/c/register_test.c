/* The calls with a register from C: what is one, whose entry they write, what they refuse, and that
 * pool, ring and receipt are those of the calls without. */
#undef NDEBUG
#include "cp_swap.h"

#include <assert.h>
#include <stdio.h>
#include <string.h>

/* What is lent to a call, with room for one entry too many. */
struct lent {
    uint64_t pool[CP_SWAP_POOL_LENGTH];
    uint64_t ring[CP_SWAP_RING_LENGTH];
    uint64_t receipt[CP_SWAP_RECEIPT_LENGTH];
    struct cp_swap_holder holders[CP_SWAP_MOST_HOLDERS + 1];
};

static const struct cp_swap_opening worked = {
    .amount_0 = 1000000,
    .amount_1 = 4000000,
    .trade_rate = 2500,
    .protocol_rate = 120000,
    .fund_rate = 40000,
    .spacing = CP_SWAP_DEFAULT_SPACING,
    .length = CP_SWAP_DEFAULT_LENGTH,
};

/* A call by a holder, with a register of so many entries. */
typedef uint64_t call_by(struct lent *lent, size_t count, uint64_t holder);

static uint64_t opening(struct lent *lent, size_t count, uint64_t holder)
{
    return cp_swap_open_by(lent->pool, lent->ring, lent->receipt, lent->holders, count, holder, &worked);
}

static uint64_t opening_without_tokens(struct lent *lent, size_t count, uint64_t holder)
{
    const struct cp_swap_opening none = {0};
    return cp_swap_open_by(lent->pool, lent->ring, lent->receipt, lent->holders, count, holder, &none);
}

static uint64_t deposit(struct lent *lent, size_t count, uint64_t holder)
{
    return cp_swap_deposit_by(lent->pool, lent->ring, lent->receipt, lent->holders, count, holder, 1000,
                              UINT64_MAX, UINT64_MAX);
}

static uint64_t deposit_for_nothing(struct lent *lent, size_t count, uint64_t holder)
{
    return cp_swap_deposit_by(lent->pool, lent->ring, lent->receipt, lent->holders, count, holder, 1000,
                              0, 0);
}

static uint64_t withdrawal(struct lent *lent, size_t count, uint64_t holder)
{
    return cp_swap_withdraw_by(lent->pool, lent->ring, lent->receipt, lent->holders, count, holder, 1000,
                               0, 0);
}

/* The worked pool, and a register that begins with these three entries. */
static struct lent with(struct cp_swap_holder first, struct cp_swap_holder second,
                        struct cp_swap_holder third)
{
    struct lent lent = {.receipt = {0}};
    assert(cp_swap_open(lent.pool, lent.ring, lent.receipt, &worked) == CP_SWAP_ACCEPTED);
    lent.holders[0] = first;
    lent.holders[1] = second;
    lent.holders[2] = third;
    return lent;
}

static struct cp_swap_holder entry(uint64_t number, uint64_t balance)
{
    const struct cp_swap_holder holder = {number, balance};
    return holder;
}

static int is(struct cp_swap_holder holder, uint64_t number, uint64_t balance)
{
    return holder.number == number && holder.balance == balance;
}

/* Refused with this number, of which the receipt is; all else is as it was. */
static void refuses(uint64_t number, struct lent lent, call_by *call, size_t count, uint64_t holder)
{
    struct lent after = lent;
    memset(after.receipt, 0, sizeof after.receipt);
    after.receipt[CP_SWAP_NUMBER] = number;
    assert(call(&lent, count, holder) == number);
    assert(memcmp(&lent, &after, sizeof lent) == 0);
}

/* Calls that have another refusal of their own answer 3, and a balance isn't written. */
static void is_refused_first(struct lent lent, size_t count, uint64_t holder)
{
    uint64_t balance = 7;
    lent.pool[CP_SWAP_STATUS] = 7;
    refuses(CP_SWAP_INVALID_INPUT, lent, opening_without_tokens, count, holder);
    refuses(CP_SWAP_INVALID_INPUT, lent, deposit, count, holder);
    refuses(CP_SWAP_INVALID_INPUT, lent, withdrawal, count, holder);
    assert(cp_swap_balance_of(lent.holders, count, holder, &balance) == CP_SWAP_INVALID_INPUT);
    assert(balance == 7);
}

static void no_register_is_refused_first(void)
{
    const struct lent fresh = with(entry(0, 0), entry(0, 0), entry(0, 0));
    is_refused_first(fresh, 0, 8);
    is_refused_first(fresh, CP_SWAP_MOST_HOLDERS + 1, 8);
    is_refused_first(fresh, 3, 0);
    is_refused_first(with(entry(7, 10), entry(0, 1), entry(0, 0)), 3, 8);
    is_refused_first(with(entry(9, 1), entry(7, 0), entry(9, 2)), 3, 8);

    struct lent closed = with(entry(9, 0), entry(9, 1), entry(0, 0));
    closed.pool[CP_SWAP_STATUS] = 7;
    refuses(CP_SWAP_EMPTY_SUPPLY, closed, opening_without_tokens, CP_SWAP_MOST_HOLDERS, 8);
    refuses(CP_SWAP_NOT_APPROVED, closed, deposit, CP_SWAP_MOST_HOLDERS, 8);
    refuses(CP_SWAP_NOT_APPROVED, closed, withdrawal, CP_SWAP_MOST_HOLDERS, 8);
}

static void an_odd_count_of_numbers_is_no_register(void)
{
    struct lent lent = with(entry(0, 0), entry(0, 0), entry(0, 0));
    const struct lent before = lent;
    uint64_t *numbers = &lent.holders->number;
    uint64_t balance = 7;
    assert(cp_swap_open_registered(lent.pool, lent.ring, lent.receipt, &worked, numbers, 5, 8) == 3);
    assert(cp_swap_deposit_registered(lent.pool, lent.ring, lent.receipt, numbers, 5, 8, 1000,
                                      UINT64_MAX, UINT64_MAX) == 3);
    assert(cp_swap_withdraw_registered(lent.pool, lent.ring, lent.receipt, numbers, 5, 8, 1000,
                                       0, 0) == 3);
    assert(cp_swap_balance(numbers, 5, 8, &balance) == 3 && balance == 7);
    memcpy(lent.receipt, before.receipt, sizeof lent.receipt);
    assert(memcmp(&lent, &before, sizeof lent) == 0);
}

static void an_opening_clears_the_old_entries(void)
{
    struct lent lent = with(entry(1, 5), entry(2, UINT64_MAX), entry(9, 0));
    refuses(CP_SWAP_EMPTY_SUPPLY, lent, opening_without_tokens, 3, 2);
    assert(opening(&lent, 3, 2) == CP_SWAP_ACCEPTED);
    assert(is(lent.holders[0], 2, 2000000 - CP_SWAP_LOCK_LP_AMOUNT));
    assert(is(lent.holders[1], 0, 0) && is(lent.holders[2], 0, 0));
}

static void a_new_holder_takes_the_first_free_entry(void)
{
    struct lent lent = with(entry(7, 10), entry(9, 0), entry(8, 0));
    assert(deposit(&lent, 3, 8) == CP_SWAP_ACCEPTED);
    assert(is(lent.holders[0], 7, 10) && is(lent.holders[1], 8, 1000) && is(lent.holders[2], 8, 0));
}

static void a_full_register_takes_no_new_holder(void)
{
    struct lent full = with(entry(7, 10), entry(8, 20), entry(9, 30));
    struct lent great = full;
    great.pool[CP_SWAP_VAULT_0] = UINT64_MAX;
    refuses(CP_SWAP_REGISTER_FULL, full, deposit, 3, 10);
    refuses(CP_SWAP_EXCEEDED_SLIPPAGE, full, deposit_for_nothing, 3, 10);
    refuses(CP_SWAP_MATH_OVERFLOW, great, deposit, 3, 10);
    assert(deposit(&full, 3, 9) == CP_SWAP_ACCEPTED);
    assert(is(full.holders[2], 9, 1030) && is(full.holders[3], 0, 0));
}

static void a_balance_keeps_its_width(void)
{
    struct lent lent = with(entry(7, 10), entry(8, UINT64_MAX - 999), entry(0, 0));
    refuses(CP_SWAP_MATH_OVERFLOW, lent, deposit, 3, 8);
    lent.holders[1].balance = UINT64_MAX - 1000;
    assert(deposit(&lent, 3, 8) == CP_SWAP_ACCEPTED);
    assert(is(lent.holders[1], 8, UINT64_MAX) && is(lent.holders[2], 0, 0));
}

static void a_withdrawal_takes_what_the_holder_owns(void)
{
    struct lent lent = with(entry(8, 0), entry(7, 999), entry(8, 1000));
    refuses(CP_SWAP_REQUIRE_VIOLATED, lent, withdrawal, 3, 7);
    refuses(CP_SWAP_REQUIRE_VIOLATED, lent, withdrawal, 3, 9);
    assert(withdrawal(&lent, 3, 8) == CP_SWAP_ACCEPTED);
    assert(is(lent.holders[0], 8, 0) && is(lent.holders[1], 7, 999) && is(lent.holders[2], 8, 0));
}

static void a_holder_without_an_entry_has_nothing(void)
{
    const struct lent lent = with(entry(8, 0), entry(7, 10), entry(0, 0));
    const uint64_t balances[] = {10, 0, 0};
    for (uint64_t at = 0; at < 3; at++) {
        uint64_t balance = 7;
        assert(cp_swap_balance_of(lent.holders, 3, 7 + at, &balance) == CP_SWAP_ACCEPTED);
        assert(balance == balances[at]);
    }
}

static int is_same_but_for_holders(const struct lent *one, const struct lent *other)
{
    return memcmp(one, other, offsetof(struct lent, holders)) == 0;
}

static void pool_ring_and_receipt_are_those_without_a_register(void)
{
    struct lent lent = {.receipt = {0}};
    struct lent bare = lent;
    opening(&lent, 2, 7);
    cp_swap_open(bare.pool, bare.ring, bare.receipt, &worked);
    assert(is_same_but_for_holders(&lent, &bare));
    deposit(&lent, 2, 8);
    cp_swap_deposit(bare.pool, bare.ring, bare.receipt, 1000, UINT64_MAX, UINT64_MAX);
    assert(is_same_but_for_holders(&lent, &bare));
    withdrawal(&lent, 2, 8);
    cp_swap_withdraw(bare.pool, bare.ring, bare.receipt, 1000, 1000, 0, 0);
    assert(is_same_but_for_holders(&lent, &bare));
    assert(is(lent.holders[0], 7, 1999900) && is(lent.holders[1], 8, 0));
}

int main(void)
{
    no_register_is_refused_first();
    an_odd_count_of_numbers_is_no_register();
    an_opening_clears_the_old_entries();
    a_new_holder_takes_the_first_free_entry();
    a_full_register_takes_no_new_holder();
    a_balance_keeps_its_width();
    a_withdrawal_takes_what_the_holder_owns();
    a_holder_without_an_entry_has_nothing();
    pool_ring_and_receipt_are_those_without_a_register();
    puts("the calls with a register: as expected");
    return 0;
}
