/*
 * A constant-product token pool over plain memory: libcp_swap.a, x86-64 Linux.
 *
 * The caller owns three arrays: the pool's record, the ring of its prices and a receipt; and a fourth
 * where a register is to keep its holders' LP tokens. A call answers 0 when it is accepted; then the
 * arrays hold what the call gives. Any other answer is the number of a refusal; then pool, ring and
 * register are as they were, and the receipt holds that number and zeros. No number that a call is
 * given makes it trap, loop or touch other memory. A day sheet does the calls that its rows ask for,
 * and answers in rows: see the end of this file.
 *
 * The arrays must be of the lengths below, may not overlap, and are only used during the call. The
 * library keeps nothing, allocates nothing and locks nothing: calls on different arrays may run at
 * the same time.
 */
#ifndef CP_SWAP_H
#define CP_SWAP_H

#include <stddef.h>
#include <stdint.h>

#ifdef __cplusplus
extern "C" {
#endif

/* ---- the pool: 27 numbers; zeros until it is opened */
enum {
    CP_SWAP_VAULT_0, /* the whole balance of token 0, counters included */
    CP_SWAP_VAULT_1,
    CP_SWAP_PROTOCOL_0, /* six counters: fees in the vaults that aren't the holders' */
    CP_SWAP_PROTOCOL_1,
    CP_SWAP_FUND_0,
    CP_SWAP_FUND_1,
    CP_SWAP_CREATOR_0,
    CP_SWAP_CREATOR_1,
    CP_SWAP_SUPPLY,    /* LP tokens */
    CP_SWAP_STATUS,    /* a set bit closes: 0 deposits, 1 withdrawals, 2 swaps */
    CP_SWAP_OPEN_TIME, /* no swap before this clock */
    CP_SWAP_FEE_MODEL, /* creator fee on: 0 the input, 1 token 0, 2 token 1 */
    CP_SWAP_ENABLED,   /* 1 where creator fees are charged, else 0 */
    CP_SWAP_TRADE_RATE, /* rates are in millionths */
    CP_SWAP_PROTOCOL_RATE,
    CP_SWAP_FUND_RATE,
    CP_SWAP_CREATOR_RATE,
    CP_SWAP_SHARE_RATE,
    CP_SWAP_RING_USED, /* 0 or 1 */
    CP_SWAP_RING_INDEX, /* the newest entry, below the grid's length */
    CP_SWAP_RING_MARK, /* the clock up to which the sums count */
    CP_SWAP_POINTS_0, /* the charge on a transfer: points per 10,000, rounded up, */
    CP_SWAP_MAXIMUM_0, /* at most this and at most the amount */
    CP_SWAP_POINTS_1,
    CP_SWAP_MAXIMUM_1,
    CP_SWAP_GRID_SPACING, /* the ring's newest entry is overwritten until it is so many seconds old */
    CP_SWAP_GRID_LENGTH, /* the ring's entries that the pool uses; the first follows the last */
    CP_SWAP_POOL_LENGTH
};

/* ---- the ring: 100 entries of 5 numbers; sums modulo 2^128 of price times seconds. Swaps read and
 * write the first pool[CP_SWAP_GRID_LENGTH] entries, and no others; an accepted opening sets all 100 to 0. */
enum {
    CP_SWAP_ENTRY_CLOCK,
    CP_SWAP_ENTRY_SUM_0_HIGH,
    CP_SWAP_ENTRY_SUM_0_LOW,
    CP_SWAP_ENTRY_SUM_1_HIGH,
    CP_SWAP_ENTRY_SUM_1_LOW,
    CP_SWAP_ENTRY_LENGTH
};
enum { CP_SWAP_RING_ENTRIES = 100, CP_SWAP_RING_LENGTH = 500 }; /* the array's, whatever a pool uses */

/* ---- the usual grid, which is the original's: seconds, and entries that the pool uses */
enum { CP_SWAP_DEFAULT_SPACING = 15, CP_SWAP_DEFAULT_LENGTH = 100 };

/* ---- a receipt: 18 numbers, 0 where one has no meaning */
enum {
    CP_SWAP_NUMBER, /* 0, or the number of a refusal and then zeros */
    CP_SWAP_KIND,   /* 1 opening, 2 and 3 swaps, 4 deposit, 5 withdrawal, 6 settlement, 7 status */
    CP_SWAP_DIRECTION, /* of a swap: 0 where token 0 goes in, 1 where token 1 does */
    CP_SWAP_CLOCK,
    CP_SWAP_IN_0, /* reached the vault; sent was this and the charge */
    CP_SWAP_IN_1,
    CP_SWAP_OUT_0, /* left the vault; received is this less the charge */
    CP_SWAP_OUT_1,
    CP_SWAP_LP, /* issued by an opening or a deposit, burnt by a withdrawal */
    CP_SWAP_TRADE_FEE, /* in the token that goes in */
    CP_SWAP_PROTOCOL_FEE, /* protocol and fund fee are parts of the trade fee */
    CP_SWAP_FUND_FEE,
    CP_SWAP_CREATOR_FEE,
    CP_SWAP_CREATOR_FEE_TOKEN, /* the token of the creator fee, by fee model and direction */
    CP_SWAP_SHARED_0, /* of a settlement: what went to the protocol's counters */
    CP_SWAP_SHARED_1,
    CP_SWAP_CHARGE_0, /* the charge on the transfer of either token */
    CP_SWAP_CHARGE_1,
    CP_SWAP_RECEIPT_LENGTH
};

/* ---- a register: 1 to 256 entries, zeros for a new one. Among those with a balance no number is 0 or
 * stands twice. One of balance 0 is free for anyone, whichever number stands in it. */
struct cp_swap_holder {
    uint64_t number;  /* from 1 */
    uint64_t balance; /* LP tokens */
};
enum { CP_SWAP_MOST_HOLDERS = 256 };

/* ---- a day sheet: 6 numbers and the bytes of a row that is begun; zeros before the first row */
enum {
    CP_SWAP_SHEET_TRADE_RATE, /* the rates for the next opening */
    CP_SWAP_SHEET_PROTOCOL_RATE,
    CP_SWAP_SHEET_FUND_RATE,
    CP_SWAP_SHEET_CREATOR_RATE,
    CP_SWAP_SHEET_SHARE_RATE,
    CP_SWAP_SHEET_HELD, /* how many bytes are held of a row that is begun */
    CP_SWAP_SHEET_LENGTH
};
enum { CP_SWAP_ROW_LENGTH = 103 }; /* a row and its newline */

/* ---- how far a piece of a day sheet has come */
enum {
    CP_SWAP_TAKEN,   /* bytes of the input */
    CP_SWAP_WRITTEN, /* bytes of the output: whole rows from its beginning */
    CP_SWAP_PROGRESS_LENGTH
};

/* ---- refusals */
enum {
    CP_SWAP_ACCEPTED = 0,
    CP_SWAP_NOT_APPROVED = 1, /* closed, or a swap before the open time, whatever the amount */
    CP_SWAP_EXCEEDED_SLIPPAGE = 2,
    CP_SWAP_INVALID_INPUT = 3, /* a rate, flag, bit, share, points, spacing or length out of range;
                                * also: a record whose enabled or ring-used is neither 0 nor 1; a list
                                * that is no register, or a holder 0 */
    CP_SWAP_ZERO_TRADING_TOKENS = 4, /* deposits and withdrawals; no swap answers it */
    CP_SWAP_INVALID_VAULT = 5,
    CP_SWAP_EMPTY_SUPPLY = 6,
    CP_SWAP_INSUFFICIENT_VAULT = 7,
    CP_SWAP_MATH_OVERFLOW = 8, /* a sum, a vault or a holder's balance past 2^64 - 1 */
    CP_SWAP_INVALID_FEE_MODEL = 9,
    CP_SWAP_REQUIRE_VIOLATED = 10, /* an amount is 0, of a swap what arrives or is received, or LP
                                    * above the owner's */
    CP_SWAP_PANIC = 11, /* the original program would have panicked; also, at a swap: a record whose
                         * length is above 100, or whose ring index is at or past the length */
    CP_SWAP_UNREADABLE_ROW = 12,
    CP_SWAP_INIT_LP_AMOUNT_TOO_LESS = 13,
    CP_SWAP_TRANSFER_FEE_CALCULATE_NOT_MATCH = 14, /* no u64 can be sent that leaves the wanted amount */
    CP_SWAP_LEFT_LP_AMOUNT_TOO_LESS = 15, /* a withdrawal would leave fewer than CP_SWAP_LOCK_LP_AMOUNT */
    CP_SWAP_REGISTER_FULL = 16 /* a new holder, and every entry of the register has a balance */
};

/* ---- so many LP tokens are locked at the opening; the supply counts them, the opener gets the rest */
enum { CP_SWAP_LOCK_LP_AMOUNT = 100 };

/* ---- what a pool is opened with */
struct cp_swap_opening {
    uint64_t amount_0; /* as they arrived: an opening bears no charge */
    uint64_t amount_1;
    uint64_t fee_model;  /* creator fee on: 0 the input, 1 token 0, 2 token 1 */
    uint64_t enabled;    /* 1 where creator fees are charged, else 0 */
    uint64_t open_time;  /* no swap before this clock */
    uint64_t trade_rate; /* rates are in millionths */
    uint64_t protocol_rate;
    uint64_t fund_rate;
    uint64_t creator_rate;
    uint64_t share_rate;
    uint64_t points_0; /* charges on transfers: points per 10,000, at most 9,999 */
    uint64_t maximum_0;
    uint64_t points_1;
    uint64_t maximum_1;
    uint64_t spacing; /* seconds from one entry of the ring to the next: 1 to 3,600, not 0 */
    uint64_t length;  /* entries of the ring that the pool uses: 2 to 100, not 0 */
};

/* ---- directions and status */
enum { CP_SWAP_0_FOR_1 = 0, CP_SWAP_1_FOR_0 = 1 };
enum { CP_SWAP_DEPOSITS = 0, CP_SWAP_WITHDRAWALS = 1, CP_SWAP_SWAPS = 2 };
enum { CP_SWAP_OPEN = 0, CP_SWAP_CLOSED = 1 };

/* ---- the calls */

/* A new pool in place of what the memory holds. */
uint64_t cp_swap_open(uint64_t pool[27], uint64_t ring[500], uint64_t receipt[18],
                      const struct cp_swap_opening *opening);

/* Sends `amount` in, and out what the curve gives for what arrives; at least `minimum` is received. */
uint64_t cp_swap_base_input(uint64_t pool[27], uint64_t ring[500], uint64_t receipt[18],
                            uint64_t direction, uint64_t amount, uint64_t minimum, uint64_t clock);

/* Pays out so much that `amount` is received, and takes in what that costs; at most `maximum` is
 * sent. */
uint64_t cp_swap_base_output(uint64_t pool[27], uint64_t ring[500], uint64_t receipt[18],
                             uint64_t direction, uint64_t amount, uint64_t maximum, uint64_t clock);

/* Issues `lp` LP tokens for both trading tokens, of which at most the maximums are sent. */
uint64_t cp_swap_deposit(uint64_t pool[27], uint64_t ring[500], uint64_t receipt[18],
                         uint64_t lp, uint64_t maximum_0, uint64_t maximum_1);

/* Takes `lp` LP tokens back from an owner who holds `owned` and receives at least the minimums;
 * CP_SWAP_LOCK_LP_AMOUNT have to stay. */
uint64_t cp_swap_withdraw(uint64_t pool[27], uint64_t ring[500], uint64_t receipt[18],
                          uint64_t lp, uint64_t owned, uint64_t minimum_0, uint64_t minimum_1);

/* Pays the creators out; `share` millionths of their fees go to the protocol's counters. */
uint64_t cp_swap_settle_creator_fee(uint64_t pool[27], uint64_t ring[500], uint64_t receipt[18],
                                    uint64_t share);

/* Opens (flag 0) or closes (flag 1) what the bit stands for. */
uint64_t cp_swap_set_status(uint64_t pool[27], uint64_t ring[500], uint64_t receipt[18],
                            uint64_t bit, uint64_t flag);

/* The vaults less their counters: what the LP tokens are worth together. Where it is refused the
 * nets are left as they were. */
uint64_t cp_swap_nets(const uint64_t pool[27], uint64_t nets[2]);

/* ---- the calls with a register
 *
 * Each is a call above, by a holder whose LP tokens a register of `count` entries keeps; pool, ring and
 * receipt become what they become without one. Before every other test the call answers 3 where the
 * count is 0 or above CP_SWAP_MOST_HOLDERS, where among the entries with a balance a number is 0 or
 * stands twice, or where the holder is 0. The array may not be null, even for a count of 0.
 *
 * From an accepted opening on, as long as every deposit and withdrawal takes the register and nobody
 * else writes to it, its balances and CP_SWAP_LOCK_LP_AMOUNT together are the supply.
 */

/* The library's own, over numbers: two for each entry. An odd count of them is no register. */
uint64_t cp_swap_open_registered(uint64_t pool[27], uint64_t ring[500], uint64_t receipt[18],
                                 const struct cp_swap_opening *opening, uint64_t *holders,
                                 size_t numbers, uint64_t holder);
uint64_t cp_swap_deposit_registered(uint64_t pool[27], uint64_t ring[500], uint64_t receipt[18],
                                    uint64_t *holders, size_t numbers, uint64_t holder, uint64_t lp,
                                    uint64_t maximum_0, uint64_t maximum_1);
uint64_t cp_swap_withdraw_registered(uint64_t pool[27], uint64_t ring[500], uint64_t receipt[18],
                                     uint64_t *holders, size_t numbers, uint64_t holder, uint64_t lp,
                                     uint64_t minimum_0, uint64_t minimum_1);
uint64_t cp_swap_balance(const uint64_t *holders, size_t numbers, uint64_t holder, uint64_t *balance);

/* A new pool. The register, whose old entries are tested too, is set to zeros, and its first entry
 * becomes the opener's, with the supply less CP_SWAP_LOCK_LP_AMOUNT. */
static inline uint64_t cp_swap_open_by(uint64_t pool[27], uint64_t ring[500], uint64_t receipt[18],
                                       struct cp_swap_holder *holders, size_t count, uint64_t holder,
                                       const struct cp_swap_opening *opening)
{
    return cp_swap_open_registered(pool, ring, receipt, opening, &holders->number, 2 * count, holder);
}

/* A deposit, credited to the holder's entry. A new holder, which is one without a balance, takes the
 * first entry of balance 0. The last tests: 8 where the balance would pass 2^64 - 1, then 16 where a
 * new holder finds every entry with a balance. */
static inline uint64_t cp_swap_deposit_by(uint64_t pool[27], uint64_t ring[500], uint64_t receipt[18],
                                          struct cp_swap_holder *holders, size_t count, uint64_t holder,
                                          uint64_t lp, uint64_t maximum_0, uint64_t maximum_1)
{
    return cp_swap_deposit_registered(pool, ring, receipt, &holders->number, 2 * count, holder, lp,
                                      maximum_0, maximum_1);
}

/* A withdrawal, debited to the holder's entry: what he owns is his balance. At a balance of 0 the entry
 * keeps its number and is free. */
static inline uint64_t cp_swap_withdraw_by(uint64_t pool[27], uint64_t ring[500], uint64_t receipt[18],
                                           struct cp_swap_holder *holders, size_t count, uint64_t holder,
                                           uint64_t lp, uint64_t minimum_0, uint64_t minimum_1)
{
    return cp_swap_withdraw_registered(pool, ring, receipt, &holders->number, 2 * count, holder, lp,
                                       minimum_0, minimum_1);
}

/* The holder's LP tokens, 0 where he has no entry. Answers 0, or 3 as the calls do; then the balance is
 * left as it was. */
static inline uint64_t cp_swap_balance_of(const struct cp_swap_holder *holders, size_t count,
                                          uint64_t holder, uint64_t *balance)
{
    return cp_swap_balance(&holders->number, 2 * count, holder, balance);
}

/* ---- the day sheet
 *
 * Rows in, a row out for each. A row is a number in 2 columns and five in 20 each, decimal and
 * right-justified, and a newline; numbers that a kind does not use are 0. The kinds:
 *   0 rates for the next openings: trade, protocol, fund, creator, share
 *   1 opening: amount 0, amount 1, fee model, enabled, open time; transfers are not charged, and the
 *     grid is the usual one
 *   2 swap by input: direction, amount, minimum, clock
 *   3 swap by output: direction, amount, maximum, clock
 *   4 deposit: LP, maximum 0, maximum 1
 *   5 withdrawal: LP, the owner's LP, minimum 0, minimum 1
 *   6 settlement, at the pool's share rate
 *   7 status: bit, flag
 * The answer: the refusal's number or 0, two amounts, the two nets, the LP supply. A row that can't be
 * read is answered with 12. Refused rows change nothing.
 *
 * The input may be cut anywhere. `held` keeps the bytes of a row that is begun, as many as
 * sheet[CP_SWAP_SHEET_HELD] says.
 */

/* A piece of the input: takes bytes as long as the output has room for another row of 103, and writes
 * the answer of each row that they end. What stands in the output after these rows is left as it is.
 * Answers 0, or 3 where the record is no pool; then nothing was written. */
uint64_t cp_swap_day_sheet(uint64_t pool[27], uint64_t ring[500], uint64_t sheet[6],
                           uint8_t held[103], const uint8_t *input, size_t input_length,
                           uint8_t *output, size_t output_length, uint64_t progress[2]);

/* The end of the input: answers its last row, where that has no newline. The progress is 0 and the
 * bytes written, 0 or 103. No row is begun after it. Answers as above. */
uint64_t cp_swap_day_sheet_end(uint64_t pool[27], uint64_t ring[500], uint64_t sheet[6],
                               const uint8_t held[103], uint8_t output[103], uint64_t progress[2]);

#ifdef __cplusplus
}
#endif

#endif
