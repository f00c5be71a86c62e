//! The kinds of case: what each takes and what it gives. Kinds 1 to 7 are the calls, 41, 44 and 45 those of
//! 1, 4 and 5 with a register.

use crate::call::OPENING_LENGTH;
use crate::pool::POOL_LENGTH;
use crate::ring::ENTRY_LENGTH;

/// What a case acts on, before its arguments.
#[derive(Clone, Copy, Debug, PartialEq, Eq)]
pub enum On {
    Nothing,
    Pool,
    /// The pool and the ring's newest entry.
    PoolAndEntry,
}

pub struct Form {
    pub kind: u64,
    pub name: &'static str,
    pub on: On,
    pub arguments: &'static [&'static str],
    /// What a function alone gives; calls give a receipt and the state.
    pub values: &'static [&'static str],
}

const fn call(kind: u64, name: &'static str, on: On, arguments: &'static [&'static str]) -> Form {
    Form { kind, name, on, arguments, values: &[] }
}

const fn function(
    kind: u64,
    name: &'static str,
    arguments: &'static [&'static str],
    values: &'static [&'static str],
) -> Form {
    Form { kind, name, on: On::Nothing, arguments, values }
}

const OPENING_AND_HOLDER: &[&str] = &[
    "amount 0",
    "amount 1",
    "fee model",
    "enabled",
    "open time",
    "trade rate",
    "protocol rate",
    "fund rate",
    "creator rate",
    "share rate",
    "points 0",
    "maximum 0",
    "points 1",
    "maximum 1",
    "spacing",
    "length",
    "holder",
];
const SWAP: &[&str] = &["direction", "amount", "limit", "clock"];
const RATED: &[&str] = &["amount", "rate"];
const CHARGED: &[&str] = &["amount", "points", "maximum"];
const ONE: &[&str] = &["result"];
const CURVE: &[&str] = &["amount", "net in", "net out"];
const VAULTS: &[&str] =
    &["vault 0", "vault 1", "protocol 0", "protocol 1", "fund 0", "fund 1", "creator 0", "creator 1"];
const RING: &[&str] = &[
    "ring used",
    "ring index",
    "ring mark",
    "spacing",
    "length",
    "entry clock",
    "sum 0 high",
    "sum 0 low",
    "sum 1 high",
    "sum 1 low",
];

pub const FORMS: &[Form] = &[
    call(1, "opening", On::Nothing, OPENING_AND_HOLDER.split_at(OPENING_LENGTH).0),
    call(2, "swap_base_input", On::PoolAndEntry, SWAP),
    call(3, "swap_base_output", On::PoolAndEntry, SWAP),
    call(4, "deposit", On::Pool, &["lp", "maximum 0", "maximum 1"]),
    call(5, "withdraw", On::Pool, &["lp", "owner's lp", "minimum 0", "minimum 1"]),
    call(6, "settle_creator_fee", On::Pool, &["share rate"]),
    call(7, "set_status_by_bit", On::Pool, &["bit", "flag"]),
    function(10, "trading_fee", RATED, ONE),
    function(11, "protocol_fee", RATED, ONE),
    function(12, "fund_fee", RATED, ONE),
    function(13, "creator_fee", RATED, ONE),
    function(14, "creator_fee_shared_amount", RATED, ONE),
    function(15, "split_creator_fee", &["total fee", "trade rate", "creator rate"], ONE),
    function(16, "calculate_pre_fee_amount", RATED, ONE),
    function(17, "split_creator_fee_shared_amount", RATED, &["creator's part", "shared part"]),
    function(18, "get_transfer_fee", CHARGED, ONE),
    function(19, "get_transfer_inverse_fee", CHARGED, ONE),
    function(20, "swap_base_input_without_fees", CURVE, ONE),
    function(21, "swap_base_output_without_fees", CURVE, ONE),
    function(
        22,
        "lp_tokens_to_trading_tokens",
        &["lp", "supply", "net 0", "net 1", "rounded up"],
        &["amount 0", "amount 1"],
    ),
    function(
        23,
        "checked_ceil_div",
        &["number high", "number low", "divisor high", "divisor low"],
        &["high", "low"],
    ),
    function(
        24,
        "lp_tokens_div_rem",
        &["lp", "net", "supply"],
        &["quotient high", "quotient low", "remainder"],
    ),
    function(
        30,
        "update",
        &[
            "ring used",
            "ring index",
            "ring mark",
            "spacing",
            "length",
            "entry clock",
            "sum 0 high",
            "sum 0 low",
            "sum 1 high",
            "sum 1 low",
            "clock",
            "price 0 high",
            "price 0 low",
            "price 1 high",
            "price 1 low",
        ],
        RING,
    ),
    function(31, "vault_amount_without_fee", VAULTS, &["net 0", "net 1"]),
    function(32, "token_price_x32", VAULTS, &["price 0 high", "price 0 low", "price 1 high", "price 1 low"]),
    function(
        33,
        "update_fees",
        &[
            "protocol 0",
            "protocol 1",
            "fund 0",
            "fund 1",
            "creator 0",
            "creator 1",
            "fee model",
            "direction",
            "protocol fee",
            "fund fee",
            "creator fee",
        ],
        &["protocol 0", "protocol 1", "fund 0", "fund 1", "creator 0", "creator 1"],
    ),
    function(34, "is_creator_fee_on_input", &["fee model", "direction"], &["on input"]),
    function(35, "validate_supply", &["amount 0", "amount 1"], &[]),
    function(
        36,
        "update at nets",
        &[
            "ring used",
            "ring index",
            "ring mark",
            "spacing",
            "length",
            "entry clock",
            "sum 0 high",
            "sum 0 low",
            "sum 1 high",
            "sum 1 low",
            "clock",
            "net 0",
            "net 1",
        ],
        RING,
    ),
    // What takes a register has the holder last; behind it stands the list, of any count of numbers.
    function(40, "balance", &["holder"], &["balance"]),
    call(41, "open_registered", On::Nothing, OPENING_AND_HOLDER),
    call(44, "deposit_registered", On::Pool, &["lp", "maximum 0", "maximum 1", "holder"]),
    call(45, "withdraw_registered", On::Pool, &["lp", "minimum 0", "minimum 1", "holder"]),
];

/// What is added to the kind of a call that takes a register.
pub const WITH_REGISTER: u64 = 40;

pub fn form(kind: u64) -> Option<&'static Form> {
    FORMS.iter().find(|form| form.kind == kind)
}

impl Form {
    /// Whether it is a call without a register.
    pub fn is_call(&self) -> bool {
        self.kind < 10
    }

    /// Whether a list stands behind its arguments, of which the last is the holder.
    pub fn takes_list(&self) -> bool {
        self.kind >= WITH_REGISTER
    }

    /// Whether it is a call with a register.
    pub fn is_registered_call(&self) -> bool {
        self.kind > WITH_REGISTER
    }

    /// How many of a case's columns come before its arguments.
    pub fn columns_before(&self) -> usize {
        match self.on {
            On::Nothing => 0,
            On::Pool => POOL_LENGTH,
            On::PoolAndEntry => POOL_LENGTH + ENTRY_LENGTH,
        }
    }
}
