//! Accounts as plain memory that the runner owns.

use crate::error::{Error, Result};
use std::cell::{Cell, Ref, RefCell, RefMut};
use std::marker::PhantomData;
use std::ops::Deref;

/// A key is a number; the runner gives every account its own. It is a byte, because the
/// original compares keys inside packed structs, which only bytes allow.
#[derive(Clone, Copy, Debug, Default, PartialEq, Eq)]
pub struct Pubkey(pub u8);

pub trait Key {
    fn key(&self) -> Pubkey;
}

impl Key for Pubkey {
    fn key(&self) -> Pubkey {
        *self
    }
}

#[derive(Clone, Copy)]
pub struct AccountInfo<'info> {
    pub key: &'info Pubkey,
    pub owner: &'info Pubkey,
    /// A vault's balance. A wallet has none here: the ledger settles it before the call.
    pub balance: Option<&'info Cell<u64>>,
}

impl AccountInfo<'_> {
    pub fn data_is_empty(&self) -> bool {
        true
    }

    pub fn try_borrow_data(&self) -> Result<&[u8]> {
        Err(Error::NoBytes)
    }
}

/// An account of which only the address counts.
macro_rules! address_only {
    ($($name:ident $(<$kind:ident>)?),*) => {$(
        pub struct $name<'info $(, $kind)?>(pub AccountInfo<'info> $(, pub PhantomData<$kind>)?);

        impl<'info $(, $kind)?> Deref for $name<'info $(, $kind)?> {
            type Target = AccountInfo<'info>;
            fn deref(&self) -> &AccountInfo<'info> {
                &self.0
            }
        }

        impl<'info $(, $kind)?> $name<'info $(, $kind)?> {
            pub fn to_account_info(&self) -> AccountInfo<'info> {
                self.0
            }
        }
    )*};
}

address_only!(Signer, UncheckedAccount, Program<T>, Interface<T>);

/// An account whose content was read when the call began.
pub struct InterfaceAccount<'info, T> {
    pub info: AccountInfo<'info>,
    pub content: T,
}

impl<T> Deref for InterfaceAccount<'_, T> {
    type Target = T;
    fn deref(&self) -> &T {
        &self.content
    }
}

impl<T> Key for InterfaceAccount<'_, T> {
    fn key(&self) -> Pubkey {
        *self.info.key
    }
}

impl<'info, T> InterfaceAccount<'info, T> {
    pub fn to_account_info(&self) -> AccountInfo<'info> {
        self.info
    }
}

/// An account that is only read.
pub struct Account<'info, T>(pub &'info T);

impl<T> Deref for Account<'_, T> {
    type Target = T;
    fn deref(&self) -> &T {
        self.0
    }
}

/// An account that is written in place.
pub struct AccountLoader<'info, T> {
    pub key: Pubkey,
    pub content: &'info RefCell<T>,
}

impl<T> Key for AccountLoader<'_, T> {
    fn key(&self) -> Pubkey {
        self.key
    }
}

impl<T> AccountLoader<'_, T> {
    pub fn load(&self) -> Result<Ref<'_, T>> {
        Ok(self.content.borrow())
    }

    pub fn load_mut(&self) -> Result<RefMut<'_, T>> {
        Ok(self.content.borrow_mut())
    }
}

/// What a handler is given; the accounts stay the caller's.
pub struct Context<'a, T> {
    pub accounts: &'a mut T,
}

/// Reading an account's bytes is left out by document 01.
pub trait AccountDeserialize: Sized {
    fn try_deserialize(_bytes: &mut &[u8]) -> Result<Self> {
        Err(Error::NoBytes)
    }
}

impl<T> AccountDeserialize for T {}
