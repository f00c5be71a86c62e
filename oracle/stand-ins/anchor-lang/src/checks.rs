//! The check macros: a check that fails returns its error.

#[macro_export]
macro_rules! err {
    ($error:expr $(,)?) => {
        Err($crate::error::Error::from($error))
    };
}

#[macro_export]
macro_rules! require_gt {
    ($left:expr, $right:expr $(,)?) => {
        require_gt!($left, $right, $crate::error::Error::NotGreater)
    };
    ($left:expr, $right:expr, $error:expr $(,)?) => {
        if $left <= $right {
            return $crate::err!($error);
        }
    };
}

#[macro_export]
macro_rules! require_gte {
    ($left:expr, $right:expr $(,)?) => {
        require_gte!($left, $right, $crate::error::Error::NotGreater)
    };
    ($left:expr, $right:expr, $error:expr $(,)?) => {
        if $left < $right {
            return $crate::err!($error);
        }
    };
}

#[macro_export]
macro_rules! require_eq {
    ($left:expr, $right:expr $(,)?) => {
        if $left != $right {
            return $crate::err!($crate::error::Error::NotEqual);
        }
    };
}

#[macro_export]
macro_rules! emit {
    ($event:expr) => {
        $crate::events::put($event)
    };
}
