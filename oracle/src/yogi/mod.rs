//! yogi, put together by the build script from its own files, and stand-ins for what they import.
#![allow(dead_code, unused_imports)]

pub mod arrayvec;

pub mod ahash {
    pub type AHashMap<K, V> = std::collections::HashMap<K, V>;
}

/// A register's cell; only its content is needed here.
#[derive(Debug, Clone)]
pub struct DebugCell<T>(pub T);

impl<T> From<T> for DebugCell<T> {
    fn from(t: T) -> Self {
        DebugCell(t)
    }
}

pub mod arith {
    pub mod number {
        include!(concat!(env!("OUT_DIR"), "/yogi/number.rs"));
    }
    pub mod ystring {
        use super::super::arrayvec;
        include!(concat!(env!("OUT_DIR"), "/yogi/ystring.rs"));
    }
    pub use number::Number;
    pub use ystring::YString;

    /// Contents of value registers are not compared.
    #[derive(Debug, Clone, Default)]
    pub struct Value;
}

include!(concat!(env!("OUT_DIR"), "/yogi/modules.rs"));
