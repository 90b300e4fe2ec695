//! What Rattle's library and crates have and Rust's have not, over Rust's: the names that the
//! sources use, and no more. An allocator is a value, a call that takes memory can refuse, and who
//! waits, prints or reads holds the runtime. With the feature `program` it also has what needs a system.

// The page's module has 32 bits, and compares lengths in 64. Rings count words without end.
#[cfg(not(any(target_pointer_width = "64", target_arch = "wasm32")))]
compile_error!("the sources are proved for a usize of 64 bits, which this target has not");

pub mod alloc;
pub mod c;
mod index;
pub mod macros;
pub mod mem;
pub mod memory;
pub mod rand_core;
pub mod simd;

#[cfg(feature = "scenes")]
pub mod toml;

/// What needs a system.
macro_rules! with_a_system {
    ($($item:item)*) => { $(#[cfg(feature = "program")] $item)* };
}
with_a_system! {
    pub mod clap;
    pub mod rt;
    pub mod rtrb;
    pub mod sync;
    pub mod system;
    pub mod thread;
    pub use std::io;
    pub use system::{env, fs, os, process, test, time};
}

pub use core::hint;
pub use index::{At, CHECKED, unreached};

/// What this build is, for `fhpgas --version` and, with the zero that ends a text of C, the library.
pub const BUILD: &str = if CHECKED {
    "plain Rust, checked, not proved\0"
} else {
    "plain Rust, trusts the proofs of PROVED, not proved\0"
};

pub mod collections {
    pub use super::memory::VecDeque;
}

pub mod marker {
    pub use core::marker::PhantomData;
    /// A type that a contract names as another.
    pub trait Model {}
}

pub mod snapshot {
    use core::marker::PhantomData;
    /// A value that only contracts see.
    pub struct Snapshot<T>(PhantomData<fn() -> T>);
    impl<T> Snapshot<T> {
        #[inline(always)]
        pub fn of(_: &T) -> Self { Snapshot(PhantomData) }
    }
}

pub mod fmt {
    pub use core::fmt::*;
    /// A writer of texts, also line by line.
    pub trait Write: core::fmt::Write {
        fn writeln<D: Display>(&mut self, line: D) -> Result {
            core::fmt::Write::write_fmt(self, format_args!("{line}\n"))
        }
    }
    impl<T: core::fmt::Write + ?Sized> Write for T {}
}

/// What each source has without a `use`, and the crates that this one stands for.
pub mod prelude {
    pub use super::index::At;
    pub use super::memory::{InMemory as _, String, Vec};
    pub use super::rand_core;
    #[cfg(feature = "scenes")]
    pub use super::toml;
    #[cfg(feature = "program")]
    pub use super::{
        clap,
        rt::{Eprint, HostRuntime, Print},
        rtrb,
        sync::Parking as _,
        thread::ScopeExt as _,
    };
    pub use core::fmt::Write as _;
    /// Leave to drop a value, which Rust gives to all.
    pub trait Drop {}
    impl<T: ?Sized> Drop for T {}
}
