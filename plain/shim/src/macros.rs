//! Macros that take an allocator or the runtime. A source imports the ones that it uses.

macro_rules! shim_vec {
    (in $alloc:expr; $item:expr; $n:expr) => { $crate::shim::memory::Vec::filled($alloc, $item, $n) };
}
macro_rules! shim_format {
    (in $alloc:expr; $($text:tt)*) => { $crate::shim::memory::String::formatted($alloc, format_args!($($text)*)) };
}
macro_rules! shim_assert {
    ($rt:expr; $($fact:tt)*) => {{ let _ = &$rt; ::core::assert!($($fact)*) }};
}
macro_rules! shim_assert_eq {
    ($rt:expr; $($fact:tt)*) => {{ let _ = &$rt; ::core::assert_eq!($($fact)*) }};
}
macro_rules! shim_unreachable {
    () => { $crate::shim::unreached() };
}
macro_rules! shim_print {
    ($rt:expr; $($text:tt)*) => { $crate::shim::rt::print(&$rt, format_args!($($text)*)) };
}
macro_rules! shim_eprint {
    ($rt:expr; $($text:tt)*) => { ::std::io::Write::write_fmt(&mut ::std::io::stderr(), format_args!($($text)*)) };
}
macro_rules! shim_eprintln {
    ($rt:expr; $($text:tt)*) => { $crate::shim::macros::eprint!($rt; "{}\n", format_args!($($text)*)) };
}
macro_rules! shim_value_parser {
    ($number:ident) => { $crate::shim::clap::ValueParser::new(::clap::value_parser!($number)) };
}
/// `main` of a program that takes the runtime. On Unix it is C's, because Rust's opens files in the
/// places of standard streams that are closed.
macro_rules! shim_main {
    ($start:ident -> $result:ty) => {
        #[cfg(unix)]
        #[unsafe(no_mangle)]
        pub extern "C" fn main() -> i32 { $start($crate::shim::rt::host()).0 }
        #[cfg(not(unix))]
        fn main() { ::std::process::exit($start($crate::shim::rt::host()).0) }
    };
}
pub(crate) use {
    shim_assert as assert, shim_assert_eq as assert_eq, shim_eprint as eprint,
    shim_eprintln as eprintln, shim_format as format, shim_main as main, shim_print as print,
    shim_unreachable as unreachable, shim_value_parser as value_parser, shim_vec as vec,
};
