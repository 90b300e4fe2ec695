//! The names of the kit's `clap` over the real one, which wants texts that live for ever: they are
//! copied, once per run.
use super::alloc::{AllocError, Global};
use super::memory::String as Text;
use ::clap as real;
use std::borrow::ToOwned;
use std::boxed::Box;
use std::marker::PhantomData;
use std::ops::{RangeFrom, RangeInclusive};
use std::string::ToString;
use std::vec::Vec;

pub(crate) use super::macros::value_parser;
pub use real::ArgAction;

fn for_ever(text: &str) -> &'static str { Box::leak(text.to_owned().into_boxed_str()) }

pub mod builder {
    pub use super::ValueParser;
}

/// What the value of an option is read as: a number, perhaps of 32 bits in a range.
pub struct ValueParser<'a>(real::builder::ValueParser, PhantomData<&'a ()>);

impl ValueParser<'_> {
    pub fn new(parser: impl Into<real::builder::ValueParser>) -> Self {
        ValueParser(parser.into(), PhantomData)
    }
    pub fn range(self, range: RangeInclusive<i64>) -> Self {
        ValueParser::new(real::value_parser!(u32).range(range))
    }
}

/// Calls of a builder that the real one has too.
macro_rules! passed_on {
    ($($call:ident($argument:ident: $kind:ty) $given:expr;)*) => {
        $(pub fn $call(self, $argument: $kind) -> Self { Self(self.0.$call($given), PhantomData) })*
    };
}

pub struct Arg<'a>(real::Arg, PhantomData<&'a ()>);

impl<'a> Arg<'a> {
    pub fn new(_: Global, name: &'a str) -> Self {
        Arg(real::Arg::new(for_ever(name)), PhantomData)
    }
    passed_on! {
        long(name: &'a str) for_ever(name);
        value_name(name: &'a str) for_ever(name);
        help(text: &'a str) for_ever(text);
        action(action: ArgAction) action;
        value_parser(parser: ValueParser<'a>) parser.0;
        required(is_required: bool) is_required;
        num_args(range: RangeFrom<usize>) range;
    }
}

pub struct Command<'a>(real::Command, PhantomData<&'a ()>);

impl<'a> Command<'a> {
    pub fn new(_: Global, name: &'a str) -> Self {
        Command(real::Command::new(for_ever(name)), PhantomData)
    }
    passed_on! {
        override_usage(text: &'a str) for_ever(text);
        about(text: &'a str) for_ever(text);
        after_help(text: &'a str) for_ever(text);
        version(text: &'a str) for_ever(&version_of_build(text));
        subcommand_required(is_required: bool) is_required;
    }
    pub fn arg(self, arg: Arg<'a>) -> Result<Self, AllocError> {
        Ok(Command(self.0.arg(arg.0), PhantomData))
    }
    pub fn subcommand(self, other: Command<'a>) -> Result<Self, AllocError> {
        Ok(Command(self.0.subcommand(other.0), PhantomData))
    }
    pub fn try_get_matches_from(self, words: &[&str]) -> Result<ArgMatches, Error> {
        let words: Vec<_> = words.iter().map(|word| word.to_string()).collect();
        self.0.try_get_matches_from(words).map(ArgMatches).map_err(Error)
    }
}

/// The number of a version, with what this build is instead of the kit in brackets.
fn version_of_build(text: &str) -> std::string::String {
    let number = text.split(" (").next().unwrap_or(text);
    std::format!("{number} ({})", super::BUILD.trim_end_matches('\0'))
}

#[repr(transparent)]
pub struct ArgMatches(real::ArgMatches);

impl ArgMatches {
    pub fn subcommand(&self) -> Option<(&str, &ArgMatches)> {
        let (name, matches) = self.0.subcommand()?;
        // SAFETY: the type is `repr(transparent)`.
        Some((name, unsafe { &*std::ptr::from_ref(matches).cast() }))
    }
    pub fn try_get_one<T: Copy + Send + Sync + 'static>(&self, name: &str) -> Result<Option<T>, ()> {
        self.0.try_get_one::<T>(name).map(|value| value.copied()).map_err(|_| ())
    }
    pub fn get_one<T: Copy + Send + Sync + 'static>(&self, name: &str) -> Option<T> {
        self.try_get_one(name).ok().flatten()
    }
    pub fn get_raw(&self, name: &str) -> Option<&[&str]> {
        let words: Vec<&str> = self.0.get_raw(name)?.filter_map(|word| word.to_str()).collect();
        Some(Box::leak(words.into_boxed_slice()))
    }
}

pub mod error {
    pub enum ErrorKind {
        DisplayHelp,
        DisplayVersion,
        OutOfMemory,
        Other,
    }
}

pub struct Error(real::Error);

impl Error {
    pub fn kind(&self) -> error::ErrorKind {
        match self.0.kind() {
            real::error::ErrorKind::DisplayHelp => error::ErrorKind::DisplayHelp,
            real::error::ErrorKind::DisplayVersion => error::ErrorKind::DisplayVersion,
            _ => error::ErrorKind::Other,
        }
    }
    pub fn to_string(&self, alloc: Global) -> Result<Text, AllocError> {
        Text::from_str(alloc, &self.0.render().to_string())
    }
}
