//! Stands for ethercrab's fmt.rs: its logging and unwrapping macros. Logging is left out (RULES, forms).
//!
//! GUESS: the arguments of a log line are compiled but never worked out, as where the `log` crate's level is off. It matters in one place: the category
//! search would log a header's address times 2, which overflows from word 32,766 on. A Rust that works it out panics there; this one does not.

macro_rules! log {
    ($text:literal $(, $arg:expr)* $(,)?) => {
        if false {
            $(let _ = &$arg;)*
        }
    };
}

macro_rules! unwrap {
    ($result:expr) => {
        $result.unwrap()
    };
}

macro_rules! unwrap_opt {
    ($option:expr $(, $text:literal)?) => {
        $option.unwrap()
    };
}

pub(crate) use log as trace;
pub(crate) use log as debug;
pub(crate) use log as warn;
pub(crate) use log as error;
pub(crate) use unwrap;
pub(crate) use unwrap_opt;
