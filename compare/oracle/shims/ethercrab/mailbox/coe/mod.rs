//! Stands for ethercrab's mailbox/coe/mod.rs, which is at hand but leans on files that are not. error.rs names this one type for its text.

#[derive(Debug, Copy, Clone, PartialEq, Eq)]
pub struct CoeAbortCode;

impl std::fmt::Display for CoeAbortCode {
    fn fmt(&self, f: &mut std::fmt::Formatter<'_>) -> std::fmt::Result {
        f.write_str("CoE abort code")
    }
}
