//! A plain reference: the paper 01 ("What is to be built") and the requests One
//! ("Old fixed records"), Three ("Where is the bad byte?"), Four ("Categories stop
//! too early"), Five ("Packet option, writer and reader"), Six ("The bring-up letter
//! goes") and Seven ("Record files in a shared folder") of the paper 02 said again
//! as code. Request Two changes no answer.
//!
//! - `plain`: the tables, the loader and every call of the papers. Nothing here
//!   can be damaged, so refusal 0 does not occur.
//! - `raw`: the same calls over lent memory, which may be damaged (refusal 0).
//! - `machine`: lent memory together with its model, for many calls a second.
//! - `program`: standard input to standard output.
//! - `call`: one call of a script, and its text.
//! - `script`: one call a line, one answer a line, for comparing programs.
//! - `random`: random scripts, as calls or as text.
//! - `speed`: how quick that is.

pub mod call;
pub mod machine;
pub mod plain;
pub mod program;
pub mod random;
pub mod raw;
pub mod script;
pub mod speed;
