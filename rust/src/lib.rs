//! A verified solver for equality conditions: safe functions over the proved services.
//!
//! A *sheet* has lots 1 to n and conditions, each a choice of terms "lots a and b the same" or "lots a and b apart", or withdrawn. Terms may also name lot 0,
//! which no sheet counts: its number is 0 in every assignment, so that "same 0 a" asks the number 0 of lot a. Ten services take a sheet's bytes:
//! [`read`] accepts or refuses them, [`search`] finds a grouping that meets every condition or a refutation, [`check`] checks a refutation from any hand,
//! [`search_limited`] and [`check_limited`] do so under a limit on the number of groups, [`evaluate`] says whether a grouping meets the sheet, [`count_unmet`]
//! how many conditions it doesn't meet, [`Running::reassign`] how many are unmet when a lot gets another number, [`repack`] puts the records in order, so that
//! equal lots and conditions are equal bytes, and [`merge`] makes one sheet of two. What they answer is proved; the types here only give the numbers and bytes
//! their names.
//!
//! ```
//! use lihumbay::{SheetBuilder, Term, Verdict};
//!
//! let mut builder = SheetBuilder::new(3)?;
//! builder.condition([Term::Same(1, 2)])?.condition([Term::Same(2, 3)])?.condition([Term::Apart(1, 3)])?;
//! let sheet = builder.finish().to_bytes();
//!
//! match lihumbay::search(&sheet)? {
//!     Verdict::Met { grouping, .. } => println!("groups: {:?}", grouping.groups()),
//!     Verdict::Cannot { refutation } => {
//!         assert_eq!(refutation.count(), 5);
//!         lihumbay::check(&sheet, refutation.as_bytes())?;
//!     }
//!     Verdict::Full { capacity } => println!("more than {capacity} nodes"),
//! }
//! # Ok::<(), Box<dyn std::error::Error>>(())
//! ```
//!
//! [`withdraw`] takes a condition out of a sheet's bytes, so that the others keep their numbers. Sheets also have a text form, [`Sheet`]'s `FromStr` and
//! `Display`. [`raw`] has the services with their numbers as the archive gives them.
#![warn(missing_debug_implementations, missing_docs)]

mod bytes;
mod classes;
mod grouping;
mod limited;
mod limits;
mod line;
mod list;
mod merge;
pub mod raw;
mod reassignment;
mod record;
mod records;
mod refusal;
mod repack;
mod running;
mod search;
mod services;
mod sheet;
mod term;
mod text;
mod text_error;
mod walk;
mod withdraw;

pub use grouping::Grouping;
pub use limited::{check_limited, search_limited, search_limited_into, search_limited_within};
pub use limits::*;
pub use list::RecordList;
pub use merge::{MergeRefusal, merge, merge_into};
pub use reassignment::Reassignment;
pub use record::Record;
pub use records::{RecordError, Records};
pub use refusal::{Check, Refusal, Subject};
pub use repack::{repack, repack_into};
pub use running::{Running, count_unmet};
pub use search::{Verdict, search, search_into, search_within};
pub use services::{Evaluation, Reading, check, evaluate, read};
pub use sheet::{LimitError, Sheet, SheetBuilder};
pub use term::{Condition, Term};
pub use text_error::TextError;
pub use walk::{Above, Branch, Step, Walk};
pub use withdraw::{WithdrawError, withdraw};
