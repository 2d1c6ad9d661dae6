//! An independent twin of the station of document 01 (`01-scope.md`) and of of document 02
//! (`02-change-requests.md`), the season report, the fill byte, the call that sends and fetches in one, the checker of
//! responses, the address that is stored whole or not at all and the old settings that are kept by number, as
//! `docs/DECISIONS.md` reads them. R-5 changes nothing that can be seen.
//!
//! It exists to be compared with another implementation, so it is plain: every rule of the paper stands in one
//! small function, and every field is public for a harness to set and compare.

#![forbid(unsafe_code)]
#![deny(warnings)]
#![deny(missing_docs)]

pub mod axis;
pub mod block;
pub mod checker;
pub mod cycle;
pub mod frame;
pub mod journal;
pub mod parameter;
pub mod record;
pub mod season;
pub mod versions;

#[cfg(test)]
mod tests;

pub use axis::{well_formed, Axis, Settings, State, Station, Waiting, AXES, BLOCK_MAX, CODES, SITUATIONS};
pub use block::{parse_request, parse_response, Address, Item, Request, RequestKind, Response, ResponseKind, Values};
pub use checker::check;
pub use cycle::{Cycled, Ran};
pub use frame::{Framed, REPLY_MIN};
pub use journal::replay;
pub use parameter::{Parameter, Type};
pub use record::{Journal, Next, Record};
pub use season::{count, report, Counts, Totals, COUNTS};
pub use versions::{Listed, Returned, Versions, KEPT};
