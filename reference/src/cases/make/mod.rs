//! The suites of cases: which inputs of each kind, and in which mix.

mod checks;
mod exchanges;
mod jobs;
mod lists;
mod maps;
mod moves;
mod requests;
mod salvages;
mod scans;
mod texts;
mod timers;
mod unitlists;

pub use checks::check_cases;
pub use exchanges::exchange_cases;
pub use jobs::job_cases;
pub use lists::{list_cases, random_list};
pub use maps::map_cases;
pub use moves::move_cases;
pub use requests::{random_request, request_cases};
pub use salvages::{random_torn, salvage_cases};
pub use scans::scan_cases;
pub use texts::{random_texts, text_cases};
pub use unitlists::{random_unit_list, unit_list_cases};
