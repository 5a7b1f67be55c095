//! The subcommand of salvage: a torn file, and where the salvaged one goes.

use super::answers::said;
use super::{load, store, Said};
use crate::salvage::{self, Salvaged, LONGEST};

fn told(salvaged: Salvaged) -> String {
    let end = if salvaged.added { "added" } else { "found" };
    format!("kept {} end {end} rest {}", salvaged.kept, salvaged.rest)
}

/// The room is that of the longest file, so 16 does not come.
pub fn salvage(torn: &str, out: &str) -> Said {
    let mut bytes = vec![0; LONGEST];
    match salvage::salvage(&load(torn)?, &mut bytes) {
        Ok(salvaged) => {
            store(out, &bytes[..salvaged.length()])?;
            said(told(salvaged))
        }
        Err(refusal) => said(refusal.to_string()),
    }
}
