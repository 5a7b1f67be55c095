//! The subcommands that write case files.

use super::{store, Said};
use crate::cases;

pub fn write(kind: &str, path: &str, seed: u32, count: u32) -> Said {
    let Some(bytes) = cases::case_file(kind, u64::from(seed), count) else {
        return Err(format!("no such kind of case file: {kind}"));
    };
    store(path, &bytes)?;
    Ok((format!("{kind}: {} bytes\n", bytes.len()).into(), 0))
}
