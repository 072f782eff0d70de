//! Stands in for serde: only the names of the two derive macros.
pub use serde_derive::{Deserialize, Serialize};
