//! A second engine for the isolated groups and splits of a score sheet
//! (document 01), and what is needed to hold another engine against it.
//!
//! * `engine`: the calls, each by the definitions.
//! * `whole`: the sheet call as it was before there were half points.
//! * `pool`: the pool of two sheets, by the names.
//! * `refined`: the refined weight of a split, by all quartets.
//! * `generate`: sheets, good and damaged, from a seed.
//! * `compare`: another engine's answers and bytes against these.
//! * `reordering`: an engine's listings of one sheet in two orders.
//! * `unscored`: an engine's groups of a list before and after pairs are scored.
//! * `halves`: an engine's listings of whole points, and its groups of doubled lists.
//! * `pooling`: an engine's pools against these, and the groups of a pool.
//! * `weighing`: an engine's weights against these, and the weights of a list.
//! * `selfcheck`: this engine against itself, by other routes.

#![forbid(unsafe_code)]

pub mod compare;
pub mod engine;
pub mod generate;
pub mod halves;
pub mod pool;
pub mod pooling;
pub mod refined;
pub mod reordering;
pub mod selfcheck;
pub mod unscored;
pub mod weighing;
pub mod whole;
