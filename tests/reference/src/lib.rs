//! An independent implementation of docs/SPECIFICATION.md; it shares no code with the engine.
//!
//! `calls` is the plain one: it decodes the areas into records and follows the specification
//! sentence by sentence. `fast` gives the same answers in linear time over plain slices, for the
//! benchmark. `generator`, `damage` and `shapes` make netlists, `cases` makes calls on them by seed.
//! `sheet` is what the program of that name prints, `files` makes what it reads by seed.

pub mod calls;
pub mod capacities;
pub mod cases;
pub mod damage;
pub mod engine;
pub mod fast;
pub mod files;
pub mod generator;
pub mod levels;
pub mod mapper;
pub mod net;
pub mod prices;
pub mod random;
pub mod reach;
pub mod record;
pub mod refusal;
pub mod search;
pub mod shapes;
pub mod sheet;
pub mod simulator;
pub mod source;
pub mod strip;
pub mod verifier;
pub mod views;

#[cfg(feature = "capi")]
pub mod capi;
#[cfg(feature = "linked")]
pub mod linked;

#[cfg(all(feature = "capi", feature = "linked"))]
compile_error!("features `capi` and `linked` define and import the same symbols");
