//! A second, separately written reservoir propagator (document 01's planner)
//! and log checker (its slip reader), with the test material to compare them
//! word for word with another implementation.
//!
//! The rules are followed in the paper's own wording rather than in the form
//! that would run fastest.

pub mod answers;
pub mod brute;
pub mod checker;
pub mod counts;
pub mod explain;
pub mod explanation;
pub mod gen_faults;
pub mod gen_jobs;
pub mod gen_lists;
pub mod gen_parts;
pub mod gen_plans;
pub mod gen_sets;
pub mod gen_texts;
pub mod job;
pub mod propagator;
pub mod raw_job;
pub mod rng;
pub mod rules;
pub mod sets;
pub mod stream;
pub mod text;
pub mod views;

pub use checker::{read, ReadAnswer};
pub use job::{Refusal, Settings};
pub use propagator::{plan, PlanAnswer, Tally};
