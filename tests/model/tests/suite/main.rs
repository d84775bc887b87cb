//! The model's suite: document 01's cases and edges, the order of refusals,
//! the demands sampled over random histories, and document 02's K3.

mod batches;
mod events;
mod histories;
mod listings;
mod questions;
mod reasons;
mod records;
mod services;
mod support;
mod tables;
mod well_formed;
mod why;
mod wild;
