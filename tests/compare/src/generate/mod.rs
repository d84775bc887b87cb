//! Tables and events that the systems accept, and damage to them.

pub mod bytes;
pub mod events;
pub mod systems;
pub mod tables;
