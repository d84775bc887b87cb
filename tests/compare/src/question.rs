//! Document 01's eight questions, as values. Each finds a number.

use gjalvorn as proved;
use gjalvorn_model as model;

#[derive(Clone, Copy, Debug)]
pub enum Question {
    Occupant(u8),
    Stopped(u8),
    ReleaseNumber(u8),
    Served(u8),
    Skipped(u8),
    JobNumber(u8),
    LowestOwing,
    OwingCount,
}

impl Question {
    /// All eight, about one number.
    pub fn about(number: u8) -> [Question; 8] {
        [
            Question::Occupant(number),
            Question::Stopped(number),
            Question::ReleaseNumber(number),
            Question::Served(number),
            Question::Skipped(number),
            Question::JobNumber(number),
            Question::LowestOwing,
            Question::OwingCount,
        ]
    }

    /// What both find.
    pub fn put_to(self, m: &model::System, p: &proved::System) -> (model::Reply, proved::Found) {
        match self {
            Question::Occupant(core) => (m.ask_occupant(core), p.occupant(core)),
            Question::Stopped(core) => (m.ask_stopped(core), p.stopped(core)),
            Question::ReleaseNumber(gang) => (m.ask_number(gang), p.release_number(gang)),
            Question::Served(gang) => (m.ask_served(gang), p.served(gang)),
            Question::Skipped(gang) => (m.ask_skipped(gang), p.skipped(gang)),
            Question::JobNumber(gang) => (m.ask_job(gang), p.job_number(gang)),
            Question::LowestOwing => (m.ask_lowest_owing(), p.lowest_owing()),
            Question::OwingCount => (m.ask_owing_count(), p.owing_count()),
        }
    }
}
