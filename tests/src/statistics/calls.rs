//! What a service answered to the calls of a run.

use super::Line;
use crate::call::{Reply, Service};
use tonschnecke::Reason;

/// The refusals of reading that can stand at position 0.
const AT_START: &[usize] = &[1, 2, 3, 5, 6, 7];
/// The refusals of reading that can stand further on.
const FURTHER_ON: &[usize] = &[2, 3, 4, 5, 6, 7, 8, 9, 10];

/// The refusals of a service's own, all at position 0. The 7 of inserting is counted by its
/// circumstances.
fn own(service: Service) -> &'static [usize] {
    match service {
        Service::Read => &[],
        Service::Canonicalize => &[14],
        Service::Insert => &[8, 9, 11, 12, 13, 14],
    }
}

#[derive(Default)]
pub struct Calls {
    made: u64,
    accepted: u64,
    /// Refused calls by code, less one: at position 0, and further on.
    refused: [[u64; 2]; Reason::ALL.len()],
}

impl Calls {
    pub fn count(&mut self, reply: Reply) {
        self.made += 1;
        match reply.code() {
            0 => self.accepted += 1,
            code => self.refused[code as usize - 1][usize::from(reply.at() > 0)] += 1,
        }
    }

    /// The lines of a service: every refusal that it can give is needed.
    pub fn lines(&self, service: Service) -> Vec<Line> {
        let mut lines = vec![
            Line::told(format!("calls of {service}"), self.made),
            Line::needed(format!("{service} accepted"), self.accepted),
        ];
        for (code, [start, further]) in (1..).zip(self.refused) {
            if AT_START.contains(&code) || own(service).contains(&code) {
                lines.push(Line::needed(
                    format!("{service} refused {code} at 0"),
                    start,
                ));
            }
            if FURTHER_ON.contains(&code) {
                let name = format!("{service} refused {code} further on");
                lines.push(Line::needed(name, further));
            }
        }
        lines
    }
}
