//! The accesses to the cells in view, by their codes and by where their bytes lie.

use crate::counts::Counted;
use crate::model::codes::row_of;
use crate::model::place::{width, VIEW, VIEW_BYTES};
use crate::model::reach::Reach;
use crate::model::state::{Machine, LOCALS, MEMORY};
use crate::touches::data_of;

const CODES: [u8; 6] = [0x2D, 0x2E, 0x2F, 0x30, 0x31, 0x32];
/// Where the bytes of an access can lie; one byte lies in one cell. The last two are refused.
const WHERE: [&str; 5] = ["in one cell", "across two cells", "across 1003F", "12 across 0FFFF", "12 across 1005F"];

/// By code and by place.
#[derive(Default)]
pub struct ViewTally([[u64; WHERE.len()]; CODES.len()]);

impl ViewTally {
    /// A machine is about to try an instruction.
    pub fn trying(&mut self, reach: Reach, machine: &Machine, memory: &[u8; MEMORY]) {
        let Some((code, bytes)) = data_of(reach, machine, memory) else { return };
        let at = CODES.iter().position(|&known| known == code).zip(lies(bytes.start, bytes.end - 1));
        if let Some((code, place)) = at {
            self.0[code][place] += 1;
        }
    }

    pub fn counts(&self) -> Vec<Counted> {
        let named = |(code, counts): (u8, [u64; WHERE.len()])| {
            row_of(code).into_iter().flat_map(move |row| {
                let possible = if width(row.op) == 1 { 1 } else { WHERE.len() };
                let places = WHERE.into_iter().zip(counts).take(possible);
                places.map(move |(place, count)| (format!("{} {place}", row.name), count))
            })
        };
        CODES.into_iter().zip(self.0).flat_map(named).collect()
    }
}

/// Which of `WHERE` an access from its first to its last byte is; nothing where it is clear of the cells.
fn lies(first: usize, last: usize) -> Option<usize> {
    let view = VIEW..VIEW + VIEW_BYTES;
    let is_local = |at: usize| at < VIEW + 4 * LOCALS;
    match (view.contains(&first), view.contains(&last)) {
        (true, true) if first / 4 == last / 4 => Some(0),
        (true, true) if is_local(first) == is_local(last) => Some(1),
        (true, true) => Some(2),
        (false, true) => Some(3),
        (true, false) => Some(4),
        (false, false) => None,
    }
}

#[cfg(test)]
mod tests {
    use super::*;

    #[test]
    fn places_have_the_right_names() {
        for (first, last, place) in [
            (0x10000, 0x10000, Some("in one cell")),
            (0x1003C, 0x1003F, Some("in one cell")),
            (0x10003, 0x10004, Some("across two cells")),
            (0x10042, 0x10045, Some("across two cells")),
            (0x1003F, 0x10040, Some("across 1003F")),
            (0x0FFFD, 0x10000, Some("12 across 0FFFF")),
            (0x1005F, 0x10060, Some("12 across 1005F")),
            (0x0FFFC, 0x0FFFF, None),
            (0x10060, 0x10063, None),
        ] {
            assert_eq!(lies(first, last).map(|place| WHERE[place]), place, "{first:X}");
        }
    }
}
