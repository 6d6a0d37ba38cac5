//! Image files that are not as they should be, and their neighbours that just are.

use crate::assembler::image;
use crate::budgets::stopped;
use crate::model::state::MEMORY;
use crate::random::Random;

/// Every cut, surplus and wrong count of some small files.
pub fn sweep() -> Vec<Vec<u8>> {
    let code = [0x34, 5, 0x34, 7, 0x0E, 0x3D];
    let bases = [
        (image(&code, &[], None), 6),
        (image(&code, &[1, 2], Some(1000)), 6),
        (image(&[0x3D], &[u32::MAX; 64], Some(1_000_000)), 1),
        (image(&[0x02], &[3], Some(0)), 1),
    ];
    let mut files = Vec::new();
    for (base, memory) in bases {
        files.extend((0..=base.len()).map(|cut| base[..cut].to_vec()));
        files.extend((1..=9).map(|surplus| [&base[..], &vec![0; surplus]].concat()));
        let cells = 4 + memory;
        let budget = cells + 4 + 4 * count_at(&base, cells) as usize;
        for place in [0, cells, budget] {
            files.extend(wrong_counts(count_at(&base, place)).map(|count| with_count(&base, place, count)));
        }
    }
    files.extend(sizes());
    // The greatest memory sum.
    files.push(image(&[0xFF; MEMORY], &[], Some(0)));
    files.into_iter().map(stopped).collect()
}

/// Files whose sections have the sizes around the limits, and are otherwise whole.
fn sizes() -> impl Iterator<Item = Vec<u8>> {
    let memories = [0, 1, MEMORY - 1, MEMORY, MEMORY + 1, 2 * MEMORY];
    let stacks = [0, 1, 63, 64, 65, 128];
    let budgets = [None, Some(0), Some(1), Some(999_999), Some(1_000_000), Some(1_000_001), Some(u32::MAX)];
    memories.into_iter().flat_map(move |memory| {
        stacks.into_iter().flat_map(move |cells| {
            budgets.into_iter().map(move |budget| image(&vec![0x3D; memory], &vec![7; cells], budget))
        })
    })
}

fn wrong_counts(count: u32) -> impl Iterator<Item = u32> {
    let huge = [0x4000_0000, 0x4000_0001, 0x8000_0000, 0xC000_0001, u32::MAX, 65, 32_769, 0];
    [count.wrapping_sub(1), count + 1, count + 2, count | 0x4000_0000, count | 0x8000_0000].into_iter().chain(huge)
}

fn count_at(file: &[u8], place: usize) -> u32 {
    file[place..place + 4].iter().fold(0, |count, &byte| count << 8 | u32::from(byte))
}

fn with_count(file: &[u8], place: usize, count: u32) -> Vec<u8> {
    let mut file = file.to_vec();
    file[place..place + 4].copy_from_slice(&count.to_be_bytes());
    file
}

/// One random injury to a good file.
pub fn damaged(random: &mut Random, mut file: Vec<u8>) -> Vec<u8> {
    let cells = 4 + count_at(&file, 0) as usize;
    let budget = cells + 4 + 4 * count_at(&file, cells) as usize;
    let place = random.pick(&[0, cells, budget]);
    let count = count_at(&file, place);
    match random.below(6) {
        0 => file.truncate(random.below(file.len())),
        1 => {
            let surplus = random.between(1, 8);
            file.extend(random.bytes(surplus));
        }
        2 => return with_count(&file, place, count.wrapping_add(random.pick(&[1, u32::MAX]))),
        3 => return with_count(&file, place, count | 1 << random.below(32)),
        4 => return with_count(&file, place, random.u32()),
        _ => {
            let over = random.between(1_000_001, u32::MAX as usize) as u32;
            file.truncate(budget);
            file.extend(1u32.to_be_bytes());
            file.extend(over.to_be_bytes());
        }
    }
    file
}
