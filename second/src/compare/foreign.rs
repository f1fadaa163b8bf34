//! The calls under comparison: the proved library's, through a bridge where one is named, and else by the C
//! declarations, as far as this build links it.

use super::bridged;
use crate::layout::Layout;
use crate::list::Listed;
use crate::node::Asked;

pub type ReadCall = fn(&[u8], &mut [i64]) -> (u64, u64);
pub type ResetCall = fn(&[i64], &mut [i64], &mut [i64], &mut [i64]) -> u64;
pub type AdvanceCall = fn(&[i64], &mut [i64], &mut [i64], &mut [i64], u64) -> (u64, u64);
pub type ListCall = fn(&[i64], &mut [i64], &mut [i64], &mut [i64], &mut [u8]) -> Listed;
pub type WriteCall = fn(&[i64], &mut [u8]) -> (u64, u64);
pub type NodeCall = fn(&[i64], &[i64], u64) -> Asked;
/// Three calls in one: each asks something of its own.
pub type LayoutCall = fn(&[i64], Layout) -> (u64, u64);

/// A later call is compared only together with the earlier ones.
#[derive(Clone, Copy)]
pub struct Calls {
    pub read: ReadCall,
    pub reset: Option<ResetCall>,
    pub advance: Option<AdvanceCall>,
    pub list: Option<ListCall>,
    pub write: Option<WriteCall>,
    pub node: Option<NodeCall>,
    pub layout: Option<LayoutCall>,
}

/// The proved calls, or none in a build without the library where no bridge is named.
pub fn proved_calls() -> Option<Calls> {
    if bridged::named() {
        return Some(Calls {
            read: bridged::read,
            reset: Some(bridged::reset),
            advance: Some(bridged::advance),
            list: Some(bridged::list),
            write: Some(bridged::write),
            node: Some(bridged::node),
            layout: Some(bridged::layout),
        });
    }
    #[cfg(feature = "read")]
    return Some(Calls {
        read: linked::read,
        #[cfg(feature = "reset")]
        reset: Some(linked::reset),
        #[cfg(not(feature = "reset"))]
        reset: None,
        #[cfg(feature = "advance")]
        advance: Some(linked::advance),
        #[cfg(not(feature = "advance"))]
        advance: None,
        #[cfg(feature = "list")]
        list: Some(linked::list),
        #[cfg(not(feature = "list"))]
        list: None,
        #[cfg(feature = "write")]
        write: Some(linked::write),
        #[cfg(not(feature = "write"))]
        write: None,
        #[cfg(feature = "node")]
        node: Some(linked::node),
        #[cfg(not(feature = "node"))]
        node: None,
        #[cfg(feature = "layout")]
        layout: Some(linked::layout),
        #[cfg(not(feature = "layout"))]
        layout: None,
    });
    #[cfg(not(feature = "read"))]
    None
}

#[cfg(feature = "read")]
mod linked {
    #[cfg(feature = "layout")]
    use crate::layout::Layout;
    #[cfg(feature = "list")]
    use crate::list::Listed;
    #[cfg(feature = "node")]
    use crate::node::Asked;

    extern "C" {
        fn emt_read(
            text: *const u8,
            text_len: usize,
            network: *mut i64,
            network_len: usize,
            line: *mut u64,
        ) -> u64;
        #[cfg(feature = "reset")]
        fn emt_reset(
            network: *const i64,
            network_len: usize,
            records: *mut i64,
            records_len: usize,
            froms: *mut i64,
            froms_len: usize,
            tos: *mut i64,
            tos_len: usize,
        ) -> u64;
        #[cfg(feature = "advance")]
        fn emt_advance(
            network: *const i64,
            network_len: usize,
            records: *mut i64,
            records_len: usize,
            froms: *mut i64,
            froms_len: usize,
            tos: *mut i64,
            tos_len: usize,
            area: u64,
            place: *mut u64,
        ) -> u64;
        #[cfg(feature = "advance")]
        fn emt_advance_in_tables(
            network: *const i64,
            network_len: usize,
            records: *mut i64,
            records_len: usize,
            froms: *mut i64,
            froms_len: usize,
            tos: *mut i64,
            tos_len: usize,
            area: u64,
            place: *mut u64,
            plan: *mut u64,
            legs: *mut u64,
            factors: *mut u64,
            room: usize,
        ) -> u64;
        #[cfg(feature = "list")]
        fn emt_list(
            network: *const i64,
            network_len: usize,
            records: *mut i64,
            records_len: usize,
            froms: *mut i64,
            froms_len: usize,
            tos: *mut i64,
            tos_len: usize,
            out: *mut u8,
            out_len: usize,
            written: *mut u64,
            area: *mut u64,
            number: *mut u64,
            place: *mut u64,
        ) -> u64;
        #[cfg(feature = "write")]
        fn emt_write(
            network: *const i64,
            network_len: usize,
            out: *mut u8,
            out_len: usize,
            written: *mut u64,
        ) -> u64;
        #[cfg(feature = "node")]
        fn emt_node(
            network: *const i64,
            network_len: usize,
            records: *const i64,
            records_len: usize,
            node: u64,
            voltage: *mut i64,
            peak: *mut u64,
            step: *mut u64,
        ) -> u64;
        #[cfg(feature = "layout")]
        fn emt_areas(network: *const i64, network_len: usize, count: *mut u64) -> u64;
        #[cfg(feature = "layout")]
        fn emt_area(network: *const i64, network_len: usize, node: u64, number: *mut u64) -> u64;
        #[cfg(feature = "layout")]
        fn emt_row(network: *const i64, network_len: usize, branch: u64, place: *mut u64) -> u64;
    }

    /// Answers that no call gives. The first shows a call that leaves its second answer unwritten; the other stands
    /// for the number where an advance in a lent room came to something else than the one without.
    const UNWRITTEN: u64 = 0xDEAD_BEEF_DEAD_BEEF;
    #[cfg(feature = "advance")]
    const TWO_ANSWERS: u64 = 999_999_998;

    pub fn read(text: &[u8], network: &mut [i64]) -> (u64, u64) {
        let mut line = UNWRITTEN;
        // SAFETY: both pairs come from slices, and `line` is one word of our own.
        let number =
            unsafe { emt_read(text.as_ptr(), text.len(), network.as_mut_ptr(), network.len(), &mut line) };
        (number, line)
    }

    #[cfg(feature = "reset")]
    pub fn reset(network: &[i64], records: &mut [i64], froms: &mut [i64], tos: &mut [i64]) -> u64 {
        // SAFETY: every pair comes from a slice, and no two slices overlap.
        unsafe {
            emt_reset(
                network.as_ptr(),
                network.len(),
                records.as_mut_ptr(),
                records.len(),
                froms.as_mut_ptr(),
                froms.len(),
                tos.as_mut_ptr(),
                tos.len(),
            )
        }
    }

    /// Words of a lent room: plan, legs, factors, as the header has them; and of the guards around it.
    #[cfg(feature = "advance")]
    const ROOM: [usize; 3] = [80 * 14, 160 * 9, 32 * 32];
    #[cfg(feature = "advance")]
    const GUARDS: usize = 16;

    /// By emt_advance; and by emt_advance_in on copies, in a room that holds anything, to the same end.
    #[cfg(feature = "advance")]
    pub fn advance(
        network: &[i64],
        records: &mut [i64],
        froms: &mut [i64],
        tos: &mut [i64],
        area: u64,
    ) -> (u64, u64) {
        let mut copies = [records.to_vec(), froms.to_vec(), tos.to_vec()];
        let in_room = advance_in(network, &mut copies, area);
        let told = advance_alone(network, records, froms, tos, area);
        let same = in_room == Some(told) && copies[0] == records && copies[1] == froms && copies[2] == tos;
        if same {
            told
        } else {
            (TWO_ANSWERS, told.1)
        }
    }

    /// None where a word around the room has changed.
    #[cfg(feature = "advance")]
    fn advance_in(network: &[i64], state: &mut [Vec<i64>; 3], area: u64) -> Option<(u64, u64)> {
        let words = ROOM.iter().sum::<usize>() + 2 * GUARDS;
        let seed = state[0].iter().fold(area, |sum, word| sum.rotate_left(7) ^ *word as u64);
        let before: Vec<u64> =
            (1..=words as u64).map(|k| (seed ^ k).wrapping_mul(0x9E37_79B9_7F4A_7C15)).collect();
        let mut room = before.clone();
        let mut place = UNWRITTEN;
        let [records, froms, tos] = state;
        let number = {
            let (plan, rest) = room[GUARDS..].split_at_mut(ROOM[0]);
            let (legs, factors) = rest.split_at_mut(ROOM[1]);
            // SAFETY: every pair comes from a slice, the tables are as long as they are stated, no two overlap.
            unsafe {
                emt_advance_in_tables(
                    network.as_ptr(),
                    network.len(),
                    records.as_mut_ptr(),
                    records.len(),
                    froms.as_mut_ptr(),
                    froms.len(),
                    tos.as_mut_ptr(),
                    tos.len(),
                    area,
                    &mut place,
                    plan.as_mut_ptr(),
                    legs.as_mut_ptr(),
                    factors.as_mut_ptr(),
                    8 * ROOM.iter().sum::<usize>(),
                )
            }
        };
        let end = words - GUARDS;
        let guarded = room[..GUARDS] == before[..GUARDS] && room[end..] == before[end..];
        guarded.then_some((number, place))
    }

    #[cfg(feature = "advance")]
    fn advance_alone(
        network: &[i64],
        records: &mut [i64],
        froms: &mut [i64],
        tos: &mut [i64],
        area: u64,
    ) -> (u64, u64) {
        let mut place = UNWRITTEN;
        // SAFETY: every pair comes from a slice, no two slices overlap, `place` is one word of our own.
        let number = unsafe {
            emt_advance(
                network.as_ptr(),
                network.len(),
                records.as_mut_ptr(),
                records.len(),
                froms.as_mut_ptr(),
                froms.len(),
                tos.as_mut_ptr(),
                tos.len(),
                area,
                &mut place,
            )
        };
        (number, place)
    }

    #[cfg(feature = "list")]
    pub fn list(
        network: &[i64],
        records: &mut [i64],
        froms: &mut [i64],
        tos: &mut [i64],
        out: &mut [u8],
    ) -> Listed {
        let mut written = UNWRITTEN;
        let [mut area, mut refusal, mut place] = [UNWRITTEN; 3];
        // SAFETY: every pair comes from a slice, no two slices overlap, the last four are words of our own.
        let number = unsafe {
            emt_list(
                network.as_ptr(),
                network.len(),
                records.as_mut_ptr(),
                records.len(),
                froms.as_mut_ptr(),
                froms.len(),
                tos.as_mut_ptr(),
                tos.len(),
                out.as_mut_ptr(),
                out.len(),
                &mut written,
                &mut area,
                &mut refusal,
                &mut place,
            )
        };
        Listed { number, written, stop: [area, refusal, place] }
    }

    #[cfg(feature = "write")]
    pub fn write(network: &[i64], out: &mut [u8]) -> (u64, u64) {
        let mut written = UNWRITTEN;
        // SAFETY: both pairs come from slices, and `written` is one word of our own.
        let number =
            unsafe { emt_write(network.as_ptr(), network.len(), out.as_mut_ptr(), out.len(), &mut written) };
        (number, written)
    }

    #[cfg(feature = "node")]
    pub fn node(network: &[i64], records: &[i64], node: u64) -> Asked {
        let mut voltage = UNWRITTEN as i64;
        let [mut peak, mut step] = [UNWRITTEN; 2];
        // SAFETY: both pairs come from slices, and the last three are words of our own.
        let number = unsafe {
            emt_node(
                network.as_ptr(),
                network.len(),
                records.as_ptr(),
                records.len(),
                node,
                &mut voltage,
                &mut peak,
                &mut step,
            )
        };
        Asked { number, voltage, peak, step }
    }

    #[cfg(feature = "layout")]
    pub fn layout(network: &[i64], asked: Layout) -> (u64, u64) {
        let (words, length, mut told) = (network.as_ptr(), network.len(), UNWRITTEN);
        // SAFETY: pointer and length come from a slice, and `told` is one word of our own.
        let number = unsafe {
            match asked {
                Layout::Areas => emt_areas(words, length, &mut told),
                Layout::AreaOf(node) => emt_area(words, length, node, &mut told),
                Layout::RowOf(branch) => emt_row(words, length, branch, &mut told),
            }
        };
        (number, told)
    }
}
