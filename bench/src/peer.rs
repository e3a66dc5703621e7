//! The native peers, one for each edition (peer/peer.h).

use planner::{Answer, Best, Refusal, Timetable};

extern "C" {
    fn peer_best(file: *const u8, file_len: usize, cap: u32, starts: *mut Timetable, out: *mut [u64; 5]);
    fn peer_list(file: *const u8, file_len: usize, cap: u32, area: *mut u32, area_len: usize, out: *mut [u64; 4]);
    fn units_best(file: *const u8, file_len: usize, cap: u32, starts: *mut Timetable, out: *mut [u64; 5]);
    fn units_list(file: *const u8, file_len: usize, cap: u32, area: *mut u32, area_len: usize, out: *mut [u64; 4]);
}

fn is_of_units(file: &[u8]) -> bool {
    file.starts_with(b"plan=2\n")
}

fn answer<const N: usize>(out: [u64; N]) -> Answer<[u64; N]> {
    match out[0] {
        0 => Ok(out),
        number => Err(Refusal { number, figure: out[1] }),
    }
}

/// Of an accepted plan's file.
pub fn best(file: &[u8], cap: u32, starts: &mut Timetable) -> Answer<Best> {
    let mut out = [0; 5];
    let call = if is_of_units(file) { units_best } else { peer_best };
    unsafe { call(file.as_ptr(), file.len(), cap, starts, &mut out) };
    answer(out).map(|[_, variant, makespan, count, shortest]| Best { variant, makespan, count, shortest })
}

/// Of an accepted plan's file.
pub fn list(file: &[u8], cap: u32, area: &mut [u32]) -> Answer<u64> {
    let mut out = [0; 4];
    let call = if is_of_units(file) { units_list } else { peer_list };
    unsafe { call(file.as_ptr(), file.len(), cap, area.as_mut_ptr(), area.len(), &mut out) };
    answer(out).map(|[_, rows, ..]| rows)
}
