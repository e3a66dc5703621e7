//! The exported functions of the static library, and the only unsafe code. `include/vialbluff.h` says the same for C.
//!
//! A slice is a pointer and a length, an array a pointer. The answer is four numbers, or BEST's five: 0 and the values
//! on success, else the refusal's number and its figure.

use calls::{Answer, Best, Planner, Refusal, Size, Timetable};

type Out = [u64; 4];

extern "C" {
    // 0, activities, nodes, variants
    fn vialbluff_read(file: *const u8, file_len: usize, out: *mut Out);

    // 0, bytes written
    fn vialbluff_write(file: *const u8, file_len: usize, variant: u32, area: *mut u8, area_len: usize, out: *mut Out);

    // 0, 1 for yes and 0 for no
    fn vialbluff_check(file: *const u8, file_len: usize, variant: u32, starts: *const Timetable, out: *mut Out);

    // 0, rows
    fn vialbluff_list(file: *const u8, file_len: usize, cap: u32, area: *mut u32, area_len: usize, out: *mut Out);

    // 0, variant, makespan, sessions, shortest sessions
    fn vialbluff_best(file: *const u8, file_len: usize, cap: u32, starts: *mut Timetable, out: *mut [u64; 5]);
}

/// What `out` says after a call.
fn answer<const N: usize>(call: impl FnOnce(&mut [u64; N])) -> Answer<[u64; N]> {
    let mut out = [0; N];
    call(&mut out);
    match out[0] {
        0 => Ok(out),
        number => Err(Refusal { number, figure: out[1] }),
    }
}

/// No plan has so many variants: a greater number is refused alike.
fn narrow(variant: u64) -> u32 {
    u32::try_from(variant).unwrap_or(u32::MAX)
}

/// The proved planner.
pub struct Linked;

// Each pointer comes from a live reference, with its length, for the time of the call; no function keeps one.
impl Planner for Linked {
    fn read(&self, file: &[u8]) -> Answer<Size> {
        let [_, activities, nodes, variants] = answer(|out| unsafe { vialbluff_read(file.as_ptr(), file.len(), out) })?;
        Ok(Size { activities, nodes, variants })
    }

    fn write(&self, file: &[u8], variant: u64, area: &mut [u8]) -> Answer<u64> {
        let [_, bytes, ..] = answer(|out| unsafe {
            vialbluff_write(file.as_ptr(), file.len(), narrow(variant), area.as_mut_ptr(), area.len(), out)
        })?;
        Ok(bytes)
    }

    fn check(&self, file: &[u8], variant: u64, starts: &Timetable) -> Answer<bool> {
        let [_, yes, ..] =
            answer(|out| unsafe { vialbluff_check(file.as_ptr(), file.len(), narrow(variant), starts, out) })?;
        Ok(yes != 0)
    }

    fn list(&self, file: &[u8], cap: u32, area: &mut [u32]) -> Answer<u64> {
        let [_, rows, ..] = answer(|out| unsafe {
            vialbluff_list(file.as_ptr(), file.len(), cap, area.as_mut_ptr(), area.len(), out)
        })?;
        Ok(rows)
    }

    fn best(&self, file: &[u8], cap: u32, starts: &mut Timetable) -> Answer<Best> {
        let [_, variant, makespan, count, shortest] =
            answer(|out| unsafe { vialbluff_best(file.as_ptr(), file.len(), cap, starts, out) })?;
        Ok(Best { variant, makespan, count, shortest })
    }
}
