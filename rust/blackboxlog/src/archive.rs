//! The archive's functions, safe: slices in, results out. Every one of them takes any slice and any numbers; none keeps what it is lent.

use crate::sys::{self, code, kind, step, Handle, Reply, Stepped, PLAN_WORDS, STEP_WORDS};
use crate::Error;

pub type Plan = [u64; PLAN_WORDS];

fn checked(reply: Reply) -> Result<Reply, Error> {
    if reply.code == code::OK {
        Ok(reply)
    } else {
        Err(Error::of(&reply))
    }
}

pub fn crc64(bytes: &[u8]) -> u64 {
    unsafe { sys::bbl_crc64(bytes.as_ptr(), bytes.len()) }
}

pub fn open(medium: &[u8]) -> Result<Handle, Error> {
    Ok(checked(unsafe { sys::bbl_open(medium.as_ptr(), medium.len()) })?.handle)
}

pub fn plan_setup(medium: &[u8], plan: &mut Plan) -> Result<Reply, Error> {
    checked(unsafe { sys::bbl_plan_setup(medium.as_ptr(), medium.len(), plan.as_mut_ptr(), plan.len()) })
}

pub fn plan_append(medium: &[u8], handle: Handle, length: u64, plan: &mut Plan) -> Result<Reply, Error> {
    checked(unsafe {
        sys::bbl_plan_append_of(
            medium.as_ptr(),
            medium.len(),
            handle.live,
            handle.head,
            handle.tail,
            handle.size,
            length,
            plan.as_mut_ptr(),
            plan.len(),
        )
    })
}

pub fn plan_advance(medium: &[u8], handle: Handle, position: u64, plan: &mut Plan) -> Result<Reply, Error> {
    checked(unsafe {
        sys::bbl_plan_advance(medium.as_ptr(), medium.len(), handle, position, plan.as_mut_ptr(), plan.len())
    })
}

/// What a step did, or `None` if it was refused. Where it is a flush nothing is called, and where it is bytes or a number, as it mostly is, what
/// puts them and takes less time than `bbl_step`. Whatever else it is, and a put that put nothing, is left to `bbl_step`: it says whether it is
/// refused.
pub fn carry_out(medium: &mut [u8], plan: &Plan, bytes: &[u8], i: u64) -> Option<Stepped> {
    let six = plan.chunks_exact(STEP_WORDS).nth(usize::try_from(i).ok()?)?;
    let (at, length) = (medium.as_mut_ptr(), medium.len());
    let put = match six[0] {
        kind::FLUSH => return Some(Stepped { code: step::FLUSH, at: 0, length: 0 }),
        kind::BYTES => unsafe { sys::bbl_put_bytes(at, length, six[1], bytes.as_ptr(), bytes.len(), six[2], six[3]) },
        kind::NUMBER => unsafe { sys::bbl_put_number(at, length, six[1], six[2]) },
        _ => 0,
    };
    if put != 0 {
        return Some(Stepped { code: step::PUT, at: six[1], length: put });
    }
    let done = unsafe { sys::bbl_step(at, length, six.as_ptr(), six.len(), bytes.as_ptr(), bytes.len(), 0) };
    if done.code == step::REFUSED {
        None
    } else {
        Some(done)
    }
}

pub fn read(medium: &[u8], handle: Handle, position: u64, out: &mut [u8]) -> Result<(), Error> {
    checked(unsafe { sys::bbl_read(medium.as_ptr(), medium.len(), handle, position, out.as_mut_ptr(), out.len()) })?;
    Ok(())
}

/// The capacity is the number; head and tail are the handle's.
pub fn ask(medium: &[u8], handle: Handle) -> Result<Reply, Error> {
    checked(unsafe { sys::bbl_ask(medium.as_ptr(), medium.len(), handle) })
}

/// The two refusals that need addresses.
pub fn addresses(medium: &[u8], bytes: &[u8]) -> Result<(), Error> {
    aligned_and_apart(medium.as_ptr() as usize, medium.len(), bytes.as_ptr() as usize, bytes.len())
}

fn aligned_and_apart(medium: usize, medium_length: usize, bytes: usize, length: usize) -> Result<(), Error> {
    if medium % 8 != 0 {
        return Err(Error::Misaligned { remainder: (medium % 8) as u64 });
    }
    let overlap = if medium < bytes { bytes - medium < medium_length } else { medium - bytes < length };
    if medium_length != 0 && length != 0 && overlap {
        return Err(Error::Overlap);
    }
    Ok(())
}

#[cfg(test)]
mod tests {
    use super::*;

    #[test]
    fn alignment_and_overlap() {
        assert_eq!(aligned_and_apart(0x1000, 100, 0, 0), Ok(()));
        assert_eq!(aligned_and_apart(0x1004, 100, 0, 0), Err(Error::Misaligned { remainder: 4 }));
        // neighbours, on both sides
        assert_eq!(aligned_and_apart(0x1000, 0x100, 0x1100, 5), Ok(()));
        assert_eq!(aligned_and_apart(0x1000, 0x100, 0x0ffb, 5), Ok(()));
        // one byte in common, on both sides
        assert_eq!(aligned_and_apart(0x1000, 0x100, 0x10ff, 5), Err(Error::Overlap));
        assert_eq!(aligned_and_apart(0x1000, 0x100, 0x0ffc, 5), Err(Error::Overlap));
        // within, around, the same
        assert_eq!(aligned_and_apart(0x1000, 0x100, 0x1010, 5), Err(Error::Overlap));
        assert_eq!(aligned_and_apart(0x1000, 0x100, 0x0f00, 0x1000), Err(Error::Overlap));
        assert_eq!(aligned_and_apart(0x1000, 0x100, 0x1000, 0x100), Err(Error::Overlap));
        // no bytes overlap nothing
        assert_eq!(aligned_and_apart(0x1000, 0x100, 0x1010, 0), Ok(()));
        assert_eq!(aligned_and_apart(0x1000, 0, 0x1000, 5), Ok(()));
        // up to the last address
        assert_eq!(aligned_and_apart(8, usize::MAX - 8, usize::MAX - 4, 4), Err(Error::Overlap));
    }

    /// Any plan, made by `carry_out` and by `bbl_step`: the same answer, and the same medium afterwards.
    #[test]
    fn steps_as_the_archive_makes_them() {
        let mut seed = 88172645463325252u64;
        let mut random = move |below: u64| {
            seed ^= seed << 13;
            seed ^= seed >> 7;
            seed ^= seed << 17;
            seed.wrapping_mul(2685821657736338717) % below
        };
        let mut seen = [0; 3];
        for _ in 0..200_000 {
            let (mut medium, bytes) = ([7; 100], [9; 60]);
            let (length, count) = (random(101), random(61));
            let mut plan: Plan = [0; PLAN_WORDS];
            for k in 0..PLAN_WORDS {
                plan[k] = match k % STEP_WORDS {
                    0 => random(5),
                    3 if random(2) == 0 => plan[k - 1].wrapping_add(random(20)),
                    _ if random(6) == 0 => u64::MAX - random(20),
                    _ => random(110),
                };
            }
            let i = random(10);
            let mut by_step = medium;
            let should = unsafe {
                let (at, words) = (by_step.as_mut_ptr(), plan.len());
                sys::bbl_step(at, length as usize, plan.as_ptr(), words, bytes.as_ptr(), count as usize, i)
            };
            let is = carry_out(&mut medium[..length as usize], &plan, &bytes[..count as usize], i);
            assert_eq!(is.unwrap_or(Stepped { code: step::REFUSED, at: 0, length: 0 }), should);
            assert_eq!(medium, by_step);
            seen[should.code as usize] += 1;
        }
        assert!(seen.iter().all(|&times| times > 1000));
    }
}
