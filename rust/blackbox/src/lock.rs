//! One program at a time writes to an image, and none reads it meanwhile: two would each go on with numbers of their own, and the second would
//! destroy what the first appended. Only programs that ask for the lock are kept out.

use std::fs::File;
use std::io;
use std::os::raw::c_int;
use std::os::unix::io::AsRawFd;
use std::thread::sleep;
use std::time::{Duration, Instant};

extern "C" {
    fn flock(file: c_int, operation: c_int) -> c_int;
}

const NOT_BLOCKING: c_int = 4;
const UNLOCK: c_int = 8;

#[derive(Clone, Copy)]
pub enum Lock {
    ToRead = 1,
    ToWrite = 2,
}

/// Waits five seconds at most. `false`: another program has the file. Where there are no locks none is needed.
pub fn lock(file: &File, lock: Lock) -> bool {
    let end = Instant::now() + Duration::from_secs(5);
    loop {
        if unsafe { flock(file.as_raw_fd(), lock as c_int | NOT_BLOCKING) } == 0 {
            return true;
        }
        match io::Error::last_os_error().kind() {
            io::ErrorKind::WouldBlock | io::ErrorKind::Interrupted if Instant::now() < end => {
                sleep(Duration::from_millis(10))
            }
            io::ErrorKind::WouldBlock | io::ErrorKind::Interrupted => return false,
            _ => return true,
        }
    }
}

pub fn unlock(file: &File) {
    unsafe { flock(file.as_raw_fd(), UNLOCK) };
}
