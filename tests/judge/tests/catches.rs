//! The comparison through the pipe: it catches each fault of server.c, and names the smallest case.

use compare::pair::Pair;
use judge::archive::Archive;

fn smallest(fault: u32) -> String {
    let mut archive = Archive::wrong(fault);
    let mut pair = Pair::new(&mut archive);
    pair.same_writes = false;
    pair.sequences(&[1, 2, 3], 3).expect_err("not caught").case.to_string()
}

#[test]
fn a_wrong_room_is_caught() {
    assert_eq!(smallest(1), "1 setup a1");
}

#[test]
fn a_wrong_byte_of_the_medium_is_caught() {
    assert_eq!(smallest(2), "1 setup a0");
}

#[test]
fn a_medium_that_is_no_log_is_caught() {
    let mut archive = Archive::wrong(3);
    assert!(Pair::new(&mut archive).openings().is_err());
}

#[test]
fn a_wrong_byte_of_a_read_is_caught() {
    assert_eq!(smallest(4), "3 setup a2 R");
}

#[test]
fn a_write_that_is_left_out_is_caught() {
    assert_eq!(smallest(5), "1 setup");
}
