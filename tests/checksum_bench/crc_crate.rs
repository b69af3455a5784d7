// The crate `crc` as a function for the driver: its ECMA polynomial, reflected, is CRC-64/XZ.
#[no_mangle]
pub unsafe extern "C" fn crate_crc64(bytes: *const u8, count: usize) -> u64 {
    crc::crc64::checksum_ecma(std::slice::from_raw_parts(bytes, count))
}
