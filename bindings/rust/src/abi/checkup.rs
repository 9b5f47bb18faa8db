/// What a check of a script returns.
#[repr(C)]
pub struct Checkup {
    pub code: u64,
    pub channels: u64,
    pub seats: u64,
}
