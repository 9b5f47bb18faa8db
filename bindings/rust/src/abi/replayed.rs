/// What a replay of a script returns.
#[repr(C)]
pub struct Replayed {
    pub code: u64,
    pub length: u64,
}
