/// A record of an account.
#[repr(C)]
#[derive(Debug, Clone, Copy, Default, PartialEq, Eq)]
pub struct Record {
    pub stamp: u64,
    pub serial: u64,
    pub number: u64,
    pub body: u64,
    pub act: u16,
    pub origin: u16,
    pub seat: u16,
    pub maker: u16,
}
