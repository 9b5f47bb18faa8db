/// The idle readers of a broadcast.
#[derive(Debug, Default)]
pub struct Readers {
    pub readers: Vec<u16>,
    /// The number of writes since they were emptied.
    pub writes: u32,
}
