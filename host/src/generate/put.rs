//! Writing the inputs of docs/REPLAY.md.

#[derive(Clone, Default)]
pub struct Put(pub Vec<u8>);

impl Put {
    pub fn new() -> Self {
        Self::default()
    }

    fn put(mut self, bytes: &[u8]) -> Self {
        self.0.extend_from_slice(bytes);
        self
    }

    pub fn u8(self, n: u8) -> Self {
        self.put(&[n])
    }

    pub fn u16(self, n: u16) -> Self {
        self.put(&n.to_le_bytes())
    }

    pub fn u32(self, n: u32) -> Self {
        self.put(&n.to_le_bytes())
    }

    pub fn u64(self, n: u64) -> Self {
        self.put(&n.to_le_bytes())
    }

    pub fn f32(self, x: f32) -> Self {
        self.put(&x.to_le_bytes())
    }

    pub fn f64(self, x: f64) -> Self {
        self.put(&x.to_le_bytes())
    }

    pub fn raw(self, bytes: &[u8]) -> Self {
        self.put(bytes)
    }

    pub fn bytes(self, bytes: &[u8]) -> Self {
        self.u32(bytes.len() as u32).put(bytes)
    }

    pub fn f32s(self, xs: &[f32]) -> Self {
        let bytes: Vec<u8> = xs.iter().flat_map(|x| x.to_le_bytes()).collect();
        self.u32(xs.len() as u32).put(&bytes)
    }

    pub fn f64s(self, xs: &[f64]) -> Self {
        let bytes: Vec<u8> = xs.iter().flat_map(|x| x.to_le_bytes()).collect();
        self.u32(xs.len() as u32).put(&bytes)
    }

    pub fn u64s(self, xs: &[u64]) -> Self {
        let bytes: Vec<u8> = xs.iter().flat_map(|x| x.to_le_bytes()).collect();
        self.u32(xs.len() as u32).put(&bytes)
    }

    pub fn u32s(self, xs: &[u32]) -> Self {
        let bytes: Vec<u8> = xs.iter().flat_map(|x| x.to_le_bytes()).collect();
        self.u32(xs.len() as u32).put(&bytes)
    }

    pub fn u16s(self, xs: &[u16]) -> Self {
        let bytes: Vec<u8> = xs.iter().flat_map(|x| x.to_le_bytes()).collect();
        self.u32(xs.len() as u32).put(&bytes)
    }

    pub fn bits(self, bits: &[bool]) -> Self {
        let bytes: Vec<u8> = bits.iter().map(|&b| b.into()).collect();
        self.put(&bytes)
    }
}
