//! A plain SHA-1 hasher, for the measurement with detection off. The compression is oracle/sha1.rs.

pub struct Plain {
    words: [u32; 5],
    pending: [u8; 64],
    fill: usize,
    blocks: u64,
}

impl Plain {
    pub fn new() -> Plain {
        let words = [0x67452301, 0xEFCDAB89, 0x98BADCFE, 0x10325476, 0xC3D2E1F0];
        Plain { words, pending: [0; 64], fill: 0, blocks: 0 }
    }

    pub fn update(&mut self, bytes: &[u8]) {
        let mut bytes = bytes;
        if self.fill > 0 {
            let n = bytes.len().min(64 - self.fill);
            self.pending[self.fill..self.fill + n].copy_from_slice(&bytes[..n]);
            self.fill += n;
            bytes = &bytes[n..];
            if self.fill < 64 {
                return;
            }
            sha1::compress(&mut self.words, &[self.pending]);
            self.blocks += 1;
        }
        let (blocks, rest) = bytes.as_chunks::<64>();
        sha1::compress(&mut self.words, blocks);
        self.blocks += blocks.len() as u64;
        self.pending[..rest.len()].copy_from_slice(rest);
        self.fill = rest.len();
    }

    pub fn finish(mut self) -> [u8; 20] {
        let bits = (self.blocks * 64 + self.fill as u64) * 8;
        let zeros = if self.fill < 56 { 55 - self.fill } else { 119 - self.fill };
        let mut tail = [0; 72];
        tail[0] = 0x80;
        tail[1 + zeros..9 + zeros].copy_from_slice(&bits.to_be_bytes());
        self.update(&tail[..9 + zeros]);
        let mut digest = [0; 20];
        digest.chunks_exact_mut(4).zip(self.words).for_each(|(d, w)| d.copy_from_slice(&w.to_be_bytes()));
        digest
    }
}
