//! Items of four bytes (RFC 4506), as the plain programs read and write them.

/// Reads items from the front.
pub struct Items<'a>(pub &'a [u8]);

impl<'a> Items<'a> {
    pub fn word(&mut self) -> Option<u32> {
        Some(u32::from_be_bytes(*self.fixed::<4>()?))
    }

    pub fn fixed<const N: usize>(&mut self) -> Option<&'a [u8; N]> {
        let (bytes, rest) = self.0.split_first_chunk::<N>()?;
        self.0 = rest;
        Some(bytes)
    }

    pub fn opaque(&mut self, most: usize) -> Option<&'a [u8]> {
        let len = self.word()? as usize;
        if len > most {
            return None;
        }
        let (padded, rest) = self.0.split_at_checked(len.next_multiple_of(4))?;
        let (bytes, padding) = padded.split_at(len);
        self.0 = rest;
        padding.iter().all(|byte| *byte == 0).then_some(bytes)
    }
}

pub fn put(out: &mut Vec<u8>, words: &[u32]) {
    for word in words {
        out.extend_from_slice(&word.to_be_bytes());
    }
}
