//! Frames in a stream: each its length (4 bytes, the lowest first), its bytes and, if there is a secret, its sum (32 bytes).

use crate::network::handshake::Sum;
use hmac::{Hmac, Mac};
use sha2::Sha256;

/// How many bytes stand before a frame's, and how many a sum has.
const HEAD: usize = 4;
const SUM: usize = 32;

/// The sums of the frames that go one way over a connection.
pub(crate) struct Seal {
    /// None without a secret.
    key: Option<Hmac<Sha256>>,
    /// How many frames there were.
    count: u64,
}

/// A frame, and what stands behind it.
pub(crate) type Split<'a> = (&'a [u8], &'a [u8]);

/// Why no frame is read any more.
#[derive(Clone, Copy, PartialEq, Eq, Debug)]
pub(crate) enum BadFrame {
    TooLong,
    Sum,
}

impl Seal {
    pub fn new(key: Option<Sum>) -> Self {
        let mac = |key: Sum| Hmac::new_from_slice(&key).expect("HMAC takes keys of any length");
        Seal {
            key: key.map(mac),
            count: 0,
        }
    }

    /// The sum of the next frame.
    fn next(&mut self, head: &[u8], body: &[u8]) -> Option<Hmac<Sha256>> {
        let mac = self.key.clone()?;
        let count = self.count.to_le_bytes();
        self.count += 1;
        Some(mac.chain_update(count).chain_update(head).chain_update(body))
    }

    /// Writes a frame, whose bytes are in two parts.
    pub fn write_parts(&mut self, front: &[u8], back: &[u8], out: &mut Vec<u8>) {
        let head = ((front.len() + back.len()) as u32).to_le_bytes();
        out.extend_from_slice(&head);
        let start = out.len();
        out.extend_from_slice(front);
        out.extend_from_slice(back);
        if let Some(mac) = self.next(&head, &out[start..]) {
            out.extend_from_slice(&mac.finalize().into_bytes());
        }
    }

    /// Writes a frame.
    pub fn write(&mut self, body: &[u8], out: &mut Vec<u8>) {
        self.write_parts(&[], body, out);
    }

    /// Reads the frame at the front of some bytes, if it is whole, and what stands behind it.
    pub fn read<'a>(&mut self, bytes: &'a [u8], most: usize) -> Result<Option<Split<'a>>, BadFrame> {
        let Some((head, rest)) = bytes.split_at_checked(HEAD) else {
            return Ok(None);
        };
        let length = u32::from_le_bytes(head.try_into().expect("it has 4")) as usize;
        if length > most {
            return Err(BadFrame::TooLong);
        }
        let sum_length = if self.key.is_some() { SUM } else { 0 };
        if rest.len() < length + sum_length {
            return Ok(None);
        }
        let (body, rest) = rest.split_at(length);
        let (sum, rest) = rest.split_at(sum_length);
        if let Some(mac) = self.next(head, body) {
            // (in constant time)
            mac.verify_slice(sum).map_err(|_| BadFrame::Sum)?;
        }
        Ok(Some((body, rest)))
    }
}

#[cfg(test)]
mod tests {
    use super::*;

    fn written(key: Option<Sum>) -> Vec<u8> {
        let mut bytes = Vec::new();
        let mut seal = Seal::new(key);
        for body in [&b"first"[..], b"", b"third"] {
            seal.write(body, &mut bytes);
        }
        bytes
    }

    fn read_all(key: Option<Sum>, mut bytes: &[u8]) -> Result<Vec<Vec<u8>>, BadFrame> {
        let mut seal = Seal::new(key);
        let mut bodies = Vec::new();
        while let Some((body, rest)) = seal.read(bytes, 100)? {
            bodies.push(body.to_vec());
            bytes = rest;
        }
        Ok(bodies)
    }

    #[test]
    fn frames_read_as_they_were_written() {
        for key in [None, Some([7; 32])] {
            let bytes = written(key);
            let bodies = read_all(key, &bytes).unwrap();
            assert_eq!(bodies, [&b"first"[..], b"", b"third"]);
            assert_eq!(read_all(key, &bytes[..bytes.len() - 1]).unwrap().len(), 2);
        }
    }

    #[test]
    fn each_changed_bit_behind_a_length_is_found() {
        let bytes = written(Some([7; 32]));
        for at in 4..41 {
            let mut other = bytes.clone();
            other[at] ^= 1;
            assert_eq!(read_all(Some([7; 32]), &other), Err(BadFrame::Sum), "{at}");
        }
        assert_eq!(read_all(Some([8; 32]), &bytes), Err(BadFrame::Sum));
    }

    #[test]
    fn a_frame_that_is_repeated_or_left_out_is_found() {
        let key = Some([7; 32]);
        let bytes = written(key);
        let first = 4 + 5 + 32;
        assert_eq!(read_all(key, &bytes[first..]), Err(BadFrame::Sum));
        assert_eq!(read_all(key, &[&bytes[..first], &bytes].concat()), Err(BadFrame::Sum));
    }

    #[test]
    fn a_length_above_the_limit_takes_no_memory() {
        let head = 101u32.to_le_bytes();
        assert_eq!(Seal::new(None).read(&head, 100), Err(BadFrame::TooLong));
        assert_eq!(
            Seal::new(None).read(&u32::MAX.to_le_bytes(), 100),
            Err(BadFrame::TooLong)
        );
    }
}
