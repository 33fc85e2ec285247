//! A key set and a stream, as integers and as the bytes in which a question writes them.

use crate::aes::{Block, RoundKeys};

pub const KEY_SET_BYTES: usize = 514;
pub const STREAM_BYTES: usize = 64;

/// What Algorithm 2.1 makes, with the two parameters and the two masks. K and L themselves are not in it.
#[derive(Clone, Default)]
pub struct KeySet {
    pub order: u8,
    pub length: u8,
    pub round_keys: RoundKeys,
    /// The three parts of U_1 to U_5.
    pub u: [[Block; 3]; 5],
    /// X_1 to X_4, the auxiliary keys.
    pub x: [Block; 4],
    pub doubled: Block,
    pub twice_doubled: Block,
}

impl KeySet {
    pub fn from_bytes(bytes: &[u8]) -> KeySet {
        let mut blocks = bytes[2..].chunks_exact(16).map(left_aligned);
        let mut next = || blocks.next().unwrap_or(0);
        KeySet {
            order: bytes[0],
            length: bytes[1],
            round_keys: std::array::from_fn(|_| next()),
            u: std::array::from_fn(|_| std::array::from_fn(|_| next())),
            x: std::array::from_fn(|_| next()),
            doubled: next(),
            twice_doubled: next(),
        }
    }

    pub fn to_bytes(&self) -> Vec<u8> {
        let masks = [self.doubled, self.twice_doubled];
        let blocks = self
            .round_keys
            .iter()
            .chain(self.u.iter().flatten())
            .chain(&self.x)
            .chain(&masks);
        [self.order, self.length]
            .into_iter()
            .chain(blocks.flat_map(|block| block.to_be_bytes()))
            .collect()
    }
}

/// The outline's stream: the counts are those of the absorbed blocks, without the closing step.
#[derive(Clone, Default)]
pub struct Stream {
    pub total: u64,
    pub chain: Block,
    /// The held bytes from the left, zeros behind them.
    pub held: Block,
    pub count: u64,
    pub whole: u64,
    pub four: u64,
}

impl Stream {
    pub fn from_bytes(bytes: &[u8]) -> Stream {
        let number = |at: usize| {
            bytes[at..at + 8]
                .iter()
                .fold(0, |number, &byte| number << 8 | u64::from(byte))
        };
        Stream {
            total: number(0),
            chain: left_aligned(&bytes[8..24]),
            held: left_aligned(&bytes[24..40]),
            count: number(40),
            whole: number(48),
            four: number(56),
        }
    }

    pub fn to_bytes(&self) -> Vec<u8> {
        let blocks = [self.chain, self.held].into_iter().flat_map(Block::to_be_bytes);
        let counts = [self.count, self.whole, self.four]
            .into_iter()
            .flat_map(u64::to_be_bytes);
        self.total
            .to_be_bytes()
            .into_iter()
            .chain(blocks)
            .chain(counts)
            .collect()
    }
}

/// Up to sixteen bytes as the high end of a block, zeros behind them.
pub fn left_aligned(bytes: &[u8]) -> Block {
    let places = (0..16).map(|i| 120 - 8 * i);
    bytes
        .iter()
        .zip(places)
        .fold(0, |block, (&byte, place)| block | Block::from(byte) << place)
}
