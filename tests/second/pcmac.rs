//! PC-MAC-AES in the shape of Algorithms 2.1 to 2.3 of document 001.

use crate::aes::{encrypt, four_rounds, round_keys, Block};
use crate::forms::{left_aligned, KeySet};
use crate::inner::hold;

/// What a doubling adds where the top bit was 1 (document 001, 2.2).
const DOUBLING: Block = 0x87;

/// A chain value, with the steps that were taken to reach it: one is added for each step.
#[derive(Clone, Copy)]
pub struct Walk {
    pub s: Block,
    pub whole: u64,
    pub four: u64,
}

/// mul2(x) of document 001, 2.2.
pub fn mul2(x: Block) -> Block {
    (x << 1) ^ if x >> 127 == 1 { DOUBLING } else { 0 }
}

/// cut of document 001, 2.2, left in its place: the first bits as they are, zeros where the others were.
pub fn cut(bits: u32, x: Block) -> Block {
    x & !Block::MAX.checked_shr(bits).unwrap_or(0)
}

/// pad(x) of document 001, 2.2, for whole bytes.
pub fn pad(last: &[u8]) -> Block {
    if last.len() == 16 {
        left_aligned(last)
    } else {
        left_aligned(last) ^ (0x80 << (120 - 8 * last.len()))
    }
}

/// Algorithm 2.1, KEYSCH(d, K, L), with the masks that Algorithm 2.2 uses, and the number of whole-cipher steps.
pub fn keysch(d: u8, length: u8, k: Block, l: Block) -> (u64, KeySet) {
    let mut set = KeySet {
        order: d,
        length,
        round_keys: round_keys(k),
        ..KeySet::default()
    };
    let d = usize::from(d);
    let mut steps = 0;
    let mut e = |counter: usize| {
        steps += 1;
        encrypt(&set.round_keys, l ^ counter as u128)
    };
    for i in 1..=d {
        set.u[i - 1] = [e(3 * (i - 1)), e(3 * (i - 1) + 1), e(3 * (i - 1) + 2)];
    }
    for j in 1..d {
        set.x[j - 1] = e(3 * d + j - 1);
    }
    set.doubled = mul2(l);
    set.twice_doubled = mul2(mul2(l));
    hold(steps == 4 * d as u64 - 1, || {
        format!("{steps} steps of the key call at order {d}")
    });
    (steps, set)
}

/// Partition M into M_1 .. M_m: the blocks before the last, and the last with its 1 to 16 bytes.
pub fn partition(message: &[u8]) -> (Vec<Block>, &[u8]) {
    let cut = (message.len() - 1) / 16 * 16;
    let (before, last) = message.split_at(cut);
    (before.chunks_exact(16).map(left_aligned).collect(), last)
}

/// The loop of Algorithm 2.2 over blocks of which the first is M_first; Algorithm 2.2 itself begins with M_1 and zero.
pub fn chain(keys: &KeySet, first: u64, start: Walk, blocks: &[Block]) -> Walk {
    let d = u64::from(keys.order);
    (first..).zip(blocks).fold(start, |Walk { s, whole, four }, (i, m)| {
        let w = ((i - 1) % (d + 1)) as usize;
        match w {
            0 => Walk {
                s: encrypt(&keys.round_keys, s ^ m),
                whole: whole + 1,
                four,
            },
            1 => Walk {
                s: four_rounds(&keys.u[0], s ^ m),
                whole,
                four: four + 1,
            },
            _ => Walk {
                s: four_rounds(&keys.u[w - 1], s ^ keys.x[w - 2] ^ m),
                whole,
                four: four + 1,
            },
        }
    })
}

/// The end of Algorithm 2.2: pad, mask, E and cut. The tag stands in the first bits of the walk's value.
pub fn finish(keys: &KeySet, walk: Walk, last: &[u8]) -> Walk {
    let mask = if last.len() == 16 {
        keys.doubled
    } else {
        keys.twice_doubled
    };
    let h = walk.s ^ pad(last) ^ mask;
    let tag = cut(keys.length.into(), encrypt(&keys.round_keys, h));
    Walk {
        s: tag,
        whole: walk.whole + 1,
        ..walk
    }
}

/// Algorithm 2.2, TAGGEN, over a message of at least one byte.
pub fn taggen(keys: &KeySet, message: &[u8]) -> Walk {
    let (before, last) = partition(message);
    let walk = chain(
        keys,
        1,
        Walk {
            s: 0,
            whole: 0,
            four: 0,
        },
        &before,
    );
    let formula = absorbed_steps(message.len() as u64, keys.order);
    hold((walk.whole, walk.four) == formula, || {
        format!("the steps over {} bytes", message.len())
    });
    finish(keys, walk, last)
}

/// Algorithm 2.3, TAGVER, from TAGGEN's tag on: the stated bits of what was received, its first ones, are those of the
/// tag, and the spare bits behind them are zero (item 4 of the requests, in place of the outline's rule).
pub fn same_tag(keys: &KeySet, tag: Block, received: &[u8]) -> bool {
    let received = left_aligned(received);
    let stated = cut(keys.length.into(), received);
    stated == tag && received == stated
}

/// The outline's closed formulas, for the blocks before the last: ceil((m-1)/(d+1)) whole-cipher steps, and four-round
/// steps for the others. Up to sixteen bytes there is no such block.
pub fn absorbed_steps(total: u64, order: u8) -> (u64, u64) {
    let before = total.saturating_sub(1) / 16;
    let whole = before.div_ceil(u64::from(order) + 1);
    (whole, before - whole)
}

/// The outline's figures to check by hand.
pub fn hold_to_outline_figures() {
    let steps = [
        (1, 1, 1, 0),
        (1, 16, 1, 0),
        (1, 17, 2, 0),
        (1, 33, 2, 1),
        (2, 112, 3, 4),
        (2, 113, 4, 4),
    ];
    let more = [(5, 97, 2, 5), (5, 113, 3, 5), (5, 1_048_576, 10_924, 54_612)];
    for (order, bytes, whole, four) in steps.into_iter().chain(more) {
        let (absorbed, others) = absorbed_steps(bytes, order);
        hold((absorbed + 1, others) == (whole, four), || {
            format!("the figure for order {order}, {bytes} bytes")
        });
    }
    let doublings = [(1 << 127, 0x87), (0x87, 0x10E), (Block::MAX, Block::MAX - 0x86)];
    for (x, twice) in doublings {
        hold(mul2(x) == twice, || format!("the double of {x:032X}"));
    }
}
