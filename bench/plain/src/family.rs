//! A set of types as words: type j is bit j mod 64 of word j div 64. W is a power of two, 1 to 64. What a round does is always inlined: a set
//! that is stored by words for a call and loaded as vectors costs more than the work on it.

pub type Family<const W: usize> = [u64; W];

pub const fn none<const W: usize>() -> Family<W> {
    [0; W]
}

#[inline(always)]
fn change<const W: usize>(a: &mut Family<W>, b: &Family<W>, f: impl Fn(u64, u64) -> u64) {
    for (x, &y) in a.iter_mut().zip(b) {
        *x = f(*x, y);
    }
}

/// Of `a`, those stay that are in `b`.
#[inline(always)]
pub fn keep<const W: usize>(a: &mut Family<W>, b: &Family<W>) {
    change(a, b, |x, y| x & y)
}

#[inline(always)]
pub fn add<const W: usize>(a: &mut Family<W>, b: &Family<W>) {
    change(a, b, |x, y| x | y)
}

#[inline(always)]
pub fn remove<const W: usize>(a: &mut Family<W>, b: &Family<W>) {
    change(a, b, |x, y| x & !y)
}

#[inline(always)]
pub fn and<const W: usize>(a: &Family<W>, b: &Family<W>) -> Family<W> {
    let mut types = *a;
    keep(&mut types, b);
    types
}

#[inline(always)]
pub fn or<const W: usize>(a: &Family<W>, b: &Family<W>) -> Family<W> {
    let mut types = *a;
    add(&mut types, b);
    types
}

#[inline(always)]
pub fn less<const W: usize>(a: &Family<W>, b: &Family<W>) -> Family<W> {
    let mut types = *a;
    remove(&mut types, b);
    types
}

pub fn not<const W: usize>(a: &Family<W>) -> Family<W> {
    a.map(|x| !x)
}

#[inline(always)]
pub fn is_empty<const W: usize>(a: &Family<W>) -> bool {
    a.iter().fold(0, |all, x| all | x) == 0
}

pub fn has<const W: usize>(a: &Family<W>, t: usize) -> bool {
    a[t / 64] >> (t % 64) & 1 == 1
}

pub fn size<const W: usize>(a: &Family<W>) -> u32 {
    a.iter().map(|x| x.count_ones()).sum()
}

#[inline(always)]
pub fn first<const W: usize>(a: &Family<W>) -> Option<usize> {
    let k = a.iter().position(|&x| x != 0)?;
    Some(k * 64 + a[k].trailing_zeros() as usize)
}

/// The types that have a lean place.
pub fn place<const W: usize>(place: usize) -> Family<W> {
    const PATTERNS: [u64; 6] = [
        0xAAAA_AAAA_AAAA_AAAA,
        0xCCCC_CCCC_CCCC_CCCC,
        0xF0F0_F0F0_F0F0_F0F0,
        0xFF00_FF00_FF00_FF00,
        0xFFFF_0000_FFFF_0000,
        0xFFFF_FFFF_0000_0000,
    ];
    match PATTERNS.get(place) {
        Some(&pattern) => [pattern; W],
        None => std::array::from_fn(|k| ((k >> (place - 6) & 1) as u64).wrapping_neg()),
    }
}

/// The types below 2 to the power of `width`.
pub fn below<const W: usize>(width: usize) -> Family<W> {
    match width {
        0..=5 => {
            let mut low = none();
            low[0] = (1 << (1 << width)) - 1;
            low
        }
        _ => [u64::MAX; W],
    }
}

/// Bit b of word c is set if b has c ones.
const LAYERS: [u64; 7] = layers();

const fn layers() -> [u64; 7] {
    let mut words = [0; 7];
    let mut b = 0u64;
    while b < 64 {
        words[b.count_ones() as usize] |= 1 << b;
        b += 1;
    }
    words
}

/// Writes the members with so many ones, ascending.
pub fn layer<const W: usize>(a: &Family<W>, ones: usize, types: &mut Vec<u16>) {
    for (i, word) in a.iter().enumerate() {
        let high = i.count_ones() as usize;
        if high <= ones && ones - high < LAYERS.len() {
            let mut rest = word & LAYERS[ones - high];
            while rest != 0 {
                types.push((i * 64) as u16 + rest.trailing_zeros() as u16);
                rest &= rest - 1;
            }
        }
    }
}
