//! Large parts compared quickly: most of a call's time goes into comparing all that is lent.

use std::alloc::{GlobalAlloc, Layout, System};
use std::arch::x86_64::{_mm512_loadu_si512, _mm512_or_si512, _mm512_test_epi64_mask, _mm512_xor_si512};
use std::sync::LazyLock;

/// What the second implementation keeps begins, if it is large, at a cache line, so that no read of the comparison lies in two.
struct AtALine;

const LINE: usize = 64;

fn at_a_line(layout: Layout) -> Layout {
    if layout.size() >= 512 { layout.align_to(LINE).unwrap_or(layout) } else { layout }
}

// The size decides on the alignment, and `dealloc` is told the size that was asked for. `realloc` is made of the two.
unsafe impl GlobalAlloc for AtALine {
    unsafe fn alloc(&self, layout: Layout) -> *mut u8 {
        unsafe { System.alloc(at_a_line(layout)) }
    }

    unsafe fn dealloc(&self, memory: *mut u8, layout: Layout) {
        unsafe { System.dealloc(memory, at_a_line(layout)) }
    }
}

#[global_allocator]
static ALLOCATOR: AtALine = AtALine;

static IS_WIDE: LazyLock<bool> = LazyLock::new(|| is_x86_feature_detected!("avx512f"));

/// Whether two parts hold the same bytes.
pub fn same(one: &[u8], other: &[u8]) -> bool {
    if one.len() != other.len() {
        return false;
    }
    if !*IS_WIDE {
        return if one.len() < 1024 { same_words(one, other) } else { one == other };
    }
    // What is left behind the last whole block is compared as the block that ends where the part does.
    let (blocks, _) = one.as_chunks::<LINE>();
    let (other_blocks, _) = other.as_chunks::<LINE>();
    match (one.last_chunk::<LINE>(), other.last_chunk::<LINE>()) {
        // The processor has these instructions.
        (Some(last), Some(other_last)) => unsafe { same_blocks(blocks, other_blocks, last, other_last) },
        _ => same_words(one, other),
    }
}

/// The same of few bytes, eight at a time: the C library is slow where they end with their page.
fn same_words(one: &[u8], other: &[u8]) -> bool {
    let (words, _) = one.as_chunks::<8>();
    let (other_words, _) = other.as_chunks::<8>();
    match (one.last_chunk::<8>(), other.last_chunk::<8>()) {
        (Some(last), Some(other_last)) => last == other_last && words.iter().zip(other_words).all(|(a, b)| a == b),
        _ => one.iter().zip(other).all(|(a, b)| a == b),
    }
}

#[target_feature(enable = "avx512f")]
fn same_blocks(one: &[[u8; LINE]], other: &[[u8; LINE]], last: &[u8; LINE], other_last: &[u8; LINE]) -> bool {
    // A block has as many bytes as are loaded.
    let differ = |a: &[u8; LINE], b: &[u8; LINE]| unsafe { _mm512_xor_si512(_mm512_loadu_si512(a.as_ptr().cast()), _mm512_loadu_si512(b.as_ptr().cast())) };
    let mut different = differ(last, other_last);
    for (a, b) in one.iter().zip(other) {
        different = _mm512_or_si512(different, differ(a, b));
    }
    _mm512_test_epi64_mask(different, different) == 0
}

/// The bytes of words.
pub fn bytes(words: &[u64]) -> &[u8] {
    // A word is eight bytes of any value.
    unsafe { std::slice::from_raw_parts(words.as_ptr().cast(), size_of_val(words)) }
}

/// Before anything is compared: one byte that differs, at each place of parts of each kind of length, is seen, and no other.
pub fn tried() -> bool {
    let lengths = (0..=140).chain([599, 600, 601, 800, 839, 840, 841, 1023, 1024, 16383, 16384, 16385]);
    lengths.into_iter().all(|length| {
        let one = vec![7; length];
        let mut other = one.clone();
        same(&one, &other)
            && (0..length).all(|at| {
                other[at] ^= 1 << (at % 8);
                let seen = !same(&one, &other);
                other[at] = one[at];
                seen
            })
            && !same(&one, &vec![7; length + 1])
    })
}
