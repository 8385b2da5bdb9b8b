//! Prices of several parts side by side. Every lane is below 2^31, and below 2,139,095,040, the bits of the float infinity.

#[cfg(target_arch = "x86_64")]
use std::arch::x86_64::*;

pub trait Lanes: Copy {
    const COUNT: usize;
    /// The first COUNT numbers.
    fn load(from: &[u32]) -> Self;
    fn splat(value: u32) -> Self;
    fn plus(self, other: Self) -> Self;
    fn least(self, other: Self) -> Self;
    /// The sum of the lanes.
    fn sum(self) -> u64;
}

#[derive(Clone, Copy)]
pub struct Plain([u32; 4]);

impl Plain {
    #[inline(always)]
    fn each(self, other: Plain, f: impl Fn(u32, u32) -> u32) -> Plain {
        Plain(std::array::from_fn(|lane| f(self.0[lane], other.0[lane])))
    }

    #[inline(always)]
    pub fn greatest(self, other: Plain) -> Plain {
        self.each(other, |a, b| if (a as i32) < b as i32 { b } else { a })
    }

    /// The value in the lanes of the set, given as bits, and 0 in the others.
    #[inline(always)]
    pub fn shut(set: u32, value: u32) -> Plain {
        Plain(std::array::from_fn(|lane| if set & 1 << lane == 0 { 0 } else { value }))
    }
}

impl Lanes for Plain {
    const COUNT: usize = 4;

    #[inline(always)]
    fn load(from: &[u32]) -> Plain {
        Plain([from[0], from[1], from[2], from[3]])
    }

    #[inline(always)]
    fn splat(value: u32) -> Plain {
        Plain([value; 4])
    }

    #[inline(always)]
    fn plus(self, other: Plain) -> Plain {
        self.each(other, |a, b| a.wrapping_add(b))
    }

    // A signed comparison: the baseline of x86-64 has no unsigned one.
    #[inline(always)]
    fn least(self, other: Plain) -> Plain {
        self.each(other, |a, b| if (a as i32) < b as i32 { a } else { b })
    }

    #[inline(always)]
    fn sum(self) -> u64 {
        self.0.iter().map(|lane| u64::from(*lane)).sum()
    }
}

#[cfg(target_arch = "x86_64")]
#[derive(Clone, Copy)]
pub struct Sse2(__m128i);

#[cfg(target_arch = "x86_64")]
impl Lanes for Sse2 {
    const COUNT: usize = 4;

    #[inline(always)]
    fn load(from: &[u32]) -> Sse2 {
        // SAFETY: every x86-64 machine has SSE2; a slice of 4 is read.
        unsafe { Sse2(_mm_loadu_si128(from[..4].as_ptr().cast())) }
    }

    #[inline(always)]
    fn splat(value: u32) -> Sse2 {
        // SAFETY: every x86-64 machine has SSE2.
        unsafe { Sse2(_mm_set1_epi32(value as i32)) }
    }

    #[inline(always)]
    fn plus(self, other: Sse2) -> Sse2 {
        // SAFETY: every x86-64 machine has SSE2.
        unsafe { Sse2(_mm_add_epi32(self.0, other.0)) }
    }

    // SSE2 has no minimum of 32-bit integers. Read as floats, positive numbers below infinity have the same order.
    #[inline(always)]
    fn least(self, other: Sse2) -> Sse2 {
        // SAFETY: every x86-64 machine has SSE2.
        unsafe { Sse2(_mm_castps_si128(_mm_min_ps(_mm_castsi128_ps(self.0), _mm_castsi128_ps(other.0)))) }
    }

    #[inline(always)]
    fn sum(self) -> u64 {
        // SAFETY: every x86-64 machine has SSE2.
        unsafe {
            let zero = _mm_setzero_si128();
            let pairs = _mm_add_epi64(_mm_unpacklo_epi32(self.0, zero), _mm_unpackhi_epi32(self.0, zero));
            _mm_cvtsi128_si64(_mm_add_epi64(pairs, _mm_unpackhi_epi64(pairs, pairs))) as u64
        }
    }
}

#[cfg(target_arch = "x86_64")]
#[derive(Clone, Copy)]
pub struct Avx2(__m256i);

#[cfg(target_arch = "x86_64")]
impl Lanes for Avx2 {
    const COUNT: usize = 8;

    #[inline(always)]
    fn load(from: &[u32]) -> Avx2 {
        // SAFETY: run only within `walk_avx2`, on machines with AVX2; a slice of 8 is read.
        unsafe { Avx2(_mm256_loadu_si256(from[..8].as_ptr().cast())) }
    }

    #[inline(always)]
    fn splat(value: u32) -> Avx2 {
        // SAFETY: run only within `walk_avx2`, on machines with AVX2.
        unsafe { Avx2(_mm256_set1_epi32(value as i32)) }
    }

    #[inline(always)]
    fn plus(self, other: Avx2) -> Avx2 {
        // SAFETY: run only within `walk_avx2`, on machines with AVX2.
        unsafe { Avx2(_mm256_add_epi32(self.0, other.0)) }
    }

    #[inline(always)]
    fn least(self, other: Avx2) -> Avx2 {
        // SAFETY: run only within `walk_avx2`, on machines with AVX2.
        unsafe { Avx2(_mm256_min_epi32(self.0, other.0)) }
    }

    #[inline(always)]
    fn sum(self) -> u64 {
        // SAFETY: run only within `walk_avx2`, on machines with AVX2.
        unsafe {
            let zero = _mm256_setzero_si256();
            let fours = _mm256_add_epi64(_mm256_unpacklo_epi32(self.0, zero), _mm256_unpackhi_epi32(self.0, zero));
            let pairs = _mm_add_epi64(_mm256_castsi256_si128(fours), _mm256_extracti128_si256::<1>(fours));
            _mm_cvtsi128_si64(_mm_add_epi64(pairs, _mm_unpackhi_epi64(pairs, pairs))) as u64
        }
    }
}
