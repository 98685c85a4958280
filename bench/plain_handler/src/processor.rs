//! Work that is compiled twice: for every processor, and for those with 256-bit vectors.

/// Work whose hot functions are all inlined into `run`.
pub trait Work {
    type Output;

    /// Does the work. `WIDE` says that the processor has the vectors of `hex::decode_wide`.
    fn run<const WIDE: bool>(self) -> Self::Output;
}

/// Does the work as quickly as this processor can.
#[inline(always)]
pub fn quickly<W: Work>(work: W) -> W::Output {
    #[cfg(target_arch = "x86_64")]
    if is_wide() {
        // Safety: the processor has all of these.
        return unsafe { run_wide(work) };
    }
    work.run::<false>()
}

/// Tells whether this processor has the vectors and bit instructions of x86-64-v3.
#[cfg(target_arch = "x86_64")]
pub fn is_wide() -> bool {
    is_x86_feature_detected!("avx2")
        && is_x86_feature_detected!("bmi1")
        && is_x86_feature_detected!("bmi2")
        && is_x86_feature_detected!("lzcnt")
}

#[cfg(target_arch = "x86_64")]
#[target_feature(enable = "avx2,bmi1,bmi2,lzcnt")]
#[inline(never)]
fn run_wide<W: Work>(work: W) -> W::Output {
    work.run::<true>()
}
