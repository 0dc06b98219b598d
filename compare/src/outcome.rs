//! What a call leaves behind: every number of its result, and every place of every buffer lent to it.

/// Numbers in the order of `include/period.h`; buffers in the order they are lent, whole.
#[derive(Clone, PartialEq, Eq)]
pub struct Outcome {
    pub numbers: Vec<u64>,
    pub buffers: Vec<Vec<u64>>,
}

/// What lies in place k of a buffer before a call. Neighbours differ, so that a value moved by a place is seen.
pub fn pattern(k: usize) -> u64 {
    0xa5c3_9600_5a3c_6901u64.wrapping_mul(k as u64 + 1)
}

/// Whole numbers of a fixed width, as buffers hold them.
pub trait Width: Copy {
    fn cut(value: u64) -> Self;
    fn wide(self) -> u64;
}

macro_rules! width {
    ($($kind:ty)*) => {$(
        impl Width for $kind {
            fn cut(value: u64) -> $kind {
                value as $kind
            }
            fn wide(self) -> u64 {
                self as u64
            }
        }
    )*};
}

width!(u8 u16 u32 u64);

/// A buffer of this length, filled with the pattern.
pub fn filled<T: Width>(length: usize) -> Vec<T> {
    (0..length).map(|k| T::cut(pattern(k))).collect()
}

/// What a buffer holds after a call.
pub fn seen<T: Width>(buffer: &[T]) -> Vec<u64> {
    buffer.iter().map(|value| value.wide()).collect()
}

/// What a buffer of type T must hold once these values are in its lowest places.
pub fn wanted<T: Width>(length: usize, values: &[u64]) -> Vec<u64> {
    let mut buffer = seen(&filled::<T>(length));
    buffer[..values.len()].copy_from_slice(values);
    buffer
}
