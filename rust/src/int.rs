//! The types of bitmaps. They only limit the numbers of rows and classes: the archive has bitmaps of its own.

mod private {
    pub trait Sealed {}
}

/// An integer type. A bitmap of it has room for `BITS` rows or classes.
pub trait BinInteger: Copy + Send + Sync + 'static + private::Sealed {
    /// The number of bits.
    const BITS: u32;
}

macro_rules! bitmaps {
    ($($integer:ty)*) => {
        $(
            impl private::Sealed for $integer {}
            impl BinInteger for $integer {
                const BITS: u32 = <$integer>::BITS;
            }
        )*
    };
}
bitmaps!(i8 i16 i32 i64 i128 isize u8 u16 u32 u64 u128 usize);
