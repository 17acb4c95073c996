//! The kinds of heaps that the archive has, and which numbers of rows and classes each serves. `include/rlsf.h` says what the exported functions
//! do, and what their callers owe.

mod private {
    pub trait Sealed {}
}

/// The exported functions of a kind. Each takes the heap's handle first. An address is a number, and 0 is no address.
pub struct Calls {
    pub size: unsafe extern "C" fn() -> usize,
    pub pool_size: unsafe extern "C" fn(usize, usize) -> usize,
    pub init: unsafe extern "C" fn(*mut u8, *mut u8, usize, usize),
    pub add: unsafe extern "C" fn(*mut u8, usize, usize) -> usize,
    pub append: unsafe extern "C" fn(*mut u8, usize, usize) -> usize,
    pub malloc: unsafe extern "C" fn(*mut u8, usize) -> usize,
    pub allocate: unsafe extern "C" fn(*mut u8, usize, usize) -> usize,
    pub reallocate_aligned: unsafe extern "C" fn(*mut u8, usize, usize, usize) -> usize,
    pub free: unsafe extern "C" fn(*mut u8, usize),
    pub usable: unsafe extern "C" fn(*mut u8, usize) -> usize,
    pub list: unsafe extern "C" fn(*mut u8, usize, usize, usize, *mut usize, usize) -> usize,
}

/// A kind of heaps of the archive.
pub trait Kind: private::Sealed + 'static {
    /// How many first-level rows its heaps have.
    const ROWS: usize;
    /// The words of a handle. They hold no address of the handle, so it may be moved between two calls.
    type Handle: Copy + Send + Sync + 'static;
    /// The handle before its heap begins.
    const EMPTY: Self::Handle;
    /// Its exported functions.
    const CALLS: Calls;
}

/// The words of a handle, at a multiple of 8.
#[derive(Clone, Copy)]
pub struct Words<const LEN: usize>(#[allow(dead_code)] [usize; LEN]);

macro_rules! kind {
    ($(#[$doc:meta])* $kind:ident = $name:literal: $rows:literal rows of $classes:literal) => {
        $(#[$doc])*
        pub enum $kind {}
        const _: () = {
            unsafe extern "C" {
                #[link_name = concat!("rlsf_", $name, "_size")]
                fn size() -> usize;
                #[link_name = concat!("rlsf_", $name, "_pool_size")]
                fn pool_size(size: usize, align: usize) -> usize;
                #[link_name = concat!("rlsf_", $name, "_init")]
                fn init(heap: *mut u8, block: *mut u8, start: usize, len: usize);
                #[link_name = concat!("rlsf_", $name, "_add")]
                fn add(heap: *mut u8, start: usize, len: usize) -> usize;
                #[link_name = concat!("rlsf_", $name, "_append")]
                fn append(heap: *mut u8, start: usize, len: usize) -> usize;
                #[link_name = concat!("rlsf_", $name, "_malloc")]
                fn malloc(heap: *mut u8, size: usize) -> usize;
                #[link_name = concat!("rlsf_", $name, "_allocate")]
                fn allocate(heap: *mut u8, size: usize, align: usize) -> usize;
                #[link_name = concat!("rlsf_", $name, "_reallocate_aligned")]
                fn reallocate_aligned(heap: *mut u8, payload: usize, size: usize, align: usize) -> usize;
                #[link_name = concat!("rlsf_", $name, "_free")]
                fn free(heap: *mut u8, payload: usize);
                #[link_name = concat!("rlsf_", $name, "_usable")]
                fn usable(heap: *mut u8, payload: usize) -> usize;
                #[link_name = concat!("rlsf_", $name, "_list")]
                fn list(heap: *mut u8, start: usize, len: usize, from: usize, numbers: *mut usize, room: usize) -> usize;
            }
            impl private::Sealed for $kind {}
            impl Kind for $kind {
                const ROWS: usize = $rows;
                // 7 words, and for each row two words of bits and a word for each class.
                type Handle = Words<{ 7 + $rows * (2 + $classes) }>;
                const EMPTY: Self::Handle = Words([0; 7 + $rows * (2 + $classes)]);
                const CALLS: Calls = Calls { size, pool_size, init, add, append, malloc, allocate, reallocate_aligned, free, usable, list };
            }
        };
    };
}
kind!(
    /// Heaps of 12 rows.
    Small = "small": 12 rows of 16
);
kind!(
    /// Heaps of 64 rows of 8 classes.
    LargeOf8 = "large_8": 64 rows of 8
);
kind!(
    /// Heaps of 64 rows of 32 classes.
    LargeOf32 = "large_32": 64 rows of 32
);
kind!(
    /// Heaps of 64 rows of 64 classes.
    Large = "large": 64 rows of 64
);

/// The numbers of first-level rows and of size classes in each, of a [`Tlsf`](crate::Tlsf).
pub enum Classes<const FLLEN: usize, const SLLEN: usize> {}

/// The archive has heaps of as many classes, and of at least as many rows. Further rows stay empty, since no pool is longer than
/// [`MAX_POOL_SIZE`](crate::Tlsf::MAX_POOL_SIZE).
#[diagnostic::on_unimplemented(
    message = "the proved archive has no heaps with the rows and classes of `{Self}`",
    label = "there are 1 to 12 rows of 16 classes, and 1 to 64 rows of 8, 32 and 64 classes"
)]
pub trait Served: private::Sealed {
    /// The kind of heaps.
    #[doc(hidden)]
    type Kind: Kind;
}

macro_rules! served {
    ($kind:ty, $classes:literal: $($rows:literal)*) => {
        $(
            impl private::Sealed for Classes<$rows, $classes> {}
            impl Served for Classes<$rows, $classes> {
                type Kind = $kind;
            }
        )*
    };
}
macro_rules! served_up_to_64_rows {
    ($($kind:ty, $classes:literal;)*) => {
        $(
            served!($kind, $classes: 1 2 3 4 5 6 7 8 9 10 11 12 13 14 15 16 17 18 19 20 21 22 23 24 25 26 27 28 29 30 31 32);
            served!($kind, $classes: 33 34 35 36 37 38 39 40 41 42 43 44 45 46 47 48 49 50 51 52 53 54 55 56 57 58 59 60 61 62 63 64);
        )*
    };
}
served!(Small, 16: 1 2 3 4 5 6 7 8 9 10 11 12);
served_up_to_64_rows! {
    LargeOf8, 8;
    LargeOf32, 32;
    Large, 64;
}
