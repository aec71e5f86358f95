// What of the kit's std differs from Rust's, as far as the crates use it.
pub mod prelude {
    pub use super::std::alloc::Global;
    pub use super::std::test::HostRuntime;
    pub use super::{CollectIn, Drop, String, ToVecIn, Vec};
}

pub trait Drop {}
impl<T: ?Sized> Drop for T {}

pub struct StdOut;
impl ::std::io::Write for StdOut {
    fn write(&mut self, piece: &[u8]) -> ::std::io::Result<usize> {
        use ::std::os::fd::FromRawFd;
        let mut file = ::std::mem::ManuallyDrop::new(unsafe { ::std::fs::File::from_raw_fd(1) });
        file.write(piece)
    }
    fn flush(&mut self) -> ::std::io::Result<()> {
        Ok(())
    }
}

use self::std::alloc::{AllocError, AllocFailed, Global};
use ::std::ops::{Deref, DerefMut, Index, IndexMut};
use ::std::slice::SliceIndex;
use ::std::vec::Vec as Rust;

pub struct String(::std::string::String);
impl String {
    pub fn new() -> String {
        String(::std::string::String::new())
    }
    pub fn as_str(&self) -> &str {
        &self.0
    }
    pub fn as_bytes(&self) -> &[u8] {
        self.0.as_bytes()
    }
}

#[derive(Clone, Debug, PartialEq, Eq)]
pub struct Vec<T>(pub Rust<T>);

impl<T> Vec<T> {
    pub fn new(_: Global) -> Vec<T> {
        Vec(Rust::new())
    }
    pub fn with_capacity(_: Global, count: usize) -> Result<Vec<T>, AllocError> {
        Ok(Vec(Rust::with_capacity(count)))
    }
    pub fn from_slice(_: Global, items: &[T]) -> Result<Vec<T>, AllocError>
    where
        T: Copy,
    {
        Ok(Vec(items.to_vec()))
    }
    pub fn push(&mut self, value: T) -> Result<(), AllocFailed<T>> {
        self.0.push(value);
        Ok(())
    }
    pub fn insert(&mut self, place: usize, value: T) -> Result<(), AllocFailed<T>> {
        self.0.insert(place, value);
        Ok(())
    }
    #[inline(always)]
    pub fn push_reserved(&mut self, value: T) {
        let len = self.0.len();
        debug_assert!(len < self.0.capacity());
        unsafe {
            self.0.as_mut_ptr().add(len).write(value);
            self.0.set_len(len + 1);
        }
    }
    pub fn extend_from_slice(&mut self, items: &[T]) -> Result<(), AllocError>
    where
        T: Copy,
    {
        Ok(self.0.extend_from_slice(items))
    }
    pub fn resize(&mut self, count: usize, value: T) -> Result<(), AllocError>
    where
        T: Clone,
    {
        self.0.reserve_exact(count.saturating_sub(self.0.len()));
        Ok(self.0.resize(count, value))
    }
    pub fn reserve(&mut self, more: usize) -> Result<(), AllocError> {
        Ok(self.0.reserve(more))
    }
    pub fn reserve_exact(&mut self, more: usize) -> Result<(), AllocError> {
        Ok(self.0.reserve_exact(more))
    }
    pub fn allocator(&self) -> &Global {
        &Global
    }
    pub fn capacity(&self) -> usize {
        self.0.capacity()
    }
    pub fn pop(&mut self) -> Option<T> {
        self.0.pop()
    }
    pub fn truncate(&mut self, count: usize) {
        self.0.truncate(count)
    }
    pub fn clear(&mut self) {
        self.0.clear()
    }
    pub fn as_slice(&self) -> &[T] {
        &self.0
    }
    pub fn as_mut_slice(&mut self) -> &mut [T] {
        &mut self.0
    }
}

impl<T> Deref for Vec<T> {
    type Target = [T];
    fn deref(&self) -> &[T] {
        &self.0
    }
}
impl<T> DerefMut for Vec<T> {
    fn deref_mut(&mut self) -> &mut [T] {
        &mut self.0
    }
}
impl<T, I: SliceIndex<[T]>> Index<I> for Vec<T> {
    type Output = I::Output;
    #[inline(always)]
    fn index(&self, at: I) -> &I::Output {
        // each index was proved
        unsafe { self.0.get_unchecked(at) }
    }
}
impl<T, I: SliceIndex<[T]>> IndexMut<I> for Vec<T> {
    #[inline(always)]
    fn index_mut(&mut self, at: I) -> &mut I::Output {
        unsafe { self.0.get_unchecked_mut(at) }
    }
}
impl<T> IntoIterator for Vec<T> {
    type Item = T;
    type IntoIter = ::std::vec::IntoIter<T>;
    fn into_iter(self) -> Self::IntoIter {
        self.0.into_iter()
    }
}
impl<'a, T> IntoIterator for &'a Vec<T> {
    type Item = &'a T;
    type IntoIter = ::std::slice::Iter<'a, T>;
    fn into_iter(self) -> Self::IntoIter {
        self.0.iter()
    }
}
impl<'a, T> IntoIterator for &'a mut Vec<T> {
    type Item = &'a mut T;
    type IntoIter = ::std::slice::IterMut<'a, T>;
    fn into_iter(self) -> Self::IntoIter {
        self.0.iter_mut()
    }
}

impl ::std::io::Write for Vec<u8> {
    fn write(&mut self, piece: &[u8]) -> ::std::io::Result<usize> {
        self.0.extend_from_slice(piece);
        Ok(piece.len())
    }
    fn flush(&mut self) -> ::std::io::Result<()> {
        Ok(())
    }
}

pub trait ToVecIn<T> {
    fn to_vec_in(&self, alloc: Global) -> Result<Vec<T>, AllocError>;
}
impl<T: Clone> ToVecIn<T> for [T] {
    fn to_vec_in(&self, _: Global) -> Result<Vec<T>, AllocError> {
        Ok(Vec(self.to_vec()))
    }
}

pub trait CollectIn: Iterator + Sized {
    fn collect_in(self, _: Global) -> Result<Vec<Self::Item>, AllocError> {
        Ok(Vec(self.collect()))
    }
}
impl<I: Iterator> CollectIn for I {}

pub mod memchr {
    pub fn memchr(byte: u8, bytes: &[u8]) -> Option<usize> {
        extern "C" {
            fn memchr(bytes: *const u8, byte: i32, len: usize) -> *const u8;
        }
        let found = unsafe { memchr(bytes.as_ptr(), byte as i32, bytes.len()) };
        if found.is_null() { None } else { Some(found as usize - bytes.as_ptr() as usize) }
    }
}

pub mod itoa {
    // A whole number: its size, and whether it is below 0.
    pub trait Integer {
        fn parts(self) -> (u128, bool);
    }
    impl Integer for i128 {
        fn parts(self) -> (u128, bool) {
            (self.unsigned_abs(), self < 0)
        }
    }
    impl Integer for u128 {
        fn parts(self) -> (u128, bool) {
            (self, false)
        }
    }
    pub struct Buffer([u8; 40]);
    impl Buffer {
        pub fn new() -> Buffer {
            Buffer([0; 40])
        }
        pub fn format<I: Integer>(&mut self, number: I) -> &str {
            let mut at = 40;
            let (mut size, is_negative) = number.parts();
            while size > u64::MAX as u128 {
                at -= 1;
                self.0[at] = b'0' + (size % 10) as u8;
                size /= 10;
            }
            let mut size = size as u64;
            loop {
                at -= 1;
                self.0[at] = b'0' + (size % 10) as u8;
                size /= 10;
                if size == 0 {
                    break;
                }
            }
            if is_negative {
                at -= 1;
                self.0[at] = b'-';
            }
            unsafe { ::std::str::from_utf8_unchecked(&self.0[at..]) }
        }
    }
}

pub mod std {
    pub use ::std::{cmp, io, mem};
    // Four numbers at a time, one after another: plain `rustc` has no `std::simd`.
    pub mod simd {
        pub mod prelude {
            use ::std::array::from_fn;
            #[allow(non_camel_case_types)]
            #[derive(Clone, Copy)]
            pub struct i64x4([i64; 4]);
            #[derive(Clone, Copy)]
            pub struct Mask([bool; 4]);
            impl i64x4 {
                pub fn from_slice(numbers: &[i64]) -> i64x4 {
                    i64x4(from_fn(|i| numbers[i]))
                }
                pub fn splat(number: i64) -> i64x4 {
                    i64x4([number; 4])
                }
                pub fn simd_min(self, other: i64x4) -> i64x4 {
                    i64x4(from_fn(|i| self.0[i].min(other.0[i])))
                }
                pub fn simd_lt(self, other: i64x4) -> Mask {
                    Mask(from_fn(|i| self.0[i] < other.0[i]))
                }
                pub fn reduce_min(self) -> i64 {
                    self.0[0].min(self.0[1]).min(self.0[2]).min(self.0[3])
                }
                pub fn copy_to_slice(self, numbers: &mut [i64]) {
                    numbers[..4].copy_from_slice(&self.0);
                }
            }
            impl Mask {
                pub fn select(self, yes: i64x4, no: i64x4) -> i64x4 {
                    i64x4(from_fn(|i| if self.0[i] { yes.0[i] } else { no.0[i] }))
                }
            }
            impl ::std::ops::Sub for i64x4 {
                type Output = i64x4;
                fn sub(self, other: i64x4) -> i64x4 {
                    i64x4(from_fn(|i| self.0[i].wrapping_sub(other.0[i])))
                }
            }
        }
    }
    pub mod test {
        // The runtime of a test, and why one fails.
        pub struct HostRuntime;
        impl HostRuntime {
            pub fn alloc(&self) -> super::alloc::Global {
                super::alloc::Global
            }
        }
        pub struct Fail(pub ::std::string::String);
        impl<E: ::std::fmt::Debug> From<E> for Fail {
            fn from(fault: E) -> Fail {
                Fail(::std::format!("{fault:?}"))
            }
        }
    }
    pub mod alloc {
        #[derive(Clone, Copy, Debug)]
        pub struct Global;
        #[derive(Clone, Copy, Debug)]
        pub struct AllocError;
        #[derive(Clone, Copy, Debug)]
        pub struct AllocFailed<T> {
            pub value: T,
        }
    }
    pub mod error {
        pub trait Error {}
    }
    pub mod rc {
        use super::alloc::{AllocError, AllocFailed, Global};
        use ::std::rc as rust;
        pub struct Rc<T>(rust::Rc<T>);
        impl<T> Rc<T> {
            pub fn new(_: Global, value: T) -> Result<Rc<T>, AllocFailed<T>> {
                Ok(Rc(rust::Rc::new(value)))
            }
            pub fn clone(&self) -> Result<Rc<T>, AllocError> {
                Ok(Rc(self.0.clone()))
            }
        }
        impl<T> ::std::ops::Deref for Rc<T> {
            type Target = T;
            fn deref(&self) -> &T {
                &self.0
            }
        }
    }
    pub mod convert {
        pub trait AsStr {
            fn as_str(&self) -> &str;
        }
    }
    pub mod fmt {
        pub use ::std::fmt::{Debug, Error, Result, Write};
        pub struct Formatter<'a, W: Write>(&'a mut W);
        impl<'a, W: Write> Formatter<'a, W> {
            pub fn write_str(&mut self, text: &str) -> Result {
                self.0.write_str(text)
            }
            pub fn write_fmt(&mut self, text: ::std::fmt::Arguments<'_>) -> Result {
                self.0.write_fmt(text)
            }
        }
        pub trait Display {
            fn fmt<W: Write>(&self, f: &mut Formatter<W>) -> Result;
        }
    }
    pub mod collections {
        use super::alloc::{AllocError, AllocFailed, Global};
        use ::std::collections as rust;
        pub struct VecDeque<T>(rust::VecDeque<T>);
        impl<T> VecDeque<T> {
            pub fn new(_: Global) -> VecDeque<T> {
                VecDeque(rust::VecDeque::new())
            }
            pub fn with_capacity(_: Global, count: usize) -> Result<VecDeque<T>, AllocError> {
                Ok(VecDeque(rust::VecDeque::with_capacity(count)))
            }
            pub fn push_back(&mut self, value: T) -> Result<(), AllocFailed<T>> {
                Ok(self.0.push_back(value))
            }
            pub fn push_back_reserved(&mut self, value: T) {
                self.0.push_back(value)
            }
        }
        impl<T> ::std::ops::Deref for VecDeque<T> {
            type Target = rust::VecDeque<T>;
            fn deref(&self) -> &rust::VecDeque<T> {
                &self.0
            }
        }
        impl<T> ::std::ops::DerefMut for VecDeque<T> {
            fn deref_mut(&mut self) -> &mut rust::VecDeque<T> {
                &mut self.0
            }
        }
        #[derive(Clone)]
        pub struct HashMap<K, V>(rust::HashMap<K, V>);
        impl<K: Eq + ::std::hash::Hash, V> HashMap<K, V> {
            pub fn new(_: Global) -> HashMap<K, V> {
                HashMap(rust::HashMap::new())
            }
            pub fn insert(&mut self, key: K, value: V) -> Result<Option<V>, AllocError> {
                Ok(self.0.insert(key, value))
            }
        }
        impl<K, V> ::std::ops::Deref for HashMap<K, V> {
            type Target = rust::HashMap<K, V>;
            fn deref(&self) -> &rust::HashMap<K, V> {
                &self.0
            }
        }
        pub struct HashSet<K>(rust::HashSet<K>);
        impl<K: Eq + ::std::hash::Hash> HashSet<K> {
            pub fn new(_: Global) -> HashSet<K> {
                HashSet(rust::HashSet::new())
            }
            pub fn insert(&mut self, key: K) -> Result<bool, AllocError> {
                Ok(self.0.insert(key))
            }
        }
        impl<K> ::std::ops::Deref for HashSet<K> {
            type Target = rust::HashSet<K>;
            fn deref(&self) -> &rust::HashSet<K> {
                &self.0
            }
        }
        pub struct BinaryHeap<T>(rust::BinaryHeap<T>);
        impl<T: Ord> BinaryHeap<T> {
            pub fn new(_: Global) -> BinaryHeap<T> {
                BinaryHeap(rust::BinaryHeap::new())
            }
            pub fn with_capacity(_: Global, count: usize) -> Result<BinaryHeap<T>, AllocError> {
                Ok(BinaryHeap(rust::BinaryHeap::with_capacity(count)))
            }
            pub fn reserve(&mut self, more: usize) -> Result<(), AllocError> {
                Ok(self.0.reserve(more))
            }
            pub fn push(&mut self, value: T) -> Result<(), AllocFailed<T>> {
                Ok(self.0.push(value))
            }
            pub fn push_reserved(&mut self, value: T) {
                self.0.push(value)
            }
        }
        impl<T> ::std::ops::Deref for BinaryHeap<T> {
            type Target = rust::BinaryHeap<T>;
            fn deref(&self) -> &rust::BinaryHeap<T> {
                &self.0
            }
        }
        impl<T> ::std::ops::DerefMut for BinaryHeap<T> {
            fn deref_mut(&mut self) -> &mut rust::BinaryHeap<T> {
                &mut self.0
            }
        }
    }
}

// The macros of the kit that take an allocator.
macro_rules! vec {
    (in $alloc:expr; $($value:expr),+) => {{
        let _: crate::kit::std::alloc::Global = $alloc;
        Ok::<_, crate::kit::std::alloc::AllocError>(crate::kit::prelude::Vec(std::vec![$($value),+]))
    }};
    (in $alloc:expr; $value:expr; $count:expr) => {{
        let mut made = crate::kit::prelude::Vec::new($alloc);
        match made.resize($count, $value) {
            Ok(()) => Ok(made),
            Err(error) => Err(error),
        }
    }};
}
macro_rules! format {
    (in $alloc:expr; $($rest:tt)*) => { Ok::<crate::kit::prelude::String, crate::kit::std::alloc::AllocError>(crate::kit::prelude::String::new()) };
}

// What a test checks; in the kit the runtime comes first.
#[allow(unused_macros)]
macro_rules! test {
    ($is:expr $(,)?) => {
        assert!($is)
    };
    ($is:expr, $($told:tt)+) => {
        assert!($is, $($told)+)
    };
}
#[allow(unused_macros)]
macro_rules! test_eq {
    ($($told:tt)+) => {
        assert_eq!($($told)+)
    };
}
