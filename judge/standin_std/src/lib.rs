//! Stand-in for std: the rings' memory and its cells, each access of which is a step. A fence is none.
pub use std::{alloc, cell, cmp, fmt, marker, mem};

pub mod sync {
    pub use std::sync::Arc;

    pub mod atomic {
        pub use std::sync::atomic::{AtomicPtr, AtomicUsize, Ordering};

        pub fn fence(_: Ordering) {}
    }
}

pub mod ptr {
    use baton::{rings, shared, Access};
    pub use std::ptr::*;

    pub unsafe fn read_volatile<T>(cell: *const T) -> T {
        shared(|| {
            let (ring, written) = rings::read(cell as usize);
            (cell.read_volatile(), Access::Read { ring, written })
        })
    }

    pub unsafe fn write_volatile<T>(cell: *mut T, value: T) {
        shared(|| {
            rings::write(cell as usize);
            (cell.write_volatile(value), Access::Write)
        })
    }

    pub unsafe fn copy_nonoverlapping<T>(from: *const T, to: *mut T, count: usize) {
        shared(|| {
            rings::write(to as usize);
            (std::ptr::copy_nonoverlapping(from, to, count), Access::Copy)
        })
    }
}

pub mod boxed {
    /// A box whose memory is not freed: a ring's is freed with its session, and nothing else is boxed in one.
    pub struct Box<T: ?Sized>(*mut T);

    impl<T: ?Sized> Box<T> {
        pub fn into_raw(this: Box<T>) -> *mut T {
            this.0
        }

        pub unsafe fn from_raw(raw: *mut T) -> Box<T> {
            Box(raw)
        }
    }

    /// A ring is allocated by collecting its cells.
    impl<T> FromIterator<T> for Box<[T]> {
        fn from_iter<I: IntoIterator<Item = T>>(cells: I) -> Box<[T]> {
            assert_eq!(std::mem::size_of::<T>(), baton::rings::CELL);
            let cells: std::boxed::Box<[T]> = cells.into_iter().collect();
            let capacity = cells.len();
            let cells = std::boxed::Box::into_raw(cells);
            baton::rings::claim(cells.cast(), capacity);
            Box(cells)
        }
    }
}
