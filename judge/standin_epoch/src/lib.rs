//! Stand-in for crossbeam_epoch: the ring pointer, each access of which is a step. Pinning is no step and nothing is
//! freed here: a ring is kept to the session's end.
use baton::{shared, Access};
use std::marker::PhantomData;
use std::sync::atomic::{AtomicPtr, Ordering};

pub struct Guard;

pub fn pin() -> Guard {
    Guard
}

pub fn is_pinned() -> bool {
    false
}

pub fn unprotected() -> &'static Guard {
    &Guard
}

impl Guard {
    pub unsafe fn defer_unchecked<R>(&self, _free: impl FnOnce() -> R) {}

    pub fn flush(&self) {}
}

pub struct Atomic<T>(AtomicPtr<T>);

impl<T> Atomic<T> {
    pub fn new(value: T) -> Atomic<T> {
        Atomic(AtomicPtr::new(Box::into_raw(Box::new(value))))
    }

    pub fn load<'g>(&self, _: Ordering, _: &'g Guard) -> Shared<'g, T> {
        shared(|| (Shared(self.0.load(Ordering::SeqCst), PhantomData), Access::LoadRing))
    }

    pub fn swap<'g>(&self, new: Shared<'g, T>, _: Ordering, _: &'g Guard) -> Shared<'g, T> {
        shared(|| (Shared(self.0.swap(new.0, Ordering::SeqCst), PhantomData), Access::SwapRing))
    }
}

pub struct Owned<T>(Box<T>);

impl<T> Owned<T> {
    pub fn new(value: T) -> Owned<T> {
        Owned(Box::new(value))
    }

    pub fn into_shared(self, _: &Guard) -> Shared<'_, T> {
        Shared(Box::into_raw(self.0), PhantomData)
    }

    pub fn into_box(self) -> Box<T> {
        self.0
    }
}

pub struct Shared<'g, T>(*mut T, PhantomData<&'g T>);

impl<'g, T> Shared<'g, T> {
    pub unsafe fn deref(&self) -> &'g T {
        &*self.0
    }

    pub unsafe fn into_owned(self) -> Owned<T> {
        Owned(Box::from_raw(self.0))
    }
}

impl<T> Clone for Shared<'_, T> {
    fn clone(&self) -> Self {
        *self
    }
}

impl<T> Copy for Shared<'_, T> {}

impl<T> PartialEq for Shared<'_, T> {
    fn eq(&self, other: &Self) -> bool {
        self.0 == other.0
    }
}
