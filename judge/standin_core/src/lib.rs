//! Stand-in for core: the front and the back, each access of which is a step. (AtomicU64 is the Injector's.)

pub mod sync {
    pub mod atomic {
        use baton::{shared, Access};
        pub use std::sync::atomic::{AtomicU64, Ordering};

        pub struct AtomicI64(std::sync::atomic::AtomicI64);

        impl AtomicI64 {
            pub fn new(value: i64) -> AtomicI64 {
                AtomicI64(std::sync::atomic::AtomicI64::new(value))
            }

            pub fn load(&self, _: Ordering) -> i64 {
                shared(|| (self.0.load(Ordering::SeqCst), Access::Load))
            }

            pub fn store(&self, value: i64, _: Ordering) {
                shared(|| (self.0.store(value, Ordering::SeqCst), Access::Store))
            }

            pub fn fetch_add(&self, more: i64, _: Ordering) -> i64 {
                shared(|| (self.0.fetch_add(more, Ordering::SeqCst), Access::Add))
            }

            pub fn compare_exchange(&self, old: i64, new: i64, _: Ordering, _: Ordering) -> Result<i64, i64> {
                shared(|| {
                    let result = self.0.compare_exchange(old, new, Ordering::SeqCst, Ordering::SeqCst);
                    (result, Access::Exchange { won: result.is_ok() })
                })
            }

            pub fn get_mut(&mut self) -> &mut i64 {
                self.0.get_mut()
            }
        }
    }
}
