//! Stand-in: a mutex over the standard one.

/// A lock that is never poisoned, since nothing here panics while it holds it.
#[derive(Default, Debug)]
pub struct Mutex<T>(std::sync::Mutex<T>);

impl<T> Mutex<T> {
    /// The value, locked.
    pub fn lock(&self) -> std::sync::MutexGuard<'_, T> {
        self.0.lock().unwrap()
    }
}
