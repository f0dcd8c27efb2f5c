//! What is measured: prepared once, and done again and again.
use std::time::Instant;

pub struct Work {
    /// Lines, calls or frames of it.
    count: usize,
    once: Box<dyn FnMut() -> Result<(), String>>,
}

impl Work {
    pub fn new(count: usize, once: impl FnMut() -> Result<(), String> + 'static) -> Work {
        Work { count, once: Box::new(once) }
    }

    pub fn once(&mut self) -> Result<(), String> {
        (self.once)()
    }

    /// Nanoseconds a line, call or frame of doing it a second time.
    pub fn nanos(&mut self) -> Result<f64, String> {
        self.once()?;
        let start = Instant::now();
        self.once()?;
        Ok(start.elapsed().as_nanos() as f64 / self.count.max(1) as f64)
    }
}
