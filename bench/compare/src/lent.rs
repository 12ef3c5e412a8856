//! Buffers that are lent to both sides, and how they are compared and printed.

use std::fmt::Write;
use std::ops::{Deref, DerefMut};

/// A number that is compared and printed by its bits.
pub trait Bits: Copy + Default {
    /// What stands on each side of a lent buffer.
    const FENCE: Self;

    fn same(a: &[Self], b: &[Self]) -> bool;
    fn shown(self) -> String;
}

macro_rules! whole_numbers {
    ($($number:ty)*) => {
        $(impl Bits for $number {
            const FENCE: $number = <$number>::MAX / 3;

            fn same(a: &[$number], b: &[$number]) -> bool {
                a == b
            }

            fn shown(self) -> String {
                self.to_string()
            }
        })*
    };
}

whole_numbers!(u8 u16 u32);

impl Bits for f32 {
    const FENCE: f32 = 1.0 / 3.0;

    fn same(a: &[f32], b: &[f32]) -> bool {
        let differing = a.iter().zip(b).fold(0, |all, (x, y)| all | (x.to_bits() ^ y.to_bits()));
        a.len() == b.len() && differing == 0
    }

    fn shown(self) -> String {
        format!("{:08x}", self.to_bits())
    }
}

/// A lent buffer, with numbers on each side of it that no call may touch.
pub struct Lent<T> {
    all: Vec<T>,
}

const FENCE: usize = 8;

impl<T: Bits> Lent<T> {
    pub fn new(held: &[T]) -> Lent<T> {
        let mut lent = Lent { all: Vec::new() };
        lent.put(held.iter().copied());
        lent
    }

    pub fn put(&mut self, held: impl IntoIterator<Item = T>) {
        let fence = [T::FENCE; FENCE];
        self.all.clear();
        self.all.extend(fence);
        self.all.extend(held);
        self.all.extend(fence);
    }

    pub fn resize(&mut self, n: usize) {
        let mut held = self.to_vec();
        held.resize(n, T::default());
        self.put(held);
    }

    pub fn take(&mut self, other: &Lent<T>) {
        self.all.clone_from(&other.all);
    }

    pub fn same(&self, other: &Lent<T>) -> bool {
        T::same(&self.all, &other.all)
    }

    /// Runs of one number are printed as `number*times`.
    pub fn show(&self, name: &str, out: &mut String) {
        write!(out, "  {name}, {}:", self.len()).unwrap();
        for run in self.chunk_by(|a, b| T::same(&[*a], &[*b])) {
            write!(out, " {}", run[0].shown()).unwrap();
            if run.len() > 1 {
                write!(out, "*{}", run.len()).unwrap();
            }
        }
        out.push('\n');
    }

    pub fn show_difference(&self, name: &str, plain: &Lent<T>, out: &mut String) {
        for (n, (a, b)) in self.all.iter().zip(&plain.all).enumerate() {
            if !T::same(&[*a], &[*b]) {
                let at = n as isize - FENCE as isize;
                writeln!(out, "  {name}[{at}]: proved {}, plain {}", a.shown(), b.shown()).unwrap();
            }
        }
    }
}

impl<T> Deref for Lent<T> {
    type Target = [T];

    fn deref(&self) -> &[T] {
        &self.all[FENCE..self.all.len() - FENCE]
    }
}

impl<T> DerefMut for Lent<T> {
    fn deref_mut(&mut self) -> &mut [T] {
        let end = self.all.len() - FENCE;
        &mut self.all[FENCE..end]
    }
}
