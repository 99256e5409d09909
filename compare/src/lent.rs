//! What is lent to the library in this process: each slice between guards, with all of it as it was, so that what must not change can be
//! looked at afterwards, byte for byte.

/// What stands on either side of what is lent, and in outputs before they are written; and whether two are the same in every bit.
pub trait Filling: Copy {
    fn filling(place: usize) -> Self;
    fn same(self, other: Self) -> bool;
}

fn word(place: usize) -> u64 {
    0xa5c3_96e1_d2b4_785a_u64.rotate_left(7 * place as u32 % 64) ^ place as u64
}

macro_rules! filled {
    ($($type:ty),*) => {
        $(impl Filling for $type {
            fn filling(place: usize) -> Self {
                word(place) as $type
            }

            fn same(self, other: Self) -> bool {
                self == other
            }
        })*
    };
}

filled!(u8, u16, i32, u64);

impl Filling for f64 {
    fn filling(place: usize) -> Self {
        word(place) as f64
    }

    fn same(self, other: Self) -> bool {
        self.to_bits() == other.to_bits()
    }
}

const GUARD: usize = 8;

/// A slice that is lent, between guards, and all of it as it was.
pub struct Lent<T> {
    all: Vec<T>,
    was: Vec<T>,
}

impl<T: Filling> Lent<T> {
    pub fn of(content: impl IntoIterator<Item = T>) -> Self {
        let mut all: Vec<T> = (0..GUARD).map(T::filling).collect();
        all.extend(content);
        all.extend((0..GUARD).map(T::filling));
        Self { was: all.clone(), all }
    }

    /// An output, full of something.
    pub fn output(length: u64) -> Self {
        Self::of((0..length as usize).map(|place| T::filling(place + 1)))
    }

    pub fn len(&self) -> usize {
        self.all.len() - 2 * GUARD
    }

    pub fn read(&self) -> &[T] {
        &self.all[GUARD..GUARD + self.len()]
    }

    pub fn write(&mut self) -> &mut [T] {
        let length = self.len();
        &mut self.all[GUARD..GUARD + length]
    }

    /// Whether nothing but so many values from its start on changed.
    fn stayed_past(&self, content: usize) -> bool {
        let same = |from: usize, to: usize| self.all[from..to].iter().zip(&self.was[from..to]).all(|(a, b)| a.same(*b));
        same(0, GUARD) && same(GUARD + content, self.all.len())
    }
}

/// What was changed that must not be, by name.
#[derive(Default)]
pub struct Seen(pub Vec<&'static str>);

impl Seen {
    /// The answer, with what was seen behind it.
    pub fn told(self, answer: String) -> String {
        match self.0[..] {
            [] => answer,
            _ => format!("{answer}, but what must not change did: {}", self.0.join(", ")),
        }
    }

    pub fn past<T: Filling>(&mut self, name: &'static str, lent: &Lent<T>, content: usize) {
        if !lent.stayed_past(content) {
            self.0.push(name);
        }
    }

    pub fn read<T: Filling>(&mut self, name: &'static str, lent: &Lent<T>) {
        self.past(name, lent, 0);
    }

    /// All of it may have changed, or nothing.
    pub fn written<T: Filling>(&mut self, name: &'static str, lent: &Lent<T>, changed: bool) {
        self.past(name, lent, if changed { lent.len() } else { 0 });
    }
}
