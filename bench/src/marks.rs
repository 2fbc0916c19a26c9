//! The classes as the plain baselines have them, and the marks between them: a table with a cell for each two classes.
use crate::terms::LOTS;

/// The class of each lot, known by its smallest. There is an entry for each value of a byte, so that no index needs a check of its bounds; those of lots 0
/// to 128 are used.
pub type ClassOf = [u8; 256];

/// Each lot in a class of its own.
pub fn separate() -> ClassOf {
    std::array::from_fn(|lot| lot as u8)
}

/// Two classes become one: every lot of both gets the smaller of the two numbers.
#[inline]
pub fn join(classes: &mut ClassOf, x: u8, y: u8) {
    for class in &mut classes[..LOTS] {
        *class = if *class == x || *class == y { x.min(y) } else { *class };
    }
}

pub struct Marks(Box<[bool; LOTS * LOTS]>);

fn cell(x: u8, y: u8) -> usize {
    LOTS * usize::from(x) + usize::from(y)
}

impl Marks {
    pub fn new() -> Marks {
        Marks(Box::new([false; LOTS * LOTS]))
    }

    /// Whether two classes are marked apart.
    #[inline]
    pub fn between(&self, x: u8, y: u8) -> bool {
        self.0[cell(x, y)]
    }

    /// Whether a class has a mark.
    #[inline]
    pub fn any(&self, x: u8) -> bool {
        self.0.as_chunks::<LOTS>().0[usize::from(x)].iter().fold(false, |any, &mark| any | mark)
    }

    /// Sets or clears the mark of two classes.
    #[inline]
    pub fn set(&mut self, x: u8, y: u8, value: bool) {
        self.0[cell(x, y)] = value;
        self.0[cell(y, x)] = value;
    }

    /// Sets or clears the marks of the pairs set apart, by the classes of their lots.
    pub fn stamp(&mut self, classes: &ClassOf, apart: impl Iterator<Item = (u8, u8)>, value: bool) {
        for (a, b) in apart {
            self.set(classes[usize::from(a)], classes[usize::from(b)], value);
        }
    }
}
