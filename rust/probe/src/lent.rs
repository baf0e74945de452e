//! Slices to lend, with marked places before and after them.

/// How many marked places stand on each side of a slice.
const GUARD: usize = 64;

/// What a place holds before a call.
pub trait Mark: Copy + PartialEq {
    const MARK: Self;
}

impl Mark for u8 {
    const MARK: u8 = 77;
}

impl Mark for i64 {
    const MARK: i64 = 7777;
}

impl Mark for u64 {
    const MARK: u64 = 7777;
}

/// A slice between its guards.
pub struct Lent<T> {
    all: Vec<T>,
}

impl<T: Mark> Lent<T> {
    /// That many marked places.
    pub fn places(len: usize) -> Self {
        Lent { all: vec![T::MARK; len + 2 * GUARD] }
    }

    /// A slice that holds this.
    pub fn holding(content: &[T]) -> Self {
        let mut lent = Self::places(content.len());
        lent.all[GUARD..][..content.len()].copy_from_slice(content);
        lent
    }

    pub fn content(&self) -> &[T] {
        &self.all[GUARD..self.all.len() - GUARD]
    }

    pub fn content_mut(&mut self) -> &mut [T] {
        let end = self.all.len() - GUARD;
        &mut self.all[GUARD..end]
    }

    /// Whether a place from this one on has lost its mark, or one before or after the slice has.
    pub fn touched(&self, from: usize) -> bool {
        let kept = self.content().get(from..).unwrap_or_default();
        self.guards().chain(kept).any(|place| *place != T::MARK)
    }

    /// Whether the slice holds something else than this, or a place before or after it has lost its
    /// mark.
    pub fn altered(&self, content: &[T]) -> bool {
        self.content() != content || self.guards_touched()
    }

    /// Whether a place before or after the slice has lost its mark.
    pub fn guards_touched(&self) -> bool {
        self.guards().any(|place| *place != T::MARK)
    }

    fn guards(&self) -> impl Iterator<Item = &T> {
        self.all[..GUARD].iter().chain(&self.all[self.all.len() - GUARD..])
    }
}

#[cfg(test)]
mod tests {
    use super::*;

    /// Every place that a wrong call could touch is looked at.
    #[test]
    fn every_place_shows() {
        for len in [0, 1, 5] {
            for place in 0..len + 2 * GUARD {
                let mut lent = Lent::<i64>::places(len);
                assert!(!lent.touched(0) && !lent.altered(&vec![7777; len]));
                lent.all[place] += 1;
                assert!(lent.touched(0) && lent.altered(&vec![7777; len]));
                let within = (GUARD..GUARD + len).contains(&place);
                assert_eq!(lent.touched(len), !within);
            }
        }
        let mut lent = Lent::holding(&[1u8, 2, 3]);
        assert!(!lent.altered(&[1, 2, 3]));
        lent.content_mut()[1] = 9;
        assert!(lent.altered(&[1, 2, 3]));
    }
}
