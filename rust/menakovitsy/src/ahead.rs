//! Values that are read ahead, many by a call, and handed out one by one.

/// What reads ahead.
pub(crate) trait Source {
    /// What is handed out.
    type Value: Copy;
    /// Why there is no more of it: a word, so that it comes back in a register.
    type Error;

    /// Reads the next values in place of those that are there. Nothing at the end, and after an error.
    fn read(&mut self, values: &mut Vec<Self::Value>) -> Option<Result<(), Self::Error>>;
}

/// An iterator over what a source reads.
///
/// A loop over it keeps `given` in a register, if the compiler sees that nobody else can change it: that is, if
/// the iterator's address goes into no call. So what the calls need is in a box, and dropping the iterator is one
/// call with that box, small enough to be inlined also where a loop is cleaned up after a panic.
#[derive(Debug, Clone)]
pub(crate) struct Iter<S, T> {
    /// How many of the values that are held were handed out.
    given: usize,
    held: Owned<Held<S, T>>,
}

#[derive(Debug, Clone)]
struct Held<S, T> {
    values: Vec<T>,
    source: S,
}

/// A box that is there until it is dropped.
#[derive(Debug, Clone)]
struct Owned<T>(Option<Box<T>>);

impl<T> Drop for Owned<T> {
    #[inline]
    fn drop(&mut self) {
        if let Some(owned) = self.0.take() {
            free(owned);
        }
    }
}

#[cold]
#[inline(never)]
fn free<T>(owned: Box<T>) {
    drop(owned);
}

#[cold]
#[inline(never)]
fn read<S: Source>(held: &mut Held<S, S::Value>) -> Option<Result<(), S::Error>> {
    let read = held.source.read(&mut held.values);
    if !matches!(read, Some(Ok(()))) {
        held.values.clear();
    }
    read
}

impl<S: Source> Iter<S, S::Value> {
    pub fn new(source: S) -> Self {
        Iter { given: 0, held: Owned(Some(Box::new(Held { values: Vec::new(), source }))) }
    }

    pub fn source(&self) -> Option<&S> {
        self.held.0.as_ref().map(|held| &held.source)
    }

    pub fn into_source(mut self) -> S {
        self.held.0.take().expect("the box is there until the iterator is dropped").source
    }

    /// The values that were read and not handed out.
    #[inline]
    pub fn rest(&self) -> &[S::Value] {
        self.held.0.as_ref().and_then(|held| held.values.get(self.given..)).unwrap_or_default()
    }

    /// Reads the next values, in place of those that are held.
    #[inline]
    pub fn read(&mut self) -> Option<Result<(), S::Error>> {
        self.given = 0;
        read(self.held.0.as_deref_mut()?)
    }
}

impl<S: Source> Iterator for Iter<S, S::Value> {
    type Item = Result<S::Value, S::Error>;

    #[inline]
    fn next(&mut self) -> Option<Self::Item> {
        loop {
            if let Some(value) = self.held.0.as_ref()?.values.get(self.given) {
                self.given += 1;
                return Some(Ok(*value));
            }
            if let Err(error) = self.read()? {
                return Some(Err(error));
            }
        }
    }

    #[inline]
    fn fold<B, F: FnMut(B, Self::Item) -> B>(mut self, start: B, mut f: F) -> B {
        let mut folded = start;
        loop {
            folded = self.rest().iter().fold(folded, |folded, value| f(folded, Ok(*value)));
            match self.read() {
                Some(Ok(())) => {}
                Some(Err(error)) => folded = f(folded, Err(error)),
                None => return folded,
            }
        }
    }
}
