//! A model of the Apache ORC writer's byte runs, by its public algorithm: it gathers bytes one by one, looks
//! no byte ahead, and writes a run when it is full or when another kind of run begins.

const MIN_REPEAT: usize = 3;
const MAX_REPEAT: usize = 130;
const MAX_LITERALS: usize = 128;

/// What the writer holds while bytes come in.
#[derive(Default)]
struct Writer {
    /// The bytes gathered and not yet written.
    gathered: Vec<u8>,
    /// Whether they are a repeat.
    repeat: bool,
    /// How many of the last of them are equal, of literals.
    tail: usize,
    runs: Vec<u8>,
}

/// The runs that the Apache writer makes of bytes.
pub fn apache_byte_runs(bytes: &[u8]) -> Vec<u8> {
    let mut writer = Writer::default();
    bytes.iter().for_each(|byte| writer.take(*byte));
    writer.write();
    writer.runs
}

impl Writer {
    /// One byte more.
    fn take(&mut self, byte: u8) {
        let last = self.gathered.last().copied();
        if self.repeat && last == Some(byte) {
            self.gathered.push(byte);
            if self.gathered.len() == MAX_REPEAT {
                self.write();
            }
            return;
        }
        if self.repeat {
            self.write();
            self.gathered.push(byte);
            self.tail = 1;
            return;
        }
        self.tail = if last == Some(byte) { self.tail + 1 } else { 1 };
        self.gathered.push(byte);
        if self.tail == MIN_REPEAT {
            // The three are a repeat, and what is before them is written.
            self.gathered.truncate(self.gathered.len() - MIN_REPEAT);
            self.write();
            self.gathered = vec![byte; MIN_REPEAT];
            self.repeat = true;
        } else if self.gathered.len() == MAX_LITERALS {
            self.write();
        }
    }

    /// Writes what is gathered.
    fn write(&mut self) {
        if let Some(first) = self.gathered.first() {
            if self.repeat {
                self.runs.extend([(self.gathered.len() - MIN_REPEAT) as u8, *first]);
            } else {
                self.runs.push((256 - self.gathered.len()) as u8);
                self.runs.extend(&self.gathered);
            }
        }
        self.gathered.clear();
        (self.repeat, self.tail) = (false, 0);
    }
}
