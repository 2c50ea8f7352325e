//! Bytes lent to a call, with a margin on both sides and a pattern in it, so that a write where none belongs is seen.

const MARGIN: usize = 128;

/// No type that is lent wants more.
const ALIGNMENT: usize = 8;

/// What stands at each byte before the call, again and again from the first of the margin on. No list has such values at its beginning.
const PATTERN: [u8; 512] = {
    let mut pattern = [0; 512];
    let mut i = 0;
    while i < 512 {
        pattern[i] = (i as u8).wrapping_mul(37) ^ 0xa5;
        i += 1;
    }
    pattern
};

/// Whether bytes, the first of them so far from the margin's first, are the pattern.
fn untouched(first: usize, bytes: &[u8]) -> bool {
    let pattern = &PATTERN[first % 256..];
    let mut parts = bytes.chunks(256);
    parts.all(|part| part == &pattern[..part.len()])
}

/// A lent list, graph or record as its bytes.
pub struct Lent {
    cells: Vec<u8>,
    /// where the margin before the bytes begins
    start: usize,
    length: usize,
}

impl Lent {
    /// With the pattern in the bytes too.
    pub fn new(length: usize) -> Lent {
        let mut cells = vec![0; ALIGNMENT + length + 2 * MARGIN];
        let start = cells[MARGIN..].as_ptr().align_offset(ALIGNMENT);
        for part in cells[start..].chunks_mut(PATTERN.len()) {
            part.copy_from_slice(&PATTERN[..part.len()]);
        }
        Lent {
            cells,
            start,
            length,
        }
    }

    pub fn holding(bytes: &[u8]) -> Lent {
        let mut lent = Lent::new(bytes.len());
        let first = lent.start + MARGIN;
        lent.cells[first..first + bytes.len()].copy_from_slice(bytes);
        lent
    }

    /// Numbers, as they lie in memory.
    pub fn numbers(numbers: &[i32]) -> Lent {
        let bytes: Vec<u8> = numbers.iter().flat_map(|x| x.to_ne_bytes()).collect();
        Lent::holding(&bytes)
    }

    /// Wider numbers, each as its bytes in memory.
    pub fn words<const N: usize>(words: impl IntoIterator<Item = [u8; N]>) -> Lent {
        let bytes: Vec<u8> = words.into_iter().flatten().collect();
        Lent::holding(&bytes)
    }

    pub fn pointer<T>(&mut self) -> *mut T {
        self.cells[self.start + MARGIN..].as_mut_ptr().cast()
    }

    pub fn body(&self) -> &[u8] {
        let first = self.start + MARGIN;
        &self.cells[first..first + self.length]
    }

    /// Whether the bytes before and after are as they were.
    pub fn margins_kept(&self) -> bool {
        let cells = &self.cells[self.start..];
        let end = MARGIN + self.length;
        untouched(0, &cells[..MARGIN]) && untouched(end, &cells[end..])
    }

    /// Whether nothing changed since another was made alike.
    pub fn kept(&self, other: &Lent) -> bool {
        self.margins_kept() && self.body() == other.body()
    }

    /// The bytes, or none if they are the pattern that they were made with.
    pub fn changed(&self) -> Option<Vec<u8>> {
        let body = self.body();
        (!untouched(MARGIN, body)).then(|| body.to_vec())
    }
}

/// Multipliers and a list ashore, which a call only reads.
pub struct Lists<'a> {
    sent: (&'a [i32], &'a [u8]),
    multipliers: Lent,
    ashore: Lent,
}

impl<'a> Lists<'a> {
    pub fn new(multipliers: &'a [i32], ashore: &'a [u8]) -> Lists<'a> {
        Lists {
            sent: (multipliers, ashore),
            multipliers: Lent::numbers(multipliers),
            ashore: Lent::holding(ashore),
        }
    }

    pub fn pointers(&mut self) -> (*const i32, *const u8) {
        (self.multipliers.pointer(), self.ashore.pointer())
    }

    /// Whether both are as they were sent.
    pub fn kept(&self) -> bool {
        let (multipliers, ashore) = self.sent;
        self.multipliers.kept(&Lent::numbers(multipliers))
            && self.ashore.kept(&Lent::holding(ashore))
    }
}
