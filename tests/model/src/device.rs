//! Writes, and what a cut leaves of them (document 01 §2).

/// "The medium takes it in aligned pieces of 8 bytes".
pub const PIECE: usize = 8;

/// "A write is a run of bytes at an offset."
#[derive(Clone, Debug, PartialEq, Eq)]
pub struct Write {
    pub at: usize,
    pub bytes: Vec<u8>,
}

/// What an operation does to the medium, one after the other.
#[derive(Clone, Debug, PartialEq, Eq)]
pub enum Step {
    Put(Write),
    Flush,
}

/// A cut: the first `done` writes are there, and of those after them only these pieces, by number.
#[derive(Clone, Debug, PartialEq, Eq)]
pub struct Cut {
    pub done: usize,
    pub pieces: Vec<usize>,
}

impl Write {
    pub fn end(&self) -> usize {
        self.at + self.bytes.len()
    }

    /// The numbers of the pieces that the write touches.
    pub fn pieces(&self) -> std::ops::Range<usize> {
        if self.bytes.is_empty() {
            0..0
        } else {
            self.at / PIECE..(self.end() - 1) / PIECE + 1
        }
    }

    pub fn apply(&self, medium: &mut [u8]) {
        medium[self.at..self.end()].copy_from_slice(&self.bytes);
    }

    /// Writes only what falls into one piece.
    pub fn apply_piece(&self, medium: &mut [u8], piece: usize) {
        let from = self.at.max(piece * PIECE);
        let to = self.end().min((piece + 1) * PIECE);
        if from < to {
            medium[from..to].copy_from_slice(&self.bytes[from - self.at..to - self.at]);
        }
    }
}

/// The writes among the steps.
pub fn writes(steps: &[Step]) -> impl Iterator<Item = &Write> {
    steps.iter().filter_map(|step| match step {
        Step::Put(write) => Some(write),
        Step::Flush => None,
    })
}

/// Calls `visit` with every medium that a cut can leave, by document 01: "each piece of it is old or new, any mixture;
/// all earlier writes are there; later ones never happened". Flushes do not matter. Ends at the first error.
pub fn cuts_in_order<E>(
    medium: &[u8],
    steps: &[Step],
    mut visit: impl FnMut(&[u8], &dyn Fn() -> Cut) -> Result<(), E>,
) -> Result<(), E> {
    let mut before = medium.to_vec();
    let mut torn = medium.to_vec();
    visit(medium, &|| Cut { done: 0, pieces: vec![] })?;
    for (done, write) in writes(steps).enumerate() {
        let pieces = write.pieces();
        // Nothing of this write is the whole of the one before, which was visited.
        for subset in 1..1u32 << pieces.len() {
            torn[write.at..write.end()].copy_from_slice(&before[write.at..write.end()]);
            let arrived = || pieces.clone().filter(|piece| subset >> (piece - pieces.start) & 1 == 1);
            arrived().for_each(|piece| write.apply_piece(&mut torn, piece));
            visit(&torn, &|| Cut { done, pieces: arrived().collect() })?;
        }
        write.apply(&mut before);
        write.apply(&mut torn);
    }
    Ok(())
}

/// The same for a medium that keeps writes until told to flush: of the writes since the last flush each piece may have
/// arrived or not, in any order. `pending` are writes of earlier operations that were not flushed.
pub fn cuts_in_any_order<E>(
    kept: &[u8],
    pending: &[Write],
    steps: &[Step],
    mut visit: impl FnMut(&[u8], &dyn Fn() -> Cut) -> Result<(), E>,
) -> Result<(), E> {
    let mut kept = kept.to_vec();
    let mut pending = pending.to_vec();
    let mut done = 0;
    for step in steps {
        match step {
            Step::Put(write) => pending.push(write.clone()),
            Step::Flush => {
                mixtures(&kept, &pending, done, &mut visit)?;
                pending.iter().for_each(|write| write.apply(&mut kept));
                done += pending.len();
                pending.clear();
            }
        }
    }
    // A cut before the last of these writes leaves nothing that this does not: it may not have arrived.
    mixtures(&kept, &pending, done, &mut visit)
}

/// Every mixture of pieces of these writes. Counts through the pieces' values as through the digits of a number.
fn mixtures<E>(
    kept: &[u8],
    pending: &[Write],
    done: usize,
    visit: &mut impl FnMut(&[u8], &dyn Fn() -> Cut) -> Result<(), E>,
) -> Result<(), E> {
    let mut touched: Vec<usize> = pending.iter().flat_map(Write::pieces).collect();
    touched.sort_unstable();
    touched.dedup();
    let values: Vec<Vec<Vec<u8>>> = touched.iter().map(|piece| piece_values(kept, pending, *piece)).collect();
    let mut digits = vec![0; touched.len()];
    let mut medium = kept.to_vec();
    loop {
        let arrived = || (0..touched.len()).filter(|i| digits[*i] != 0).map(|i| touched[i]).collect();
        visit(&medium, &|| Cut { done, pieces: arrived() })?;
        let next = match (0..digits.len()).find(|i| digits[*i] + 1 < values[*i].len()) {
            Some(next) => next,
            None => return Ok(()),
        };
        for i in 0..=next {
            digits[i] = if i == next { digits[i] + 1 } else { 0 };
            let at = touched[i] * PIECE;
            let value = &values[i][digits[i]];
            medium[at..at + value.len()].copy_from_slice(value);
        }
    }
}

/// What some of the writes, in some order, can make of one piece; first what is kept.
fn piece_values(kept: &[u8], pending: &[Write], piece: usize) -> Vec<Vec<u8>> {
    let touching: Vec<&Write> = pending.iter().filter(|write| write.pieces().contains(&piece)).collect();
    let range = piece * PIECE..kept.len().min((piece + 1) * PIECE);
    let mut values = vec![kept[range.clone()].to_vec()];
    let mut orders: Vec<Vec<usize>> = vec![vec![]];
    while let Some(order) = orders.pop() {
        let mut medium = kept.to_vec();
        order.iter().for_each(|i| touching[*i].apply_piece(&mut medium, piece));
        let value = medium[range.clone()].to_vec();
        if !values.contains(&value) {
            values.push(value);
        }
        orders.extend((0..touching.len()).filter(|i| !order.contains(i)).map(|i| [&order[..], &[i]].concat()));
    }
    values
}
