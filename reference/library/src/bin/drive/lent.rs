//! What is lent to a call stands between margins, so that a write beside it shows.

/// Cells on either side; an odd number more or less moves bytes to every alignment.
const MARGIN: usize = 24;

#[derive(Clone)]
pub struct Lent<T> {
    cells: Vec<T>,
    margin: usize,
    edge: T,
}

impl<T: Copy + PartialEq> Lent<T> {
    /// `edge` fills the margins; `shift` (0 to 7) makes them longer.
    pub fn new(content: &[T], edge: T, shift: usize) -> Lent<T> {
        let margin = MARGIN + shift;
        let cells = [&vec![edge; margin], content, &vec![edge; margin]].concat();
        Lent { cells, margin, edge }
    }

    pub fn inside(&self) -> &[T] {
        &self.cells[self.margin..self.cells.len() - self.margin]
    }

    pub fn lend(&mut self) -> &mut [T] {
        let end = self.cells.len() - self.margin;
        &mut self.cells[self.margin..end]
    }

    /// Nothing was written beside what was lent.
    pub fn is_whole(&self) -> bool {
        let (before, after) = (&self.cells[..self.margin], &self.cells[self.cells.len() - self.margin..]);
        [before, after].concat().iter().all(|cell| *cell == self.edge)
    }
}

/// Bytes that differ from call to call.
pub fn pattern(turn: u64, length: usize) -> Vec<u8> {
    (0..length).map(|at| (at as u8).wrapping_mul(7).wrapping_add((turn as u8).wrapping_mul(13))).collect()
}

/// Compares what was lent with what it should hold, and the margins around it.
pub fn same<T>(lent: &Lent<T>, wanted: &[T], what: &str, name: &dyn Fn(usize) -> String) -> Result<(), String>
where
    T: Copy + PartialEq + std::fmt::Debug,
{
    // What was lent for reading may have been changed all the same: it is read again.
    let lent = std::hint::black_box(lent);
    if let Some(at) = lent.inside().iter().zip(wanted).position(|(got, wanted)| got != wanted) {
        return Err(format!("{what}: {} holds {:?}, expected {:?}", name(at), lent.inside()[at], wanted[at]));
    }
    if !lent.is_whole() {
        return Err(format!("{what}: written beside what was lent"));
    }
    Ok(())
}
