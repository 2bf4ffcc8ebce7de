//! Steps while they are being written, with what the second program prints for each.

/// The steps, one behind the other.
#[derive(Clone, Debug, Default)]
pub struct Tape {
    /// The steps' bytes.
    pub bytes: Vec<u8>,
    /// What the program prints for them.
    pub printed: String,
    /// Where each step begins, in the bytes and in what is printed.
    starts: Vec<(usize, usize)>,
}

impl Tape {
    /// Adds a step and what is printed for it.
    pub fn push(&mut self, step: &[u8], lines: &str) {
        self.starts.push((self.bytes.len(), self.printed.len()));
        self.bytes.extend(step);
        self.printed += lines;
    }

    /// The bytes of the step of this index.
    pub fn step(&self, index: usize) -> &[u8] {
        let from = self.starts[index].0;
        let to = self.starts.get(index + 1).map_or(self.bytes.len(), |next| next.0);
        &self.bytes[from..to]
    }

    /// The steps' bytes, step by step.
    pub fn steps(&self) -> impl Iterator<Item = &[u8]> {
        (0..self.starts.len()).map(|index| self.step(index))
    }

    /// The index of the first step to which another program printed something else, and both
    /// answers; of that program's output as many lines as were wanted, from where they should begin.
    pub fn difference(&self, got: &[u8]) -> Option<(usize, String)> {
        let wanted = self.printed.as_bytes();
        if got == wanted {
            return None;
        }
        let same = got.iter().zip(wanted).take_while(|(one, two)| one == two).count();
        let index = self.starts.partition_point(|&(_, printed)| printed <= same).max(1) - 1;
        let from = self.starts[index].1;
        let to = self.starts.get(index + 1).map_or(self.printed.len(), |next| next.1);
        let wanted = &self.printed[from..to];
        let rest = String::from_utf8_lossy(&got[from.min(got.len())..]).into_owned();
        let other: Vec<&str> = rest.lines().take(wanted.lines().count()).collect();
        Some((index, format!("second prints:\n{wanted}other prints:\n{}", other.join("\n"))))
    }
}

#[cfg(test)]
mod tests {
    use super::*;

    #[test]
    fn the_first_other_answer_is_told_with_its_step() {
        let mut tape = Tape::default();
        tape.push(&[1, 2], "one\n");
        tape.push(&[3], "two\nlines\n");
        tape.push(&[4], "three\n");
        assert_eq!(tape.difference(tape.printed.as_bytes()), None);
        let (index, answers) = tape.difference(b"one\ntwo\nlimes\nthree\n").expect("one differs");
        assert_eq!(index, 1);
        assert_eq!(answers, "second prints:\ntwo\nlines\nother prints:\ntwo\nlimes");
        assert_eq!(tape.step(index), [3]);
        assert_eq!(tape.difference(b"one\n").map(|found| found.0), Some(1));
    }
}
