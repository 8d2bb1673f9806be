//! Files of cases as the proved test program `vectors` (crates/vectors) reads and answers them: the
//! inputs of the two programs one after the other, each with its program and its length before it, and
//! the answers one after the other.

use crate::vectors::{program_cases, Prints, ProgramCase};

/// As much of an input as a program reads: an order, the largest book, and one byte more.
const READABLE: usize = 16_412;

/// What the test program reads, and what it must write.
#[derive(Default)]
pub struct Framed {
    pub stdin: Vec<u8>,
    pub stdout: String,
}

impl Framed {
    /// Adds the cases of a file whose question is standard input of a program. Before an input stand a
    /// byte for its program, 0 for the outcome and 1 for the page, and its length as two bytes, low byte
    /// first.
    pub fn add(&mut self, text: &str) -> Result<(), String> {
        for ProgramCase { program, input, answer } in program_cases(text)? {
            let read = &input[..input.len().min(READABLE)];
            self.stdin.push(match program {
                Prints::Outcome => 0,
                Prints::Page => 1,
            });
            self.stdin.extend((read.len() as u16).to_le_bytes());
            self.stdin.extend(read);
            self.stdout.push_str(&answer);
        }
        Ok(())
    }
}

#[cfg(test)]
mod tests {
    use super::*;

    /// The files of tests/vectors whose cases the test program has, in this sequence.
    const FILES: [&str; 3] = ["p01.txt", "page.txt", "page_lines.txt"];

    #[test]
    fn the_program_and_a_length_stand_before_each_input() {
        let long = "00".repeat(20_000);
        let first = "case a\nin 0102\nout\nrefused 1 0 0 0\nend\n\
                     case b\ndesk 3\nout\n0\nend\n\
                     case c\nfiled\nbook 00\nallowance 3\norder 0 0 0\nout\nz\nend\n";
        let second = format!(
            "case a\npage 07\nout\na page  \nend\n\
             case b\npage {long}\nout\nx\ny\nend\n"
        );
        let mut framed = Framed::default();
        framed.add(first).unwrap();
        framed.add(&second).unwrap();
        let Framed { stdin, stdout } = framed;
        assert_eq!(stdin[..9], [0, 2, 0, 1, 2, 1, 1, 0, 7]);
        assert_eq!(stdin[9..13], [1, 0x1c, 0x40, 0]);
        assert_eq!(stdin.len(), (3 + 2) + (3 + 1) + (3 + READABLE));
        assert_eq!(stdout, "refused 1 0 0 0\na page  \nx\ny\n");
    }

    #[test]
    fn the_test_program_has_the_stored_cases() {
        let project = concat!(env!("CARGO_MANIFEST_DIR"), "/../..");
        let mut framed = Framed::default();
        for file in FILES {
            let path = format!("{project}/tests/vectors/{file}");
            framed.add(&std::fs::read_to_string(path).unwrap()).unwrap();
        }
        let Framed { stdin, stdout } = framed;
        let stored =
            |name: &str| std::fs::read(format!("{project}/crates/vectors/{name}")).unwrap();
        assert!(stored("stdin") == stdin, "`compare framed` writes stdin anew");
        assert!(stored("stdout") == stdout.as_bytes(), "`compare framed` writes stdout anew");
    }
}
