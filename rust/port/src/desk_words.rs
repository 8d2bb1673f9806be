//! What a call does to a desk of any words, even such that no run of calls leads to.

use crate::desk::Call;

/// A desk in words: option k stands at bit k - 1 of a word, draft d at bit d - 1 of `kept` and at place
/// d - 1 of the drafts, each of which is its wanted and its unwanted word.
#[derive(Clone, Copy, Debug, Default, PartialEq, Eq)]
pub struct DeskWords {
    pub options: u32,
    pub wanted: u64,
    pub unwanted: u64,
    pub kept: u64,
    pub drafts: [(u64, u64); 16],
}

impl DeskWords {
    /// 0 where the call is accepted; else the refusal's number, and nothing changes.
    pub fn call(&mut self, call: Call) -> u32 {
        match self.accept(call) {
            Ok(()) => 0,
            Err(refusal) => refusal,
        }
    }

    fn accept(&mut self, call: Call) -> Result<(), u32> {
        match call {
            Call::Set { option, fitted } => {
                let bit = self.option(option)?;
                let (into, out_of) = match fitted {
                    true => (&mut self.wanted, &mut self.unwanted),
                    false => (&mut self.unwanted, &mut self.wanted),
                };
                *into |= bit;
                *out_of &= !bit;
            }
            Call::Clear { option } => {
                let bit = self.option(option)?;
                self.wanted &= !bit;
                self.unwanted &= !bit;
            }
            Call::Keep { draft } => {
                let place = place(draft)?;
                self.drafts[place] = (self.wanted, self.unwanted);
                self.kept |= 1 << place;
            }
            Call::Return { draft } => {
                let place = place(draft)?;
                if self.kept >> place & 1 == 0 {
                    return Err(15);
                }
                (self.wanted, self.unwanted) = self.drafts[place];
            }
        }
        Ok(())
    }

    /// The option's bit: it is one of the desk's, and of the first 64.
    fn option(&self, option: u32) -> Result<u64, u32> {
        match option {
            1..=64 if option <= self.options => Ok(1 << (option - 1)),
            _ => Err(7),
        }
    }
}

/// The draft's place.
fn place(draft: u32) -> Result<usize, u32> {
    match draft {
        1..=16 => Ok(draft as usize - 1),
        _ => Err(14),
    }
}

#[cfg(test)]
mod tests {
    use super::*;

    /// Options 1 and 3 are in both words, and option 5 and the drafts 3 and 40 stand where none may be.
    const STRAY: DeskWords = DeskWords {
        options: 3,
        wanted: 0b10101,
        unwanted: 0b00101,
        kept: 0b100 | 1 << 39,
        drafts: [(9, 7); 16],
    };

    fn after(desk: DeskWords, call: Call) -> (u32, DeskWords) {
        let mut desk = desk;
        (desk.call(call), desk)
    }

    #[test]
    fn what_is_stray_stays() {
        let fitted = Call::Set { option: 1, fitted: true };
        assert_eq!(after(STRAY, fitted), (0, DeskWords { unwanted: 0b00100, ..STRAY }));
        let left_out = Call::Set { option: 2, fitted: false };
        assert_eq!(after(STRAY, left_out), (0, DeskWords { unwanted: 0b00111, ..STRAY }));
        let clear = Call::Clear { option: 3 };
        let due = DeskWords { wanted: 0b10001, unwanted: 0b00001, ..STRAY };
        assert_eq!(after(STRAY, clear), (0, due));
        let mut due = DeskWords { kept: STRAY.kept | 1, ..STRAY };
        due.drafts[0] = (0b10101, 0b00101);
        assert_eq!(after(STRAY, Call::Keep { draft: 1 }), (0, due));
        let due = DeskWords { wanted: 9, unwanted: 7, ..STRAY };
        assert_eq!(after(STRAY, Call::Return { draft: 3 }), (0, due));
    }

    #[test]
    fn a_refused_call_changes_nothing() {
        let refused = [
            (Call::Set { option: 0, fitted: true }, 7),
            (Call::Set { option: 4, fitted: false }, 7),
            (Call::Clear { option: 5 }, 7),
            (Call::Keep { draft: 0 }, 14),
            (Call::Keep { draft: 17 }, 14),
            (Call::Return { draft: 40 }, 14),
            (Call::Return { draft: 2 }, 15),
        ];
        for (call, number) in refused {
            assert_eq!(after(STRAY, call), (number, STRAY), "{call:?}");
        }
    }

    #[test]
    fn options_are_64_at_most() {
        let desk = DeskWords { options: u32::MAX, ..DeskWords::default() };
        let last = Call::Set { option: 64, fitted: true };
        assert_eq!(after(desk, last), (0, DeskWords { wanted: 1 << 63, ..desk }));
        assert_eq!(after(desk, Call::Set { option: 65, fitted: true }), (7, desk));
        assert_eq!(after(desk, Call::Clear { option: u32::MAX }), (7, desk));
    }
}
