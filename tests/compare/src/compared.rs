//! A case of one of the library's calls: what the library and the second model
//! make of the same byte strings. Each call has a type of case of its own, and
//! classes of them.

use crate::library::{self, difference, in_words, Call, Lent, Outcome};
use crate::report::{Shown, Table};
use kit::{hexadecimal, Random};

/// Bytes of a buffer that are shown of a failing case.
const SHOWN_BYTES: usize = 90;

/// The byte strings of a case, and how they are lent.
pub struct Lending {
    /// In the call's order; the buffers hold a pattern.
    pub strings: Vec<Vec<u8>>,
    /// Decides the pattern in the buffers, the guard bytes and the alignments.
    pub layout: u64,
    /// Empty byte strings are passed as null pointers.
    pub null_if_empty: bool,
}

/// The pattern that a buffer holds before the call. `salt` tells a case's
/// buffers apart.
pub fn pattern(layout: u64, salt: u64, len: usize) -> Vec<u8> {
    Random::seeded(layout ^ salt).bytes(len)
}

/// What a call's type of case has to say, and what follows from it.
pub trait Compared: Clone {
    /// The call that it is a case of.
    const CALL: Call;

    /// The calls that the library must have: this one, and each that is made to
    /// judge what it gave.
    const NEEDED: &'static [Call] = &[Self::CALL];

    /// What the cases of this call must have shown.
    fn table() -> &'static Table;

    /// The model's call, on byte strings as the library gets them.
    fn model(strings: &mut [Vec<u8>]) -> u64;

    fn lending(&self) -> Lending;

    /// What is wrong with what the library gave, if anything. Where one outcome
    /// alone is right, it is every difference from the model's.
    fn wrong(&self, library: &Outcome, model: &Outcome) -> Option<String> {
        difference(Self::CALL, library, model)
    }

    /// What an outcome shows that was agreed on.
    fn shown(&self, agreed: &Outcome) -> Vec<Shown>;

    /// A smaller case that still differs, found in at most `tries` tries, which
    /// are taken off.
    fn shrunk(&self, tries: &mut usize) -> Self;

    fn run_library(&self) -> Outcome {
        let lent = self.lending();
        let strings: Vec<&[u8]> = lent.strings.iter().map(Vec::as_slice).collect();
        library::call(Self::CALL, &strings, lent.layout, lent.null_if_empty)
    }

    fn run_model(&self) -> Outcome {
        let mut strings = self.lending().strings;
        Outcome {
            result: Self::model(&mut strings),
            strings,
            trespass: None,
        }
    }

    /// What the library gave, or what is wrong with it. Whatever the call, it
    /// changes no byte but those of its buffers.
    fn agreed(&self) -> Result<Outcome, String> {
        let library = self.run_library();
        let trespass = library.trespass.clone();
        match trespass.or_else(|| self.wrong(&library, &self.run_model())) {
            None => Ok(library),
            Some(wrong) => Err(wrong),
        }
    }

    fn differs(&self) -> bool {
        self.agreed().is_err()
    }

    /// The bytes of its inputs.
    fn size(&self) -> usize {
        let strings = self.lending().strings;
        let named = strings.iter().zip(Self::CALL.strings());
        let inputs = named.filter(|(_, (lent, _))| *lent == Lent::Read);
        inputs.map(|(string, _)| string.len()).sum()
    }

    /// The case as a person can replay it, and what each side made of it.
    fn described(&self) -> String {
        let lent = self.lending();
        let (mut inputs, mut buffers) = (String::new(), String::new());
        for (string, (sort, name)) in lent.strings.iter().zip(Self::CALL.strings()) {
            match sort {
                Lent::Read => inputs += &format!("  {name} {}\n", hexadecimal(string)),
                Lent::Write => buffers += &format!("{name} {} bytes, ", string.len()),
            }
        }
        format!(
            "{inputs}  {buffers}layout {:#x}{}\n  library: {}  model: {}",
            lent.layout,
            if lent.null_if_empty {
                ", null if empty"
            } else {
                ""
            },
            in_full(Self::CALL, &self.run_library()),
            in_full(Self::CALL, &self.run_model()),
        )
    }
}

/// What was returned, and how each buffer starts.
fn in_full(call: Call, outcome: &Outcome) -> String {
    let mut text = in_words(outcome.result) + "\n";
    for (string, (lent, name)) in outcome.strings.iter().zip(call.strings()) {
        if *lent == Lent::Write {
            let start = &string[..string.len().min(SHOWN_BYTES)];
            text += &format!("    {name} {}\n", hexadecimal(start));
        }
    }
    text
}

/// A class of random cases.
pub struct Class<C> {
    pub name: &'static str,
    /// Cases in a round.
    pub cases: usize,
    pub make: fn(&mut Random) -> C,
}

pub const fn class<C>(name: &'static str, cases: usize, make: fn(&mut Random) -> C) -> Class<C> {
    Class { name, cases, make }
}

/// Cases that are all tried, once: every byte value in its place.
pub struct Sweep<C> {
    pub name: &'static str,
    pub cases: fn(&mut Random) -> Vec<C>,
}
