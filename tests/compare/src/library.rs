//! The compiled library's calls, made as a C program makes them, with guard
//! bytes around everything that is lent.
//!
//! A call takes byte strings, each a pointer and a length, and returns a
//! number. To add one, add its line to the table below.

use kit::Random;
use std::ptr;

/// What a call may do with a byte string.
#[derive(Clone, Copy, Debug, PartialEq, Eq)]
pub enum Lent {
    Read,
    Write,
}

/// The table of calls: the enum `Call`, what each one's C name and byte strings
/// are, and the addresses that the linker finds for them. The references are
/// weak, so that a library that lacks a call links all the same; the address
/// is null then.
macro_rules! calls {
    ($($call:ident = $name:ident($($lent:ident $string:literal),+),)+) => {
        #[derive(Clone, Copy, Debug, PartialEq, Eq, PartialOrd, Ord)]
        pub enum Call { $($call,)+ }

        impl Call {
            pub const ALL: &[Call] = &[$(Call::$call,)+];

            /// The name that a C program calls it by.
            pub fn name(self) -> &'static str {
                match self { $(Call::$call => stringify!($name),)+ }
            }

            /// Its byte strings in order: how each is lent, and its name.
            pub fn strings(self) -> &'static [(Lent, &'static str)] {
                match self { $(Call::$call => &[$((Lent::$lent, $string)),+],)+ }
            }
        }

        core::arch::global_asm!(
            ".pushsection .data.rel.ro.compare_calls, \"aw\"",
            ".balign 8",
            ".globl compare_calls",
            "compare_calls:",
            $(
                concat!(".weak ", stringify!($name)),
                concat!(".quad ", stringify!($name)),
            )+
            ".popsection",
        );
    };
}

calls! {
    Run = palette_run(Read "snapshot", Read "log", Write "answer buffer", Write "end buffer"),
    Currents =
        palette_currents(Read "snapshot", Read "operand", Write "out buffer", Write "end buffer"),
    Plan = palette_plan(Read "snapshot", Read "wanted bytes", Write "writes buffer"),
}

type Address = Option<unsafe extern "C" fn()>;

extern "C" {
    #[link_name = "compare_calls"]
    static ADDRESSES: [Address; Call::ALL.len()];
}

impl Call {
    fn address(self) -> Address {
        // One entry for each call, in the order of the enum.
        unsafe { ADDRESSES[self as usize] }
    }

    /// Whether the library has this call.
    pub fn is_there(self) -> bool {
        self.address().is_some()
    }
}

/// Guard bytes on either side of a lent byte string.
const GUARD: usize = 48;

/// What a call left behind.
#[derive(Clone, Debug)]
pub struct Outcome {
    pub result: u64,
    /// What each byte string holds afterwards.
    pub strings: Vec<Vec<u8>>,
    /// The first byte that changed and isn't the call's to change.
    pub trespass: Option<String>,
}

/// A byte string in the middle of a larger one, at any alignment.
struct Guarded {
    bytes: Vec<u8>,
    before: Vec<u8>,
    start: usize,
    len: usize,
}

impl Guarded {
    fn new(content: &[u8], random: &mut Random) -> Guarded {
        let start = GUARD + random.below(16);
        let guard = random.byte();
        let mut bytes = vec![guard; start + content.len() + GUARD];
        bytes[start..start + content.len()].copy_from_slice(content);
        Guarded {
            before: bytes.clone(),
            bytes,
            start,
            len: content.len(),
        }
    }

    fn pointer(&mut self, null_if_empty: bool) -> *mut u8 {
        if self.len == 0 && null_if_empty {
            return ptr::null_mut();
        }
        // From the whole allocation, so that a guard byte is there to be hit.
        self.bytes.as_mut_ptr().wrapping_add(self.start)
    }

    fn content(&self) -> &[u8] {
        &self.bytes[self.start..self.start + self.len]
    }

    /// What the call changed and may not, if anything.
    fn trespass(&self, lent: Lent, name: &str) -> Option<String> {
        let stop = self.start + self.len;
        let same = |from: usize, to: usize| self.bytes[from..to] == self.before[from..to];
        if lent == Lent::Read && !same(self.start, stop) {
            return Some(format!("the {name} was changed"));
        }
        if !same(0, self.start) || !same(stop, self.bytes.len()) {
            return Some(format!("a byte outside the {name} was changed"));
        }
        None
    }
}

/// Makes a call on these byte strings. `layout` decides alignments and guard
/// bytes. The library must have the call.
pub fn call(call: Call, strings: &[&[u8]], layout: u64, null_if_empty: bool) -> Outcome {
    let address = call.address().unwrap_or_else(|| lacking(call));
    lend(address, call.strings(), strings, layout, null_if_empty)
}

/// What a class says that needs a call the library lacks.
pub fn lacks(call: Call) -> String {
    format!("the library has no {}", call.name())
}

fn lacking(call: Call) -> ! {
    panic!("{}", lacks(call))
}

fn lend(
    address: unsafe extern "C" fn(),
    named: &[(Lent, &str)],
    strings: &[&[u8]],
    layout: u64,
    null_if_empty: bool,
) -> Outcome {
    assert_eq!(
        named.len(),
        strings.len(),
        "as many byte strings as it takes"
    );
    let mut random = Random::seeded(layout);
    let mut guarded: Vec<Guarded> = strings
        .iter()
        .map(|content| Guarded::new(content, &mut random))
        .collect();
    let pointers: Vec<(*mut u8, usize)> = guarded
        .iter_mut()
        .map(|string| (string.pointer(null_if_empty), string.len))
        .collect();
    // Each pointer is good for its length, and no two strings overlap.
    let result = unsafe { call_at(address, &pointers) };
    let mut trespasses = guarded
        .iter()
        .zip(named)
        .filter_map(|(string, &(lent, name))| string.trespass(lent, name));
    Outcome {
        result,
        trespass: trespasses.next(),
        strings: guarded.iter().map(|s| s.content().to_vec()).collect(),
    }
}

/// Calls a C function of a pointer and a length for each byte string.
///
/// # Safety
///
/// The function has this many parameters and returns 64 bits, and the pointers
/// are what it asks for.
unsafe fn call_at(address: unsafe extern "C" fn(), strings: &[(*mut u8, usize)]) -> u64 {
    type P = *mut u8;
    type N = usize;
    use std::mem::transmute as to;
    match *strings {
        [a] => {
            let f: unsafe extern "C" fn(P, N) -> u64 = to(address);
            f(a.0, a.1)
        }
        [a, b] => {
            let f: unsafe extern "C" fn(P, N, P, N) -> u64 = to(address);
            f(a.0, a.1, b.0, b.1)
        }
        [a, b, c] => {
            let f: unsafe extern "C" fn(P, N, P, N, P, N) -> u64 = to(address);
            f(a.0, a.1, b.0, b.1, c.0, c.1)
        }
        [a, b, c, d] => {
            let f: unsafe extern "C" fn(P, N, P, N, P, N, P, N) -> u64 = to(address);
            f(a.0, a.1, b.0, b.1, c.0, c.1, d.0, d.1)
        }
        _ => panic!("a call takes one to four byte strings"),
    }
}

/// Runs a log on the caller's own buffers, with nothing checked.
pub fn bare_run(snapshot: &[u8], log: &[u8], answers: &mut [u8], end: &mut [u8]) -> u64 {
    let address = Call::Run.address().unwrap_or_else(|| lacking(Call::Run));
    // Each pointer is good for its length, and no two of the four overlap. The
    // first two are read only.
    unsafe {
        call_at(
            address,
            &[
                (snapshot.as_ptr().cast_mut(), snapshot.len()),
                (log.as_ptr().cast_mut(), log.len()),
                (answers.as_mut_ptr(), answers.len()),
                (end.as_mut_ptr(), end.len()),
            ],
        )
    }
}

/// The first difference between what the library and the model gave.
pub fn difference(call: Call, library: &Outcome, model: &Outcome) -> Option<String> {
    let mut numbers = 0..call.strings().len();
    result_difference(library, model)
        .or_else(|| numbers.find_map(|n| string_difference(call, n, 0, library, model)))
}

/// The difference between the returned numbers, if there is one.
pub fn result_difference(library: &Outcome, model: &Outcome) -> Option<String> {
    let (library, model) = (library.result, model.result);
    (library != model).then(|| {
        let (library, model) = (in_words(library), in_words(model));
        format!("the library returned {library}, the model {model}")
    })
}

/// The first difference from byte `from` on of the byte string with this number.
pub fn string_difference(
    call: Call,
    number: usize,
    from: usize,
    library: &Outcome,
    model: &Outcome,
) -> Option<String> {
    let (library, model) = (&library.strings[number], &model.strings[number]);
    let index = (from..model.len()).find(|&i| library[i] != model[i])?;
    let (_, name) = call.strings()[number];
    Some(format!(
        "{name}, byte {index}: the library has {:02x}, the model {:02x}",
        library[index], model[index]
    ))
}

/// A returned number as a refusal and the number beside it: a length or a count.
pub fn in_words(result: u64) -> String {
    match (result >> 16, result & 0xFFFF) {
        (0, number) => number.to_string(),
        (refusal, 0) => format!("refusal {refusal}"),
        (refusal, number) => format!("refusal {refusal} and {number}"),
    }
}

#[cfg(test)]
mod tests {
    //! The harness itself, on functions that keep and break their bounds. They
    //! need no library.

    use super::{lend, Lent};
    use std::slice::from_raw_parts_mut;

    type P = *mut u8;

    unsafe extern "C" fn sum_1(a: P, n: usize) -> u64 {
        let a = unsafe { from_raw_parts_mut(a, n) };
        a.iter().map(|&byte| u64::from(byte)).sum()
    }

    /// Copies `a` to `b` and returns both lengths.
    unsafe extern "C" fn copy_2(a: P, n: usize, b: P, m: usize) -> u64 {
        unsafe { a.copy_to(b, n) };
        (1000 * n + m) as u64
    }

    unsafe extern "C" fn lengths_3(_: P, n: usize, _: P, m: usize, _: P, o: usize) -> u64 {
        (10_000 * n + 100 * m + o) as u64
    }

    /// Adds 1 to the byte at `b[0]` of the string that `a[0]` numbers; the
    /// number is signed, so that it reaches before the string.
    unsafe extern "C" fn poke_4(
        a: P,
        _: usize,
        b: P,
        _: usize,
        c: P,
        _: usize,
        d: P,
        _: usize,
    ) -> u64 {
        unsafe {
            let at = isize::from(*b as i8);
            let byte = [a, b, c, d][usize::from(*a)].offset(at);
            *byte = (*byte).wrapping_add(1);
        }
        0
    }

    /// How many strings were passed as null pointers.
    unsafe extern "C" fn nulls_2(a: P, _: usize, b: P, _: usize) -> u64 {
        u64::from(a.is_null()) + u64::from(b.is_null())
    }

    macro_rules! address {
        ($function:ident, $type:ty) => {
            unsafe { std::mem::transmute::<$type, unsafe extern "C" fn()>($function as $type) }
        };
    }

    type F1 = unsafe extern "C" fn(P, usize) -> u64;
    type F2 = unsafe extern "C" fn(P, usize, P, usize) -> u64;
    type F3 = unsafe extern "C" fn(P, usize, P, usize, P, usize) -> u64;
    type F4 = unsafe extern "C" fn(P, usize, P, usize, P, usize, P, usize) -> u64;

    const FOUR: [(Lent, &str); 4] = [
        (Lent::Read, "string"),
        (Lent::Read, "place"),
        (Lent::Read, "third"),
        (Lent::Write, "fourth"),
    ];

    fn poked(string: u8, at: i8) -> Option<String> {
        let strings: [&[u8]; 4] = [&[string], &[at as u8], &[7; 5], &[9; 6]];
        lend(address!(poke_4, F4), &FOUR, &strings, 3, false).trespass
    }

    #[test]
    fn each_arity_gets_its_strings_in_order() {
        let one = [(Lent::Read, "one")];
        let outcome = lend(address!(sum_1, F1), &one, &[&[3, 4, 250]], 1, false);
        assert_eq!((outcome.result, outcome.trespass), (257, None));

        let two = [(Lent::Read, "one"), (Lent::Write, "two")];
        let outcome = lend(address!(copy_2, F2), &two, &[&[5, 6], &[1, 2, 3]], 1, false);
        assert_eq!((outcome.result, outcome.trespass), (2003, None));
        assert_eq!(outcome.strings, [&[5, 6][..], &[5, 6, 3]]);

        let three: [&[u8]; 3] = [&[1], &[1, 2], &[1, 2, 3]];
        let outcome = lend(address!(lengths_3, F3), &FOUR[..3], &three, 1, false);
        assert_eq!((outcome.result, outcome.trespass), (10_203, None));
    }

    #[test]
    fn a_written_string_may_change_inside_and_nowhere_else() {
        assert_eq!(poked(3, 0), None);
        assert_eq!(poked(3, 5), None);
        let outside = Some("a byte outside the fourth was changed".to_string());
        assert_eq!(poked(3, -1), outside);
        assert_eq!(poked(3, 6), outside);
        assert_eq!(poked(3, 53), outside);
        assert_eq!(poked(3, -48), outside);
    }

    #[test]
    fn a_read_string_may_not_change_at_all() {
        let changed = Some("the third was changed".to_string());
        assert_eq!(poked(2, 0), changed);
        assert_eq!(poked(2, 4), changed);
        let outside = Some("a byte outside the third was changed".to_string());
        assert_eq!(poked(2, -1), outside);
        assert_eq!(poked(2, 5), outside);
    }

    #[test]
    fn an_empty_string_is_a_null_pointer_only_where_asked() {
        let two = [(Lent::Read, "one"), (Lent::Write, "two")];
        let null = |strings: [&[u8]; 2], asked: bool| {
            lend(address!(nulls_2, F2), &two, &strings, 5, asked).result
        };
        assert_eq!(null([&[], &[]], true), 2);
        assert_eq!(null([&[], &[1]], true), 1);
        assert_eq!(null([&[], &[]], false), 0);
    }

    #[test]
    fn every_alignment_comes_up() {
        unsafe extern "C" fn alignment(a: P, _: usize) -> u64 {
            (a as usize % 16) as u64
        }
        let one = [(Lent::Read, "one")];
        let seen: std::collections::BTreeSet<u64> = (0..300)
            .map(|layout| lend(address!(alignment, F1), &one, &[&[1]], layout, false).result)
            .collect();
        assert_eq!(seen.len(), 16);
    }
}
