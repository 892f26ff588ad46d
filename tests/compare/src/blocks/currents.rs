//! Blocks of the currents: `snapshot`, `operand`, then `out` and `end`, or
//! `refused`; and `buffers`.

use crate::blocks::language::{buffers, of_len, once, refusal};
use crate::blocks::{is_refused, no_word, Block, Buffer, END_BUFFER};
use crate::library::Call;
use kit::CURRENTS_BYTES;

/// A block as far as it has been read.
#[derive(Default)]
pub struct Draft {
    snapshot: Option<Vec<u8>>,
    operand: Option<Vec<u8>>,
    out: Option<Vec<u8>>,
    end: Option<Vec<u8>>,
    refused: Option<u64>,
    buffers: Option<(usize, usize)>,
}

impl crate::blocks::Draft for Draft {
    fn field(&mut self, word: &str) -> Option<&mut Option<Vec<u8>>> {
        match word {
            "snapshot" => Some(&mut self.snapshot),
            "operand" => Some(&mut self.operand),
            "out" => Some(&mut self.out),
            "end" => Some(&mut self.end),
            _ => None,
        }
    }

    fn line(&mut self, word: &str, words: &[&str], _: usize) -> Result<(), String> {
        match word {
            "refused" => once(&mut self.refused, refusal(words)?),
            "buffers" => once(&mut self.buffers, buffers(words)?),
            _ => Err(no_word(word)),
        }
    }

    fn block(mut self) -> Result<Block, String> {
        let out = self.whole_out()?;
        let end = self.end.take().unwrap_or_default();
        let (out_len, end_len) = self.buffers.unwrap_or((CURRENTS_BYTES, END_BUFFER));
        Ok(Block {
            call: Call::Currents,
            inputs: vec![
                self.snapshot.ok_or("it has no snapshot")?,
                self.operand.ok_or("it has no operand")?,
            ],
            refusal: self.refused.unwrap_or(0),
            number: end.len(),
            buffers: vec![
                Buffer::holding(out, out_len)?,
                Buffer::holding(end, end_len)?,
            ],
            printed: None,
            event_lines: Vec::new(),
        })
    }
}

impl Draft {
    /// The answer and the currents; nothing if the call is refused.
    fn whole_out(&mut self) -> Result<Vec<u8>, String> {
        let refused = is_refused(self.refused, &self.end)?;
        match self.out.take() {
            Some(_) if refused => Err("refused currents have no out".into()),
            None if refused => Ok(Vec::new()),
            Some(out) => of_len(out, CURRENTS_BYTES),
            None => Err("it has no out".into()),
        }
    }
}

#[cfg(test)]
mod tests {
    use crate::blocks::{in_document, Block};
    use crate::library::Call;

    const BLOCK: &str = "```currents\n\
        snapshot 01 0100  0C03  05  # address 5\n\
        operand  00*7 03\n\
        out      00 04 03 00*15\n         01-1E\n\
        end      01 0100\n         0C03  05\n\
        buffers  60 2379\n\
        ```\n";

    const REFUSED: &str = "```currents\nsnapshot 02 0000\noperand\nrefused 40\n```\n";

    fn read(text: &str) -> Result<Block, String> {
        let mut blocks = in_document(text);
        assert_eq!(blocks.len(), 1, "{text}");
        blocks.remove(0).1
    }

    fn lens(block: &Block) -> Vec<usize> {
        block.buffers.iter().map(|buffer| buffer.len).collect()
    }

    #[test]
    fn a_block_is_read_whole() {
        let block = read(BLOCK).unwrap_or_else(|fault| panic!("{fault}"));
        let snapshot = vec![1, 1, 0, 0x0C, 3, 5];
        let currents: Vec<u8> = (1..=30).collect();
        assert_eq!(block.call, Call::Currents);
        assert_eq!(
            block.inputs,
            [snapshot.clone(), vec![0, 0, 0, 0, 0, 0, 0, 3]]
        );
        assert_eq!(
            block.buffers[0].written,
            [&[0, 4, 3][..], &[0; 15], &currents].concat()
        );
        assert_eq!(block.buffers[1].written, snapshot);
        assert_eq!(lens(&block), [60, 2379]);
        assert_eq!((block.returned(), block.refusals()), (6, vec![0, 0]));
    }

    #[test]
    fn the_buffers_have_sizes_of_their_own() {
        let block = read(&BLOCK.replace("buffers  60 2379\n", ""));
        assert_eq!(block.ok().map(|block| lens(&block)), Some(vec![48, 4096]));
    }

    #[test]
    fn refused_currents_write_nothing() {
        let block = read(REFUSED).unwrap_or_else(|fault| panic!("{fault}"));
        assert_eq!(block.inputs, [vec![2, 0, 0], vec![]]);
        assert_eq!((block.returned(), block.refusals()), (40 << 16, vec![40]));
        assert!(block.buffers.iter().all(|buffer| buffer.written.is_empty()));
    }

    #[test]
    fn a_refusal_in_the_answer_is_shown() {
        let block = read(&BLOCK.replace("out      00", "out      04"));
        assert_eq!(block.ok().map(|block| block.refusals()), Some(vec![0, 4]));
    }

    /// Each edit of the block above is a fault, named in the words beside it.
    const FAULTS: &[(&str, &str, &str)] = &[
        ("snapshot 01 0100  0C03  05", "", "no snapshot"),
        ("operand  00*7 03", "", "no operand"),
        ("operand  00*7 03", "operand  00*7 3", "'3' is no group"),
        ("operand", "log", "line 3: 'log' is no word"),
        ("operand", "event", "'event' is no word"),
        ("operand", "printed", "'printed' is no word"),
        ("operand", "answers", "'answers' is no word"),
        ("operand", "snapshot", "line 3: this word stands twice"),
        ("out      00 04 03 00*15\n         01-1E\n", "", "no out"),
        ("01-1E", "01-1D", "47 bytes where 48 belong"),
        ("01-1E", "01-1F", "49 bytes where 48 belong"),
        ("end      01 0100\n         0C03  05", "", "neither"),
        (
            "end      01 0100\n         0C03  05",
            "refused 40",
            "have no out",
        ),
        ("buffers  60 2379", "refused 40", "both"),
        ("buffers  60 2379", "refused", "no refusal's number"),
        ("buffers  60 2379", "buffers 60", "no two sizes"),
        ("buffers  60 2379", "buffers 47 2379", "smaller"),
        ("buffers  60 2379", "buffers 48 5", "smaller"),
        (
            "60 2379",
            "60 2379\n         2379",
            "line 9: it goes on with a word that has one line only",
        ),
        ("2379\n```", "2379\n", "isn't closed"),
    ];

    #[test]
    fn faults_are_found() {
        for (old, new, fault) in FAULTS {
            assert!(BLOCK.contains(old), "{old}");
            match read(&BLOCK.replacen(old, new, 1)) {
                Ok(_) => panic!("'{new}' for '{old}' is accepted"),
                Err(found) => assert!(found.contains(fault), "{new}: {found}"),
            }
        }
    }
}
