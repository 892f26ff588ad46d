//! Blocks of the plan: `snapshot`, `wanted`, then `writes` and `count`, or
//! `refused`; and `buffers`.

use crate::blocks::language::{buffer, number, of_len, once, refusal};
use crate::blocks::{no_word, Block, Buffer};
use crate::library::Call;
use kit::WRITES_BYTES;

/// A block as far as it has been read.
#[derive(Default)]
pub struct Draft {
    snapshot: Option<Vec<u8>>,
    wanted: Option<Vec<u8>>,
    writes: Option<Vec<u8>>,
    count: Option<usize>,
    refused: Option<u64>,
    buffers: Option<usize>,
}

impl crate::blocks::Draft for Draft {
    fn field(&mut self, word: &str) -> Option<&mut Option<Vec<u8>>> {
        match word {
            "snapshot" => Some(&mut self.snapshot),
            "wanted" => Some(&mut self.wanted),
            "writes" => Some(&mut self.writes),
            _ => None,
        }
    }

    fn line(&mut self, word: &str, words: &[&str], _: usize) -> Result<(), String> {
        match word {
            "count" => once(&mut self.count, count(words)?),
            "refused" => once(&mut self.refused, refusal(words)?),
            "buffers" => once(&mut self.buffers, buffer(words)?),
            _ => Err(no_word(word)),
        }
    }

    fn block(mut self) -> Result<Block, String> {
        let (writes, count) = self.list()?;
        let writes_len = self.buffers.unwrap_or(WRITES_BYTES);
        Ok(Block {
            call: Call::Plan,
            inputs: vec![
                self.snapshot.ok_or("it has no snapshot")?,
                self.wanted.ok_or("it has no wanted")?,
            ],
            refusal: self.refused.unwrap_or(0),
            number: count,
            buffers: vec![Buffer::holding(writes, writes_len)?],
            printed: None,
            event_lines: Vec::new(),
        })
    }
}

impl Draft {
    /// The writes, two bytes each, and their count; none if the call is refused.
    fn list(&mut self) -> Result<(Vec<u8>, usize), String> {
        match (self.refused, self.writes.take(), self.count) {
            (Some(_), None, None) => Ok((Vec::new(), 0)),
            (Some(_), ..) => Err("a refused plan has neither writes nor a count".into()),
            (None, None, _) => Err("it has neither writes nor a refusal".into()),
            (None, _, None) => Err("it has no count".into()),
            (None, Some(writes), Some(count)) => Ok((of_len(writes, 2 * count)?, count)),
        }
    }
}

fn count(words: &[&str]) -> Result<usize, String> {
    match words {
        [word] => number(word).filter(|&count| count <= usize::from(u16::MAX)),
        _ => None,
    }
    .ok_or("no count of accesses".into())
}

#[cfg(test)]
mod tests {
    use crate::blocks::{in_document, Block};
    use crate::library::Call;

    const BLOCK: &str = "```plan\n\
        snapshot 02 0100  0003  05  # address 5\n\
        wanted   00*765\n         01-03\n\
        writes   00FF 0101\n         0102 0103\n\
        count    4\n\
        buffers  1600\n\
        ```\n";

    const REFUSED: &str = "```plan\nsnapshot 01 0000\nwanted\nrefused 41\n```\n";

    fn read(text: &str) -> Result<Block, String> {
        let mut blocks = in_document(text);
        assert_eq!(blocks.len(), 1, "{text}");
        blocks.remove(0).1
    }

    #[test]
    fn a_block_is_read_whole() {
        let block = read(BLOCK).unwrap_or_else(|fault| panic!("{fault}"));
        let wanted = [&[0; 765][..], &[1, 2, 3]].concat();
        assert_eq!(block.call, Call::Plan);
        assert_eq!(block.inputs, [vec![2, 1, 0, 0, 3, 5], wanted]);
        let [writes] = &block.buffers[..] else {
            panic!("a plan has one buffer");
        };
        assert_eq!(writes.written, [0, 255, 1, 1, 1, 2, 1, 3]);
        assert_eq!(writes.len, 1600);
        assert_eq!((block.returned(), block.refusals()), (4, vec![0]));
    }

    #[test]
    fn the_buffer_has_a_size_of_its_own() {
        let block = read(&BLOCK.replace("buffers  1600\n", ""));
        assert_eq!(block.ok().map(|block| block.buffers[0].len), Some(1538));
    }

    #[test]
    fn a_list_may_be_empty() {
        let empty = BLOCK.replace(" 00FF 0101\n         0102 0103\n", "\n");
        let block = read(&empty.replace("count    4", "count 0"));
        let block = block.unwrap_or_else(|fault| panic!("{fault}"));
        assert!(block.buffers[0].written.is_empty());
        assert_eq!((block.returned(), block.refusals()), (0, vec![0]));
    }

    #[test]
    fn a_refused_plan_writes_nothing() {
        let block = read(REFUSED).unwrap_or_else(|fault| panic!("{fault}"));
        assert_eq!(block.inputs, [vec![1, 0, 0], vec![]]);
        assert_eq!((block.returned(), block.refusals()), (41 << 16, vec![41]));
        assert!(block.buffers[0].written.is_empty());
    }

    /// Each edit of the block above is a fault, named in the words beside it.
    const FAULTS: &[(&str, &str, &str)] = &[
        ("snapshot 02 0100  0003  05", "", "no snapshot"),
        ("wanted   00*765\n         01-03\n", "", "no wanted"),
        ("wanted", "log", "line 3: 'log' is no word"),
        ("wanted", "operand", "'operand' is no word"),
        ("wanted", "end", "'end' is no word"),
        ("wanted", "snapshot", "line 3: this word stands twice"),
        ("0102 0103", "0102 01", "7 bytes where 8 belong"),
        ("0102 0103", "0102 0103 0104", "10 bytes where 8 belong"),
        (
            "writes   00FF 0101\n         0102 0103\n",
            "",
            "neither writes nor a refusal",
        ),
        ("count    4\n", "", "it has no count"),
        ("count    4", "count 3", "8 bytes where 6 belong"),
        ("count    4", "count", "no count of accesses"),
        ("count    4", "count 65536", "no count of accesses"),
        ("count    4", "count 4 4", "no count of accesses"),
        ("count    4", "refused 42", "neither writes nor a count"),
        ("buffers  1600", "refused 42", "neither writes nor a count"),
        ("buffers  1600", "refused", "no refusal's number"),
        ("buffers  1600", "buffers 1600 4096", "not one size"),
        ("buffers  1600", "buffers", "not one size"),
        ("buffers  1600", "buffers 7", "smaller"),
        (
            "1600\n",
            "1600\n         1600\n",
            "line 9: it goes on with a word that has one line only",
        ),
        ("1600\n```", "1600\n", "isn't closed"),
    ];

    #[test]
    fn faults_are_found() {
        for (old, new, fault) in FAULTS {
            assert!(BLOCK.contains(old), "{old}");
            match read(&BLOCK.replacen(old, new, 1)) {
                Ok(_) => panic!("'{new}' for '{old}' is accepted"),
                Err(found) => assert!(found.contains(fault), "{new}: {found}"),
            }
        }
    }
}
