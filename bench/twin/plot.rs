//! From a .blocks text to a .pl text.

use crate::blocks::{Entry, read_blocks};
use crate::pack::Placement;
use crate::pl::{copy_out, write_pl};
use crate::plan::{Lists, MOST_BLOCKS, NONE, Plan};
use crate::refusal::Refusal;
use crate::skyline::{Kind, MOST_COLUMNS, Skyline};

/// The entries' blocks as a tree: block 0 the root, 2k + 1 and 2k + 2 the children of k.
fn heap_tree(entries: &[Entry]) -> (Lists, u16) {
    let n = entries.len();
    let link = |block: usize| if block < n { block as u16 } else { NONE };
    let lists = Lists {
        sizes: entries.iter().map(|entry| (entry.width, entry.height)).collect(),
        letters: vec![b'F'; n],
        children: (0..n).map(|k| (link(2 * k + 1), link(2 * k + 2))).collect(),
    };
    (lists, link(0))
}

fn pack_text(text: &[u8]) -> Result<(Vec<Entry>, Vec<Placement>), Refusal> {
    let mut entries = vec![Entry::default(); MOST_BLOCKS];
    let n = read_blocks(text, &mut entries)?;
    entries.truncate(n);
    let (lists, root) = heap_tree(&entries);
    let mut plan = Plan::new();
    plan.load(&lists, root, MOST_BLOCKS)?;
    let mut places = vec![Placement::default(); n];
    plan.pack(&mut Skyline::new(Kind::Steps, MOST_COLUMNS, 1_025), MOST_BLOCKS, &mut places)?;
    Ok((entries, places))
}

/// Writes the .pl text of a .blocks text, or a line that says why it is refused; answers the length.
pub fn plot(text: &[u8], buffer: &mut [u8]) -> Result<usize, Refusal> {
    match pack_text(text) {
        Ok((entries, places)) => write_pl(text, &entries, &places, buffer),
        Err(refusal) => copy_out(format!("{refusal}\n").as_bytes(), buffer),
    }
}

#[cfg(test)]
mod tests {
    use super::*;

    const K: &str = "UCSC blocks 1.0\nNumSoftRectangularBlocks : 0\nNumHardRectilinearBlocks : 5\nNumTerminals : 0\n\
        a hardrectilinear 4 (0, 0) (0, 3) (4, 3) (4, 0)\nb hardrectilinear 4 (0, 0) (0, 2) (3, 2) (3, 0)\n\
        c hardrectilinear 4 (0, 0) (0, 4) (2, 4) (2, 0)\nd hardrectilinear 4 (0, 0) (0, 2) (2, 2) (2, 0)\n\
        e hardrectilinear 4 (0, 0) (0, 1) (5, 1) (5, 0)\n";

    fn plotted(text: &str) -> String {
        let mut buffer = [b'.'; 100];
        let length = plot(text.as_bytes(), &mut buffer).unwrap();
        assert!(buffer[length..].iter().all(|&b| b == b'.'));
        String::from_utf8(buffer[..length].to_vec()).unwrap()
    }

    #[test]
    fn plots_plan_k() {
        let expected = "UCLA pl 1.0\n\na 0 0\nb 4 0\nc 0 3\nd 7 0\ne 4 2\n";
        assert_eq!(plotted(K), expected);
        let mut short = [0; 42];
        assert_eq!(expected.len(), 43);
        assert_eq!(plot(K.as_bytes(), &mut short).unwrap_err().number, 18);
        assert_eq!(short, [0; 42]);
    }

    #[test]
    fn says_why_it_refuses() {
        assert_eq!(plotted("what"), "refused 13 at 1\n");
        assert_eq!(plotted(&K.replace("e hard", "a hard")), "refused 16 at 9\n");
        assert_eq!(plotted(&K.replace(": 5", ": 0").lines().take(4).collect::<Vec<_>>().join("\n")), "UCLA pl 1.0\n\n");
    }
}
