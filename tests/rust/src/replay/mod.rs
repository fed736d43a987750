//! Folders for the bench runner: files of several chunks, good and damaged, and what is to be printed for them.
//!
//! The runner reads and writes in chunks of a size that this package does not know, so lines, line feeds and numbers are brought to the
//! ends of chunks of every likely size. Reads of a regular file are full but for the last, so some readings come through a pipe, in pieces.

pub mod benches;
pub mod classes;
pub mod coverage;
pub mod draft;
pub mod edges;
pub mod exact;
pub mod files;
pub mod headers;
pub mod judge;
pub mod outputs;
pub mod pieces;
pub mod pipe;
pub mod program;
pub mod records;
pub mod required;

use crate::generate::prng::Prng;
use crate::runner;

/// Likely sizes of a chunk.
pub const CHUNKS: [usize; 4] = [4_096, 8_192, 32_768, 65_536];
/// The size that most classes are counted for.
pub const CHUNK: usize = 65_536;

/// So many of a hundred folders with readings have them come through a pipe.
const PIPE_SHARE: usize = 11;

/// bench.txt and readings.txt; `None` is a missing file.
pub type Files = (Option<Vec<u8>>, Option<Vec<u8>>);

#[derive(Clone, Debug, Default, PartialEq, Eq)]
pub struct Folder {
    pub recipe: &'static str,
    pub bench: Option<Vec<u8>>,
    pub readings: Option<Vec<u8>>,
    /// Standard input is closed, so that the first file that is opened gets descriptor 0. Else it is /dev/null.
    pub closed_input: bool,
    /// readings.txt is a pipe and comes in pieces that end at these places, which ascend and lie within it. `None`: a regular file.
    pub cuts: Option<Vec<usize>>,
}

struct Recipe {
    name: &'static str,
    /// How many folders of a round are made by it.
    share: u64,
    /// Gets the count of its folders before this one, to take its choices in turn.
    make: fn(&mut Prng, usize) -> Files,
}

const RECIPES: [Recipe; 10] = [
    Recipe { name: "small", share: 5, make: files::small },
    Recipe { name: "edges", share: 6, make: edges::edges },
    Recipe { name: "records", share: 4, make: records::records },
    Recipe { name: "headers", share: 4, make: headers::headers },
    Recipe { name: "outputs", share: 4, make: outputs::outputs },
    Recipe { name: "stretches", share: 1, make: outputs::stretches },
    Recipe { name: "texts", share: 2, make: files::texts },
    Recipe { name: "refused", share: 2, make: files::refused },
    Recipe { name: "missing", share: 2, make: files::missing },
    Recipe { name: "noise", share: 2, make: files::noise },
];

/// The folder of this number.
pub fn folder(seed: u64, number: u64) -> Folder {
    let mut prng = Prng::for_case(seed, number);
    let (recipe, turn) = recipe(number);
    let (bench, readings) = (recipe.make)(&mut prng, turn);
    let closed_input = prng.chance(40);
    let cuts = readings.as_ref().filter(|_| prng.chance(PIPE_SHARE)).map(|readings| pieces::cuts(&mut prng, readings));
    Folder { recipe: recipe.name, bench, readings, closed_input, cuts }
}

/// The recipe of a number, and how many lower numbers have it.
fn recipe(number: u64) -> (&'static Recipe, usize) {
    let round: u64 = RECIPES.iter().map(|recipe| recipe.share).sum();
    let mut slot = number % round;
    for recipe in &RECIPES {
        if slot < recipe.share {
            return (recipe, (number / round * recipe.share + slot) as usize);
        }
        slot -= recipe.share;
    }
    unreachable!("the slot is below the sum of the shares")
}

impl Folder {
    /// A missing file is empty.
    pub fn bench_text(&self) -> &[u8] {
        self.bench.as_deref().unwrap_or(b"")
    }

    /// A missing file is empty.
    pub fn readings_text(&self) -> &[u8] {
        self.readings.as_deref().unwrap_or(b"")
    }

    /// What of the readings comes at once: the pieces of a pipe, or a whole file.
    pub fn pieces(&self) -> Vec<&[u8]> {
        pieces::pieces(self.readings_text(), self.cuts.as_deref().unwrap_or(&[]))
    }

    /// What the interpreter prints.
    pub fn wanted(&self) -> Vec<u8> {
        let mut out = Vec::new();
        runner::run(self.bench_text(), self.readings_text(), &mut out).expect("writing to memory does not fail");
        out
    }
}
