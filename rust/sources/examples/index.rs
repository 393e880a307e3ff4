//! Prints the index: each sentence of the papers with the definitions that quote it, and the laws and the code about them.

use sources::{papers, root, sources, Index};

fn main() {
    print!("{}", Index::of(sources(), papers(&root())).page());
}
