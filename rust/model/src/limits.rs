//! Every limit of document 01, in one place.

/// "text 32,768 bytes"
pub const TEXT_BYTES: usize = 32_768;
/// "A name is a letter and up to 11 more letters or digits"
pub const NAME_BYTES: usize = 12;
/// "A formula is 0 to 8 atoms on the same line"
pub const ATOMS: usize = 8;
/// "16 classes"
pub const CLASSES: usize = 16;
/// "8 fields a class"
pub const FIELDS: usize = 8;
/// "64 methods", counted over the whole text.
pub const METHODS: usize = 64;
/// "12 locals a block"; the parameter is not one of them.
pub const LOCALS: usize = 12;
/// "256 statement lines in the text, with `else`, `join` and `end` counted"
pub const STATEMENT_LINES: usize = 256;
/// "branches nest at most 4 deep"
pub const NESTING: usize = 4;

/// "A checker's state has at most 64 permissions ..."
pub const PERMISSIONS: usize = 64;
/// "... and 64 facts."
pub const FACTS: usize = 64;

/// "The machine has 256 objects, ..."
pub const OBJECTS: usize = 256;
/// "... 1,024 fields ..."
pub const HEAP_FIELDS: usize = 1_024;
/// "... and 64 frames with main's."
pub const FRAMES: usize = 64;

/// W6: "if the bound passes 1,000,000"
pub const BOUND: u32 = 1_000_000;

/// W11: "at most 4 `acc` atoms"
pub const FILLED_ATOMS: usize = 4;

/// W12: "up to four scripts"
pub const SCRIPTS: usize = 4;
/// W12: "a share of k objects and 4 × k fields"
pub const SHARE_FIELDS: usize = 4;

/// "a work area of 65,536 bytes"
pub const WORK_BYTES: usize = 65_536;
/// "a results area of 52 bytes"
pub const RESULT_BYTES: usize = 52;
/// W6: "The call fills 8 bytes"
pub const BOUND_BYTES: usize = 8;
/// W11: "The answer is 4 bytes"
pub const PLACE_BYTES: usize = 4;
/// W12: "56 bytes: what run returns, then results", for each script.
pub const SCRIPT_BYTES: usize = 56;
/// W12: "224 bytes for results"
pub const COUNT_BYTES: usize = SCRIPTS * SCRIPT_BYTES;
/// "The program ... allows 1,000 steps"
pub const PROGRAM_STEPS: u32 = 1_000;
