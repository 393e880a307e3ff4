//! The declarations of a random program: classes, fields, methods and locals,
//! with empty contracts and bodies.

use super::rng::Rng;
use crate::limits;

const CLASS_NAMES: [&str; 10] = [
    "S",
    "T",
    "Card",
    "Box",
    "class",
    "C2",
    "Node",
    "Q",
    "main",
    "Abcdefghijkl",
];
const FIELD_NAMES: [&str; 14] = [
    "f",
    "g",
    "n",
    "next",
    "prev",
    "val",
    "acc",
    "read",
    "chain",
    "x",
    "S",
    "h1",
    "eq",
    "abcdefghijkl",
];
const METHOD_NAMES: [&str; 11] = [
    "m",
    "put",
    "get",
    "walk",
    "swap",
    "make",
    "new",
    "n",
    "shut",
    "end",
    "abcdefghijkl",
];
const VAR_NAMES: [&str; 21] = [
    "a",
    "b",
    "c",
    "s",
    "t",
    "u",
    "x",
    "y",
    "z",
    "i",
    "j",
    "k",
    "p1",
    "q9",
    "let",
    "open",
    "eq",
    "S",
    "abcdefghijkl",
    "tmp",
    "w",
];

/// How large the program is.
#[derive(Clone, Copy, Debug)]
pub struct Size {
    pub classes: usize,
    pub fields: usize,
    pub methods: usize,
    pub locals: usize,
}

impl Size {
    pub fn random(rng: &mut Rng) -> Size {
        Size {
            classes: rng.within(1, 4),
            fields: rng.pick(&[2, 3, 3, 4, 8]),
            methods: rng.pick(&[1, 2, 2, 3, 4]),
            locals: rng.pick(&[1, 2, 4, 8]),
        }
    }
}

/// So many of the names, in a random order.
fn some<'n>(rng: &mut Rng, names: &[&'n str], count: usize) -> Vec<&'n str> {
    let mut names = names.to_vec();
    rng.shuffle(&mut names);
    names.truncate(count);
    names
}

fn kind(rng: &mut Rng, classes: &[&str]) -> String {
    match rng.chance(40) {
        true => "int".to_string(),
        false => rng.pick(classes).to_string(),
    }
}

/// The type of a field; some are of the class itself, so that chains go by them.
fn field_kind(rng: &mut Rng, class: &str, classes: &[&str]) -> String {
    match rng.chance(20) {
        true => class.to_string(),
        false => kind(rng, classes),
    }
}

/// `var` lines: one local of each type if there is room, then others.
fn locals(rng: &mut Rng, classes: &[&str], size: Size, param: Option<&str>, out: &mut Vec<String>) {
    let least = classes.len() + 1;
    let count = rng.within(least, least + size.locals).min(limits::LOCALS);
    let names = some(rng, &VAR_NAMES, count + 1);
    let mut kinds = vec!["int".to_string()];
    kinds.extend(classes.iter().map(|class| class.to_string()));
    while kinds.len() < count {
        kinds.push(kind(rng, classes));
    }
    rng.shuffle(&mut kinds);
    let free = names.iter().filter(|&&name| Some(name) != param);
    for (name, kind) in free.zip(kinds) {
        out.push(format!("var\t{kind}\t{name}"));
    }
}

/// The lines of a text that the reader takes, its contracts and bodies empty.
pub fn skeleton(rng: &mut Rng, size: Size) -> Vec<String> {
    let classes = some(rng, &CLASS_NAMES, size.classes);
    let mut out = Vec::new();
    for class in &classes {
        out.push(format!("class\t{class}"));
        let least = usize::from(rng.chance(85));
        let count = rng.within(least, size.fields);
        for field in some(rng, &FIELD_NAMES, count) {
            let kind = field_kind(rng, class, &classes);
            out.push(format!("field\t{kind}\t{field}"));
        }
        let count = rng.within(0, size.methods);
        for method in some(rng, &METHOD_NAMES, count) {
            let (result, type_of_param) = (kind(rng, &classes), kind(rng, &classes));
            let param = rng.pick(&VAR_NAMES);
            out.push(format!(
                "method\t{result}\t{method}\t{type_of_param}\t{param}"
            ));
            out.push("requires".to_string());
            out.push("ensures".to_string());
            locals(rng, &classes, size, Some(param), &mut out);
            out.push("end".to_string());
        }
    }
    out.push("main".to_string());
    locals(rng, &classes, size, None, &mut out);
    out.push("end".to_string());
    out
}
