//! `station draw`: the picture of a run, or of several on one sheet.

use crate::session::{Session, Status, Summary};
use explain::show::{self, file_name};
use explain::{draw, objects};
use std::ffi::OsStr;

/// Room for a file's name above its picture.
const HEADING: usize = 28;

/// A picture with the file that it is of.
struct Picture {
    file: String,
    svg: String,
}

impl Picture {
    /// The value of `width` or `height`.
    fn size(&self, name: &str) -> usize {
        let start = format!(" {name}=\"");
        let rest = self.svg.split_once(&start).map_or("", |(_, rest)| rest);
        let digits = rest.split('"').next().unwrap_or("");
        digits.parse().unwrap_or(0)
    }
}

/// The pictures below each other, as one.
fn sheet(pictures: &[Picture]) -> String {
    let width = pictures.iter().map(|picture| picture.size("width")).max();
    let (width, mut height) = (width.unwrap_or(0), 0);
    let mut body = String::new();
    for picture in pictures {
        let (name, line) = (draw::escaped(&picture.file), height + 2 * HEADING / 3);
        body.push_str(&format!(
            "<text x=\"8\" y=\"{line}\" font-family=\"sans-serif\" font-size=\"14\">{name}</text>\n"
        ));
        height += HEADING;
        let inner = format!("<svg y=\"{height}\" ");
        body.push_str(&picture.svg.replacen("<svg ", &inner, 1));
        height += picture.size("height");
    }
    format!(
        "<svg xmlns=\"http://www.w3.org/2000/svg\" width=\"{width}\" height=\"{height}\" \
         viewBox=\"0 0 {width} {height}\">\n{body}</svg>\n"
    )
}

/// The picture of one file; what there is to say of it is said.
fn picture(session: &mut Session, name: &OsStr, text: &[u8], alone: bool) -> Option<Picture> {
    let shown = file_name(name);
    let asked = session.shown_run();
    let report = session.report(&shown, text, asked);
    let svg = draw::picture(&report);
    if session.json() {
        let object = objects::report(&report).with_some("picture", svg.clone());
        session.print_json(&object);
    } else if svg.is_some() {
        eprint!("{}", show::head(&report, session.paint));
    } else if alone {
        session.print(&show::report(&report, session.paint));
    } else {
        eprint!("{}", show::report(&report, session.paint));
    }
    svg.map(|svg| Picture { file: shown, svg })
}

/// The command. A stopped run has its picture too; a text that is not run has none.
pub fn draw(session: &mut Session) -> Status {
    let mut tally = session.tally(Summary::new("drawn", "not drawn").aside(true));
    let names = session.scripts();
    let alone = names.len() == 1;
    let mut pictures = Vec::new();
    for name in names {
        let status = match session.text(&name) {
            None => Status::Failed,
            Some(text) => {
                let found = picture(session, &name, &text, alone);
                let status = Status::of(found.is_some());
                pictures.extend(found);
                status
            }
        };
        tally.note(status);
    }
    match &pictures[..] {
        _ if session.json() => {}
        [] => {}
        [picture] if alone => session.print(&picture.svg),
        several => session.print(&sheet(several)),
    }
    session.summed_up(&tally)
}
