//! The cards on the page: the drawing after the run, the pictures of the steps
//! before it, a slider over them, and the steps themselves.

use super::film::{Film, Frame, Picture};
use super::html::{cell, escaped, table};
use super::said::{html, Piece};
use explain::cause::AGAIN;
use explain::show::counted;

/// The width of a picture, by which the page does not let it shrink too far.
fn width(svg: &str) -> &str {
    let width = svg.split("width=\"").nth(1);
    width.and_then(|rest| rest.split('"').next()).unwrap_or("0")
}

/// The cards drawn, and in words for those who see no colours.
fn drawn(picture: &Picture) -> String {
    let lines = picture.words.lines();
    let words: Vec<String> = lines.map(|line| escaped(line.trim())).collect();
    let words = match words.is_empty() {
        true => "no cards".to_string(),
        false => words.join("\n"),
    };
    let wide = width(&picture.svg);
    format!(
        "<div class=\"drawing\" style=\"--wide: {wide}px\">{}</div>\n\
         <pre class=\"cards\">{words}</pre>\n",
        picture.svg
    )
}

fn row(frame: &Frame, prefix: &str) -> String {
    let line = match frame.line {
        0 => String::new(),
        line => html(&[Piece::Line(line)], prefix),
    };
    let text = match frame.step {
        0 => "before the first step".to_string(),
        _ => format!("<code>{}</code>", escaped(&frame.text)),
    };
    let (step, picture) = (frame.step, frame.picture);
    format!(
        "<tr data-step=\"{step}\" data-line=\"{}\" data-picture=\"{picture}\">{}{}{}{}</tr>\n",
        frame.line,
        cell("step", &step.to_string()),
        cell("line", &line),
        cell("statement", &text),
        cell("what changed", &escaped(&frame.changes.join(", ")))
    )
}

/// The pictures that are not shown at first.
fn others(film: &Film, shown: usize) -> String {
    let pictures = film.pictures.iter().enumerate();
    let others = pictures.filter(|(at, _)| *at != shown);
    others
        .map(|(at, picture)| {
            let drawn = drawn(picture);
            format!("<template data-picture=\"{at}\">\n{drawn}</template>\n")
        })
        .collect()
}

fn steps(film: &Film, prefix: &str) -> String {
    let rows: String = film.frames.iter().map(|frame| row(frame, prefix)).collect();
    let headings = ["step", "line", "statement", "what changed"].map(str::to_string);
    let left_out = match film.left_out {
        0 => String::new(),
        steps => {
            let steps = counted(steps.into(), "step");
            format!("<p class=\"note\">Not shown: {steps} before the last.</p>\n")
        }
    };
    let table = table("stacked steps", &headings, &rows);
    format!("{left_out}<details><summary>The steps</summary>\n{table}</details>\n")
}

/// The whole section. What the slider needs is hidden where no script runs.
pub fn section(film: &Film, prefix: &str) -> String {
    let Some(last) = film.frames.last() else {
        return String::new();
    };
    let (step, shown) = (last.step, last.picture);
    let most = film.frames.len() - 1;
    format!(
        "<section class=\"film\" id=\"{prefix}film\">\n<h2>The cards</h2>\n\
         <p class=\"controls\" hidden><button type=\"button\" data-by=\"-1\">Step back</button>\
         <input type=\"range\" min=\"0\" max=\"{most}\" value=\"{most}\" aria-label=\"step\">\
         <button type=\"button\" data-by=\"1\">Step on</button></p>\n\
         <p class=\"caption\" aria-live=\"polite\">after step {step}</p>\n\
         <div class=\"stage\" data-picture=\"{shown}\">\n{}</div>\n{}{}</section>\n",
        drawn(&film.pictures[shown]),
        others(film, shown),
        steps(film, prefix)
    )
}

/// In the place of the section, where the steps of a run are not shown.
pub fn none(prefix: &str) -> String {
    let most = counted(AGAIN.into(), "step");
    format!(
        "<section id=\"{prefix}film\">\n<h2>The cards</h2>\n\
         <p>They are drawn of runs of at most {most}.</p>\n</section>\n"
    )
}
