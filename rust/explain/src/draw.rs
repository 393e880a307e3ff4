//! A drawing: the cards and their links after a run, as an SVG picture.
//! Cards stand in columns by how far they are from main's variables; links are
//! arrows; a field's colour says which open block holds it, two colours that two
//! have a half each. Chains that one block holds to the end, and rings, are marked.

use crate::cards::{self, Card, Cards, Field};
use crate::chains::{marks, part, Part};
use crate::report::Report;
use std::cmp::Ordering;
use std::collections::HashMap;
use std::fmt::Write;

const CARD_WIDTH: i32 = 150;
const ROW: i32 = 20;
const GAP_ACROSS: i32 = 90;
const GAP_DOWN: i32 = 34;
const MARGIN: i32 = 24;
/// Cards above each other in one column.
const COLUMN_CARDS: usize = 12;

/// The colours of holders: main, then the calls by depth; nobody is grey.
const HOLDERS: [&str; 6] = [
    "#2b6cb0", "#c05621", "#2f855a", "#805ad5", "#b83280", "#975a16",
];
const NOBODY: &str = "#a0aec0";

fn colour(holder: Option<usize>) -> &'static str {
    holder.map_or(NOBODY, |at| HOLDERS[at % HOLDERS.len()])
}

/// A text as it stands in a picture.
pub fn escaped(text: &str) -> String {
    let text = text.replace('&', "&amp;").replace('<', "&lt;");
    text.replace('>', "&gt;").replace('"', "&quot;")
}

fn links(card: &Card) -> impl Iterator<Item = (usize, usize)> + '_ {
    let fields = card.fields.iter().enumerate();
    fields.filter_map(|(slot, field)| {
        let target = usize::try_from(field.value).ok()?.checked_sub(1)?;
        field.link.then_some((slot, target))
    })
}

/// The names that each card has: variables of the open blocks.
fn labels(cards: &Cards) -> HashMap<usize, Vec<String>> {
    let mut labels: HashMap<usize, Vec<String>> = HashMap::new();
    for (at, open) in cards.open.iter().enumerate() {
        for (name, value, link) in &open.variables {
            let Some(card) = usize::try_from(*value).ok().and_then(|v| v.checked_sub(1)) else {
                continue;
            };
            if *link {
                let shown = match at {
                    0 => name.clone(),
                    _ => format!("{}:{name}", open.name),
                };
                labels.entry(card).or_default().push(shown);
            }
        }
    }
    labels
}

/// How far each card is from a start, by links. Starts are cards with a name to
/// which no link leads, then other cards with a name, then what is left.
fn distances(cards: &Cards, labels: &HashMap<usize, Vec<String>>) -> Vec<usize> {
    let count = cards.cards.len();
    let mut far = vec![usize::MAX; count];
    let targeted: Vec<usize> = cards
        .cards
        .iter()
        .enumerate()
        .flat_map(|(from, card)| links(card).map(move |(_, to)| (from, to)))
        .filter(|(from, to)| from != to)
        .map(|(_, to)| to)
        .collect();
    let mut starts: Vec<usize> = (0..count)
        .filter(|card| labels.contains_key(card) && !targeted.contains(card))
        .collect();
    starts.extend((0..count).filter(|card| labels.contains_key(card)));
    starts.extend(0..count);
    for start in starts {
        if far[start] != usize::MAX {
            continue;
        }
        far[start] = 0;
        let mut next = vec![start];
        while let Some(card) = next.pop() {
            for (_, to) in links(&cards.cards[card]) {
                if far[to] == usize::MAX {
                    far[to] = far[card] + 1;
                    next.insert(0, to);
                }
            }
        }
    }
    far
}

/// Where each card stands: the left upper corner.
fn places(cards: &Cards, labels: &HashMap<usize, Vec<String>>) -> Vec<(i32, i32)> {
    let far = distances(cards, labels);
    let mut places = vec![(0, 0); cards.cards.len()];
    let mut left = MARGIN;
    let last = far.iter().max().copied().unwrap_or(0);
    for distance in 0..=last {
        let column: Vec<usize> = (0..far.len())
            .filter(|&card| far[card] == distance)
            .collect();
        for part in column.chunks(COLUMN_CARDS) {
            let mut top = MARGIN + ROW;
            for &card in part {
                places[card] = (left, top);
                top += height(&cards.cards[card]) + GAP_DOWN;
            }
            left += CARD_WIDTH + GAP_ACROSS;
        }
    }
    places
}

fn height(card: &Card) -> i32 {
    ROW * (1 + card.fields.len() as i32)
}

fn text(out: &mut String, x: i32, y: i32, class: &str, said: &str) {
    let said = escaped(said);
    let _ = writeln!(
        out,
        r#"<text x="{x}" y="{y}" class="{class}">{said}</text>"#
    );
}

fn draw_card(
    out: &mut String,
    at: usize,
    card: &Card,
    place: (i32, i32),
    names: &str,
    shared: bool,
) {
    let (x, y) = place;
    let (height, class) = (height(card), if shared { "card shared" } else { "card" });
    let _ = writeln!(
        out,
        r#"<rect x="{x}" y="{y}" width="{CARD_WIDTH}" height="{height}" rx="4" class="{class}"/>"#
    );
    text(
        out,
        x + 8,
        y + 15,
        "head",
        &format!("{} {}", at + 1, card.class),
    );
    text(out, x, y - 6, "name", names);
    for (slot, field) in card.fields.iter().enumerate() {
        draw_field(out, field, (x, y + ROW * (slot as i32 + 1)));
    }
}

/// A field, with the colour of its holder before it, or of both.
fn draw_field(out: &mut String, field: &Field, (x, top): (i32, i32)) {
    let apart = field.apart();
    let height = if apart.is_some() { ROW / 2 } else { ROW };
    let holders = apart.map_or(vec![field.holder], |halves| halves.to_vec());
    for (holder, y) in holders.into_iter().zip([top, top + height]) {
        let fill = colour(holder);
        let _ = writeln!(
            out,
            r#"<rect x="{x}" y="{y}" width="6" height="{height}" fill="{fill}"/>"#
        );
    }
    let value = match (field.link, field.value) {
        (true, 0) => "null".to_string(),
        (true, object) => format!("-> {object}"),
        (false, value) => value.to_string(),
    };
    let said = format!("{} = {value}", field.name);
    text(out, x + 18, top + 15, "field", &said);
}

/// An arrow from a field to the head of a card. It leaves on the right and comes
/// in on the left where the card stands further right, the other way round
/// where it stands further left, and bows where it stands in the same column.
fn draw_link(out: &mut String, from: (i32, i32), to: (i32, i32), part: Option<Part>) {
    let (y, ty) = (from.1, to.1 + ROW / 2);
    let (left, right) = (from.0 + 10, from.0 + CARD_WIDTH - 10);
    let (x, tx, bend) = match to.0.cmp(&from.0) {
        Ordering::Greater => (right, to.0, (to.0 - right) / 2),
        Ordering::Less => (left, to.0 + CARD_WIDTH, (to.0 + CARD_WIDTH - left) / 2),
        Ordering::Equal => (right, to.0 + CARD_WIDTH, 0),
    };
    let (one, other) = match bend {
        0 => (x + GAP_ACROSS / 2, tx + GAP_ACROSS / 2),
        bend => (x + bend, tx - bend),
    };
    let class = if to.0 > from.0 { "link" } else { "link back" };
    let marked = match part {
        None => format!(r#"class="{class}""#),
        Some(Part::Ring) => format!(r#"class="{class} ring""#),
        Some(Part::Chain(holder)) => {
            let colour = colour(Some(holder));
            format!(r#"class="{class} chain" style="stroke: {colour}""#)
        }
    };
    let _ = writeln!(
        out,
        r#"<path d="M {x} {y} C {one} {y}, {other} {ty}, {tx} {ty}" {marked} marker-end="url(#arrow)"/>"#
    );
    let _ = writeln!(out, r#"<circle cx="{x}" cy="{y}" r="3" class="dot"/>"#);
}

const STYLE: &str = "\
text { font: 13px sans-serif; fill: #1a202c; } .head { font-weight: bold; } \
.name { fill: #2b6cb0; font-style: italic; } .small { font-size: 12px; fill: #4a5568; } \
.card { fill: #f7fafc; stroke: #4a5568; } .shared { stroke: #c53030; stroke-width: 2.5; } \
.link { fill: none; stroke: #2d3748; stroke-width: 1.4; } .back { stroke: #c53030; stroke-dasharray: 5 3; } \
.chain { stroke-width: 3; } .ring { stroke: #c53030; stroke-width: 3; } \
.dot { fill: #2d3748; }";

fn legend(out: &mut String, cards: &Cards, top: i32) -> i32 {
    let mut y = top;
    let holders = (0..cards.open.len()).map(Some).chain([None]);
    let held = |holder| {
        let mut fields = cards.cards.iter().flat_map(|card| &card.fields);
        fields.any(|field| match field.apart() {
            Some(halves) => halves.contains(&holder),
            None => field.holder == holder,
        })
    };
    for holder in holders.filter(|&holder| held(holder)) {
        let fill = colour(holder);
        let _ = writeln!(
            out,
            r#"<rect x="{MARGIN}" y="{}" width="10" height="10" fill="{fill}"/>"#,
            y - 10
        );
        let said = format!("held by {}", cards.holder(holder));
        text(out, MARGIN + 16, y, "small", &said);
        y += 16;
    }
    let mut fields = cards.cards.iter().flat_map(|card| &card.fields);
    if fields.any(|field| field.apart().is_some()) {
        text(out, MARGIN, y, "small", "two colours: a half each");
        y += 16;
    }
    for said in marked(cards) {
        text(out, MARGIN, y, "small", said);
        y += 16;
    }
    text(
        out,
        MARGIN,
        y,
        "small",
        "red frame: more than one link leads there; dashed: a link back",
    );
    y + 16
}

/// What thick links mean, where there are some.
fn marked(cards: &Cards) -> Vec<&'static str> {
    let all = cards.cards.iter().enumerate();
    let all = all.flat_map(|(at, card)| links(card).map(move |(slot, _)| (at, slot)));
    let parts: Vec<Part> = all.filter_map(|(at, slot)| part(cards, at, slot)).collect();
    let chain = parts.iter().any(|part| matches!(part, Part::Chain(_)));
    let ring = parts.contains(&Part::Ring);
    let chain = chain.then_some("thick link: a chain, in the colour of who holds all of it");
    let ring = ring.then_some("thick red link: a ring, which is no chain");
    chain.into_iter().chain(ring).collect()
}

/// The picture of some cards, as SVG.
pub fn svg(cards: &Cards, title: &str) -> String {
    let labels = labels(cards);
    let places = places(cards, &labels);
    let mut body = String::new();
    let mut into: HashMap<usize, usize> = HashMap::new();
    for (from, card) in cards.cards.iter().enumerate() {
        for (slot, to) in links(card) {
            *into.entry(to).or_default() += 1;
            let (x, y) = places[from];
            let start = (x, y + ROW * (slot as i32 + 1) + ROW / 2);
            draw_link(&mut body, start, places[to], part(cards, from, slot));
        }
    }
    let mut boxes = String::new();
    for (at, card) in cards.cards.iter().enumerate() {
        let names = labels.get(&at).into_iter().flatten().cloned();
        let names: Vec<String> = names.chain(marks(cards, at)).collect();
        let names = names.join(", ");
        let shared = into.get(&at).is_some_and(|&count| count > 1);
        draw_card(&mut boxes, at, card, places[at], &names, shared);
    }
    let right = places.iter().map(|place| place.0).max().unwrap_or(MARGIN);
    let lower = |at: usize| places[at].1 + height(&cards.cards[at]);
    let bottom = (0..places.len()).map(lower).max().unwrap_or(MARGIN + ROW);
    let end = legend(&mut boxes, cards, bottom + GAP_DOWN);
    let width = (right + CARD_WIDTH + GAP_ACROSS).max(480);
    format!(
        "<svg xmlns=\"http://www.w3.org/2000/svg\" width=\"{width}\" height=\"{end}\" \
         viewBox=\"0 0 {width} {end}\">\n<title>{}</title>\n<style>{STYLE}</style>\n\
         <defs><marker id=\"arrow\" viewBox=\"0 0 10 10\" refX=\"9\" refY=\"5\" markerWidth=\"7\" \
         markerHeight=\"7\" orient=\"auto\"><path d=\"M 0 0 L 10 5 L 0 10 z\"/></marker></defs>\n\
         <rect width=\"{width}\" height=\"{end}\" fill=\"white\"/>\n{boxes}{body}</svg>\n",
        escaped(title)
    )
}

/// The picture of the cards after a run; none if there was none.
pub fn picture(report: &Report) -> Option<String> {
    let ran = report.ran.as_ref()?;
    let cards = cards::after(report.text, ran.outcome.steps())?;
    Some(svg(&cards, report.file))
}
