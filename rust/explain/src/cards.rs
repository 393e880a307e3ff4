//! The cards of a run: their fields and links, who holds them, and the calls
//! that are open, as the model's machine has them.

use crate::cause::{machine_at, value_shown, AGAIN};
use crate::chains;
use crate::json::Json;
use crate::script::{shown, Script};
use model::machine::Machine;
use model::names::Type;
use std::fmt::Write;

/// A field of a card.
pub struct Field {
    /// Its name.
    pub name: String,
    /// Is it a link?
    pub link: bool,
    /// Is it a link to a card of the same class, by which a chain may go?
    pub own: bool,
    /// A number, or the number of a card; 0 for null.
    pub value: i32,
    /// The frame that holds it, from main's 0, the first if two have a half each;
    /// none if nobody does.
    pub holder: Option<usize>,
    /// The frames that hold a half of it or both, with how many halves each.
    pub halves: Vec<(usize, u8)>,
}

impl Field {
    /// Who holds each half, where they are apart: nobody, if one is lost.
    pub fn apart(&self) -> Option<[Option<usize>; 2]> {
        match self.halves[..] {
            [(one, 1)] => Some([Some(one), None]),
            [(one, 1), (other, 1)] => Some([Some(one), Some(other)]),
            _ => None,
        }
    }
}

/// A card that the run made.
pub struct Card {
    /// The name of its class.
    pub class: String,
    /// Its fields, in the order of their lines.
    pub fields: Vec<Field>,
}

/// An open block: its name and its variables.
pub struct Open {
    /// The method's name, or `main`.
    pub name: String,
    /// Name, value, and whether it is a link.
    pub variables: Vec<(String, i32, bool)>,
}

/// All cards, and the open blocks, main's first.
pub struct Cards {
    /// The cards; card n stands at place n - 1.
    pub cards: Vec<Card>,
    /// The open blocks.
    pub open: Vec<Open>,
}

/// The cards after so many steps; none if the model does not come there.
pub fn after(text: &[u8], steps: u32) -> Option<Cards> {
    let script = Script::of(text).filter(|_| steps <= AGAIN)?;
    let machine = machine_at(&script, steps);
    (machine.steps == steps).then(|| of(&script, &machine))
}

/// The cards of a machine.
pub fn of(script: &Script, machine: &Machine) -> Cards {
    let holder = |location| machine.holders(location).map(|(frame, _)| frame).next();
    let cards = machine.objects.iter().map(|object| {
        let class = &script.program.classes[object.class];
        let fields = class.fields.iter().enumerate().map(|(slot, field)| Field {
            name: shown(field.name),
            link: field.kind != Type::Int,
            own: field.kind == Type::Class(class.name),
            value: machine.heap[object.first + slot],
            holder: holder(object.first + slot),
            halves: machine.holders(object.first + slot).collect(),
        });
        Card {
            class: shown(class.name),
            fields: fields.collect(),
        }
    });
    let open = machine.frames.iter().map(|frame| {
        let names = script.names(frame.block);
        let variables = (0..frame.values.len()).filter_map(|var| {
            let kind = names.kind(var)?;
            Some((names.var(var), frame.values[var], kind != Type::Int))
        });
        Open {
            name: match names.block.header {
                Some(header) => shown(header.name),
                None => "main".to_string(),
            },
            variables: variables.collect(),
        }
    });
    Cards {
        cards: cards.collect(),
        open: open.collect(),
    }
}

fn value(field: &Field) -> String {
    let kind = field.link.then_some(Type::Class(b""));
    value_shown(kind.or(Some(Type::Int)), field.value)
}

impl Cards {
    /// How a holder is called: the blocks that are open are numbered from
    /// main's 0.
    pub fn holder(&self, holder: Option<usize>) -> String {
        match holder.and_then(|at| Some((at, self.open.get(at)?))) {
            None => "nobody".to_string(),
            Some((0, _)) => "main".to_string(),
            Some((at, open)) => format!("{} (call {at})", open.name),
        }
    }

    /// A card a line, with who holds its fields.
    pub fn table(&self) -> String {
        let mut out = String::new();
        for (at, card) in self.cards.iter().enumerate() {
            let fields = card.fields.iter();
            let fields: Vec<String> = fields
                .map(|field| format!("{} = {}", field.name, value(field)))
                .collect();
            let _ = write!(out, "  object {}: {}", at + 1, card.class);
            if !fields.is_empty() {
                let _ = write!(out, ", {}", fields.join(", "));
            }
            let _ = writeln!(out, "{}", self.held(card));
        }
        out.push_str(&chains::table(self));
        out
    }

    /// "; held by main", or by whom each field is.
    fn held(&self, card: &Card) -> String {
        let Some(first) = card.fields.first() else {
            return String::new();
        };
        if card.fields.iter().all(|field| field.halves == first.halves) {
            return format!("; held {}", self.held_by(first));
        }
        let each = card.fields.iter();
        let each: Vec<String> = each
            .map(|field| format!("{} {}", field.name, self.held_by(field)))
            .collect();
        format!("; held: {}", each.join(", "))
    }

    /// "by main", or "half by main and half by look (call 1)".
    fn held_by(&self, field: &Field) -> String {
        match field.apart() {
            None => format!("by {}", self.holder(field.holder)),
            Some(halves) => {
                let [one, other] = halves.map(|holder| self.holder(holder));
                format!("half by {one} and half by {other}")
            }
        }
    }

    /// All of it as JSON.
    pub fn json(&self) -> Json {
        let cards = self.cards.iter().enumerate().map(|(at, card)| {
            let fields = card.fields.iter().enumerate().map(|(slot, field)| {
                let value = match (field.link, field.value) {
                    (true, 0) => Json::Null,
                    (_, value) => value.into(),
                };
                let holders = field.halves.iter().map(|&(frame, halves)| {
                    let object = Json::object().with("holder", frame);
                    object.with("halves", u32::from(halves))
                });
                Json::object()
                    .with("name", field.name.as_str())
                    .with("link", field.link)
                    .with("value", value)
                    .with("ring", chains::in_ring(self, at, slot))
                    .with("holder", field.holder)
                    .with("holders", Json::List(holders.collect()))
            });
            Json::object()
                .with("object", at + 1)
                .with("class", card.class.as_str())
                .with("fields", Json::List(fields.collect()))
        });
        Json::List(cards.collect())
    }
}
