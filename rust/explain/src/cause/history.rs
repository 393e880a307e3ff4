//! What a run did before it stopped: which line gave each variable and field its
//! value, and where each permission went.

use super::sources::Sources;
use crate::rounds::Rounds;
use crate::script::{quoted, Names, Script};
use model::machine::{location, Location, Locations, Machine, Step, Values};
use model::names::{Action, Expr, Path, Var, PARAM, RESULT, THIS, VARS};
use model::number::Stop;

/// A step and its line; zeros where there was none.
#[derive(Clone, Copy, Debug, Default, PartialEq, Eq)]
pub struct At {
    pub step: u32,
    pub line: u32,
}

/// How a permission left a block.
#[derive(Clone, Copy, Debug, PartialEq, Eq)]
enum Went {
    /// To the method of this block, by a call.
    Called(usize),
    /// By a `release`.
    Released,
    /// The method of this block ended and did not give it back.
    Kept(usize),
}

/// Does a statement move permissions from one frame to another, or away?
fn moves(action: &Action) -> bool {
    matches!(
        action,
        Action::Call(_) | Action::Release(_) | Action::Return(_) | Action::End
    )
}

/// What a replay writes down.
#[derive(Default)]
pub struct Trail {
    /// For each open frame, the step that assigned each variable last.
    vars: Vec<[At; VARS]>,
    /// The step that wrote each field last.
    fields: Vec<At>,
    /// The steps in which these values came about; those that copy them do not count.
    sources: Sources,
    /// How the permission to each field was last given away.
    went: Vec<Option<(At, Went)>>,
    pub rounds: Rounds,
}

impl Trail {
    /// The machine after so many steps, with what led there.
    pub fn of<'p, 'a>(script: &'p Script<'a>, steps: u32) -> (Machine<'p, 'a>, Trail) {
        let mut machine = Machine::new(&script.program);
        let mut trail = Trail {
            vars: vec![[At::default(); VARS]],
            sources: Sources::new(),
            ..Trail::default()
        };
        while machine.steps < steps && trail.step(&mut machine) == Ok(Step::On) {}
        (machine, trail)
    }

    fn step(&mut self, machine: &mut Machine) -> Result<Step, Stop> {
        let statement = machine.statement();
        let values = machine.frame().values;
        let held = moves(&statement.action).then(|| machine.frame().held);
        let (block, next) = (machine.frame().block, machine.frame().next);
        let depth = machine.frames.len();
        let done = self.rounds.step(machine)?;
        let at = At {
            step: machine.steps,
            line: statement.line,
        };
        self.sources.step(machine, &statement.action, &values, at);
        let held = held.unwrap_or_default();
        match &statement.action {
            Action::Let(x, _) => self.vars[depth - 1][*x] = at,
            Action::Compute(compute) => self.vars[depth - 1][compute.x] = at,
            Action::Open(open) => self.vars[depth - 1][open.y] = at,
            Action::New(x, _) => {
                self.vars[depth - 1][*x] = at;
                self.fields.resize(machine.heap.len(), at);
                self.went.resize(machine.heap.len(), None);
            }
            Action::Set(path, _) => {
                if let Some(place) = location(&machine.objects, &values, *path) {
                    self.fields[place] = at;
                }
            }
            Action::Call(call) => {
                let mut own = [At::default(); VARS];
                (own[THIS], own[PARAM]) = (at, at);
                self.vars.push(own);
                let left = machine.frames[depth - 1].held;
                self.leave(&held.without(&left), at, Went::Called(call.method));
            }
            Action::Release(_) => {
                let left = machine.frame().held;
                self.leave(&held.without(&left), at, Went::Released);
            }
            Action::Return(_) | Action::End if depth > 1 => {
                self.back(machine, (block, next), &held, at);
            }
            _ => {}
        }
        Ok(done)
    }

    fn leave(&mut self, places: &[Location], at: At, went: Went) {
        for &place in places {
            self.went[place] = Some((at, went));
        }
    }

    /// A method ended: its caller's variable has the result, and what is not given
    /// back is gone.
    fn back(&mut self, machine: &Machine, left: (usize, usize), held: &Locations, at: At) {
        let (block, next) = left;
        self.vars.pop();
        let caller = machine.frame();
        let call = &machine.program.statements[caller.next - 1];
        let x = match &call.action {
            Action::Call(call) => Some(call.x),
            _ => None,
        };
        if let Some((x, own)) = x.zip(self.vars.last_mut()) {
            own[x] = at;
        }
        let returned = match machine.program.statements[next].action {
            Action::Return(var) => Some(var),
            _ => None,
        };
        self.sources.back(x, returned, at);
        // What is given back has gone nowhere.
        for place in held.without(&Locations::NONE) {
            self.went[place] = None;
        }
        let kept = held.without(&caller.held);
        self.leave(&kept, at, Went::Kept(block));
    }

    /// "line 9 (step 4): `let p c.prev`".
    pub fn told(script: &Script, at: At) -> String {
        let line = quoted(script.text, at.line);
        format!("line {} (step {}): `{line}`", at.line, at.step)
    }

    /// Where a variable of the running block got its value.
    pub fn of_var(&self, script: &Script, names: &Names, var: Var) -> Option<String> {
        let at = self.vars.last()?[var];
        let name = names.var(var);
        Some(match at.step {
            _ if var == RESULT => return None,
            0 => format!("no line has assigned `{name}`, and it starts so"),
            _ => format!("`{name}` got its value at {}", Trail::told(script, at)),
        })
    }

    /// Where the null of a variable came about, if another line than the one that gave
    /// it to the variable did that.
    pub fn null_from(&self, script: &Script, var: Var) -> Option<String> {
        let (given, source) = (self.vars.last()?[var], self.sources.of_var(var)?);
        if given.step == 0 || given == source {
            return None;
        }
        let place = script.statement_at(source.line);
        let action = place.map(|place| &script.program.statements[place].action);
        let told = Trail::told(script, source);
        Some(match action {
            None => "this null is what a variable starts as".to_string(),
            Some(Action::New(..)) => format!("this null is what a link starts as, at {told}"),
            Some(_) => format!("this null came about at {told}"),
        })
    }

    /// Where the value of an expression came from.
    pub fn of_expr(
        &self,
        script: &Script,
        machine: &Machine,
        names: &Names,
        values: &Values,
        expr: Expr,
    ) -> Option<String> {
        match expr {
            Expr::Var(var) => self.of_var(script, names, var),
            Expr::Path(path) => {
                let at = *self.fields.get(location(&machine.objects, values, path)?)?;
                let path = names.expr(Expr::Path(path));
                Some(format!(
                    "`{path}` got its value at {}",
                    Trail::told(script, at)
                ))
            }
            _ => None,
        }
    }

    /// Where the permission to a path went, or who has it.
    pub fn of_permission(
        &self,
        script: &Script,
        machine: &Machine,
        names: &Names,
        values: &Values,
        path: Path,
    ) -> Option<String> {
        let place = location(&machine.objects, values, path)?;
        let shown = format!("`{}`", names.expr(Expr::Path(path)));
        self.of_location(script, machine, place, &shown)
    }

    /// The same of a location, with what messages call it.
    pub fn of_location(
        &self,
        script: &Script,
        machine: &Machine,
        place: Location,
        shown: &str,
    ) -> Option<String> {
        if let Some((at, went)) = self.went.get(place).copied().flatten() {
            return Some(went_told(script, at, went, shown));
        }
        let holder = machine.holders(place).next();
        holder.map(|(frame, halves)| {
            let title = script.names(machine.frames[frame].block).title();
            match halves {
                1 => format!("{title} holds a half of {shown}"),
                _ => format!("{title} has the permission to {shown}"),
            }
        })
    }

    /// The last step that wrote one of some fields.
    pub fn written_last(&self, places: impl Iterator<Item = Location>) -> Option<At> {
        let written = places.filter_map(|place| self.fields.get(place).copied());
        written.max_by_key(|at| at.step)
    }
}

/// How a permission left a block, in words.
fn went_told(script: &Script, at: At, went: Went, shown: &str) -> String {
    let told = Trail::told(script, at);
    match went {
        Went::Called(method) => {
            let title = script.names(method).title();
            format!("the permission to {shown} went to {title} at {told}")
        }
        Went::Released => format!("the permission to {shown} was released at {told}"),
        Went::Kept(block) => {
            let title = script.names(block).title();
            let (_, ensures) = script.contract_lines(block);
            format!(
                "{title} ended at {told}, and its `ensures` (line {ensures}) did not give the \
                 permission to {shown} back"
            )
        }
    }
}

/// Other variables of the running block that are the same card.
pub fn same_card(names: &Names, values: &Values, var: Var) -> Option<String> {
    let card = values[var];
    let kind = names.kind(var)?;
    let same = (0..VARS).filter(|&other| {
        let known = other == THIS || other == PARAM || other < 2 + names.block.locals.len();
        known && other != var && values[other] == card && names.kind(other) == Some(kind)
    });
    let others: Vec<String> = same.map(|other| names.var(other)).collect();
    if card == 0 || others.is_empty() {
        return None;
    }
    let others = crate::script::listed(&others, "and");
    Some(format!(
        "`{}` and {others} are one card, object {card}",
        names.var(var)
    ))
}

/// The open loops of the run, with their rounds.
pub fn open_loops(script: &Script, trail: &Trail) -> Vec<String> {
    let told = |place: usize, rounds: u32| {
        let line = script.program.statements[place].line;
        let rounds = match rounds {
            1 => "1 round is done".to_string(),
            rounds => format!("{rounds} rounds are done"),
        };
        format!("in the loop of line {line}, {rounds}")
    };
    let open = trail.rounds.all().iter();
    open.map(|open| told(open.place, open.rounds)).collect()
}

#[cfg(test)]
mod tests {
    use super::*;
    use crate::cause::stop_cause;
    use model::machine::Room;

    /// The number after a word of a note.
    fn after(note: &str, word: &str) -> Option<u32> {
        let rest = note.split(word).nth(1)?;
        let digits: String = rest.chars().take_while(char::is_ascii_digit).collect();
        digits.parse().ok()
    }

    /// The step that a note names was done, and it was that of the line it names.
    fn holds(script: &Script, steps: u32, note: &str) {
        let (Some(line), Some(step)) = (after(note, " at line "), after(note, "(step ")) else {
            panic!("{note}");
        };
        let mut machine = Machine::new(&script.program);
        while machine.steps + 1 < step {
            machine.step().expect("a step that was done");
        }
        assert_eq!(machine.statement().line, line, "{note}");
        assert!(step <= steps, "{note}");
    }

    #[test]
    fn notes_of_random_stops() {
        let mut told = 0;
        for seed in 0..2_000 {
            let text = generator::text(0x7100_0000 + seed);
            let run = model::trial(&text, 2_000);
            if !(24..=27).contains(&run.number) {
                continue;
            }
            let script = Script::of(&text).expect("a text that runs");
            let cause = stop_cause(&text, Room::WHOLE, run.steps, run.number).expect("a cause");
            for note in cause.notes.iter().filter(|note| note.contains("(step ")) {
                holds(&script, run.steps, note);
                told += 1;
            }
        }
        assert!(told > 5, "{told}");
    }

    /// The value that a note tells of is the one that the stop saw.
    #[test]
    fn the_last_assignment() {
        let text = b"main\nvar\tint\ta\nvar\tint\tb\nlet\ta\t1\nlet\tb\t2\nlet\ta\t3\nassert\teq\ta\tb\nend\n";
        let cause = stop_cause(text, Room::WHOLE, 3, 26).expect("a cause");
        assert_eq!(
            cause.notes,
            [
                "`a` got its value at line 6 (step 3): `let a 3`",
                "`b` got its value at line 5 (step 2): `let b 2`",
            ]
        );
    }

    /// A permission that a method gave back is not said to have gone to it.
    #[test]
    fn permissions_that_came_back() {
        let text = "class C|field int n|method int a int k|requires acc this n|ensures acc this n\
                    |return k|end|method int b int k|requires|ensures|set this n k|return k|end\
                    |main|var C c|var int k|var int r|new c C|call r c a k|call r c b k|end|";
        let text = text.replace(' ', "\t").replace('|', "\n");
        let run = model::trial(text.as_bytes(), 100);
        assert_eq!((run.number, run.line), (24, 11));
        let cause = stop_cause(text.as_bytes(), Room::WHOLE, run.steps, 24).expect("a cause");
        assert_eq!(cause.notes, ["main has the permission to `this.n`"]);
    }

    /// A null is followed back over copies to the line that made it.
    #[test]
    fn where_a_null_came_about() {
        for (lines, note) in [
            (
                "new a C|let b a.p|let c b|let d c.p",
                Some("this null is what a link starts as, at line 8 (step 1): `new a C`"),
            ),
            (
                "let a null|let b a|let c b|let d c.p",
                Some("this null came about at line 8 (step 1): `let a null`"),
            ),
            (
                "let b a|let c b|let d c.p",
                Some("this null is what a variable starts as"),
            ),
            ("let c null|let d c.p", None),
            (
                "new a C|new b C|set a p b|let c a.p|let c c.p|let d c.p",
                Some("this null is what a link starts as, at line 9 (step 2): `new b C`"),
            ),
        ] {
            let start = "class C|field C p|main|var C a|var C b|var C c|var C d";
            let text = format!("{start}|{lines}|end|");
            let text = text.replace(' ', "\t").replace('|', "\n");
            let run = model::trial(text.as_bytes(), 100);
            assert_eq!(run.number, 25);
            let cause = stop_cause(text.as_bytes(), Room::WHOLE, run.steps, 25).expect("a cause");
            assert_eq!(cause.notes.get(1).map(String::as_str), note, "{lines}");
        }
    }

    /// The same over a call and a `return`.
    #[test]
    fn a_null_that_was_returned() {
        let text = "class C|field C p|method C m C w|requires|ensures|var C v|let v w|return v|end\
                    |main|var C a|var C b|var C c|new a C|let c null|call b a m c|let c b.p|end|";
        let text = text.replace(' ', "\t").replace('|', "\n");
        let run = model::trial(text.as_bytes(), 100);
        assert_eq!((run.number, run.line), (25, 17));
        let cause = stop_cause(text.as_bytes(), Room::WHOLE, run.steps, 25).expect("a cause");
        assert_eq!(
            cause.notes,
            [
                "`b` got its value at line 8 (step 5): `return v`",
                "this null came about at line 15 (step 2): `let c null`",
            ]
        );
    }

    #[test]
    fn permissions_that_went() {
        let text = b"class\tC\nfield\tint\tn\nmain\nvar\tC\tc\nvar\tC\td\nvar\tint\tk\nnew\tc\tC\nlet\td\tc\nrelease\tacc\tc\tn\nset\td\tn\tk\nend\n";
        let cause = stop_cause(text, Room::WHOLE, 3, 24).expect("a cause");
        assert_eq!(
            cause.notes,
            [
                "the permission to `d.n` was released at line 9 (step 3): `release acc c n`",
                "`d` and `c` are one card, object 1",
            ]
        );
    }
}
