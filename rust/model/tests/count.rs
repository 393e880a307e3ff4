//! W12: up to four scripts over one heap, a step a round. Each one's answer is that of
//! its run alone with its share for the heap, and no step changes a field of another.

mod common;

use common::{example, script, text};
use generator::{count_day, days::CountDay};
use model::count::{Day, Script};
use model::limits::{COUNT_BYTES, HEAP_FIELDS, SCRIPTS, SCRIPT_BYTES, TEXT_BYTES, WORK_BYTES};
use model::machine::{run_within, Machine, Room};
use model::{check, count, count_call, run, Counted, Judged, Run};

/// Main makes n objects of a class with so many fields, its last one in `e`.
fn maker(objects: usize, fields: usize) -> Vec<u8> {
    let mut source = "class E\n".to_string();
    (0..fields).for_each(|at| source.push_str(&format!("field int f{at}\n")));
    source.push_str("main\nvar E e\n");
    source.push_str(&"new e E\n".repeat(objects));
    script(&(source + "end"))
}

/// A loop without end; its `loop` is line 2.
fn endless() -> Vec<u8> {
    script("main\nloop eq 1 1\nagain\nend")
}

/// The count of these texts with these shares.
fn counted(rounds: u32, scripts: &[(&[u8], u32)]) -> Vec<Run> {
    let texts = std::array::from_fn(|at| scripts.get(at).map_or(&b""[..], |script| script.0));
    let shares = std::array::from_fn(|at| scripts.get(at).map_or(0, |script| script.1));
    let counted = count(scripts.len() as u32, rounds, texts, shares);
    assert_eq!((counted.number, counted.line), (0, 0));
    let (given, rest) = counted.scripts.split_at(scripts.len());
    assert!(
        rest.iter().all(|run| *run == Run::NONE),
        "zeros past the count"
    );
    given.to_vec()
}

fn short(run: &Run) -> (u32, u32, u32, i32) {
    (run.number, run.line, run.steps, run.values[0])
}

#[test]
fn a_step_a_round() {
    let (worked, endless) = (text(&example()), endless());
    for rounds in 0..12 {
        let runs = counted(rounds, &[(&worked, 1), (&endless, 1), (&worked, 2)]);
        assert_eq!(runs[0], run(&worked, rounds));
        assert_eq!(runs[2], runs[0], "its own numbering");
        let line = 2 + rounds % 2;
        assert_eq!(short(&runs[1]), (21, line, rounds, 0));
    }
}

#[test]
fn a_share_of_objects_and_fields() {
    for k in 1..9 {
        let room = |objects: usize, fields: usize| {
            let text = maker(objects, fields);
            short(&counted(100, &[(&text, k as u32)])[0])
        };
        // A class without fields, and one with four: k objects.
        for fields in [0, 1, 4] {
            assert_eq!(room(k, fields).0, 0);
            let line = (4 + fields + k) as u32 - 1;
            let full = (22, line + 1, k as u32, k as i32);
            assert_eq!((room(k, fields).1, room(k + 1, fields)), (line + 1, full));
        }
        // One with eight: 4 × k fields hold half as many.
        let half = k / 2;
        assert_eq!(room(half, 8).0, 0);
        assert_eq!(
            (room(half + 1, 8).0, room(half + 1, 8).2),
            (22, half as u32)
        );
    }
}

/// What is full for one script is not full for another, and its objects stay apart.
#[test]
fn scripts_apart() {
    let (many, few) = (maker(200, 1), maker(3, 1));
    let endless = endless();
    let runs = counted(300, &[(&many, 200), (&few, 3), (&few, 2), (&endless, 51)]);
    assert_eq!(runs[0].number, 0);
    assert_eq!(short(&runs[1]), (0, 8, 4, 3));
    assert_eq!(short(&runs[2]), (22, 7, 2, 2));
    assert_eq!((runs[3].number, runs[3].steps), (21, 300));
}

#[test]
fn refused_scripts() {
    let good = text(&example());
    let refused = script("main\nassert eq 1 2\nend");
    let star = script("class S\nmethod int m int w\nrequires *\nensures\nend\nmain\nend");
    let runs = counted(9, &[(&refused, 1), (&good, 1), (&star, 1), (b"", 1)]);
    let answers: Vec<_> = runs.iter().map(short).collect();
    assert_eq!(
        answers,
        [(13, 2, 0, 0), (0, 19, 8, 1), (4, 3, 0, 0), (8, 0, 0, 0)]
    );
    assert_eq!(check(&star), (4, 3));
}

#[test]
fn number_19() {
    let good = text(&example());
    let texts: [&[u8]; SCRIPTS] = [&good; SCRIPTS];
    let refused = Counted {
        number: 19,
        line: 0,
        scripts: [Run::NONE; SCRIPTS],
    };
    for (scripts, shares) in [
        (0, [1; 4]),
        (5, [1; 4]),
        (65_537, [1; 4]),
        (u32::MAX, [1; 4]),
        (1, [0, 1, 1, 1]),
        (4, [1, 1, 1, 0]),
        (1, [257, 0, 0, 0]),
        (2, [1, 256, 0, 0]),
        (4, [64, 64, 64, 65]),
        (2, [u32::MAX, 1, 1, 1]),
        (4, [1 << 30; 4]),
    ] {
        assert_eq!(
            count(scripts, 9, texts, shares),
            refused,
            "{scripts} {shares:?}"
        );
    }
    for (scripts, shares) in [
        (1, [256, 0, 0, 0]),
        (2, [1, 255, u32::MAX, 0]),
        (3, [1, 1, 1, 0]),
        (4, [64; 4]),
    ] {
        let counted = count(scripts, 9, texts, shares);
        assert_eq!(counted.number, 0, "{scripts} {shares:?}");
        let rest = &counted.scripts[scripts as usize..];
        assert!(rest.iter().all(|run| *run == Run::NONE));
    }
    // Before any script is read.
    let long = vec![b'x'; TEXT_BYTES + 1];
    assert_eq!(count(4, 9, [&long; SCRIPTS], [0; 4]), refused);
}

#[test]
fn areas() {
    let (good, endless) = (text(&example()), endless());
    let texts: [&[u8]; SCRIPTS] = [&good, &endless, &good, b""];
    let called = |scripts, shares, work, results| {
        let (mut work, mut results) = (vec![7; work], vec![9; results]);
        let returned = count_call(scripts, 5, texts, &mut work, shares, &mut results);
        (returned, work, results)
    };
    let (returned, work, results) = called(2, [1; 4], WORK_BYTES, COUNT_BYTES);
    assert_eq!((returned, work), (0, vec![0; WORK_BYTES]));
    let (one, rest) = results.split_at(SCRIPT_BYTES);
    // 21 at 17 after 5 steps, s 1, a 7 and b 7.
    assert_eq!(
        one[..16],
        [17, 0, 21, 0, 5, 0, 0, 0, 1, 0, 0, 0, 7, 0, 0, 0]
    );
    assert_eq!(rest[..8], [3, 0, 21, 0, 5, 0, 0, 0]);
    assert!(rest[8..].iter().all(|&byte| byte == 0));
    let zeros = (19 * 65_536, vec![0; WORK_BYTES], vec![0; COUNT_BYTES]);
    assert_eq!(called(2, [0; 4], WORK_BYTES, COUNT_BYTES), zeros);
    // 1 comes before 19.
    for shares in [[1; 4], [0; 4]] {
        for (work, results) in [
            (WORK_BYTES, COUNT_BYTES - 1),
            (WORK_BYTES, COUNT_BYTES + 1),
            (WORK_BYTES - 1, COUNT_BYTES),
            (WORK_BYTES + 1, COUNT_BYTES),
            (COUNT_BYTES, WORK_BYTES),
            (0, 0),
        ] {
            let unchanged = (65_536, vec![7; work], vec![9; results]);
            assert_eq!(called(2, shares, work, results), unchanged);
        }
    }
}

/// The shares that a count of this day looks at; none if it is refused.
fn looked_at(day: &CountDay) -> Option<Vec<u32>> {
    let texts = day.texts.each_ref().map(Vec::as_slice);
    let refused = count(day.scripts, 0, texts, day.shares).number != 0;
    (!refused).then(|| day.shares[..day.scripts as usize].to_vec())
}

/// "Each one's number, line, steps and values ... are those of its run alone, with its
/// share for the heap and the rounds as allowed steps."
#[test]
fn as_each_one_alone() {
    let mut compared = 0;
    for seed in 0..4_000 {
        let day = count_day(0x4f00_0000 + seed);
        let Some(shares) = looked_at(&day) else {
            continue;
        };
        let texts = day.texts.each_ref().map(Vec::as_slice);
        let counted = count(day.scripts, day.rounds, texts, day.shares);
        for (at, &k) in shares.iter().enumerate() {
            let alone = match Judged::new(texts[at]).accepted() {
                Ok(program) => run_within(program, day.rounds, Room::share(k as usize)),
                Err(refusal) => Run::refused(refusal),
            };
            assert_eq!(counted.scripts[at], alone, "seed {seed}, script {at}");
            compared += 1;
        }
    }
    println!("{compared} scripts");
    assert!(compared > 8_000);
}

/// The places of a script's fields in the heap.
fn own_fields(machine: &Machine) -> Vec<usize> {
    let fields = machine.objects.iter();
    fields
        .flat_map(|object| object.first..object.first + object.fields)
        .collect()
}

/// The values of the fields of all scripts that run, but for one.
fn of_others(day: &Day, but: usize) -> Vec<i32> {
    let mut values = Vec::new();
    for (at, script) in day.scripts.iter().enumerate() {
        if let (true, Script::Running(machine)) = (at != but, script) {
            values.extend(own_fields(machine).into_iter().map(|place| day.heap[place]));
        }
    }
    values
}

/// "No step changes a field in another's share", and none makes more than its own.
#[test]
fn no_field_of_another() {
    let (mut steps, mut beside) = (0, 0);
    for seed in 0..1_500 {
        let day = count_day(0x5000_0000 + seed);
        let Some(shares) = looked_at(&day) else {
            continue;
        };
        let judged: Vec<Judged> = day.texts.iter().map(|text| Judged::new(text)).collect();
        let mut joint = Day::new(judged.iter().map(Judged::accepted).zip(&shares));
        for _ in 0..day.rounds.min(200) {
            for (at, &k) in shares.iter().enumerate() {
                if !matches!(joint.scripts[at], Script::Running(_)) {
                    continue;
                }
                let before = of_others(&joint, at);
                joint.step(at);
                steps += 1;
                assert_eq!(of_others(&joint, at), before, "seed {seed}, script {at}");
                beside += usize::from(!before.is_empty());
                if let Script::Running(machine) = &joint.scripts[at] {
                    assert!(machine.objects.len() <= k as usize);
                    assert!(own_fields(machine).len() <= 4 * k as usize);
                }
            }
            assert!(joint.heap.len() <= HEAP_FIELDS);
        }
    }
    println!("{steps} steps, {beside} beside fields of others");
    assert!(steps > 50_000 && beside > 20_000);
}
