//! The editors' files: their words are those of the language, and on every
//! example each field gets its colour, where the programs to try it are there.

mod common;

use common::{folder, is_here, root};
use std::path::PathBuf;
use std::process::{Command, Stdio};

const WORDS: [&str; 24] = [
    "class", "field", "method", "requires", "ensures", "main", "var", "set", "let", "add", "sub",
    "new", "call", "open", "shut", "return", "assert", "release", "if", "else", "join", "loop",
    "again", "end",
];

fn read(name: &str) -> String {
    std::fs::read_to_string(root().join(name)).unwrap_or_else(|error| panic!("{name}: {error}"))
}

fn examples() -> Vec<PathBuf> {
    let entries = std::fs::read_dir(root().join("examples")).expect("examples");
    let mut names: Vec<PathBuf> = entries
        .map(|entry| entry.expect("an entry").path())
        .collect();
    names.retain(|name| name.extension().is_some_and(|end| end == "script"));
    names.sort();
    names
}

/// What a field is, by the guide.
#[derive(Clone, Copy, Debug, PartialEq)]
enum Colour {
    Word,
    Atom,
    Type,
    Reserved,
    Number,
    Name,
    Bad,
}

fn colour(place: usize, field: &str) -> Colour {
    let first = field.split('.').next().unwrap_or_default();
    match (place, first) {
        _ if field.contains(' ') => Colour::Bad,
        (0, _) => Colour::Word,
        (1, "*") => Colour::Atom,
        (_, "acc" | "read" | "chain" | "eq" | "ne") => Colour::Atom,
        (_, "int") => Colour::Type,
        (_, "null" | "this" | "result") => Colour::Reserved,
        _ if first.starts_with(|letter: char| letter == '-' || letter.is_ascii_digit()) => {
            Colour::Number
        }
        _ => Colour::Name,
    }
}

/// The colours that an editor gave, a line of names for each line of the text.
fn compare(editor: &str, text: &str, given: &str, known: impl Fn(&str) -> Option<Colour>) {
    let mut lines = given.lines();
    for line in text.lines() {
        let given = lines
            .next()
            .unwrap_or_else(|| panic!("{editor}: no answer for {line}"));
        let given: Vec<Option<Colour>> = given.split(' ').map(&known).collect();
        let fields = line.split('\t').enumerate();
        let expected: Vec<_> = fields
            .map(|(place, field)| Some(colour(place, field)))
            .collect();
        assert_eq!(given, expected, "{editor}: {line:?}");
    }
}

#[test]
fn the_words() {
    let known: Vec<&str> = model::form::SHAPES.iter().map(|shape| shape.word).collect();
    assert_eq!(known, WORDS);
    let all = WORDS.join("|");
    assert!(
        read("editors/vscode/syntaxes/station.tmLanguage.json").contains(&format!("^({all})(?="))
    );
    let all = WORDS.join("\\|");
    assert!(read("editors/vim/syntax/station.vim").contains(&format!("/^\\({all}\\)\\ze")));
    let all = WORDS.join("|");
    assert!(read("editors/kakoune/station.kak").contains(&format!("'^({all})(?=")));
    assert_eq!(listed("editors/emacs/station-mode.el", "words"), WORDS);
    for word in WORDS {
        assert!(
            read("docs/LANGUAGE.md").contains(&format!("`{word}")),
            "{word} in the guide"
        );
    }
}

/// The strings of a list that the mode for Emacs defines.
fn listed(file: &str, name: &str) -> Vec<String> {
    let text = read(file);
    let start = format!("(defconst station-mode-{name}\n  '(");
    let (_, list) = text.split_once(&start).expect(name);
    let (list, _) = list.split_once(')').expect("its end");
    let words = list.split('"').skip(1).step_by(2);
    words.map(str::to_string).collect()
}

/// The parentheses of the mode for Emacs, and the braces of the file for Kakoune, are
/// closed, strings and comments apart.
#[test]
fn what_is_opened_is_closed() {
    for (file, comment, open, close) in [
        ("editors/emacs/station-mode.el", ';', '(', ')'),
        ("editors/kakoune/station.kak", '#', '{', '}'),
    ] {
        let mut depth = 0i32;
        for line in read(file)
            .lines()
            .filter(|line| !line.trim_start().starts_with(comment))
        {
            let mut letters = line.chars();
            let mut quoted = false;
            while let Some(letter) = letters.next() {
                match letter {
                    '\\' => drop(letters.next()),
                    '"' => quoted = !quoted,
                    letter if letter == open && !quoted => depth += 1,
                    letter if letter == close && !quoted => depth -= 1,
                    _ => {}
                }
                assert!(depth >= 0, "{file}: {line}");
            }
            assert!(!quoted, "{file}: {line}");
        }
        assert_eq!(depth, 0, "{file}");
    }
}

/// Every editor starts the server by the same words.
#[test]
fn the_server() {
    for (file, words) in [
        ("editors/nvim/lsp/station.lua", "cmd = { 'station', 'lsp' }"),
        (
            "editors/nvim/plugin/station.lua",
            "cmd = { 'station', 'lsp' }",
        ),
        ("editors/emacs/station-mode.el", "(\"station\" \"lsp\")"),
        (
            "editors/helix/languages.toml",
            "command = \"station\"\nargs = [\"lsp\"]",
        ),
        (
            "editors/kakoune/kak-lsp.toml",
            "command = \"station\"\nargs = [\"lsp\"]",
        ),
        (
            "editors/kakoune/station.kak",
            "command = \"station\"\n            args = [\"lsp\"]",
        ),
        ("editors/vscode/client.js", "spawn(program, ['lsp'])"),
    ] {
        assert!(read(file).contains(words), "{file}");
    }
}

/// The words of atoms, as the language server offers them.
#[test]
fn the_atoms() {
    let words: Vec<&str> = model::form::ATOM_SHAPES
        .iter()
        .map(|atom| atom.word)
        .collect();
    let code = read("editors/vscode/syntaxes/station.tmLanguage.json");
    assert!(code.contains(&format!("({})(?=", words.join("|"))));
    let vim = read("editors/vim/syntax/station.vim");
    assert!(vim.contains(&format!("\\({}\\)\\ze", words.join("\\|"))));
    let kakoune = read("editors/kakoune/station.kak");
    assert!(kakoune.contains(&format!("({})(?=", words.join("|"))));
    assert_eq!(listed("editors/emacs/station-mode.el", "atoms"), words);
    for word in words {
        assert_eq!(colour(1, word), Colour::Atom, "{word}");
    }
}

const PROBE: &str = r#"
let s:out = []
for s:number in range(1, line('$'))
  let s:row = []
  let s:col = 1
  for s:field in split(getline(s:number), "\t", 1)
    let s:bad = match(s:field, ' ')
    call add(s:row, synIDattr(synID(s:number, s:col + (s:bad < 0 ? 0 : s:bad), 1), 'name'))
    let s:col += len(s:field) + 1
  endfor
  call add(s:out, join(s:row, ' '))
endfor
call writefile(s:out, $STATION_OUT)
qall!
"#;

/// A folder of its own with all examples in one script, and their text.
fn gathered(editor: &str) -> (PathBuf, String) {
    let folder = folder(&format!("colours-{editor}"));
    let texts = examples()
        .into_iter()
        .map(|name| std::fs::read_to_string(name).expect("an example"));
    let ended = texts.map(|text| match text.ends_with('\n') {
        true => text,
        false => text + "\n",
    });
    let text: String = ended.collect();
    std::fs::write(folder.join("all.script"), &text).expect("a file");
    (folder, text)
}

/// The colours of Vim and Neovim.
#[test]
fn vim() {
    for editor in ["vim", "nvim"].into_iter().filter(|name| is_here(name)) {
        let (folder, text) = gathered(editor);
        let path = root().join("editors/vim");
        let lines = format!(
            "set nocompatible\nset rtp^={}\nsyntax on\nfiletype plugin on\n",
            path.display()
        );
        std::fs::write(folder.join("setup.vim"), lines).expect("a file");
        std::fs::write(folder.join("probe.vim"), PROBE).expect("a file");
        let status = Command::new(editor)
            .args(["-e", "-s", "-n", "-i", "NONE", "-u", "setup.vim"])
            .args(["-S", "probe.vim", "all.script"])
            .current_dir(&folder)
            .env("STATION_OUT", "out")
            .stdin(Stdio::null())
            .status();
        assert!(status.is_ok());
        let given = std::fs::read_to_string(folder.join("out")).expect("its answer");
        compare(editor, &text, &given, vim_colour);
    }
}

fn vim_colour(name: &str) -> Option<Colour> {
    Some(match name {
        "stationWord" => Colour::Word,
        "stationAtom" => Colour::Atom,
        "stationType" => Colour::Type,
        "stationReserved" => Colour::Reserved,
        "stationNumber" => Colour::Number,
        "stationName" | "stationDeclared" => Colour::Name,
        "stationBad" => Colour::Bad,
        _ => return None,
    })
}

/// Prints the face of each field, and those of numbers apart from the other constants.
const FACES: &str = r#"
(find-file "all.script")
(unless (eq major-mode 'station-mode) (error "The mode is %s" major-mode))
(font-lock-ensure)
(while (not (eobp))
  (let ((at (point)) (row nil))
    (dolist (field (split-string (buffer-substring-no-properties at (line-end-position)) "\t"))
      (let ((face (get-text-property (+ at (or (string-match " " field) 0)) 'face)))
        (push (format "%s%s" face (if (string-match-p "^[-0-9]" field) "-number" "")) row))
      (setq at (+ at (length field) 1)))
    (princ (concat (mapconcat #'identity (nreverse row) " ") "\n")))
  (forward-line 1))
"#;

/// The mode for Emacs: it compiles without a warning, and gives each field its face.
#[test]
fn emacs() {
    if !is_here("emacs") {
        return;
    }
    let (folder, text) = gathered("emacs");
    let mode = read("editors/emacs/station-mode.el");
    std::fs::write(folder.join("station-mode.el"), mode).expect("a file");
    std::fs::write(folder.join("faces.el"), FACES).expect("a file");
    let output = Command::new("emacs")
        .args(["-Q", "--batch"])
        .args(["--eval", "(setq byte-compile-error-on-warn t)"])
        .args(["--eval", "(byte-compile-file \"station-mode.el\")"])
        .args(["-l", "./station-mode.elc", "-l", "./faces.el"])
        .current_dir(&folder)
        .output()
        .expect("emacs");
    let said = String::from_utf8_lossy(&output.stderr);
    assert!(output.status.success(), "{said}");
    let given = String::from_utf8_lossy(&output.stdout);
    compare("emacs", &text, &given, |name| {
        Some(match name {
            "font-lock-keyword-face" => Colour::Word,
            "font-lock-builtin-face" => Colour::Atom,
            "font-lock-type-face" => Colour::Type,
            "font-lock-constant-face" => Colour::Reserved,
            "font-lock-constant-face-number" => Colour::Number,
            "font-lock-variable-name-face" | "font-lock-function-name-face" => Colour::Name,
            "font-lock-warning-face" => Colour::Bad,
            _ => return None,
        })
    });
}

/// A tokenizer for grammars without nesting, as editors have it: the leftmost
/// match counts, of several the first rule.
const TOKENS: &str = r#"
const fs = require('fs');
const [grammar, ...names] = process.argv.slice(1);
const rules = JSON.parse(fs.readFileSync(grammar, 'utf8')).patterns;
const made = rules.map(rule => [rule.name, new RegExp(rule.match, 'g')]);
for (const name of names) {
  for (const line of fs.readFileSync(name, 'utf8').split('\n').slice(0, -1)) {
    const scopes = Array(line.length).fill('none');
    for (let at = 0; at < line.length;) {
      let best = null;
      for (const [scope, rule] of made) {
        rule.lastIndex = at;
        const found = rule.exec(line);
        if (found && (!best || found.index < best.index)) best = { scope, index: found.index, end: found.index + found[0].length };
      }
      if (!best) break;
      scopes.fill(best.scope, best.index, best.end);
      at = best.end;
    }
    let column = 0;
    console.log(line.split('\t').map(field => {
      const bad = field.indexOf(' ');
      const scope = scopes[column + Math.max(bad, 0)];
      column += field.length + 1;
      return scope;
    }).join(' '));
  }
}
"#;

#[test]
fn textmate() {
    if !is_here("node") {
        return;
    }
    let (folder, text) = gathered("textmate");
    let output = Command::new("node")
        .args(["-e", TOKENS])
        .arg(root().join("editors/vscode/syntaxes/station.tmLanguage.json"))
        .arg(folder.join("all.script"))
        .output()
        .expect("node");
    let said = String::from_utf8_lossy(&output.stderr);
    assert!(output.status.success(), "{said}");
    let given = String::from_utf8_lossy(&output.stdout);
    compare("textmate", &text, &given, |name| {
        Some(match name {
            "keyword.control.station" => Colour::Word,
            "keyword.operator.station" => Colour::Atom,
            "storage.type.station" => Colour::Type,
            "constant.language.station" | "variable.language.station" => Colour::Reserved,
            "constant.numeric.station" => Colour::Number,
            "variable.other.station" => Colour::Name,
            "invalid.illegal.station" => Colour::Bad,
            _ => return None,
        })
    });
}
