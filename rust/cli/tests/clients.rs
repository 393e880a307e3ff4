//! Vim and Neovim as they use the command, tried where they are there: the compiler file,
//! Vim's own channel as a client of the language server, and Neovim's client.

mod common;

use common::{folder, is_here, path, root};
use std::path::Path;
use std::process::{Command, Stdio};

#[test]
fn vim_makes_a_quickfix_list() {
    if !is_here("vim") {
        return;
    }
    let folder = folder("vim-make");
    let (setup, out) = (folder.join("setup.vim"), folder.join("out"));
    let lines = format!(
        "set nocompatible\nset rtp^={}\nfiletype plugin on\n",
        root().join("editors/vim").display()
    );
    std::fs::write(&setup, lines).expect("a file");
    let probe = "compiler station | silent make! | call writefile(map(getqflist(), \
                 {_, e -> e.lnum . ' ' . e.col . ' ' . e.nr . ' ' . e.text}), $STATION_OUT) | qall!";
    let status = Command::new("vim")
        .args(["-e", "-s", "-N", "-n", "-i", "NONE", "-u"])
        .arg(&setup)
        .args(["-c", probe, "examples/refused-12.script"])
        .current_dir(root())
        .env("PATH", path())
        .env("STATION_OUT", &out)
        .stdin(Stdio::null())
        .stdout(Stdio::null())
        .status();
    assert!(status.is_ok());
    let list = std::fs::read_to_string(&out).expect("vim's list");
    assert!(
        list.starts_with("6 5 12 nobody gave `m` of class S"),
        "{list}"
    );
}

/// Opens a text, hovers, renames, and ends the server.
const CLIENT: &str = r#"
let s:found = []
func Heard(channel, message)
  if get(a:message, 'method', '') ==# 'textDocument/publishDiagnostics'
    let s:found = a:message.params.diagnostics
  endif
endfunc
let s:job = job_start(['station', 'lsp'], #{in_mode: 'lsp', out_mode: 'lsp', callback: 'Heard'})
let s:server = job_getchannel(s:job)
func Ask(method, params)
  return get(ch_evalexpr(s:server, #{method: a:method, params: a:params}, #{timeout: 20000}), 'result', {})
endfunc
let s:document = #{uri: 'file:///a.script'}
let s:text = join(getline(1, '$'), "\n") .. "\n"
call Ask('initialize', #{processId: getpid(), rootUri: v:null, capabilities: {}})
call ch_sendexpr(s:server, #{method: 'initialized', params: {}})
call ch_sendexpr(s:server, #{method: 'textDocument/didOpen', params: #{textDocument: extend(#{languageId: 'station', version: 1, text: s:text}, s:document)}})
let s:hover = Ask('textDocument/hover', #{textDocument: s:document, position: #{line: 5, character: 2}})
let s:rename = Ask('textDocument/rename', #{textDocument: s:document, position: #{line: 1, character: 10}, newName: 'count'})
let s:edits = s:rename.changes['file:///a.script']
let s:out = [s:found[0].code, split(s:hover.contents.value, "\n")[0], len(s:edits), s:edits[0].newText]
call Ask('shutdown', v:null)
call ch_sendexpr(s:server, #{method: 'exit'})
while job_status(s:job) ==# 'run' | sleep 10m | endwhile
call writefile(map(s:out, 'string(v:val)') + [string(job_info(s:job).exitval)], $STATION_OUT)
qall!
"#;

/// Vim has the protocol's frames itself, from 9.0 on.
#[test]
fn vim_as_a_client() {
    let probe = "has('patch-8.2.4684') && has('channel') ? 'qall!' : 'cquit'";
    if !is_here("vim") || !vim(&["-c", &format!("execute {probe}")], None) {
        println!("no Vim with the frames of the protocol here");
        return;
    }
    let folder = folder("vim-lsp");
    let (client, out) = (folder.join("client.vim"), folder.join("out"));
    std::fs::write(&client, CLIENT).expect("a file");
    let client = client.to_str().expect("a name");
    let words = ["-S", client, "examples/refused-12.script"];
    assert!(vim(&words, Some(&out)));
    let seen = std::fs::read_to_string(&out).expect("what Vim has seen");
    assert_eq!(seen, "12\n'`set x f y`'\n2\n'count'\n0\n");
}

/// The files of `editors` as they are copied for Neovim; from 0.11 on it is told to
/// start the server.
const NEOVIM: &str = r#"
vim.opt.runtimepath:prepend({ 'editors/vim', 'editors/nvim' })
vim.cmd('filetype plugin on')
if vim.lsp.enable then
  vim.lsp.enable('station')
end
"#;

/// The file type, what is wrong with the text, what is hovered, and the words for completion.
const NEOVIM_CLIENT: &str = r#"
local function found()
  return vim.diagnostic.get(0)[1]
end
vim.wait(20000, found, 5)
local place = { textDocument = { uri = vim.uri_from_bufnr(0) }, position = { line = 5, character = 0 } }
local _, hover = next(vim.lsp.buf_request_sync(0, 'textDocument/hover', place, 20000))
local seen = {
  vim.bo.filetype,
  found().lnum + 1 .. ' ' .. found().code,
  vim.split(hover.result.contents.value, '\n')[1],
  vim.bo.omnifunc,
}
vim.fn.writefile(seen, vim.env.STATION_OUT)
vim.cmd('qall!')
"#;

#[test]
fn neovim_as_a_client() {
    if !is_here("nvim") {
        return;
    }
    let folder = folder("neovim");
    let (setup, client, out) = (
        folder.join("init.lua"),
        folder.join("client.lua"),
        folder.join("out"),
    );
    std::fs::write(&setup, NEOVIM).expect("a file");
    std::fs::write(&client, NEOVIM_CLIENT).expect("a file");
    let output = Command::new("nvim")
        .args(["--headless", "-n", "-i", "NONE", "-u"])
        .args([&setup, Path::new("-S"), &client])
        .args(["-c", "cquit", "examples/refused-12.script"])
        .current_dir(root())
        .env("PATH", path())
        .env("STATION_OUT", &out)
        .env("XDG_CONFIG_HOME", &folder)
        .env("XDG_DATA_HOME", &folder)
        .env("XDG_STATE_HOME", &folder)
        .env("XDG_CACHE_HOME", &folder)
        .stdin(Stdio::null())
        .output()
        .expect("nvim");
    let said = String::from_utf8_lossy(&output.stderr);
    let seen = std::fs::read_to_string(&out).unwrap_or_else(|_| panic!("{said}"));
    assert_eq!(seen, "station\n6 12\n`set x f y`\nv:lua.vim.lsp.omnifunc\n");
}

/// Vim with these words and nothing of the person's own: true if it ends well.
fn vim(words: &[&str], out: Option<&Path>) -> bool {
    let status = Command::new("vim")
        .args(["-e", "-s", "-N", "-n", "-i", "NONE", "-u", "NONE"])
        .args(words)
        .current_dir(root())
        .env("PATH", path())
        .env("STATION_OUT", out.unwrap_or(Path::new("")))
        .stdin(Stdio::null())
        .stdout(Stdio::null())
        .status();
    status.is_ok_and(|status| status.success())
}
