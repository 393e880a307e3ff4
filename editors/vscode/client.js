// A client of the language server protocol over the process `station lsp`.
'use strict';
const { spawn } = require('child_process');

/** A server that does not stop within so many milliseconds is ended. */
const PATIENCE = 2000;

class Client {
  /** `heard` gets each notification, `ended` once why the process is gone. */
  constructor(program, heard, ended) {
    this.heard = heard;
    this.ended = ended;
    this.next = 1;
    this.waiting = new Map();
    this.input = Buffer.alloc(0);
    this.process = spawn(program, ['lsp']);
    this.process.on('error', (error) => this.close(error));
    this.process.on('exit', () => this.close(null));
    this.process.stdin.on('error', () => {});
    this.process.stderr.resume();
    this.process.stdout.on('data', (bytes) => this.take(bytes));
  }

  /** The server is gone: what is asked has no answer. An error is one of starting it. */
  close(error) {
    if (this.closed) return;
    this.closed = true;
    for (const answer of this.waiting.values()) answer({});
    this.waiting.clear();
    if (!this.stopped) this.ended(error);
  }

  send(message) {
    if (this.closed) return;
    const body = Buffer.from(JSON.stringify({ jsonrpc: '2.0', ...message }));
    this.process.stdin.write(`Content-Length: ${body.length}\r\n\r\n`);
    this.process.stdin.write(body);
  }

  tell(method, params) {
    this.send({ method, params });
  }

  /** The reply to a request: a result, an error, or neither if the server is gone. */
  reply(method, params) {
    if (this.closed) return Promise.resolve({});
    const id = this.next++;
    return new Promise((answer) => {
      this.waiting.set(id, answer);
      this.send({ id, method, params });
    });
  }

  async ask(method, params) {
    return (await this.reply(method, params)).result ?? null;
  }

  async stop() {
    this.stopped = true;
    const late = setTimeout(() => this.process.kill(), PATIENCE);
    await this.ask('shutdown');
    this.tell('exit');
    clearTimeout(late);
  }

  /** Bytes from the server: every whole message is passed on. */
  take(bytes) {
    this.input = Buffer.concat([this.input, bytes]);
    for (;;) {
      const end = this.input.indexOf('\r\n\r\n');
      if (end < 0) return;
      const length = Number(/Content-Length: (\d+)/i.exec(this.input.toString('latin1', 0, end))[1]);
      const from = end + 4;
      if (this.input.length < from + length) return;
      const message = JSON.parse(this.input.toString('utf8', from, from + length));
      this.input = this.input.subarray(from + length);
      if (message.method) this.heard(message);
      else {
        const answer = this.waiting.get(message.id);
        this.waiting.delete(message.id);
        if (answer) answer(message);
      }
    }
  }
}

module.exports = { Client };
