// Messages of JSON-RPC with a server that this starts.
'use strict';
const { spawn } = require('child_process');

class Connection {
  // Starts the server; where it ends of itself `ended` is told why.
  constructor(command, words, ended) {
    this.asked = new Map();
    this.heard = new Map();
    this.number = 0;
    this.got = Buffer.alloc(0);
    this.server = spawn(command, words);
    this.server.stdin.on('error', () => {});
    this.server.stdout.on('data', part => this.take(part));
    this.server.stderr.resume();
    this.server.on('error', fault => this.end(fault.message, ended));
    this.server.on('exit', status => this.end(`status ${status}`, ended));
  }

  end(says, ended) {
    for (const [, no] of this.asked.values()) no(new Error(says));
    this.asked.clear();
    if (!this.isDisposed) ended(says);
    this.isDisposed = true;
  }

  dispose() {
    this.isDisposed = true;
    this.tell('exit', {});
    this.server.stdin.end();
  }

  on(method, act) {
    this.heard.set(method, act);
  }

  send(message) {
    const body = Buffer.from(JSON.stringify({ jsonrpc: '2.0', ...message }));
    this.server.stdin.write(Buffer.concat([Buffer.from(`Content-Length: ${body.length}\r\n\r\n`), body]));
  }

  tell(method, params) {
    this.send({ method, params });
  }

  ask(method, params) {
    const id = ++this.number;
    return new Promise((yes, no) => {
      this.asked.set(id, [yes, no]);
      this.send({ id, method, params });
    });
  }

  take(part) {
    this.got = Buffer.concat([this.got, part]);
    for (;;) {
      const end = this.got.indexOf('\r\n\r\n');
      const length = end >= 0 && Number(/Content-Length: *(\d+)/i.exec(this.got.subarray(0, end).toString())[1]);
      if (end < 0 || this.got.length < end + 4 + length) return;
      const message = JSON.parse(this.got.subarray(end + 4, end + 4 + length).toString());
      this.got = this.got.subarray(end + 4 + length);
      this.hear(message);
    }
  }

  async hear(message) {
    if (message.method) {
      const act = this.heard.get(message.method);
      const result = act ? await act(message.params) : null;
      if (message.id !== undefined) this.send({ id: message.id, result: result === undefined ? null : result });
      return;
    }
    const [yes, no] = this.asked.get(message.id) || [];
    this.asked.delete(message.id);
    if (yes) message.error ? no(new Error(message.error.message)) : yes(message.result);
  }
}

module.exports = { Connection };
