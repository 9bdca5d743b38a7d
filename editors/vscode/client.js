"use strict";
// A client of the Language Server Protocol over the standard streams of a program: requests with their answers, notifications both ways.
const { spawn } = require("child_process");

const HEAD_END = "\r\n\r\n";

class Client {
  // `told` is called for each notification of the server, `ended` once if the server can't be started or ends by itself.
  constructor(command, words, told, ended) {
    this.told = told;
    this.ended = ended;
    this.waiting = new Map();
    this.number = 0;
    this.input = Buffer.alloc(0);
    this.isAlive = true;
    this.server = spawn(command, words, { stdio: ["pipe", "pipe", "ignore"] });
    this.server.on("error", (error) => this.end(error.message));
    this.server.on("exit", (status, signal) => this.end(signal ? `it was ended by ${signal}` : `it ended with status ${status}`));
    this.server.stdin.on("error", () => {});
    this.server.stdout.on("data", (bytes) => this.receive(bytes));
  }

  end(why) {
    if (!this.isAlive) return;
    this.isAlive = false;
    for (const { reject } of this.waiting.values()) reject(new Error(why));
    this.waiting.clear();
    this.ended(why);
  }

  receive(bytes) {
    this.input = Buffer.concat([this.input, bytes]);
    for (;;) {
      const headEnd = this.input.indexOf(HEAD_END);
      if (headEnd < 0) return;
      const length = /content-length: *(\d+)/i.exec(this.input.toString("ascii", 0, headEnd));
      const start = headEnd + HEAD_END.length;
      const end = start + (length ? Number(length[1]) : 0);
      if (this.input.length < end) return;
      const body = this.input.toString("utf8", start, end);
      this.input = this.input.subarray(end);
      if (length) this.carryOut(JSON.parse(body));
    }
  }

  carryOut(message) {
    if (message.method) {
      this.told(message.method, message.params);
      return;
    }
    const request = this.waiting.get(message.id);
    if (!request) return;
    this.waiting.delete(message.id);
    if (message.error) request.reject(new Error(message.error.message));
    else request.resolve(message.result);
  }

  send(message) {
    const body = Buffer.from(JSON.stringify({ jsonrpc: "2.0", ...message }), "utf8");
    this.server.stdin.write(`Content-Length: ${body.length}${HEAD_END}`);
    this.server.stdin.write(body);
  }

  notify(method, params) {
    if (this.isAlive) this.send({ method, params });
  }

  // The answer of the server; rejected with what it says if it refuses.
  request(method, params) {
    if (!this.isAlive) return Promise.reject(new Error("the server isn't running"));
    const id = ++this.number;
    return new Promise((resolve, reject) => {
      this.waiting.set(id, { resolve, reject });
      this.send({ id, method, params });
    });
  }

  // Asks the server to end, and waits until it has.
  async stop() {
    if (!this.isAlive) return;
    const gone = new Promise((resolve) => this.server.once("exit", resolve));
    this.ended = () => {};
    await this.request("shutdown", null).catch(() => {});
    this.notify("exit", null);
    await gone;
  }
}

module.exports = { Client };
