// Messages of the language server protocol: JSON behind a head that has its length.

/** Calls the function of a method, one after another, and answers requests; `ask` asks the other side, and `tell` shows it a line. */
export class Wire {
  #output;
  #asked = new Map();
  #next = 1;
  #before = Promise.resolve();

  constructor(input, output, methods) {
    this.#output = output;
    let have = Buffer.alloc(0);
    input.on('data', (data) => {
      have = Buffer.concat([have, data]);
      for (let head = have.indexOf('\r\n\r\n'); head >= 0; head = have.indexOf('\r\n\r\n')) {
        const end = head + 4 + Number(/Content-Length: (\d+)/i.exec(have.toString('latin1', 0, head))[1]);
        if (have.length < end) return;
        this.#take(JSON.parse(have.toString('utf8', head + 4, end)), methods);
        have = have.subarray(end);
      }
    });
  }

  #take({ id, method, params, result }, methods) {
    if (method === undefined) {
      this.#asked.get(id)?.(result);
      this.#asked.delete(id);
      return;
    }
    this.#before = this.#before.then(async () => {
      try {
        const answer = await methods[method]?.(params);
        if (id !== undefined) this.#write({ id, result: answer ?? null });
      } catch (error) {
        this.tell(error.message);
        if (id !== undefined) this.#write({ id, error: { code: -32603, message: error.message } });
      }
    });
  }

  #write(message) {
    const body = JSON.stringify({ jsonrpc: '2.0', ...message });
    this.#output.write(`Content-Length: ${Buffer.byteLength(body)}\r\n\r\n${body}`);
  }

  ask(method, params) {
    const id = this.#next;
    this.#next += 1;
    return new Promise((resolve) => {
      this.#asked.set(id, resolve);
      this.#write({ id, method, params });
    });
  }

  notify(method, params) {
    this.#write({ method, params });
  }

  tell(line) {
    this.notify('window/showMessage', { type: 1, message: `rls: ${line}` });
  }
}
