// The program, in a worker of its own.

// Runs in the worker: makes an instance of the module, and answers one question after another.
function answerQuestions() {
  let module = null;
  let program = null;

  function handed(bytes) {
    const at = program.take(BigInt(bytes.length));
    if (at === 0n) throw new Error("memory");
    new Uint8Array(program.memory.buffer, Number(at), bytes.length).set(bytes);
    return at;
  }

  // The status and the answer, in as much room as it needs.
  function served(words, text) {
    const size = program.take(8n);
    const parts = [handed(words), handed(text)];
    for (let room = 65536 + 4 * text.length; ; ) {
      const answer = program.take(BigInt(room));
      if (size === 0n || answer === 0n) throw new Error("memory");
      const status = program.serve(
        parts[0], BigInt(words.length), parts[1], BigInt(text.length), answer, BigInt(room), size);
      const found = Number(new DataView(program.memory.buffer).getBigUint64(Number(size), true));
      if (found <= room) {
        const bytes = new Uint8Array(program.memory.buffer, Number(answer), found).slice();
        for (const block of [answer, ...parts, size]) program.give(block);
        return { status, bytes };
      }
      program.give(answer);
      room = found;
    }
  }

  onmessage = async ({ data }) => {
    if (data.module) {
      module = data.module;
      return;
    }
    const begin = performance.now();
    try {
      program ??= (await WebAssembly.instantiate(module)).exports;
      const { status, bytes } = served(data.words, data.text);
      postMessage({ number: data.number, status, bytes, time: performance.now() - begin });
    } catch (fault) {
      program = null;
      postMessage({ number: data.number, fault: String(fault), time: performance.now() - begin });
    }
  };
}

async function unpacked(text) {
  const bytes = Uint8Array.from(atob(text), (character) => character.charCodeAt(0));
  const stream = new Blob([bytes]).stream().pipeThrough(new DecompressionStream("gzip"));
  return new Uint8Array(await new Response(stream).arrayBuffer());
}

// Asks the program one question at a time. A question that is put while another is answered ends the other.
class Program {
  constructor(module) {
    this.module = module;
    this.number = 0;
    this.heard = null;
    this.start();
  }

  start() {
    const source = new Blob([`"use strict";(${answerQuestions})()`], { type: "text/javascript" });
    const address = URL.createObjectURL(source);
    this.worker = new Worker(address);
    URL.revokeObjectURL(address);
    this.worker.postMessage({ module: this.module });
    this.worker.onmessage = ({ data }) => {
      if (data.number !== this.number || !this.heard) return;
      const heard = this.heard;
      this.heard = null;
      heard(data);
    };
  }

  stop() {
    if (!this.heard) return;
    this.heard = null;
    this.worker.terminate();
    this.start();
  }

  // `heard` gets the status, the bytes and the time; or the fault of the browser's engine.
  ask(words, text, heard) {
    this.stop();
    this.number += 1;
    this.heard = heard;
    this.worker.postMessage({ number: this.number, words: new TextEncoder().encode(words.join("\0")), text });
  }
}

// The program of a packed module. It fails where the browser can't compile it.
export async function start(packed) {
  return new Program(await WebAssembly.compile(await unpacked(packed)));
}
