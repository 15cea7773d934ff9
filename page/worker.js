"use strict";
// Runs the program in a thread of its own: a new instance for each run, so that none leaves anything behind.
let compiled = null;

/** How many bytes of a memory stand in pages of 4 KB that hold something: what a run took of the machine. */
const PAGE = 4096;
const touched = (memory) => {
  const numbers = new BigUint64Array(memory.buffer);
  let pages = 0;
  for (let at = 0; at < numbers.length; at += PAGE / 8) pages += numbers.subarray(at, at + PAGE / 8).some(
    (it) => it !== 0n
  );
  return pages * PAGE;
};

const run = (program, words, input) => {
  const written = [];
  let taken = 0;
  let memory = null;
  const bytes = (from, count) => new Uint8Array(memory.buffer, from >>> 0, count >>> 0);
  const page = {
    read(to, most) {
      const part = input.subarray(taken, taken + (most >>> 0));
      bytes(to, part.length).set(part);
      taken += part.length;
      return part.length;
    },
    write(from, count) {
      written.push(bytes(from, count).slice());
      return count;
    },
    word(place, to, most) {
      if (place >= words.length) return -1;
      const word = words[place];
      const part = word.subarray(0, most >>> 0);
      bytes(to, part.length).set(part);
      return part.length < word.length ? -2 : word.length;
    },
  };
  const { exports } = new WebAssembly.Instance(program, { page });
  memory = exports.memory;
  try {
    const status = exports.run();
    return { status, written, memory };
  } catch (fault) {
    const stack = BigInt.asIntN(64, exports.__stack_pointer.value);
    const ended = stack < 0n || (fault instanceof RangeError && /call stack/.test(fault.message)) || /recursion/.test(
      fault.message
    );
    return {
      trouble: ended ? "stack" : fault instanceof WebAssembly.RuntimeError ? "trap" : "fault",
      why: String(fault.message),
    };
  }
};

/** The parts in one. */
const joined = (parts) => {
  const whole = new Uint8Array(parts.reduce((sum, it) => sum + it.length, 0));
  let at = 0;
  for (const it of parts) {
    whole.set(it, at);
    at += it.length;
  }
  return whole;
};

const answer = (program, { words, input, isMeasured = false }) => {
  const began = performance.now();
  const encoder = new TextEncoder();
  let told = null;
  try {
    told = run(program, ["beltproof", ...words].map((it) => encoder.encode(it)), input);
    if (told.written) told.written = joined(told.written);
  } catch (fault) {
    told = { trouble: "fault", why: String(fault.message) };
  }
  const seconds = (performance.now() - began) / 1000;
  const { memory, ...rest } = told;
  return {
    ...rest, seconds, ...(isMeasured && memory ? { memory: memory.buffer.byteLength, touched: touched(memory) } : {})
  };
};

const receive = async ({ data }) => {
  if (data.program) {
    compiled = WebAssembly.compile(data.program);
    return;
  }
  try {
    const told = answer(await compiled, data);
    postMessage(told, told.written ? [told.written.buffer] : []);
  } catch (fault) {
    postMessage({ trouble: "fault", why: String(fault.message), seconds: 0 });
  }
};

if (typeof WorkerGlobalScope !== "undefined") onmessage = receive;
