// Runs of the program, each in a worker that can be stopped.

/** How a run ended where the program told nothing, in words. */
const TROUBLES = {
  stack: "the program's stack ended before it had an answer",
  trap: "the program trapped, which is a fault of it or of what built this page",
  fault: "the browser couldn't run the program",
  stopped: "it was stopped",
  late: "the time was up",
};

/** Statuses that say nothing of the design, in words. */
const FAULTS = {
  2: "the program doesn't know these words",
  6: "the program couldn't read what it was given",
  7: "the program couldn't write its answer",
  8: "there was too little memory: a page has 4 GB at most, and the browser may give less",
  11: "the text is longer than the program reads",
};

class Program {
  constructor(bytes, source) {
    this.bytes = bytes;
    this.address = URL.createObjectURL(new Blob([source], { type: "text/javascript" }));
    this.idle = [];
    this.running = new Set();
    this.changed = () => {};
  }

  worker() {
    const worker = this.idle.pop();
    if (worker) return worker;
    const made = new Worker(this.address);
    made.postMessage({ program: this.bytes });
    return made;
  }

  /** Begins a run of these words over these bytes; `told` is a promise of how it ended, and `stop` ends it. */
  run(words, input, what, { isMeasured = false, isQuiet = false } = {}) {
    const worker = this.worker();
    const run = { what, words, isQuiet, since: performance.now() };
    run.told = new Promise((resolve) => {
      const end = (told, keeps) => {
        if (!this.running.delete(run)) return;
        if (keeps) this.idle.push(worker);
        else worker.terminate();
        this.changed();
        resolve({ words, ...told });
      };
      worker.onmessage = ({ data }) => end(data, !data.trouble);
      worker.onerror = (event) => {
        event.preventDefault();
        end({ trouble: "fault", why: event.message ?? "", seconds: 0 }, false);
      };
      run.stop = (trouble = "stopped") => end({ trouble, seconds: (performance.now() - run.since) / 1000 }, false);
    });
    this.running.add(run);
    this.changed();
    // A part of a book is copied by itself: with it would go the whole book.
    const own = input.length === input.buffer.byteLength ? input : input.slice();
    worker.postMessage({ words, input: own, isMeasured }, own === input ? [] : [own.buffer]);
    return run;
  }

  /** Stops all runs but those of a whole book, which are stopped there. */
  stopAll() {
    for (const run of [...this.running]) if (!run.isQuiet) run.stop();
  }

  /** The digest of the program, as a table tells it. */
  async digest() {
    this.told ??= await digestOf(this.bytes);
    return this.told;
  }
}

/** Why a run told nothing of the design, in words, or null where it did. */
const faultOf = (told) => {
  if (told.trouble) return told.trouble === "fault" && told.why ? `${TROUBLES.fault} (${told.why})` : TROUBLES[
    told.trouble
  ];
  return FAULTS[told.status] ?? null;
};

const LINE_FEED = new Uint8Array([10]);

/** These bytes one behind the other, with a line feed between. */
const lined = (...texts) => glued(between(texts, LINE_FEED));

/** The first line of what was written. */
const firstLine = (bytes) => {
  const end = bytes.indexOf(10);
  return new TextDecoder().decode(bytes.subarray(0, end < 0 ? Math.min(bytes.length, 4096) : Math.min(end, 4096)));
};
