// Unpacks what is packed in the page: the scripts, the examples and the program. The scripts are put in as a text whose
// digest the page's policy names, so that no other text is run.

/** The program, the script that reads what was given, and the examples that can be chosen. */
let unpackedProgram = null;
let unpackedReader = "";
let unpackedSamples = [];

const unpackAll = (packed) => {
  const whole = fromLzma(packed.subarray(4), new DataView(packed.buffer).getUint32(0, true));
  const length = new DataView(whole.buffer).getUint32(0, true);
  const { script, reader, samples } = JSON.parse(new TextDecoder().decode(whole.subarray(4, 4 + length)));
  unpackedProgram = whole.slice(4 + length);
  unpackedReader = reader;
  unpackedSamples = samples;
  const element = document.createElement("script");
  element.textContent = script;
  document.body.append(element);
};

if (typeof DecompressionStream === "undefined" || typeof WebAssembly === "undefined") {
  document.getElementById(
    "given"
  ).textContent = "This browser is too old for the page: it lacks WebAssembly or DecompressionStream.";
} else {
  document.getElementById("given").textContent = "Unpacking the program…";
  setTimeout(() => unpackAll(fromBase85(document.getElementById("program").textContent.trim())));
}
