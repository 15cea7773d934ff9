// All sentences that state a verdict: sentences.json lists each of them with the answers of the program that it rests
// on, and by the answer alone it is found there. So none is said of another answer.

/** What each property is called in the field, in a title and in a sentence, and what it promises of every steady
    state. */
const FIELD = Object.fromEntries(WORDS.properties.map((it) => {
  const title = it.known_as[0].toUpperCase() + it.known_as.slice(1);
  return [it.name, { title, name: it.short, known: it.known_as, promise: it.promise }];
}));

/** What the field calls universal is yes three times. */
const UNIVERSAL = WORDS.universal.properties;

/** The usual bound of a search's steps. */
const USUAL_STEPS = 100000;

/** What stands behind this option, or what is usual. */
const optionOf = (words, option, usual) => (words.includes(option) ? words[words.indexOf(option) + 1] : usual);

/** A run's answer as the list calls it: the command, with what was asked of a layout besides, and its status, or how it
    ended without one. */
const answerOf = ({ words, status, trouble, written, asked }) => {
  const command = words[0] === "smallest" && asked ? `smallest ${asked}` : words[0];
  if (trouble) return `${command} ${["stopped", "late"].includes(trouble) ? trouble : "fault"}`;
  if (status in FAULTS) return `${command} fault`;
  if (words[0] !== "smallest" || status !== 4) return `${command} ${status}`;
  // Where it ended before all steps were made, it went through all.
  const isWhole = Number(firstLine(written).split(" ")[1]) < Number(optionOf(words, "--learnt", USUAL_STEPS));
  return `${command} 4 ${isWhole ? "fewer" : "all"}`;
};

/** A text with these parts in its places. */
const filled = (text, parts) => text.replace(/\{(\w+)\}/g, (place, name) => parts[name] ?? place);

/** What is said in a place of this answer: the kind of the verdict, its badge, and the sentence. */
const sentenceOf = (place, ended, parts = {}) => {
  const answer = answerOf(ended);
  const line = SENTENCES.find((it) => it.place === place && it.rests.includes(answer)) ?? {
    kind: "open", badge: "no answer", says: `No answer: ${answer}.`
  };
  const written = ended.written?.length ? firstLine(ended.written) : ended.line ?? "";
  const known = {
    seconds: seconds(ended.seconds), fault: faultOf(ended), line: written, number: written.split(" ")[1], ...parts
  };
  const called = { ...WORDS.verdicts, ...known };
  return { kind: line.kind, badge: filled(line.badge ?? "", called), says: filled(line.says, known) };
};

/** The class of a badge. */
const classOf = ({ kind }) => `verdict ${kind === "yes" || kind === "no" ? kind : "withheld"}`;
