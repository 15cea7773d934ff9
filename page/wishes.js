// A balancer from N to M: the program builds its network, which then is opened as a design.

/** The kinds of balancers that are offered, and what each has to have. */
const BALANCERS = WORDS.balancers.kinds;

/** How many inputs and outputs a balancer has at most that is built. */
const MOST_LINES = 64;

/** What a balancer that was built is called. */
const nameOfBuilt = (kind, inputs, outputs) => `${inputs} to ${outputs} ${BALANCERS[kind].label}`;

/** The words that ask for a balancer. */
const wordsToBuild = (kind, inputs, outputs) => [
  "build", BALANCERS[kind].properties.join(","), String(inputs), String(outputs)
];

/** Offers to build, where the program can. */
const offerWishes = async (run, open) => {
  const part = $("wish");
  const known = await run(wordsToBuild("balanced", 1, 1));
  if (known.status !== 0) return;
  part.hidden = false;
  $("wish-kind").append(...Object.entries(BALANCERS).map(
    ([name, { label, says }]) => make("option", { value: name, title: says }, `${label}: ${says}`)
  ));
  $("wish-build").addEventListener("click", async () => {
    const kind = $("wish-kind").value;
    const [inputs, outputs] = ["wish-inputs", "wish-outputs"].map((id) => Math.round(Number($(id).value)));
    if (![inputs, outputs].every((it) => it >= 1 && it <= MOST_LINES)) {
      $("wish-told").textContent = `Whole numbers from 1 to ${MOST_LINES} are wanted.`;
      return;
    }
    $("wish-build").disabled = true;
    const ended = await run(wordsToBuild(kind, inputs, outputs), "Building a balancer");
    $("wish-build").disabled = false;
    const splitters = ended.status === 0 && !ended.trouble ? count(
      readNet(decoder.decode(ended.written)).splitters, "splitter"
    ) : "";
    const verdict = sentenceOf("build", ended, { splitters });
    $("wish-told").textContent = verdict.says;
    if (verdict.kind === "found") await open(
      { name: nameOfBuilt(kind, inputs, outputs), books: [], place: "", bytes: ended.written }
    );
  });
};
