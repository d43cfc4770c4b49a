
// Step by step. A run is a list of steps, each of a worker, where worker 0 is the start. Kinds:
// p publishes a message, t takes one, s stores a result, S finds one stored already, c returns a
// part to a chord, r reads a result, a acknowledges a message, d delivers a message again.

let run = null;
let step = 0;
let timer = 0;

// While a run is played, the milliseconds from step to step, and those of the whole.
const FASTEST = 40, SLOWEST = 700, WHOLE = 40000;
const STEP = /^(\w)(\w)(\d+)(?::(\d+):(\d+))?$/;

function stepOf(word) {
  const [, worker, kind, ...numbers] = STEP.exec(word);
  const [task, group, before] = numbers.map(Number);
  return { worker: parseInt(worker, 36), kind, task, group, before };
}

// The runs to choose from: those in which the chosen task fails, or else those in which none does.
function runsNow() {
  const failing = data.plays.filter((play) => play.failing === chosen);
  return failing.length ? failing : data.plays.filter((play) => play.failing === 0);
}

function loadRun(at) {
  const runs = runsNow();
  const counts = [...new Set(runs.map((it) => it.workers))];
  const workers = [Number(byId("workers").value), 2].find((it) => counts.includes(it)) || counts[0];
  const mine = runs.filter((it) => it.workers === workers);
  const play = mine.find((it) => it.again === byId("again").checked) || mine[0];
  byId("workers").replaceChildren(...counts.map((it) => new Option(it, it, false, it === workers)));
  byId("again").checked = play.again;
  byId("again").disabled = !runs.some((it) => it.again);
  const steps = play.steps.split(" ").filter(Boolean).map(stepOf);
  const own = steps.findIndex((it) => it.worker > 0);
  const from = own < 0 ? steps.length : own;
  run = { ...play, rows: rowsOf(play.failing) };
  run.start = steps.slice(0, from);
  run.steps = steps.slice(from);
  byId("slider").max = run.steps.length;
  drawLanes();
  seek(at);
}

// A lane for each worker, with what it is at from the take to the acknowledgement.
function drawLanes() {
  const lanes = Array.from({ length: run.workers }, (_, at) =>
    make("div", "lane", make("span", "", `worker ${at + 1}`)));
  const taken = {}, done = new Set();
  run.steps.forEach(({ worker, kind, task }, at) => {
    if (kind === "t") taken[worker] = at;
    if (kind !== "a") return;
    const share = (at + 1 - taken[worker]) / run.steps.length;
    const stint = make("div", "stint", share < 0.03 ? "" : `#${task}`);
    stint.classList.toggle("thin", share < 0.015);
    stint.classList.toggle("copy", done.has(task));
    stint.dataset.state = MEANT[run.rows[task - 1][0]];
    stint.title = titleOf(task);
    stint.style.left = `${(100 * taken[worker]) / run.steps.length}%`;
    stint.style.width = `${100 * share}%`;
    lanes[worker - 1].append(stint);
    done.add(task);
  });
  byId("lanes").replaceChildren(...lanes, byId("now"));
  document.body.style.setProperty("--player-height", `${byId("player").offsetHeight}px`);
}

const SENTENCES = {
  p: (who, task) => `${who} publishes ${task}.`,
  t: (who, task) => `${who} takes ${task} off the queue.`,
  S: (who, task) => `${who} has run ${task} once more. A result is stored, so nothing follows.`,
  r: (who, task) => `${who} reads the result of ${task}.`,
  a: (who, task) => `${who} acknowledges ${task}.`,
  d: (who, task) => `${task} is delivered again: a copy goes to the end of the queue.`,
  s: (who, task, { task: number }) => {
    const [code, place] = run.rows[number - 1];
    const value = valueAt(place);
    const stores = {
      skipped: `stores ${task} as failed, without a call: ${value}.`,
      failed: `has run ${task}, and stores its failure, ${value}.`,
      succeeded: `has run ${task}, and stores that it succeeded${value && `, with ${value}`}.`,
    };
    return `${who} ${stores[MEANT[code]]}`;
  },
  c: (who, task, { group, before }) => {
    const { size } = gates[group];
    const end = before + 1 === size ? ", so the header is complete" : "";
    return `${who} returns the part of ${task} to chord ${group}: ${before + 1} of ${size}${end}.`;
  },
};

function sentenceOf(it) {
  return SENTENCES[it.kind](it.worker ? `Worker ${it.worker}` : "The start", titleOf(it.task), it);
}

// What is queued, held, stored and counted after a number of steps.
function momentAfter(count) {
  const states = Array(taskCount + 1).fill("waiting");
  const queue = [], held = {}, parts = {}, workers = {};
  const stored = new Set();
  const apply = ({ worker, kind, task, group, before }) => {
    if (kind === "p" || kind === "d") queue.push({ task, isCopy: kind === "d" });
    if (kind === "p") states[task] = "queued";
    if (kind === "t") { held[worker] = queue.shift(); workers[task] = worker; }
    if (kind === "t" && !stored.has(task)) states[task] = "working";
    if (kind === "s") { stored.add(task); states[task] = MEANT[run.rows[task - 1][0]]; }
    if (kind === "c") parts[group] = before + 1;
    if (kind === "a") { delete held[worker]; delete workers[task]; }
  };
  run.start.forEach(apply);
  for (let at = 0; at < count; at++) apply(run.steps[at]);
  return { states, queue, held, parts, workers };
}

function lookAt(moment, number) {
  const state = moment.states[number], worker = moment.workers[number], given = argumentsOf(number);
  if (state === "working") return { state, said: ` · worker ${worker}`, worker: String(worker) };
  if (state === "queued") return { state, said: " · queued" };
  if (state === "waiting") return { state, said: given && ` (${given})` };
  const said = noteOf(number, run.rows[number - 1]);
  return { state, said, isNews: true, tagged: worker ? `worker ${worker}` : "" };
}

// Shows the run after a number of its steps.
function seek(at) {
  const total = run.steps.length;
  step = Math.max(0, Math.min(at, total));
  const moment = momentAfter(step);
  const last = run.steps[step - 1];
  for (let number = 1; number <= taskCount; number++) paint(number, lookAt(moment, number));
  for (const [group, { gate, size }] of Object.entries(gates)) {
    const count = moment.parts[group] || 0;
    gate.textContent = `${count} of ${size}`;
    gate.dataset.count = !count ? "" : count === size ? "all" : "some";
  }
  folds.forEach(countFold);
  byId("slider").value = step;
  byId("slider").setAttribute("aria-valuetext", `step ${step} of ${total}`);
  byId("now").style.left = `calc(74px + (100% - 74px) * ${total ? step / total : 0})`;
  tellStep(last, total);
  tellMoment(moment, total);
  document.querySelectorAll(".task[data-now]").forEach((button) => { delete button.dataset.now; });
  if (last) {
    drawn[last.task].button.dataset.now = "";
    reveal(last.task, false);
  }
  if (step === total) halt();
  keepAddress();
}

function tellStep(last, total) {
  byId("question").textContent = step ? `Step ${step} of ${total}` : `A run of ${total} steps`;
  const begun = `The start has published ${counted(run.start.length, "message")}.`;
  const said = [paragraph(last ? sentenceOf(last) : begun)];
  if (run.failing) said.push(paragraph("In this run ", ...references([run.failing]), " fails."));
  else if (chosen) said.push(paragraph(`No run in which #${chosen} fails is kept on this page.`));
  else if (!step && data.plays.some((it) => it.failing)) {
    said.push(paragraph("Choose a task to play a run in which it fails."));
  }
  if (step === total) said.push(paragraph(...ending("All is done: the", endOf(run.failing))));
  byId("answer").replaceChildren(...said);
}

function tellMoment({ queue, held }, total) {
  const messages = queue.slice(0, 12).map(({ task, isCopy }) =>
    make("span", isCopy ? "message copy" : "message", titleOf(task)));
  const more = queue.length > 12 ? `and ${queue.length - 12} more` : queue.length ? "" : "empty";
  byId("queue").replaceChildren(...messages, more);
  byId("crew").replaceChildren(...Array.from({ length: run.workers }, (_, at) => {
    const message = held[at + 1];
    const worker = make("b", message ? "working" : "waiting", `${at + 1} `);
    if (!message) return make("li", "", worker, "has nothing");
    const has = message.isCopy ? "has a copy of " : "has ";
    return make("li", "", worker, has, titleOf(message.task));
  }));
  const from = Math.max(0, Math.min(step - 6, total - 14));
  byId("log").replaceChildren(...run.steps.slice(from, from + 14).map((it, at) => {
    const item = make("li", from + at === step - 1 ? "last" : "", sentenceOf(it));
    item.onclick = () => { halt(); seek(from + at + 1); };
    return item;
  }));
}

function halt() {
  clearInterval(timer);
  timer = 0;
  byId("play").textContent = "Play";
}

function playOrPause() {
  if (timer) return halt();
  const total = run.steps.length;
  const stride = Math.max(1, Math.round(total / 1200));
  if (step === total) seek(0);
  byId("play").textContent = "Pause";
  const pause = Math.max(FASTEST, Math.min(SLOWEST, WHOLE / total));
  timer = setInterval(() => seek(step + stride), pause);
}
