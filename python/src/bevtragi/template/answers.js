
// What the page shows, from the program's answers, a line each: the canvas's line with numbers;
// what becomes of the canvas as it is; runs, each a line that says which it is, and its steps; and
// what becomes of the canvas if each task fails.

// A whole number, as the program wrote it: those of JavaScript have fewer digits.
class Numeral {
  constructor(digits) { this.digits = digits; }
}

const TOKEN = /"(?:[^"\\]|\\.)*"|-?\d[\d.eE+-]*/g;

// Reads JSON. For JSON.parse each text has a t before it, and each number is a text with an n.
function readAnswer(line) {
  const marked = line.replace(TOKEN, (token) =>
    (token.startsWith("\"") ? `"t${token.slice(1)}` : `"n${token}"`));
  return JSON.parse(marked, (_, value) => {
    if (typeof value === "string") {
      return value.startsWith("n") ? new Numeral(value.slice(1)) : value.slice(1);
    }
    if (value === null || typeof value !== "object" || Array.isArray(value)) return value;
    return Object.fromEntries(Object.entries(value).map(([name, it]) => [name.slice(1), it]));
  });
}

// The number of a task or a group, which its identifier ends in; 0 if there is none.
const numberIn = (identifier) => (identifier ? parseInt(identifier.slice(-8), 16) : 0);

// The characters of a task's arguments and of a result that are kept, and the items of a list.
const MOST_KEPT = 300, MOST_ITEMS = 8;
const kept = (text) => {
  const all = [...text];
  return all.length <= MOST_KEPT ? text : `${all.slice(0, MOST_KEPT - 2).join("")}..`;
};

function argumentOf(value) {
  if (value instanceof Numeral) return value.digits;
  return Array.isArray(value) ? `[${value.map(argumentOf).join(", ")}]` : JSON.stringify(value);
}

// The line of a signature. The names and arguments of its tasks are put into a list by numbers.
function lineOf(signature, tasks) {
  const line = { tasks: [] };
  const isChain = signature.subtask_type === "chain";
  for (const it of isChain ? signature.kwargs.tasks : [signature]) {
    if (it.subtask_type === null) {
      line.tasks.push(taskOf(it, tasks));
      continue;
    }
    const { header, body, tasks: members } = it.kwargs;
    line.group = numberIn(it.options.group_id);
    line.members = (body ? header : members).map((member) => lineOf(member, tasks));
    if (body) line.body = lineOf(body, tasks);
  }
  return line;
}

function taskOf(it, tasks) {
  const { link = [], link_error: errors = [], task_id: identifier } = it.options;
  const number = numberIn(identifier);
  const named = Object.entries(it.kwargs).map(([name, value]) => `${name}=${argumentOf(value)}`);
  tasks[number - 1] = [it.task, kept([...it.args.map(argumentOf), ...named].join(", "))];
  return [number, link.map((one) => taskOf(one, tasks)), errors.map((one) => taskOf(one, tasks))];
}

const countGroups = (line) => Number(line.group !== undefined) +
  [...(line.members || []), ...(line.body ? [line.body] : [])]
    .reduce((count, inner) => count + countGroups(inner), 0);

const CHORD_ERROR = /^Dependency \S*([0-9a-fA-F]{8}) raised (.*)$/s;

function failureText({ exc_type: kind, exc_message: message }) {
  const said = kind === "ChordError" && CHORD_ERROR.exec(message.join(" "));
  return said ? `${kind}: Dependency #${numberIn(said[1])} raised ${said[2]}` : kind;
}

// A result as the page shows it: a long list in short.
function resultText(result) {
  if (result === null) return "-";
  if (result instanceof Numeral) return result.digits;
  if (result.exc_type !== undefined) return kept(failureText(result));
  if (!Array.isArray(result)) return kept(argumentOf(result));
  const parts = result.map(resultText);
  if (parts.length > 1 && new Set(parts).size === 1) return `${parts.length} times ${parts[0]}`;
  const more = parts.length > MOST_ITEMS ? ", .." : "";
  return kept(`[${parts.slice(0, MOST_ITEMS).join(", ")}${more}]`);
}

const CODES = { SUCCESS: 0, FAILURE: 2, PENDING: 3 };

// What becomes of the canvas: the ends and rows of the first of these answers, and of each other
// the end and the rows that differ. Those that are alike and follow each other are one.
function becoming([first, ...cases]) {
  const places = new Map();
  const placeOf = ({ status, result }) => {
    if (status === "PENDING") return -1;
    const text = resultText(result);
    if (!places.has(text)) places.set(text, places.size);
    return places.get(text);
  };
  const endIn = ({ canvas }) => [canvas.status, placeOf(canvas)];
  const codeOf = ({ status, ran }) => (status === "FAILURE" && ran ? 1 : CODES[status]);
  const rowOf = (it) => [codeOf(it), placeOf(it), numberIn(it.due_to)];
  const before = { end: endIn(first), rows: first.rows.map(rowOf) };
  const failures = cases.map((it) => {
    const end = endIn(it), changes = [];
    for (const row of it.rows) {
      const number = numberIn(row.task_id), cells = rowOf(row), last = changes[changes.length - 1];
      const isNext = last && last[1] === number - 1 && last.slice(2).join() === cells.join();
      if (cells.join() === before.rows[number - 1].join()) continue;
      if (isNext) last[1] = number;
      else changes.push([number, number, ...cells]);
    }
    return { end, changes };
  });
  return { well: before, failures, values: [...places.keys()] };
}

const LETTERS = {
  publish: "p", take: "t", store: "s", part: "c", read: "r", ack: "a", redeliver: "d",
};

// A step in a word, as the player reads it; null of one that does nothing.
function stepWord(it) {
  const task = numberIn(it.task_id), worker = Number(it.worker.digits).toString(36);
  if (!task) return null;
  const letter = it.stored === "Again" ? "S" : LETTERS[it.ask];
  const part = letter === "c" ? `:${numberIn(it.group_id)}:${it.before.digits}` : "";
  return `${worker}${letter}${task}${part}`;
}

// The runs: each begins with an answer that has no ask.
function playsOf(answers) {
  const plays = [];
  for (const it of answers) {
    if (it.ask === undefined) {
      const workers = Number(it.workers.digits);
      plays.push({ workers, again: it.again, failing: 0, words: [] });
    } else {
      const word = stepWord(it);
      if (word) plays[plays.length - 1].words.push(word);
    }
  }
  return plays.map(({ words, ...play }) => ({ ...play, steps: words.join(" ") }));
}

// What a task fails with in the cases, as words; empty if none is called.
function failsWith(cases) {
  const rows = cases.map((it) => it.rows.find((row) => row.task_id === it.fails && row.ran));
  const row = rows.find((it) => it && it.status === "FAILURE");
  return row ? `; a task fails with ${resultText(row.result)}` : "";
}

function unpacked(text) {
  const [signature, ...answers] = text.trim().split("\n").map(readAnswer);
  const told = answers.filter((it) => it.fails !== undefined);
  const tasks = [], line = lineOf(signature, tasks);
  const isWhole = told.length > tasks.length;
  const omitted = isWhole ? "" : "The canvas is too large for this page to have its runs, and what" +
    " becomes of it if a task fails. `canvas turns --steps` and `canvas run --failures` print them.";
  return {
    title: "canvas",
    tasks,
    line,
    groups: countGroups(line),
    ...becoming(told),
    plays: playsOf(answers.filter((it) => it.fails === undefined)),
    notes: [],
    celery: null,
    happened: null,
    omitted,
    foot: [
      `What it means is what the program canvas answered${failsWith(told.slice(1))}.`,
      "No task was called for this page, and it contacts nothing.",
    ],
  };
}

const data = unpacked(document.getElementById("data").textContent);
