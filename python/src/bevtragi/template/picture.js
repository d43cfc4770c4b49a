
// The picture. A line is a row of tasks and forks. A fork is a group, or the header of a chord,
// which ends at a gate. A task has its callbacks below it. All are lists, and read aloud as lists.

const drawn = [];   // for each task's number its elements
const gates = {};   // for each chord's number its gate and size
const folds = [];   // the parts of long lists that can be folded

// The lengths from which a list is folded, and how many items of it stay in sight at its ends.
const LONG_FORK = { most: 12, head: 6, tail: 1 };
const LONG_LINE = { most: 16, head: 6, tail: 2 };

// How many tasks in a fold are in a state, as "3 fail".
const FOLDED = {
  succeeded: "succeed",
  failed: "fail",
  skipped: "not called",
  uncalled: "not called",
};

function drawTask([number, links, errors], when) {
  const button = make("button", "task", icon("waiting"), nameParts(number));
  const note = make("span", "note"), tag = make("span", "tag"), unlike = make("span", "unlike");
  const box = make("div", "box", make("div", "head", button, make("span", "rail")));
  const item = make("li", "stop", box);
  button.append(note, tag, unlike);
  button.id = `task-${number}`;
  button.tabIndex = number === 1 ? 0 : -1;
  button.title = `${titleOf(number)}(${argumentsOf(number)})`;
  button.onclick = () => choose(number);
  if (when) item.prepend(make("span", "wire"), make("span", "when", when));
  drawn[number] = { item, button, note, tag, unlike };
  const calls = [
    ...links.map((task) => drawTask(task, "on success")),
    ...errors.map((task) => drawTask(task, "on failure")),
  ];
  if (calls.length) box.append(make("ul", "calls", ...calls));
  return item;
}

function drawFork({ group, members, body }) {
  const row = (inner) => make("li", "", make("span", "entry"), inner, make("span", "exit"));
  const rows = members.length ? members.map((line) => row(drawLine(line)))
    : [row(make("span", "nothing", "nothing in it"))];
  const isChord = body !== undefined;
  const list = make("ul", isChord ? "members joined" : "members",
    ...folded(rows, LONG_FORK, (item) => row(make("ol", "line", item))));
  list.setAttribute("aria-label", `${isChord ? "chord" : "group"} ${group}`);
  if (!isChord) return make("li", "fork", list);
  gates[group] = { gate: make("span", "gate"), size: members.length };
  return make("li", "fork", list, gates[group].gate);
}

// A line and, since a chord's body goes on with it, what follows each of its chords.
function drawLine(line) {
  const items = [];
  for (let part = line; part; part = part.body) {
    items.push(...part.tasks.map((task) => drawTask(task)));
    if (part.members) items.push(drawFork(part));
  }
  items.slice(0, -1).forEach((item) => item.classList.add("followed"));
  return make("ol", "line", ...folded(items, LONG_LINE, (item) => {
    item.classList.add("followed");
    return item;
  }));
}

// The items of a list, or of a long one its ends, and a button between them that shows the rest.
function folded(items, { most, head, tail }, placed) {
  if (items.length <= most) return items;
  const button = make("button", "more");
  const hidden = items.slice(head, -tail);
  const tasks = hidden.map((item) => [...item.querySelectorAll(".task")].map(numberOf));
  const fold = { button, hidden, tasks, isOpen: false };
  button.onclick = () => setFold(fold, !fold.isOpen);
  folds.push(fold);
  setFold(fold, false);
  const box = make("div", "box", make("div", "head", button, make("span", "rail")));
  return [...items.slice(0, head), placed(make("li", "", box)), ...items.slice(head)];
}

const numberOf = (button) => Number(button.id.slice("task-".length));

// Opens or closes a fold. One that is closed still shows the item that has the task of a number.
function setFold(fold, isOpen, number) {
  fold.isOpen = isOpen;
  fold.hidden.forEach((item, at) => { item.hidden = !isOpen && !fold.tasks[at].includes(number); });
  fold.button.setAttribute("aria-expanded", isOpen);
  countFold(fold);
}

// Says on the button of a fold how many tasks in it are in each state.
function countFold({ button, hidden, tasks, isOpen }) {
  const items = hidden.filter((item) => isOpen || item.hidden).length;
  const counts = {};
  tasks.filter((_, at) => isOpen || hidden[at].hidden).flat().forEach((number) => {
    const state = drawn[number].item.dataset.state || "waiting";
    counts[state] = (counts[state] || 0) + 1;
  });
  const said = JSON.stringify([counts, items, isOpen]);
  if (button.dataset.said === said) return;
  button.dataset.said = said;
  const parts = Object.entries(counts).map(([state, count]) =>
    make("b", state, `${count} ${FOLDED[state] || MEANING[state]}`));
  button.replaceChildren(isOpen ? `fold ${items} again` : `${items} more`,
    make("small", "", ...parts));
}

// Scrolls to a task, and if `opens` shows it beside the fold that it is in.
function reveal(number, opens) {
  const { button } = drawn[number];
  if (opens) {
    folds.filter((fold) => !fold.isOpen && fold.tasks.some((tasks) => tasks.includes(number)))
      .forEach((fold) => setFold(fold, false, number));
  }
  const here = button.getBoundingClientRect();
  const frame = byId("look").getBoundingClientRect();
  const isOut = here.left < frame.left || here.right > frame.right ||
    here.top < Math.max(frame.top, 0) || here.bottom > Math.min(frame.bottom, innerHeight);
  if (here.width && isOut) button.scrollIntoView({ block: "center", inline: "center" });
}

// Shows a task's look: its state, the note below its name, the tag on its edge, the worker that is
// at it, and what Celery does otherwise. What is shown already stays.
function paint(number, look) {
  const { item, button, note, tag, unlike, painted } = drawn[number];
  const { state, said = "", tagged = "", isNews = false, worker = "", other = "" } = look;
  const wanted = [state, said, tagged, isNews, worker, other, number === chosen].join("\0");
  if (painted === wanted) return;
  drawn[number].painted = wanted;
  button.firstChild.replaceWith(icon(state, worker));
  item.dataset.state = state;
  note.textContent = `#${number}${said}`;
  tag.textContent = tagged;
  tag.className = isNews ? "tag news" : "tag";
  unlike.textContent = other && `≠ ${other}`;
  button.setAttribute("aria-label",
    `task ${number} ${nameOf(number)}: ${MEANING[state]}${said}${other && `; ${other}`}`);
  button.setAttribute("aria-pressed", number === chosen);
}

// How many parts each chord waits for.
function showGates() {
  for (const { gate, size } of Object.values(gates)) {
    gate.dataset.count = "";
    gate.textContent = `waits for ${size}`;
  }
}

function showLegend(states) {
  byId("legend").replaceChildren(...states.map((state) => {
    const isNumbered = state === "working" && view === "run";
    return make("span", "", icon(state, isNumbered ? "1" : ""),
      isNumbered ? "at work, by worker 1" : MEANING[state]);
  }));
}
