
// Texts, signs and elements. Text of the canvas enters the document as text only.

const taskCount = data.tasks.length;
const byId = (id) => document.getElementById(id);

// What can't be seen, or turns text round, is shown as a mark.
const UNSEEN = /[\p{Cc}\p{Cf}\p{Cs}\p{Zl}\p{Zp}]/gu;
const shown = (text) => text.replace(UNSEEN, "\ufffd");

const nameOf = (number) => shown(data.tasks[number - 1][0]);
const argumentsOf = (number) => shown(data.tasks[number - 1][1]);
const titleOf = (number) => `#${number} ${nameOf(number)}`;
const valueAt = (place) => (place < 0 ? "" : shown(data.values[place]));
const counted = (count, one, many = one + "s") => `${count} ${count === 1 ? one : many}`;

// The states, in the order of their codes in the data: what becomes of a task by its meaning, on
// Celery's workers, and while a run is played.
const MEANT = ["succeeded", "failed", "skipped", "unneeded"];
const ON_CELERY = ["succeeded", "failed", "skipped", "uncalled", "unknown"];
const HAPPENED = ["succeeded", "failed", "skipped", "waiting", "queued", "working", "unknown"];
const PLAYED = ["waiting", "queued", "working", "succeeded", "failed", "skipped"];

const MEANING = {
  succeeded: "called, succeeds",
  failed: "called, fails",
  skipped: "not called, marked as failed",
  unneeded: "not needed",
  uncalled: "not called, nothing stored",
  unknown: "not known",
  waiting: "not yet",
  queued: "queued",
  working: "at work",
};
const SIGNS = {
  succeeded: "M2 6.4 5 9.4 10 3",
  failed: "M3 3 9 9M9 3 3 9",
  skipped: "M2.5 6H9.5",
  queued: "M3 6h.01M6 6h.01M9 6h.01",
  unknown: "M4 4.6C4 2 8 2 8 4.6 8 6 6 6 6 7.4M6 9.8h.01",
};
const SVG = "http://www.w3.org/2000/svg";

function make(tag, kind, ...inner) {
  const element = document.createElement(tag);
  if (kind) element.className = kind;
  element.append(...inner);
  return element;
}

function icon(state, text = "") {
  const disc = make("span", "icon", text);
  disc.dataset.state = state;
  if (text) return disc;
  const svg = document.createElementNS(SVG, "svg");
  const path = document.createElementNS(SVG, "path");
  svg.setAttribute("viewBox", "0 0 12 12");
  path.setAttribute("d", SIGNS[state] || "");
  svg.append(path);
  disc.append(svg);
  return disc;
}

// An element that is read aloud by these words, which also are its title.
function spoken(element, words) {
  element.setAttribute("role", "img");
  element.setAttribute("aria-label", words);
  element.title = words;
  return element;
}

// A task's name, whose last part is bold.
function nameParts(number) {
  const name = nameOf(number);
  const last = name.lastIndexOf(".") + 1;
  return make("span", "name", make("i", "", name.slice(0, last)), name.slice(last));
}

const paragraph = (...inner) => make("p", "", ...inner);

// Parts with commas and "and" between them, and how many more there are.
function listed(parts, more = 0) {
  const all = more ? [...parts, `${more} more`] : parts;
  const before = (at) => (at === 0 ? "" : at === all.length - 1 ? " and " : ", ");
  return all.flatMap((part, at) => [before(at), part]);
}

// Buttons that lead to tasks: the first six, and how many more there are.
function references(numbers) {
  const buttons = numbers.slice(0, 6).map((number) => {
    const button = make("button", "reference", titleOf(number));
    button.onclick = () => { reveal(number, true); drawn[number].button.focus(); };
    return button;
  });
  return listed(buttons, Math.max(0, numbers.length - 6));
}
