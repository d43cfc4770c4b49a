
// The page: its views, its table, its address and its keys.

let view = "failures";  // or "run", or "happened"
let truth = "meant";    // or "celery"
let chosen = 0;         // the number of the task that is chosen, or 0
const tableRows = [];

function press(id, isPressed) { byId(id).setAttribute("aria-pressed", isPressed); }

function show() {
  if (view === "run") return;
  if (view === "happened") showHappened();
  else showFailure();
  folds.forEach(countFold);
  filterRows();
  keepAddress();
}

function setView(next, at = 0) {
  halt();
  view = next === "run" && !data.plays.length ? "failures" : next;
  if (view === "happened") chosen = 0;
  const isRun = view === "run", isFailures = view === "failures";
  press("view-failures", isFailures);
  press("view-run", isRun);
  press("view-happened", view === "happened");
  press("truth-meant", truth === "meant");
  press("truth-celery", truth === "celery");
  byId("player").hidden = byId("moment").hidden = !isRun;
  byId("tasks").hidden = isRun;
  byId("truths").hidden = !isFailures || !data.celery || !data.celery.cases;
  document.body.classList.toggle("playing", isRun);
  setLegend();
  if (isRun) loadRun(at);
  else show();
}

function setTruth(next) {
  truth = next;
  setView("failures");
}

function setLegend() {
  const isCelerys = view === "failures" && truth === "celery";
  showLegend({ run: PLAYED, happened: HAPPENED, failures: isCelerys ? ON_CELERY : MEANT }[view]);
}

// Chooses a task, or none if it is chosen already.
function choose(number) {
  chosen = number === chosen ? 0 : number;
  setView(view === "happened" ? "failures" : view);
  if (chosen) reveal(chosen, true);
}

function drawTable() {
  for (let number = 1; number <= taskCount; number++) {
    const label = make("span", "number", `#${number}`);
    const who = make("button", "who", icon("waiting"), label, nameParts(number));
    const last = make("td", "", ...inShort(number));
    who.title = nameOf(number);
    tableRows[number] = make("tr", "", make("td", "", who), make("td"), last);
    tableRows[number].onclick = () => choose(number);
  }
  byId("rows").append(...tableRows.slice(1));
  const notes = data.notes.map(([kind, task, note, count]) => make("li", "",
    `${shown(task)}: ${shown(note)}${count > 1 ? `, ${count} times` : ""} (${shown(kind)})`));
  if (notes.length) byId("notes").append(make("h3", "", "Good to know"), make("ul", "", ...notes));
}

function fillRow(number, state, text, isChanged) {
  const row = tableRows[number];
  row.classList.toggle("chosen", number === chosen);
  row.isChanged = isChanged;
  const filled = `${state} ${text}`;
  if (row.filled === filled) return;
  row.filled = filled;
  row.querySelector(".icon").replaceWith(spoken(icon(state), MEANING[state]));
  row.cells[1].textContent = text;
}

function filterRows() {
  const text = byId("search").value.trim().toLowerCase();
  const changedOnly = byId("changed-only").checked && chosen > 0;
  for (let number = 1; number <= taskCount; number++) {
    const isFound = titleOf(number).toLowerCase().includes(text);
    tableRows[number].hidden = !isFound || (changedOnly && !tableRows[number].isChanged);
  }
}

// What is looked at is in the address, so that it can be kept and sent. Browsers refuse hundreds of
// changes in a row, so a change waits a little.
let keeping = 0;

function keepAddress() {
  clearTimeout(keeping);
  keeping = setTimeout(() => {
    if (timer) return;
    // a page in a frame has no address
    try { history.replaceState(null, "", addressNow()); } catch (error) { keeping = 0; }
  }, 120);
}

function addressNow() {
  if (view === "run") return `#run=${run.workers},${Number(run.again)},${chosen},${step}`;
  if (view === "happened") return "#happened=1";
  if (truth === "celery") return `#celery=${chosen}`;
  return chosen ? `#fails=${chosen}` : "#";
}

function followAddress() {
  const [, word, text] = /^#(fails|celery|run|happened)=([\d,]+)$/.exec(location.hash) || [];
  const numbers = (text || "").split(",").map(Number);
  const [workers, again, failing, at] = numbers;
  const wanted = word === "run" ? failing : word === "happened" ? 0 : numbers[0];
  chosen = wanted >= 1 && wanted <= taskCount ? wanted : 0;
  if (word === "run") {
    byId("workers").replaceChildren(new Option(workers, workers, true, true));
    byId("again").checked = again === 1;
    setView("run", at || 0);
  } else {
    truth = word === "celery" && data.celery && data.celery.cases ? "celery" : "meant";
    setView(data.happened && (!word || word === "happened") ? "happened" : "failures");
  }
  if (chosen) reveal(chosen, true);
}

function turn(isDown) {
  byId("picture").classList.toggle("down", isDown);
  press("down", isDown);
  press("across", !isDown);
}

// Moves the focus to the next task that is in sight.
function moveFocus(button, way) {
  let number = numberOf(button) + way;
  while (drawn[number] && !drawn[number].button.offsetParent) number += way;
  if (!drawn[number]) return;
  button.tabIndex = -1;
  drawn[number].button.tabIndex = 0;
  drawn[number].button.focus();
}

function typed(event) {
  const { key, target } = event;
  const way = { ArrowRight: 1, ArrowDown: 1, ArrowLeft: -1, ArrowUp: -1 }[key];
  if (event.ctrlKey || event.altKey || event.metaKey || /INPUT|SELECT/.test(target.tagName)) return;
  if (key === "Escape") {
    chosen = 0;
    setView(view);
  } else if (way && target.classList.contains("task")) {
    moveFocus(target, way);
  } else if (view === "run" && ["ArrowRight", "ArrowLeft"].includes(key)) {
    halt();
    seek(step + way);
  } else if (view === "run" && ["Home", "End"].includes(key)) {
    halt();
    seek(key === "Home" ? 0 : Infinity);
  } else if (view === "run" && key === " " && target.tagName !== "BUTTON") {
    playOrPause();
  } else {
    return;
  }
  event.preventDefault();
}

function seekBy(event) {
  const { left, width } = byId("lanes").getBoundingClientRect();
  halt();
  seek(Math.round(((event.clientX - left - 74) / (width - 74)) * run.steps.length));
}

function listen() {
  const clicked = {
    "view-failures": () => setView("failures"),
    "view-run": () => setView("run"),
    "view-happened": () => setView("happened"),
    "truth-meant": () => setTruth("meant"),
    "truth-celery": () => setTruth("celery"),
    across: () => turn(false),
    down: () => turn(true),
    play: playOrPause,
    "to-start": () => { halt(); seek(0); },
    back: () => { halt(); seek(step - 1); },
    next: () => { halt(); seek(step + 1); },
    lanes: seekBy,
  };
  for (const [id, act] of Object.entries(clicked)) byId(id).onclick = act;
  byId("search").oninput = byId("changed-only").onchange = filterRows;
  byId("search").onkeydown = ({ key }) => {
    const number = tableRows.findIndex((row) => row && !row.hidden);
    if (key === "Enter" && number > 0 && number !== chosen) choose(number);
  };
  byId("slider").oninput = () => { halt(); seek(Number(byId("slider").value)); };
  byId("workers").onchange = byId("again").onchange = () => { halt(); loadRun(0); };
  document.addEventListener("keydown", typed);
  addEventListener("hashchange", followAddress);
  addEventListener("beforeprint", () => { if (byId("picture").scrollWidth > 900) turn(true); });
}

function begin() {
  document.title = byId("title").textContent = shown(data.title);
  byId("picture").append(drawLine(data.line));
  const chords = Object.keys(gates).length;
  const facts = [counted(taskCount, "task"), chords && counted(chords, "chord"),
    data.groups > chords && counted(data.groups - chords, "group")];
  byId("facts").textContent = facts.filter(Boolean).join(" · ");
  byId("foot").textContent = data.foot.map(shown).join(" ");
  byId("view-happened").hidden = !data.happened;
  byId("view-run").hidden = !data.plays.length;
  byId("views").hidden = !data.happened && !data.plays.length;
  if (data.celery) byId("truth-celery").textContent = shown(celeryName());
  byId("changed-only").checked = taskCount > 40;
  drawTable();
  listen();
  turn(false);
  followAddress();
  if (byId("picture").scrollWidth > byId("look").clientWidth * 1.5 || innerWidth < 700) turn(true);
  if (chosen) reveal(chosen, true);
}

begin();
