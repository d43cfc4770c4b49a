
// What the installed Celery does with the same canvas. Its code was asked if the failing tasks end
// before the others, and if they end after them; if it does the same in both, there is one run.

let order = 0;  // which of the two is looked at

const CELERY_WORDS = {
  succeeded: "succeeds",
  failed: "fails",
  skipped: "marked as failed",
  uncalled: "not called",
  unknown: "in one message of a map",
};

const celeryCase = () => (data.celery.cases ? data.celery.cases[chosen] : null);
const celeryName = () => `Celery ${data.celery.version}`;
const stateIn = (run, number) => ON_CELERY[Number(run.states[number - 1])];
const isCalledIn = (run, number) => ["succeeded", "failed"].includes(stateIn(run, number));

// How Celery's call of a task differs from what the canvas means, in few words, or an empty text.
function celeryDoes(number, row) {
  const runs = data.celery && celeryCase() ? celeryCase().runs : [];
  const unlike = runs.filter((it) => stateIn(it, number) !== "unknown" &&
    isCalledIn(it, number) !== isCalled(row));
  if (!unlike.length) return "";
  const may = unlike.length < runs.length;
  if (isCalled(row)) return may ? "Celery may not call it" : "Celery doesn't call it";
  return may ? "Celery may call it" : "Celery calls it";
}

function celeryNote() {
  const note = data.celery && celeryCase() && celeryCase().note;
  return note ? [make("p", "other", `≠ ${shown(note)}.`)] : [];
}

// The sign in the table of a failure in which Celery does otherwise.
function celerySign(failing) {
  const found = data.celery && data.celery.cases ? data.celery.cases[failing] : null;
  return found && found.note ? [" ", spoken(make("span", "other", "≠"), shown(found.note))] : [];
}

function lookOnCelery(number, row) {
  const run = celeryCase().runs[order] || celeryCase().runs[0];
  const state = stateIn(run, number);
  const shared = run.shared[number];
  const said = shared ? `${shared[0]} calls of ${shared[1]} alike` : CELERY_WORDS[state];
  const differs = state !== "unknown" && isCalledIn(run, number) !== isCalled(row);
  const meant = isCalled(row) ? "means: called" : "means: not called";
  return { state, said: ` · ${said}`, other: differs ? meant : "" };
}

// The two orders, to choose from.
function orderButtons() {
  const buttons = ["the failure comes first", "the failure comes last"].map((words, at) => {
    const button = make("button", "", words);
    button.setAttribute("aria-pressed", at === order);
    button.onclick = () => { order = at; show(); };
    return button;
  });
  const group = make("div", "switch", ...buttons);
  group.id = "orders";
  return group;
}

function toldOfCelery() {
  const { runs, note } = celeryCase();
  const run = runs[order] || runs[0];
  const called = [...run.states].filter((_, at) => isCalledIn(run, at + 1)).length;
  const said = [paragraph(`On ${celeryName()}, ${shown(run.end)}.`)];
  said.push(paragraph(`${counted(called, "task is", "tasks are")} called.`));
  if (runs.length > 1) said.push(orderButtons());
  const alike = paragraph("It calls what the canvas means, and ends as it means.");
  said.push(...(note ? celeryNote() : [alike]));
  if (!chosen) said.push(paragraph("Choose a task to see what Celery does if it fails."));
  return said;
}
