
// What if one fails. A row is a task's state, the place of its value, and to whom it is due. The
// rows of a failure are those of the canvas as it is, but for the ranges that differ.

function rowsOf(failing) {
  const rows = data.well.rows.slice();
  if (failing && !data.omitted) {
    const { changes } = data.failures[failing - 1];
    for (const [from, to, ...row] of changes) rows.fill(row, from - 1, to);
  }
  return rows;
}

const well = rowsOf(0);
const isCalled = (row) => row[0] < 2;
const endOf = (failing) => (failing && !data.omitted ? data.failures[failing - 1] : data.well).end;
const isSame = (one, other) => one === other || one.join() === other.join();

function becomes([state, place, due]) {
  if (MEANT[state] === "skipped") return `due to #${due}`;
  return MEANT[state] === "unneeded" ? "not needed" : valueAt(place) || "succeeds";
}

// The note of a task: its arguments if its value isn't known, or else what becomes of it.
function noteOf(number, row) {
  if (MEANT[row[0]] !== "succeeded") return ` · ${becomes(row)}`;
  if (row[1] >= 0) return ` → ${valueAt(row[1])}`;
  return argumentsOf(number) && ` (${argumentsOf(number)})`;
}

// The numbers of the tasks that a failure changes, by how it changes them.
function changesOf(failing) {
  const found = { called: [], lost: [], unneeded: [], other: [], same: 0 };
  rowsOf(failing).forEach((row, at) => {
    const number = at + 1;
    if (isSame(row, well[at])) found.same += number !== failing;
    else if (isCalled(row) && !isCalled(well[at])) found.called.push(number);
    else if (isCalled(well[at]) && MEANT[row[0]] === "skipped") found.lost.push(number);
    else if (isCalled(well[at]) && MEANT[row[0]] === "unneeded") found.unneeded.push(number);
    else if (number !== failing) found.other.push(number);
  });
  return found;
}

// How the canvas ends, as the rest of a sentence whose first word is the subject's article.
function ending(article, [status, place]) {
  const value = valueAt(place);
  const subject = `${article} canvas `;
  if (status === "PENDING") return [subject, "stays pending."];
  if (status === "FAILURE") return [subject, make("b", "failed", "fails"), `: ${value}.`];
  const result = value ? [" with ", make("b", "", value)] : [];
  return [subject, make("b", "succeeded", "succeeds"), ...result, "."];
}

function asItIs() {
  const end = paragraph(...ending("The", endOf(0)));
  if (!taskCount) return [end, paragraph("It has no tasks.")];
  const uncalled = well.filter((row) => !isCalled(row)).length;
  const called = counted(taskCount - uncalled, "task is", "tasks are");
  const all = taskCount === 1 ? "Its task is called." : `All ${taskCount} tasks are called.`;
  return [
    end,
    paragraph(uncalled ? `${called} called, ${uncalled} not.` : all),
    paragraph(data.omitted || "Choose a task to see what becomes of the canvas if it fails."),
  ];
}

function ifItFails(failing) {
  if (!isCalled(well[failing - 1])) {
    return [paragraph("It isn't called, so it can't fail. ", ...ending("The", endOf(failing)))];
  }
  if (data.omitted) return [paragraph(data.omitted)];
  const { called, lost, unneeded, other, same } = changesOf(failing);
  const isLikeBefore = isSame(endOf(failing), endOf(0));
  const said = [paragraph(...ending(isLikeBefore ? "Even then the" : "Then the", endOf(failing)))];
  const say = (before, numbers) => {
    if (numbers.length) said.push(paragraph(before, ...references(numbers), "."));
  };
  say("Called only now: ", called);
  say("No longer called, and marked as failed: ", lost);
  say("No longer needed: ", unneeded);
  say("With another end: ", other);
  if (same) said.push(paragraph(`${counted(same, "other task is", "other tasks are")} as before.`));
  return said;
}

// What a row of the table says of the task's failure.
function inShort(failing) {
  if (!isCalled(well[failing - 1])) return ["isn't called"];
  if (data.omitted) return ["isn't kept"];
  const { called, lost } = changesOf(failing);
  const fails = endOf(failing)[0] === "FAILURE";
  const words = fails ? "canvas fails" : "canvas succeeds";
  const counts = [];
  if (lost.length) counts.push(`${lost.length} not called`);
  if (called.length) counts.push(`${called.length} more`);
  const sign = spoken(icon(fails ? "failed" : "succeeded"), `the ${words}`);
  return [sign, ...celerySign(failing), ` ${counts.join(", ") || words}`];
}

function lookOf(number, row) {
  const isNew = isCalled(row) && !isCalled(well[number - 1]) && number !== chosen;
  const fails = number === chosen && MEANT[row[0]] === "failed";
  return {
    state: MEANT[row[0]],
    said: noteOf(number, row),
    tagged: fails ? "fails" : isNew ? "only now" : "",
    isNews: isNew,
    other: celeryDoes(number, row),
  };
}

function showFailure() {
  const rows = rowsOf(chosen);
  const isCelerys = truth === "celery";
  rows.forEach((row, at) => {
    const number = at + 1;
    const look = isCelerys ? lookOnCelery(number, row) : lookOf(number, row);
    paint(number, look);
    const becoming = isCelerys ? look.said.replace(/^ · /, "") : becomes(row);
    fillRow(number, look.state, becoming, number === chosen || !isSame(row, well[at]));
  });
  showGates();
  const isClean = well.every((row) => ["succeeded", "unneeded"].includes(MEANT[row[0]]));
  byId("question").textContent = chosen ? `What if ${titleOf(chosen)} fails?`
    : isClean ? "When nothing fails" : "As it is";
  const told = chosen ? ifItFails(chosen) : asItIs();
  byId("answer").replaceChildren(...(isCelerys ? toldOfCelery() : [...told, ...celeryNote()]));
}
