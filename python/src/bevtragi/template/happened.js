
// What happened in a run on Celery's workers, as far as results are stored. A row is a state and
// what is shown of it.

const HAPPENED_WORDS = {
  succeeded: "succeeded",
  failed: "failed",
  skipped: "not called, marked as failed",
  waiting: "without a result",
  queued: "queued",
  working: "at work",
  unknown: "with a result that can't be read",
};

function showHappened() {
  const counts = {};
  data.happened.rows.forEach(([code, told], at) => {
    const state = HAPPENED[code];
    const text = shown(told);
    const said = state === "succeeded" ? ` → ${text}` : ` · ${text}`;
    counts[state] = (counts[state] || 0) + 1;
    paint(at + 1, { state, said: text && said });
    fillRow(at + 1, state, text, false);
  });
  showGates();
  const parts = HAPPENED.filter((state) => counts[state])
    .map((state) => make("b", state, `${counts[state]} ${HAPPENED_WORDS[state]}`));
  byId("question").textContent = "What happened";
  byId("answer").replaceChildren(
    paragraph(...listed(parts), "."),
    paragraph(shown(data.happened.end)),
    ...data.happened.notes.map((note) => paragraph(shown(note))));
}
