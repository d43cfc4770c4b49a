
// What the page shows, as it was packed for it.

const data = JSON.parse(document.getElementById("data").textContent);
