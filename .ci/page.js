// What is asked of a page of a tree once it has opened: `.ci/page` puts this behind the page's own script, with `task`,
// which says at which nodes to look and which keys to press at the root, and `report`, which hands on what came.

(async () => {
  const opened = performance.now();
  const later = (milliseconds) => new Promise((done) => setTimeout(done, milliseconds));
  const changed = () => new Promise((done) => addEventListener("hashchange", done, { once: true }));

  async function goTo(number) {
    if (location.hash === `#${number}`) return;
    const shown = changed();
    location.hash = `#${number}`;
    await shown;
  }

  const numberShown = () => Number(document.getElementById("number").value);

  // A key, or a click on the line of a cell. One that is to lead to another node has time for that, and one that is not
  // has little.
  async function pressed([key, wanted]) {
    const shown = changed();
    const patience = wanted === numberShown() ? 100 : 10000;
    if (key.startsWith("line ")) answers.get(key.slice(5)).onclick();
    else dispatchEvent(new KeyboardEvent("keydown", { key }));
    await Promise.race([shown, later(patience)]);
    return numberShown();
  }

  function lookedAt(number) {
    const cells = [...document.querySelectorAll("[data-cell]")];
    return {
      record: recordOf(number),
      parents: parentsOf(number),
      path: document.getElementById("path").textContent,
      label: document.querySelector("figure > svg").getAttribute("aria-label"),
      text: document.getElementById("node").textContent,
      classes: Object.fromEntries(cells.map((cell) => [cell.dataset.cell, [...cell.classList].sort().join(" ")])),
      points: document.querySelector(".chain").getAttribute("points"),
    };
  }

  const shown = [];
  for (const number of task.numbers) {
    await goTo(number);
    shown.push(lookedAt(number));
  }
  await goTo(root);
  const reached = [];
  for (const key of task.keys) reached.push(await pressed(key));
  const { textContent: top } = document.getElementById("fault") || { textContent: "" };
  report({ opened, shown, reached, fault: top });
})();
