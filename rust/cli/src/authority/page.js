"use strict";
// The slider over the steps. Without this script the page shows the cards after the run.
for (const film of document.querySelectorAll(".film")) {
  const prefix = film.id.slice(0, -"film".length);
  const rows = film.querySelectorAll("tr[data-step]");
  const slider = film.querySelector("input");
  const stage = film.querySelector(".stage");
  const caption = film.querySelector(".caption");
  const pictures = new Map();
  for (const one of film.querySelectorAll("template")) {
    pictures.set(one.dataset.picture, one.content);
  }
  const last = document.createDocumentFragment();
  for (const node of stage.childNodes) last.append(node.cloneNode(true));
  pictures.set(stage.dataset.picture, last);

  const said = (row) => {
    const cells = Array.from(row.cells, (cell) => cell.textContent.trim());
    if (row.dataset.step === "0") return "before the first step";
    const changed = cells[3] === "" ? "" : ": " + cells[3];
    return "after step " + cells[0] + ", line " + cells[1] + ", " + cells[2] + changed;
  };
  const mark = (row, on) => {
    row.classList.toggle("now", on);
    const line = document.getElementById(prefix + "L" + row.dataset.line);
    if (line) line.classList.toggle("now", on);
  };
  const show = () => {
    const row = rows[Number(slider.value)];
    for (const other of rows) mark(other, false);
    mark(row, true);
    stage.dataset.picture = row.dataset.picture;
    stage.replaceChildren(pictures.get(row.dataset.picture).cloneNode(true));
    caption.textContent = said(row);
    slider.setAttribute("aria-valuetext", caption.textContent);
  };
  const go = (step) => {
    const at = Array.from(rows).findIndex((row) => Number(row.dataset.step) >= step);
    slider.value = String(at < 0 ? rows.length - 1 : at);
    show();
  };
  // A link that ends in #s1-step-5 shows step 5 of the first script.
  const linked = () => {
    const [start, step] = location.hash.slice(1).split("step-");
    if (start === prefix && /^[0-9]+$/.test(step || "")) go(Number(step));
  };
  slider.addEventListener("input", show);
  for (const button of film.querySelectorAll("button")) {
    button.addEventListener("click", () => {
      slider.value = String(Number(slider.value) + Number(button.dataset.by));
      show();
    });
  }
  window.addEventListener("hashchange", linked);
  film.querySelector(".controls").hidden = false;
  show();
  linked();
}
