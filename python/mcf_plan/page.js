"use strict";
// Pictures: the wheel with Ctrl zooms at the pointer, dragging moves, buttons and keys do the same.
document.querySelectorAll(".picture").forEach(function (frame) {
  const svg = frame.querySelector("svg"), whole = svg.viewBox.baseVal;
  const home = [whole.x, whole.y, whole.width, whole.height];
  let view = home.slice(), from = null;
  const show = function () { svg.setAttribute("viewBox", view.join(" ")); };
  const zoom = function (factor, x, y) {
    factor = Math.max(home[2] / 60, Math.min(home[2] * 2, view[2] * factor)) / view[2];
    view = [x - (x - view[0]) * factor, y - (y - view[1]) * factor, view[2] * factor, view[3] * factor];
    show();
  };
  const spot = function (event) {
    const point = new DOMPoint(event.clientX, event.clientY).matrixTransform(svg.getScreenCTM().inverse());
    return [point.x, point.y];
  };
  svg.addEventListener("wheel", function (event) {
    if (!event.ctrlKey && !event.metaKey) { return; }
    event.preventDefault();
    zoom(event.deltaY < 0 ? 0.85 : 1 / 0.85, ...spot(event));
  }, { passive: false });
  svg.addEventListener("pointerdown", function (event) { from = spot(event); svg.setPointerCapture(event.pointerId); });
  svg.addEventListener("pointermove", function (event) {
    if (!from) { return; }
    const to = spot(event);
    view[0] += from[0] - to[0];
    view[1] += from[1] - to[1];
    show();
  });
  svg.addEventListener("pointerup", function () { from = null; });
  const act = { "+": ["0.7"], "-": ["1.43"], 0: ["0"], ArrowLeft: [-0.1, 0], ArrowRight: [0.1, 0], ArrowUp: [0, -0.1], ArrowDown: [0, 0.1] };
  frame.addEventListener("keydown", function (event) {
    const [dx, dy] = act[event.key] || [];
    if (dx === undefined || event.ctrlKey || event.metaKey) { return; }
    event.preventDefault();
    if (dy === undefined) { frame.querySelector('[data-zoom="' + dx + '"]').click(); return; }
    view[0] += dx * view[2];
    view[1] += dy * view[3];
    show();
  });
  frame.querySelectorAll("button").forEach(function (button) {
    button.addEventListener("click", function () {
      const factor = Number(button.dataset.zoom);
      if (factor) { zoom(factor, view[0] + view[2] / 2, view[1] + view[3] / 2); } else { view = home.slice(); show(); }
    });
  });
});
// The exact sum of numbers that are texts, with narrow blanks between its thousands.
const sumOf = function (numbers, mark) {
  const decimals = numbers.reduce(function (most, number) { return Math.max(most, (number.split(".")[1] || "").length); }, 0);
  const sum = numbers.reduce(function (before, number) {
    const [whole, part = ""] = number.split(".");
    return before + BigInt(whole + part.padEnd(decimals, "0"));
  }, BigInt(0));
  const digits = String(sum).replace("-", "").padStart(decimals + 1, "0"), end = digits.length - decimals;
  const whole = digits.slice(0, end), part = digits.slice(end).replace(/0+$/, "");
  return (sum < 0 ? "\u2212" : "") + (whole.length > 4 ? whole.replace(/\B(?=(?:\d{3})+$)/g, "\u202f") : whole) + (part ? mark + part : "");
};
// Tables: a click on a head sorts, the field above filters by what a row says, the box leaves out what carries nothing; the totals are
// those of the rows in sight.
document.querySelectorAll(".sheet table").forEach(function (table) {
  const body = table.tBodies[0], rows = Array.from(body.rows), tools = table.closest("section").querySelector(".tools");
  const value = function (row, column) {
    const cell = row.cells[column];
    return cell.dataset.value === undefined ? cell.textContent : cell.dataset.value === "" ? Infinity : Number(cell.dataset.value);
  };
  table.querySelectorAll("thead th").forEach(function (head, column) {
    head.tabIndex = 0;
    head.addEventListener("keydown", function (event) { if (event.key === "Enter" || event.key === " ") { event.preventDefault(); head.click(); } });
    head.addEventListener("click", function () {
      const down = head.getAttribute("aria-sort") === (head.classList.contains("number") ? "descending" : "ascending");
      const sign = head.classList.contains("number") === down ? 1 : -1;
      table.querySelectorAll("thead th").forEach(function (other) { other.removeAttribute("aria-sort"); });
      head.setAttribute("aria-sort", sign > 0 ? "ascending" : "descending");
      rows.sort(function (one, two) {
        const a = value(one, column), b = value(two, column);
        return sign * (typeof a === "number" ? (a === b ? 0 : a < b ? -1 : 1) : a.localeCompare(b));
      });
      body.append(...rows);
    });
  });
  if (!tools) { return; }
  const field = tools.querySelector("input[type=search]"), box = tools.querySelector("input[type=checkbox]"), count = tools.querySelector(".count");
  const foot = table.tFoot ? Array.from(table.tFoot.rows[0].cells) : [], all = foot.map(function (cell) { return cell.textContent; });
  const sumIn = function (column) {
    const seen = rows.filter(function (row) { return !row.hidden && row.cells[column].dataset.value; });
    return sumOf(seen.map(function (row) { return row.cells[column].dataset.value; }), table.tFoot.dataset.mark);
  };
  const total = function (isAll, lines) {
    foot.forEach(function (cell, column) {
      cell.textContent = isAll ? all[column] : column === 0 ? "of " + lines : all[column] && sumIn(column);
    });
  };
  const filter = function () {
    const words = field.value.toLowerCase().split(/\s+/);
    let left = 0;
    rows.forEach(function (row) {
      const text = row.textContent.toLowerCase();
      row.hidden = !words.every(function (word) { return text.includes(word); }) || Boolean(box && box.checked && row.classList.contains("idle"));
      left += row.hidden ? 0 : 1;
    });
    count.textContent = left === rows.length ? rows.length + " lines" : left + " of " + rows.length + " lines";
    total(left === rows.length, count.textContent);
  };
  field.addEventListener("input", filter);
  if (box) { box.addEventListener("change", filter); }
  filter();
});
