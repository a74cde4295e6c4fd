// The table: of many lines only those in sight are drawn.

const heads = Array.from(document.querySelectorAll("#table thead th"));
const list = element("list"), body = document.querySelector("#table tbody");
const query = {words: "", answer: "", root: "", site: "", place: "", change: "", box: -1, sort: "", isDown: false};
const table = {lines: [], open: new Set(), current: 0, height: 28, isTall: false};
const few = 200, spare = 10;
const choices = ["answer", "root", "site", "place", "change"];

// Returns a line for each row, or, if alike ones are folded, one for each group, and below it its rows if it is open.
function linesOf(rows) {
  if (!element("fold").checked) { return rows.map((row) => ({row, group: null})); }
  return groupsOf(rows).reduce((lines, group) => {
    lines.push({row: group[0], group: group.length > 1 ? group : null});
    if (group.length > 1 && table.open.has(data.alike[group[0]])) {
      group.forEach((row) => lines.push({row, group: null, isInside: true}));
    }
    return lines;
  }, []);
}

function cellOf(parts, at, line) {
  const cell = make(at ? "td" : "th", at ? {} : {scope: "row"});
  if (!at && line.group) {
    const isOpen = table.open.has(data.alike[line.row]);
    const fold = make("button", {type: "button", className: "fold", textContent: isOpen ? "▾" : "▸",
      ariaLabel: isOpen ? "Fold them" : "Show all of them"});
    fold.setAttribute("aria-expanded", String(isOpen));
    cell.append(fold, " ");
  }
  cell.append(...parts, !at && line.group ? " and " + (line.group.length - 1).toLocaleString("en") + " more" : "");
  if (table.isTall) { cell.title = cell.textContent; }
  return cell;
}

function drawLine(at) {
  const line = table.lines[at];
  const verdict = data.verdicts[data.verdict[line.row]];
  const made = make("tr", {id: "line" + at, className: verdict + (line.isInside ? " inside" : ""),
    tabIndex: at === table.current ? 0 : -1});
  made.setAttribute("aria-rowindex", String(at + 2));
  made.append(...cellsOf(line.row).map((parts, column) => cellOf(parts, column, line)));
  made.dataset.at = String(at);
  return made;
}

function spaceOf(lines) {
  const space = make("tr", {className: "space"});
  space.setAttribute("aria-hidden", "true");
  space.append(make("td", {colSpan: columns.length}));
  space.firstChild.style.height = lines * table.height + "px";
  return space;
}

// Draws the lines in sight, and some around.
function draw() {
  const all = table.lines.length;
  const hadFocus = body.contains(document.activeElement);
  table.isTall = all > few;
  list.classList.toggle("tall", table.isTall);
  const room = Math.ceil((list.clientHeight || 600) / table.height);
  const first = table.isTall ? Math.max(0, Math.min(Math.floor(list.scrollTop / table.height) - spare, all - room)) : 0;
  const last = table.isTall ? Math.min(all, first + room + 2 * spare) : all;
  const rows = [];
  for (let at = first; at < last; at += 1) { rows.push(drawLine(at)); }
  body.replaceChildren(...(first ? [spaceOf(first)] : []), ...rows, ...(last < all ? [spaceOf(all - last)] : []));
  const height = table.isTall && rows.length ? rows[0].getBoundingClientRect().height : 0;
  if (height && Math.abs(height - table.height) > 0.1) { table.height = height; }
  if (hadFocus) { (element("line" + table.current) || list).focus({preventScroll: true}); }
}

// Has a line in sight, and as the current one.
function goTo(at, takesFocus) {
  table.current = Math.max(0, Math.min(at, table.lines.length - 1));
  const top = table.current * table.height;
  if (table.isTall && (top < list.scrollTop || top > list.scrollTop + list.clientHeight - 3 * table.height)) {
    list.scrollTop = Math.max(0, top - list.clientHeight / 2);
  }
  draw();
  const line = element("line" + table.current);
  if (line && takesFocus) { line.focus({preventScroll: table.isTall}); }
  return line;
}

// Filters, sorts and folds anew, and says how much is shown.
function update() {
  const rows = rowsOf(query);
  table.lines = linesOf(rows);
  table.current = 0;
  element("table").setAttribute("aria-rowcount", String(table.lines.length + 1));
  list.scrollTop = 0;
  draw();
  const lines = table.lines.length < rows.length ? ", in " + count(table.lines.length, "line", "lines") : "";
  element("shown").textContent = rows.length + " of " + number + " rows are shown" + lines;
  heads.forEach((head, at) => head.setAttribute("aria-sort", query.sort !== columns[at] ? "none" :
    query.isDown ? "descending" : "ascending"));
  element("ofbox").hidden = query.box < 0;
}

// Shows a row: where it is filtered out, all rows are shown again.
function showRow(row, takesFocus) {
  let at = table.lines.findIndex((line) => line.row === row && !line.group);
  if (at < 0) {
    if (!rowsOf(query).includes(row)) { clearQuery(); }
    table.open.add(data.alike[row]);
    update();
    at = table.lines.findIndex((line) => line.row === row && !line.group);
  }
  return goTo(at, takesFocus);
}

function clearQuery() {
  Object.assign(query, {words: "", box: -1});
  choices.forEach((id) => { query[id] = ""; });
  ["text", ...choices].forEach((id) => { element(id).value = ""; });
}

function sortBy(at) {
  const isNext = query.sort === columns[at];
  query.isDown = isNext && !query.isDown;
  query.sort = isNext && !query.isDown ? "" : columns[at];
  update();
}

function turnFold(at) {
  const key = data.alike[table.lines[at].row], top = list.scrollTop;
  if (!table.open.delete(key)) { table.open.add(key); }
  update();
  list.scrollTop = top;
  goTo(at, true);
}

// Marks the rows in sight that wait for one, and for whom it waits.
function relateRows(at) {
  const row = table.lines[at] ? table.lines[at].row : -1;
  const whom = row < 0 ? [] : whomOf(row)[0], by = row < 0 ? [] : waitersOf(row);
  body.classList.toggle("related", whom.length + by.length > 0);
  body.querySelectorAll("tr[data-at]").forEach((line) => {
    const other = table.lines[Number(line.dataset.at)].row;
    line.classList.toggle("lit", other === row || whom.includes(other) || by.includes(other));
  });
}

function lineOf(event) {
  const line = event.target.closest("tr[data-at]");
  return line ? Number(line.dataset.at) : -1;
}

const moves = {ArrowDown: 1, ArrowUp: -1, PageDown: 15, PageUp: -15, Home: -Infinity, End: Infinity};

function pressInTable(event) {
  const at = lineOf(event);
  if (at < 0 || event.ctrlKey || event.altKey || event.metaKey) { return; }
  if (event.key in moves) {
    event.preventDefault();
    goTo(at + moves[event.key], true);
  } else if (event.key === "Enter" && event.target.tagName === "TR") {
    choose(table.lines[at].row);
  } else if ((event.key === " " || event.key === "ArrowRight" || event.key === "ArrowLeft") &&
      event.target.tagName === "TR" && table.lines[at].group) {
    event.preventDefault();
    turnFold(at);
  }
}

function clickInTable(event) {
  const at = lineOf(event);
  if (at < 0 || event.target.closest("a")) { return; }
  if (event.target.closest("button")) { turnFold(at); } else { choose(table.lines[at].row); }
}

function optionsOf(select, column) {
  const counts = new Map();
  data[column].forEach((it) => counts.set(it, (counts.get(it) || 0) + 1));
  counts.delete(0);
  const found = Array.from(counts).sort((one, other) => other[1] - one[1]).slice(0, 500);
  found.forEach(([it, many]) => select.append(make("option", {value: String(it),
    textContent: data.texts[it].slice(0, 80) + " (" + many.toLocaleString("en") + ")"})));
  select.parentNode.hidden = found.length < (column === "change" ? 1 : 2);
}

function startTable() {
  ["site", "place", "change"].forEach((id) => optionsOf(element(id), id));
  for (let root = 1; root <= data.roots; root += 1) {
    element("root").append(make("option", {value: String(root), textContent: "root " + root}));
  }
  element("root").parentNode.hidden = data.roots < 2;
  element("fold").checked = number > 400;
  element("fold").parentNode.hidden = new Set(data.alike).size === number;
  choices.forEach((id) => element(id).addEventListener("change", (event) => {
    query[id] = event.target.value;
    update();
  }));
  let timer = 0;
  element("text").addEventListener("input", (event) => {
    clearTimeout(timer);
    timer = setTimeout(() => { query.words = event.target.value; update(); }, number > 2000 ? 60 : 20);
  });
  element("fold").addEventListener("change", update);
  element("ofbox").addEventListener("click", () => { query.box = -1; update(); });
  heads.forEach((head, at) => head.querySelector("button").addEventListener("click", () => sortBy(at)));
  let isDue = false;
  list.addEventListener("scroll", () => {
    if (!table.isTall || isDue) { return; }
    isDue = true;
    requestAnimationFrame(() => { isDue = false; draw(); });
  });
  body.addEventListener("keydown", pressInTable);
  body.addEventListener("click", clickInTable);
  ["mouseover", "focusin"].forEach((sort) => body.addEventListener(sort, (event) => relateRows(lineOf(event))));
  ["mouseleave", "focusout"].forEach((sort) => body.addEventListener(sort, () => relateRows(-1)));
  update();
}
