// One process, or one box of the picture: all that is known of it, with ways to its row, to its box and to its lines.

const panel = element("one");
const mostLines = 14, mostPlaces = 4, mostLetters = 400;
let cameFrom = null;

function partOf(head, ...parts) {
  return parts.length ? [make("dt", {textContent: head}), make("dd", {}, ...parts)] : [];
}

function codeOf(lines) { return make("pre", {textContent: lines.join("\n")}); }

// Returns what lines of a state are like that name a number: of a process, a thread, a goroutine or a rank.
function patternOfNumber(digits) {
  return new RegExp('(?:"(?:pid|tid|thread|number)": ?"?|goroutine |rank[ =]|[Tt]hread )' + digits + "(?![\\d.])", "i");
}

// Returns what the lines of a state may be like that name a process, the most telling first.
function patternsOf(row) {
  const name = fullName(row), last = name.split("/").pop();
  const words = [name, name.slice(name.indexOf("/") + 1), last, last.replace(/ \(.*\)$/, ""),
    last.replace(/^coroutine /, "")].filter((word) => word && !/^\d+$/.test(word));
  const digits = [/\d*$/.exec(name)[0], ...(data.thread[row] || "").split("/").reverse()].filter(Boolean);
  return [...new Set(words)].map(patternOf).concat([...new Set(digits)].map(patternOfNumber));
}

// Returns the places of a state whose lines are so: the number of the first line, and the lines.
function placesIn(lines, pattern) {
  const found = [];
  for (let at = 0; at < lines.length && found.length < mostPlaces; at += 1) {
    if (!pattern.test(lines[at])) { continue; }
    let end = at + 1;
    while (end < lines.length && lines[end].trim() && end - at < mostLines && !pattern.test(lines[end])) { end += 1; }
    found.push([at, lines.slice(at, end)]);
    at = end - 1;
  }
  return found;
}

// Returns a line, or of a long one the part around what names the process.
function partOfLine(line, pattern) {
  if (line.length <= mostLetters) { return line; }
  const from = Math.max(0, Math.min(line.search(pattern) - mostLetters / 4, line.length - mostLetters));
  return (from > 0 ? "… " : "") + line.slice(from, from + mostLetters) + " …";
}

// Opens a state at a line.
function showLine(state, at) {
  const pre = state.querySelector("pre");
  const text = pre.textContent.split("\n");
  state.open = true;
  const mark = make("mark", {id: "stateline", tabIndex: -1, textContent: text[at]});
  pre.replaceChildren(text.slice(0, at).join("\n") + (at ? "\n" : ""), mark, "\n" + text.slice(at + 1).join("\n"));
  mark.scrollIntoView({block: "center"});
  mark.focus({preventScroll: true});
}

function stateParts(row) {
  return Array.from(document.querySelectorAll("details.lines")).flatMap((state) => {
    const lines = state.querySelector("pre").textContent.split("\n");
    const pattern = patternsOf(row).find((some) => lines.some((line) => some.test(line)));
    return (pattern ? placesIn(lines, pattern) : []).flatMap(([at, some]) => {
      const way = wayTo("", state.dataset.name + ", line " + (at + 1), () => showLine(state, at));
      return [way, codeOf(some.map((line) => partOfLine(line, pattern)))];
    });
  });
}

function wayTo(id, words, act) {
  const way = make("button", {type: "button", id, textContent: words});
  way.addEventListener("click", act);
  return way;
}

function wayToBox(box) { return boxElement(box) ? [wayTo("tobox", "Its box", () => focusBox(box))] : []; }

function fillPanel(title, ways, parts) {
  if (panel.hidden) { cameFrom = document.activeElement; }
  element("onename").textContent = title;
  element("oneways").replaceChildren(...ways);
  element("oneparts").replaceChildren(...parts);
  panel.hidden = false;
  panel.scrollTop = 0;
  element("onename").focus({preventScroll: true});
}

function textOf(numbers) { return numbers.map((it) => data.texts[it]); }

// Shows all of one process.
function showOne(row) {
  const [whom, more] = whomOf(row), by = waitersOf(row), frames = textOf(data.frames[row] || []);
  const site = data.texts[data.site[row]], place = data.texts[data.place[row]];
  const inTable = wayTo("torow", "Its row", () => showRow(row, true).scrollIntoView({block: "center"}));
  fillPanel(data.names[row], [inTable, ...wayToBox(data.box[row])], [
    ...partOf("Answer", ...answerParts(row)),
    ...(data.change[row] ? partOf("Since then", "It " + data.texts[data.change[row]]) : []),
    ...(site ? partOf("Site", site) : []),
    ...(place ? partOf("What it does", place) : []), ...partOf("Waits for", ...waitParts(row, 40)),
    ...(by.length ? partOf("Who waits for it", ...linksOf(by, 0, 40, ", ")) : []),
    ...partOf("Chain", ...chainParts(row, 12)), ...(frames.length ? partOf("Frames", codeOf(frames)) : []),
    ...partOf("Rests on", ...reasonParts(row)), ...partOf("Lines of the state", ...stateParts(row))]);
  relateBox(data.box[row], whom.length + more + by.length > 0);
}

// Shows a box of several, and its rows alone.
function showBox(box) {
  const rows = everyRow.filter((row) => data.box[row] === box);
  if (!rows.length) { return; }
  if (rows.length === 1) { choose(rows[0]); return; }
  query.box = box;
  element("ofbox").textContent = "Of one box: " + data.boxes[box][0] + " ×";
  update();
  const inTable = wayTo("torow", "Its rows", () => { goTo(0, true); list.scrollIntoView({block: "center"}); });
  fillPanel(data.boxes[box][0], [inTable, ...wayToBox(box)], [
    ...partOf("Where", data.boxes[box].slice(1).join("; ")), ...partOf("Who", ...linksOf(rows, 0, 60, ", "))]);
  relateBox(box, true);
}

function hidePanel() {
  if (panel.hidden) { return; }
  panel.hidden = true;
  relateBox(-1, false);
  if (cameFrom && cameFrom.isConnected) { cameFrom.focus({preventScroll: true}); }
  if (/^#[pb]=/.test(location.hash)) { history.replaceState(null, "", "#processes"); }
}

// Goes to a process by its address, which the browser keeps, so that its own way back leads back.
function choose(row) {
  if (location.hash === addressOf(row)) { showAddress(); } else { location.hash = addressOf(row); }
}

function decoded(text) {
  try { return decodeURIComponent(text); } catch (fault) { return text; }
}

// Shows what the address names: a process by its name, or by the number that a link of the page has; or a box.
function showAddress() {
  const [, sort, rest] = /^#([pb])=?(.*)$/s.exec(location.hash) || [];
  const isNumber = /^#p\d+$/.test(location.hash);
  const row = isNumber ? data.numbers.indexOf(Number(rest)) : rowOfName.get(decoded(rest || ""));
  if (sort === "b" && /^#b=\d+$/.test(location.hash)) {
    showBox(Number(rest));
  } else if (sort === "p" && row !== undefined && row >= 0) {
    showRow(row, false);
    showOne(row);
  } else if (!panel.hidden) {
    panel.hidden = true;
  }
}

function startOne() {
  element("oneclose").addEventListener("click", hidePanel);
  window.addEventListener("hashchange", showAddress);
  document.addEventListener("keydown", (event) => { if (event.key === "Escape") { hidePanel(); } });
}
