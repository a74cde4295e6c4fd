// What the page knows of each row. A row is a number: `data` has a list for each column, and texts by their numbers.

const data = JSON.parse(document.getElementById("data").textContent);
const columns = ["name", "answer", "site", "place", "wait", "chain", "rests"];
const number = data.names.length;
const everyRow = Array.from({length: number}, (_, row) => row);
const rowOfName = new Map();
data.names.forEach((name, row) => rowOfName.set(name, row));
Object.keys(data.full).forEach((row) => rowOfName.set(data.full[row], Number(row)));

function element(id) { return document.getElementById(id); }

function make(tag, more, ...children) {
  const made = Object.assign(document.createElement(tag), more);
  made.append(...children);
  return made;
}

function count(many, one, several) { return many.toLocaleString("en") + " " + (many === 1 ? one : several); }

function fullName(row) { return data.full[row] || data.names[row]; }

// Returns the address of a row: its name, or, where that has half of a character, its number.
function addressOf(row) {
  try { return "#p=" + encodeURIComponent(fullName(row)); } catch (fault) { return "#p" + data.numbers[row]; }
}

function linkTo(row) { return make("a", {href: addressOf(row), textContent: data.names[row]}); }

// Returns the rows that one waits for, and how many more there are that the page doesn't have.
function whomOf(row) {
  const whom = data.whom[row];
  if (!data.kind[row]) { return [[], 0]; }
  const list = Array.isArray(whom) ? whom : data.lists[whom];
  const last = list.length ? list[list.length - 1] : 0;
  return last < 0 ? [list.slice(0, -1), -last] : [list, 0];
}

// Returns the rows that wait for one. Those who share a list are kept once, beside it.
const waiters = new Map(), users = data.lists.map(() => []);
function waitersOf(row) {
  if (!waiters.size) {
    waiters.set(-1, []);
    everyRow.filter((waiting) => data.kind[waiting]).forEach((waiting) => {
      const whom = data.whom[waiting];
      if (!Array.isArray(whom)) { users[whom].push(waiting); return; }
      whom.forEach((other) => {
        if (waiters.has(other)) { waiters.get(other).push(waiting); } else { waiters.set(other, [waiting]); }
      });
    });
  }
  const shared = data.lists.flatMap((list, number_) => list.includes(row) ? users[number_] : []);
  return [...(waiters.get(row) || []), ...shared];
}

function rootsOf(row) {
  const behind = data.behind[row];
  return [...(data.root[row] ? [data.root[row]] : []), ...(Array.isArray(behind) ? behind : behind ? [behind] : [])];
}

// Returns the links of some rows, at most the first few and how many more there are.
function linksOf(rows, more, most, between) {
  const parts = [];
  rows.slice(0, most).forEach((row, at) => parts.push(at ? between : "", linkTo(row)));
  const left = rows.length - Math.min(rows.length, most) + more;
  return left ? [...parts, " and " + left.toLocaleString("en") + " more"] : parts;
}

function waitParts(row, most) {
  const [whom, more] = whomOf(row);
  const isSeveral = whom.length + more > 1 || data.kind[row] === 2;
  if (!data.kind[row] || !(whom.length + more)) { return [data.texts[data.said[row]]]; }
  const sent = data.sent[row] ? ["; a message is in transit from ", ...linksOf(data.sent[row], 0, most, ", ")] : [];
  return [isSeveral ? (data.kind[row] === 2 ? "all of " : "any of ") : "", ...linksOf(whom, more, most, ", "), ...sent];
}

// Returns the way from one to what its answer rests on.
function chainOf(row) {
  const steps = [];
  for (let next = data.next[row]; next >= 0; next = data.next[next]) { steps.push(next); }
  return steps;
}

function chainParts(row, most) {
  const steps = chainOf(row);
  const end = data.texts[data.end[steps.length ? steps[steps.length - 1] : row]];
  if (!steps.length) { return [end]; }
  const first = steps.slice(0, steps.length > most + 1 ? most : steps.length);
  const parts = first.reduce((made, step) => [...made, " → ", linkTo(step)], []);
  const left = steps.length - first.length - 1;
  const last = left >= 0 ? [" → " + left + " more", " → ", linkTo(steps[steps.length - 1])] : [];
  return [...parts, ...last, ", " + end];
}

function reasonParts(row) {
  const rests = data.rests[row];
  if (!Array.isArray(rests)) { return [data.texts[rests]]; }
  const link = ([words, at]) => at < 0 ? words : make("a", {href: "#r" + at, textContent: words});
  return rests.reduce((made, it, at) => [...made, at ? ", " : "", link(data.reasons[it])], []);
}

function answerParts(row) {
  const words = data.texts[data.answer[row]];
  const root = rootsOf(row).find((it) => element("root" + it));
  return [root === undefined ? words : make("a", {href: "#root" + root, textContent: words})];
}

function cellsOf(row) {
  return [[data.names[row]], answerParts(row), [data.texts[data.site[row]]], [data.texts[data.place[row]]],
    waitParts(row, 5), chainParts(row, 3), reasonParts(row)];
}
