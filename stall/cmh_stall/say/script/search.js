// Which rows are shown, and in which order. What is asked of a text is asked once of each text, and not of each row.

const sorts = {};

// A number belongs to the word before it: 'root 3' is one term.
function termsOf(words) {
  return words.trim().split(/\s+/).filter(Boolean).reduce((terms, word) => {
    const joins = terms.length && /^\d+$/.test(word);
    return joins ? [...terms.slice(0, -1), terms[terms.length - 1] + " " + word] : [...terms, word];
  }, []);
}

// Returns what a text is like that has a term as whole words.
function patternOf(term) {
  const body = term.replace(/[.*+?^${}()|[\]\\\/]/g, "\\$&");
  return new RegExp("(?<![\\p{L}\\p{N}_])" + body + "(?![\\p{L}\\p{N}_])", "iu");
}

// Returns by which rows a term is found: in their names, or in those of whom they wait for, or in their texts.
function rowsWith(term) {
  const pattern = patternOf(term);
  const texts = data.texts.map((text) => pattern.test(text));
  const names = data.names.map((name) => pattern.test(name));
  const reasons = data.reasons.map(([words]) => pattern.test(words));
  const lists = data.lists.map((list) => list.some((row) => names[row]));
  const root = /^root (\d+)$/i.exec(term);
  const isIn = (whom) => Array.isArray(whom) ? whom.some((row) => names[row]) : lists[whom];
  const isOf = (rests) => Array.isArray(rests) ? rests.some((it) => reasons[it]) : texts[rests];
  return everyRow.map((row) => names[row] || texts[data.answer[row]] || texts[data.site[row]] ||
    texts[data.place[row]] || isOf(data.rests[row]) || (root && rootsOf(row).includes(Number(root[1]))) ||
    (data.kind[row] ? isIn(data.whom[row]) : texts[data.said[row]]));
}

function isOfAnswer(row, answer) {
  return !answer || (answer === "inroot" ? data.root[row] > 0 : data.verdicts[data.verdict[row]] === answer);
}

// Returns the rows that a query wants, in their order.
function rowsOf(query) {
  const hits = termsOf(query.words).map(rowsWith);
  const rows = everyRow.filter((row) => hits.every((hit) => hit[row]) && isOfAnswer(row, query.answer) &&
    (!query.root || rootsOf(row).includes(Number(query.root))) &&
    (!query.site || data.site[row] === Number(query.site)) &&
    (!query.place || data.place[row] === Number(query.place)) &&
    (!query.change || data.change[row] === Number(query.change)) &&
    (query.box < 0 || data.box[row] === query.box));
  return query.sort ? sorted(rows, query.sort, query.isDown) : rows;
}

// Returns a text in which numbers are ordered as such.
function natural(text) { return text.toLowerCase().replace(/\d+/g, (digits) => digits.padStart(12, "0")); }

function lengthsOfChains() {
  const lengths = new Int32Array(number).fill(-1);
  everyRow.forEach((row) => {
    const trail = [];
    let next = row;
    for (; next >= 0 && lengths[next] < 0; next = data.next[next]) { trail.push(next); }
    let length = next < 0 ? 0 : lengths[next] + 1;
    while (trail.length) { lengths[trail.pop()] = length++; }
  });
  return lengths;
}

function keysOf(column) {
  const texts = data.texts.map(natural);
  if (column === "chain") { return lengthsOfChains(); }
  if (column === "name") { return data.names.map(natural); }
  if (column === "wait") {
    const names = data.names.map(natural);
    return everyRow.map((row) => data.kind[row] && whomOf(row)[0].length ? names[whomOf(row)[0][0]] :
      texts[data.said[row]]);
  }
  if (column === "rests") {
    const reasons = data.reasons.map(([words]) => natural(words));
    return data.rests.map((rests) => Array.isArray(rests) ? rests.map((it) => reasons[it]).join(" ") : texts[rests]);
  }
  return data[column].map((it) => texts[it]);
}

// Returns rows by a column. The places of all rows by it are found once.
function sorted(rows, column, isDown) {
  if (!sorts[column]) {
    const keys = keysOf(column);
    const order = everyRow.slice().sort((one, other) => keys[one] < keys[other] ? -1 : keys[one] > keys[other] ? 1 :
      one - other);
    sorts[column] = new Int32Array(number);
    order.forEach((row, place) => { sorts[column][row] = place; });
  }
  const places = sorts[column];
  const slots = new Int32Array(number).fill(-1);
  rows.forEach((row) => { slots[places[row]] = row; });
  const found = Array.from(slots).filter((row) => row >= 0);
  return isDown ? found.reverse() : found;
}

// Returns rows in groups of those that are alike, in the order of their first rows.
function groupsOf(rows) {
  const groups = new Map();
  rows.forEach((row) => {
    const key = data.alike[row];
    const group = groups.get(key);
    if (group) { group.push(row); } else { groups.set(key, [row]); }
  });
  return Array.from(groups.values());
}
