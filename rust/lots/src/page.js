// Answers the recall box as `lots where` does, from the pieces of the page. Names are only ever set as text.
"use strict";

const LARGEST = 4294967295;
const DAYS = ["mon", "tue", "wed", "thu", "fri", "sat", "sun"];
const [section, form, origin, from, to, said] = ["recall", "ask", "origin", "from", "to", "said"].map((id) =>
  document.getElementById(id),
);

// A minute is read as clock.rs reads it: each of these gives a number, or a text that says why there is none.

function minuteOf(word) {
  const moment = DAYS.includes(word.slice(0, 3).toLowerCase());
  if (word.includes(":") && !moment) return `${word}: a time has its weekday, one of Mon Tue Wed Thu Fri Sat Sun, as Tue-06:00`;
  if (/^[0-9]/.test(word)) return numberOf(word);
  if (DATA.start) return momentOf(word);
  if (moment) {
    return `${word}: this page does not know when minute 0 was; made with --start Mon, it would`;
  }
  return `${word}: a minute is a number`;
}

function numberOf(word) {
  if (!/^[0-9]+$/.test(word)) return `${word}: not a whole number in digits alone`;
  return Number(word) > LARGEST ? `${word}: a number is at most ${LARGEST}` : Number(word);
}

function momentOf(word) {
  const parts = /^([A-Za-z]{3})(?:\+([0-9]+))?-([0-9]+):([0-9]+)$/.exec(word);
  const day = parts ? DAYS.indexOf(parts[1].toLowerCase()) : -1;
  const [week, hour, minute] = parts ? [parts[2] || 0, parts[3], parts[4]].map(Number) : [];
  if (day < 0 || week > LARGEST || hour > 23 || minute > 59) {
    return `${word}: a minute is a number, or a weekday and a time of 24 hours, as Tue-06:00`;
  }
  const [startDay, startTime] = DATA.start;
  const days = 7 * week + ((7 + day - startDay) % 7);
  const since = days * 1440 + hour * 60 + minute - startTime;
  if (since < 0) return `${word} is before minute 0`;
  return since > LARGEST ? `${word} is after minute ${LARGEST}` : since;
}

/** A minute as clock.rs shows it. */
function show(minute) {
  if (!DATA.start) return String(minute);
  const since = DATA.start[1] + minute;
  const [days, hour] = [Math.floor(since / 1440), Math.floor((since % 1440) / 60)];
  const day = DAYS[(DATA.start[0] + days) % 7];
  const week = days < 7 ? "" : `+${Math.floor(days / 7)}`;
  const time = [hour, since % 60].map((part) => String(part).padStart(2, "0")).join(":");
  return `${day[0].toUpperCase()}${day.slice(1)}${week}-${time}`;
}

/** The weight of an origin's flour in each vessel, of that born in the span. */
function spread(source, first, last) {
  const weights = DATA.names.map(() => 0);
  for (const [holder, of, birth, weight] of DATA.pieces) {
    if (of === source && first <= birth && birth <= last) weights[holder] += weight;
  }
  return weights;
}

/** Marks vessels in picture and table, in words as well; without weights no vessel is marked. */
function mark(weights, source) {
  section.classList.toggle("shown", weights !== null);
  for (const element of document.querySelectorAll("[data-vessel]")) {
    const weight = weights && weights[element.dataset.vessel];
    const other = "origin" in element.dataset && Number(element.dataset.origin) !== source;
    element.classList.toggle("hit", weight > 0);
    element.classList.toggle("clear", weight === 0);
    const word = weight > 0 ? (other ? "same vessel" : `recall: ${weight} g`) : "clear";
    element.querySelector(".mark").textContent = weights ? word : "";
  }
  for (const element of document.querySelectorAll("[data-origin]")) {
    element.classList.toggle("of", weights !== null && Number(element.dataset.origin) === source);
  }
}

/** Says lines, each of a word in bold and a list. */
function say(kind, lines) {
  const element = (name, text) => Object.assign(document.createElement(name), { textContent: text });
  said.className = kind;
  said.replaceChildren(
    ...lines.map(([word, ...list]) => {
      const line = element("span", "");
      line.append(element("b", word));
      list.forEach((item, index) => line.append(index > 0 ? ", " : " ", element("i", item)));
      line.append(" ");
      return line;
    }),
  );
}

function born(first, last) {
  if (first && last) return first === last ? `born ${first}` : `born ${first} to ${last}`;
  if (first) return `born ${first} or later`;
  return last ? `born ${last} or earlier` : "born at any time";
}

/** What there is in place of flour that is nowhere, as `lots where` says it. */
function nowhere(source) {
  const births = DATA.pieces.filter((piece) => piece[1] === source).map((piece) => piece[2]);
  if (births.length === 0) return `no flour was born in ${DATA.names[source]}`;
  const [first, last] = [Math.min(...births), Math.max(...births)].map(show);
  return `the flour of ${DATA.names[source]} that is there was ${born(first, last)}`;
}

function tell(weights, source, when) {
  const name = (vessel) => DATA.names[vessel];
  const vessels = weights.map((_, vessel) => vessel);
  const hit = vessels.filter((vessel) => weights[vessel] > 0).sort((a, b) => weights[b] - weights[a]);
  const clear = vessels.filter((vessel) => weights[vessel] === 0);
  const total = weights.reduce((sum, weight) => sum + weight, 0);
  const held = hit.map((vessel) => `${name(vessel)} ${weights[vessel]} g`);
  say("answer", [
    [`${total} g in ${hit.length} of ${vessels.length} vessels:`, `flour of ${name(source)}, ${when}.`],
    ["Recall:", ...(held.length > 0 ? held : [`none: ${nowhere(source)}`])],
    ["Clear:", ...(clear.length > 0 ? clear.map(name) : ["none"])],
  ]);
}

function answer() {
  const words = [from, to].map((field) => field.value.trim());
  const read = words.map((word, end) => (word === "" ? [0, LARGEST][end] : minuteOf(word)));
  const unread = read.map((minute) => typeof minute === "string");
  const back = !unread.includes(true) && read[0] > read[1];
  from.setAttribute("aria-invalid", String(back || unread[0]));
  to.setAttribute("aria-invalid", String(back || unread[1]));
  const faults = [["Born from:", read[0]], ["Born to:", read[1]]].filter((_, end) => unread[end]);
  if (back) faults.push(["span back (12):", "from is after to"]);
  if (faults.length > 0) {
    mark(null);
    return say("fault", faults);
  }
  if (origin.value === "") {
    mark(null);
    return say("", [["", "Choose an origin, and every vessel that holds its flour is marked."]]);
  }
  const source = Number(origin.value);
  const weights = spread(source, ...read);
  mark(weights, source);
  tell(weights, source, born(...words));
}

form.addEventListener("input", answer);
form.addEventListener("submit", (event) => event.preventDefault());
// The fields are emptied after this event.
form.addEventListener("reset", () => setTimeout(answer));
form.hidden = false;
answer();
