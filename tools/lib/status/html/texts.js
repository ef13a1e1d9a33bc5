"use strict";
const EACH_MS = 2000, PATIENCE_MS = 8000, MOST_REASON = 300;
// How many stations of a network are listed, and about how many in all: a search finds each of the others.
const MOST_ROWS = 500, MOST_ROWS_IN_ALL = 1600;
const STATUS_WORDS = {
  1: "max_known reached, or another SSID", 13: "another algorithm than Open System", 14: "out of order",
  17: "max_stations reached", 18: "a basic rate is missing",
};
const at = id => document.getElementById(id);
const unknown = "–";

// Texts. All that comes from stations or networks is put into the page as text, never as markup.
function duration(seconds) {
  if (seconds === null) return unknown;
  if (seconds < 10) return seconds.toFixed(1) + " s";
  const whole = Math.floor(seconds);
  if (whole < 60) return whole + " s";
  if (whole < 600) return Math.floor(whole / 60) + " min " + whole % 60 + " s";
  if (whole < 3600) return Math.floor(whole / 60) + " min";
  if (whole < 86400) return Math.floor(whole / 3600) + " h " + Math.floor(whole / 60) % 60 + " min";
  return Math.floor(whole / 86400) + " d " + Math.floor(whole / 3600) % 24 + " h";
}
function octets(number) {
  if (number === null) return unknown;
  let place = 0;
  for (; number >= 999.95 && place < 4; place++) number /= 1000;
  return (place ? number.toFixed(1) : number) + " " + ["B", "kB", "MB", "GB", "TB"][place];
}
const count = number => number == null ? unknown : number.toLocaleString("en");
// A count that has to fit in a column: from a million on by its first figures.
function brief(number) {
  let place = 0;
  if (number >= 1e6) for (; number >= 999.95 && place < 4; place++) number /= 1000;
  return place ? number.toFixed(1) + " " + ["", "k", "M", "G", "T"][place] : count(number);
}
// What grows by so much in a second; rates of data in bits, which come as octets.
function bits(number) {
  if (number === null) return unknown;
  let place = 0;
  for (number *= 8; number >= 999.5 && place < 3; place++) number /= 1000;
  return (number >= 99.5 || !place ? number.toFixed(0) : number.toFixed(1)) + " " + ["b/s", "kb/s", "Mb/s", "Gb/s"][place];
}
const perSecond = number => number === null ? unknown : (number >= 9.95 || !number ? brief(Math.round(number)) :
  number.toFixed(number < 0.095 ? 2 : 1)) + "/s";
const percent = number => number === null ? unknown :
  (100 * number).toFixed(number >= 0.0005 && number < 0.0995 ? 1 : 0) + " %";
const several = (number, one, more) => count(number) + " " + (number === 1 ? one : more);
const rate = number => number === null ? unknown : number / 2 + " Mb/s";
const signal = number => number === null ? unknown : String(number).replace("-", "−") + " dBm";
const milliseconds = number => number === null ? unknown : number.toFixed(1) + " ms";
const clock = time => new Date(time).toLocaleTimeString("en-GB");

// What is there already is changed in place, so that it can be read and marked while it is refreshed.
function put(node, text) { if (node.textContent !== text) node.textContent = text; }
function add(into, kind, name) {
  const made = document.createElement(kind);
  if (name) made.className = name;
  return into.appendChild(made);
}
function each(into, items, key, make, fill) {
  const wanted = new Map(items.map(item => [String(key(item)), item])), there = new Map();
  for (const node of Array.from(into.children)) {
    if (wanted.has(node.dataset.key)) there.set(node.dataset.key, node);
    else node.remove();
  }
  let next = into.firstElementChild;
  for (const [name, item] of wanted) {
    const node = there.get(name) || make(item);
    node.dataset.key = name;
    if (node === next) next = next.nextElementSibling;
    else into.insertBefore(node, next);
    fill(node, item);
  }
}
function lines(list, texts) {
  each(list, texts.map((text, place) => [place, text]), item => item[0], () => document.createElement("li"),
    (node, item) => put(node, item[1]));
}
