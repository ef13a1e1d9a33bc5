
// Small lines of the last ten minutes. /history.json tells how many seconds before now each point was, and of each series
// a number or null for each point. Of a network that the status tells of, `now` is its own number, `beside` stands
// behind that, and `more` behind the bounds.
const SPAN = 600, WIDE = 240, HIGH = 40, ROOM = 2, HISTORY_MS = 5000;
const NETWORK_SERIES = [
  { key: "air", name: "share of the air", shown: percent, most: 1 },
  { key: "to", name: "to stations", shown: bits }, { key: "from", name: "from stations", shown: bits },
  { key: "stations", name: "stations", shown: count, now: network => network.associated,
    beside: network => network.dozing ? " (" + several(network.dozing, "dozes", "doze") + ")" : "" },
  { key: "lost", name: "lost", shown: each => perSecond(each),
    more: network => ", " + count(lostOf(network)) + " in all" },
];
// What a network lost: units that it couldn't keep, and frames that weren't sent.
function lostOf(network) {
  return network.counts && Object.values(network.air.unsent).reduce((sum, number) => sum + number, network.counts.lost);
}
const STATION_SERIES = [
  { key: "to", name: "to it", shown: bits }, { key: "from", name: "from it", shown: bits },
  { key: "signal", name: "signal", shown: signal, least: -100, most: -20 },
  { key: "kept", name: "units kept", shown: count },
];

function graphOf(into, series) {
  const graph = into.appendChild(at("graph").content.firstElementChild.cloneNode(true));
  put(graph.querySelector(".of"), series.name);
  return graph;
}
function graphsOf(into, all) {
  const graphs = add(into, "div", "graphs");
  for (const series of all) graphOf(graphs, series);
  return graphs;
}

// The pieces of a line, cut where nothing is known: each a list of places.
function pieces(seconds, numbers, place) {
  const found = [[]];
  numbers.forEach((number, at) => {
    const is_cut = number === null || at > 0 && seconds[at - 1] - seconds[at] > 6 * HISTORY_MS / 1000;
    if (is_cut && found[0].length) found.unshift([]);
    if (number !== null && seconds[at] <= SPAN) found[0].push(place(seconds[at], number));
  });
  return found.filter(piece => piece.length).reverse();
}
const pathOf = piece => "M" + piece.map(([x, y]) => x.toFixed(1) + " " + y.toFixed(1)).join("L") +
  (piece.length > 1 ? "" : "h.1");
const groundOf = piece => "M" + piece[0][0].toFixed(1) + " " + HIGH + "L" + pathOf(piece).slice(1) + "V" + HIGH + "Z";
function draw(path, text) { if (path.getAttribute("d") !== text) path.setAttribute("d", text); }

function fillGraph(graph, series, history, network) {
  const numbers = history?.[series.key] ?? [], known = numbers.filter(number => number !== null);
  const least = series.least ?? 0, most = series.most ?? Math.max(...known, 1e-9);
  const place = (seconds, number) => [WIDE * (1 - seconds / SPAN),
    HIGH - ROOM - (HIGH - 2 * ROOM) * (Math.min(Math.max(number, least), most) - least) / (most - least)];
  const found = pieces(history?.seconds ?? [], numbers, place);
  const [ground, line] = graph.querySelectorAll("path");
  draw(ground, found.map(groundOf).join(""));
  draw(line, found.map(pathOf).join(""));
  const last = series.now ? series.now(network) : numbers.at(-1) ?? null;
  const top = known.length ? Math.max(...known) : null;
  const now = series.shown(last) + (series.beside?.(network) ?? "");
  put(graph.querySelector(".now"), now);
  const bounds = (top === null ? "not known yet" : series.least === undefined ? "at most " + series.shown(top) :
    series.shown(Math.min(...known)) + " to " + series.shown(top)) + (series.more?.(network) ?? "");
  put(graph.querySelector(".most"), bounds);
  put(graph.querySelector("title"), series.name + " in the last ten minutes: " + bounds + ", now " + now);
}
function fillGraphs(graphs, all, history, network) {
  all.forEach((series, place) => fillGraph(graphs.children[place], series, history, network));
}

// What is known of networks, and of stations that are opened: by their BSSIDs, and by BSSID and address.
let histories = new Map();
const opened = new Map();
const keyOf = (network, station) => network.bssid + " " + station.address;
async function refreshHistories() {
  const told = await answer("/history.json");
  histories = new Map(told.networks.map(network => [network.bssid, { seconds: told.seconds, ...network }]));
  for (const key of opened.keys()) await refreshStation(key);
}
async function refreshStation(key) {
  const [bssid, station] = key.split(" ");
  const told = await answer("/history.json?" + new URLSearchParams({ bssid, station })).catch(() => null);
  if (opened.has(key)) opened.set(key, told);
}
