// Of the whole radio. What several networks have together stands here; what one alone has, its graphs tell.
function figures(told) {
  const beacons = told.beacons, isOne = told.networks.length === 1;
  const pairs = [
    ["runs for", duration(told.since)],
    ...isOne ? [] : figuresOfAll(told.networks),
    ["beacons", brief(beacons.sent) + " (" + brief(beacons.missed) + " missed)",
      count(beacons.sent) + " sent, " + several(beacons.missed, "interval", "intervals") + " missed"],
    ["late: mean, worst", milliseconds(beacons.late_ms_mean) + ", " + milliseconds(beacons.late_ms_worst)],
  ];
  at("figures").className = isOne ? "few" : "";
  each(at("figures"), pairs, pair => pair[0], pair => {
    const made = document.createElement("div");
    put(add(made, "dt"), pair[0]);
    add(made, "dd");
    return made;
  }, (node, pair) => {
    put(node.lastChild, pair[1]);
    node.lastChild.title = pair[2] || "";
  });
}

function figuresOfAll(networks) {
  const sum = key => networks.reduce((sum, network) => sum + network[key], 0), doze = sum("dozing");
  const share = airOf(networks);
  return [
    ["air", share === null ? unknown : share > 0 ? percent(share) + " used" : "unused"],
    ["networks", count(networks.length)],
    ["stations", count(sum("associated")) + (doze ? " (" + several(doze, "dozes", "doze") + ")" : "")],
  ];
}

// What stands of each way of a station's data, in four columns below their heads.
const WAY = ["rate", "octets", "frames", "now"];
function wayOf(into) {
  const way = add(into, "span", "way");
  for (const label of WAY) add(way, "span").dataset.label = label;
  return way;
}
function tableOf(into, isOnly) {
  const table = add(into, "table", isOnly ? "only" : ""), head = add(add(table, "thead"), "tr");
  const names = ["station", "state", isOnly ? "known for" : "here for", "heard", "signal"];
  for (const name of names) put(add(head, "th"), name);
  if (!isOnly) put(add(head, "th", "short"), "kept");
  for (const name of isOnly ? [""] : ["sent to it", "heard from it"]) {
    const group = add(head, "th", "wide");
    put(add(group, "span", "group"), name);
    if (!isOnly) for (const label of wayOf(group).children) put(label, label.dataset.label);
  }
  return add(table, "tbody");
}
function rowOf() {
  const row = document.createElement("tr");
  const cell = add(row, "td", "address"), button = add(cell, "button");
  button.addEventListener("click", () => toggle(row.dataset.key, row.dataset.bssid));
  add(cell, "span", "name");
  add(add(row, "td", "state"), "span", "mark");
  for (const label of ["here for", "heard", "signal", "kept"]) add(row, "td").dataset.label = label;
  for (const label of ["to it", "from it"]) {
    const ways = add(row, "td", "ways");
    ways.dataset.label = label;
    wayOf(ways);
  }
  return row;
}
function rowOfOnly() {
  const row = document.createElement("tr");
  const cell = add(row, "td", "address");
  add(cell, "span");
  add(cell, "span", "name");
  add(add(row, "td", "state"), "span", "mark");
  for (const label of ["known for", "heard", "signal"]) add(row, "td").dataset.label = label;
  return row;
}
function fillRow(row, { station, network }) {
  const cells = row.children, mark = cells[1].firstChild;
  row.dataset.bssid = network.bssid;
  const state = station.state === "associated" ? station.dozes ? "dozes" : "active" : station.state;
  put(cells[0].firstChild, station.address);
  put(cells[0].lastChild, station.name ?? "");
  put(mark, state);
  mark.className = "mark " + ({ dozes: "doze", active: "good" }[state] || "");
  cells[0].title = station.aid === null ? "" : "association identifier " + station.aid;
  put(cells[2], duration(station.since));
  put(cells[3], station.heard === null ? unknown : duration(station.heard) + " ago");
  put(cells[4], signal(station.signal));
  if (cells.length < 8) return;
  cells[0].firstChild.setAttribute("aria-expanded", opened.has(keyOf(network, station)));
  put(cells[5], count(station.kept));
  ["to", "from"].forEach((way, place) => {
    const parts = cells[6 + place].firstChild.children, number = station["octets_" + way];
    put(parts[0], rate(station["rate_" + way]));
    put(parts[1], octets(number));
    parts[1].title = count(number) + " octets";
    const frames = station["frames_" + way];
    put(parts[2], brief(frames));
    parts[2].title = several(frames, "frame", "frames");
    put(parts[3], bits(growth(keyOf(network, station), "octets_" + way, station)));
    parts[0].title = "the rate of the last frame";
    parts[3].title = "how fast the octets grow now";
  });
}

// A station that is opened has a row of graphs below its own.
function toggle(address, bssid) {
  const key = bssid + " " + address;
  if (opened.delete(key)) return arrange();
  opened.set(key, null);
  arrange();
  refreshStation(key).then(arrange);
}
function rowsOf(network, stations) {
  return stations.flatMap(station => opened.has(keyOf(network, station)) ?
    [{ station, network }, { station, network, isGraphs: true }] : [{ station, network }]);
}
const rowKey = item => item.isGraphs ? "graphs of " + item.station.address : item.station.address;
function makeRow(item) {
  if (!item.isGraphs) return rowOf();
  const row = document.createElement("tr"), cell = add(row, "td", "opened");
  cell.colSpan = 8;
  graphsOf(cell, STATION_SERIES);
  return row;
}
function fillAnyRow(row, item) {
  if (!item.isGraphs) return fillRow(row, item);
  fillGraphs(row.firstChild.firstChild, STATION_SERIES, opened.get(keyOf(item.network, item.station)));
}

// How fast counts grow: by the status before this one. What began anew meanwhile isn't known.
let before = null, seconds = null, counted = new Map();
function remember(told) {
  if (told.since === before?.since) return;  // the same answer once more
  seconds = before && told.since > before.since ? told.since - before.since : null;
  counted = new Map();
  for (const network of before?.networks ?? []) {
    counted.set(network.bssid, { ...network.counts });
    for (const station of network.stations) counted.set(keyOf(network, station), station);
  }
  before = told;
}
function growth(key, name, now) {
  const was = counted.get(key)?.[name];
  return seconds === null || was == null || now?.[name] == null || now[name] < was ? null : (now[name] - was) / seconds;
}
const growing = (key, name, now) => {
  const number = growth(key, name, now);
  return number ? " (" + perSecond(number) + ")" : "";
};

// The part of the time in which frames of networks were sent, beacons left out, as their graphs have it; null where it
// isn't known yet.
function airOf(networks) {
  const shares = networks.map(network => histories.get(network.bssid)?.air.at(-1) ?? null);
  return shares.includes(null) ? null : shares.reduce((sum, share) => sum + share, 0);
}
const unsentText = network => Object.entries(network.air.unsent).map(
  ([reason, number]) => count(number) + " not sent: " + reason).join(", ");

// The stations that are searched for, in the order that is asked for. By a number the greatest comes first; who has
// none, comes last.
const ORDERS = [
  ["as they came", null], ["by address", (one, other) => one.address < other.address ? -1 : 1],
  ...[["longest here", "since"], ["heard longest ago", "heard"], ["strongest signal", "signal"], ["most kept", "kept"],
    ["most sent to it", "octets_to"], ["most heard from it", "octets_from"]].map(([name, key]) => [
    name, (one, other) => (other[key] ?? -Infinity) - (one[key] ?? -Infinity) || (one.address < other.address ? -1 : 1)]),
];
for (const [name] of ORDERS) put(add(at("sort"), "option"), name);
const sought = () => at("search").value.trim().toLowerCase();
function arranged(stations) {
  const order = ORDERS[at("sort").selectedIndex][1], part = sought();
  const found = part ? stations.filter(station => station.address.includes(part) ||
    station.name?.toLowerCase().includes(part)) : stations;
  return order ? found.slice().sort(order) : found;
}

// The station for which at least half of what the network may keep is kept.
function heldText(network) {
  const holder = network.holder;
  return holder && 2 * holder.kept >= network.quota ? ", " + count(holder.kept) + " of the quota of " +
    count(network.quota) + " for " + holder.address : "";
}

function cardOf() {
  const card = document.createElement("section");
  card.className = "card";
  add(card, "h2");
  add(card, "p", "quiet");
  graphsOf(card, NETWORK_SERIES);
  for (const name of ["quiet", "quiet", "quiet", "none"]) add(card, "p", name);
  tableOf(card, false);
  const rest = add(card, "details");
  add(rest, "summary");
  tableOf(rest, true);
  add(card, "p", "quiet");
  const up = add(card, "a", "up");
  up.href = "#told";
  put(up, "to the top");
  return card;
}
// Links to the networks, where there are several.
function leadTo(networks) {
  at("places").hidden = networks.length < 2;
  each(at("places"), networks, network => network.bssid, () => document.createElement("a"), (link, network) => {
    link.href = "#" + network.bssid;
    put(link, network.name);
  });
}
function fillCard(card, network) {
  const [name, place, graphs, counts, unsent, refused, none, table, rest, more, up] = card.children;
  card.id = network.bssid;
  up.hidden = shown.networks.length < 2;
  const associated = network.stations.filter(station => station.state === "associated");
  const others = network.stations.filter(station => station.state !== "associated");
  put(name, network.name);
  const down = network.wire_down === null ? "" : ", which went down " + duration(network.wire_down) + " ago";
  put(place, network.bssid + (network.wire === null ? ", no wire" : ", wire " + network.wire + down) +
    (network.air.weight === 1 ? "" : ", weight " + network.air.weight));
  fillGraphs(graphs, NETWORK_SERIES, histories.get(network.bssid), network);
  put(unsent, unsentText(network));
  unsent.hidden = !unsent.textContent;
  const told = network.counts;
  const grows = key => growing(network.bssid, key, told);
  const waits = several(network.air.waiting, "frame waits", "frames wait");
  put(counts, told === null ? "no counts yet, " + waits : [several(told.events, "event", "events") + grows("events"),
    several(told.clock, "beacon interval", "beacon intervals"), count(told.unread) + " unread" + grows("unread"),
    several(told.kept, "unit", "units") + " kept" + heldText(network), waits].join(", "));
  const refusals = Object.entries(network.refusals);
  refused.hidden = !refusals.length;
  put(refused, "refused: " + refusals.map(([status, number]) => count(number) + " by status " + status +
    (STATUS_WORDS[status] ? " (" + STATUS_WORDS[status] + ")" : "")).join(", "));
  const found = arranged(associated), foundOthers = arranged(others);
  const most = Math.min(MOST_ROWS, Math.floor(MOST_ROWS_IN_ALL / shown.networks.length));
  none.hidden = found.length > 0;
  put(none, network.associated ? "No station here has such an address or name." : "No station is here.");
  table.hidden = !found.length;
  each(table.tBodies[0], rowsOf(network, found.slice(0, most)), rowKey, makeRow, fillAnyRow);
  const only = network.known - network.associated;
  rest.hidden = !only;
  if (sought() && foundOthers.length) rest.open = true;
  put(rest.firstChild, several(only, "station that only authenticated", "stations that only authenticated"));
  each(rest.lastChild.tBodies[0], foundOthers.slice(0, most).map(station => ({ station, network })), rowKey, rowOfOnly,
    fillRow);
  const wanted = sought() ? found.length + foundOthers.length : network.known;
  const left = wanted - Math.min(found.length, most) - Math.min(foundOthers.length, most);
  more.hidden = !left;
  put(more, "and " + several(left, "station", "stations") + " more");
}
