function troubles(radio) {
  const since = { down: "the monitor interface is down", unsent: "the radio has told no beacon as sent" };
  const found = Object.entries(since).filter(([name]) => radio[name] != null).map(
    ([name, text]) => text + " for " + duration(radio[name]));
  return radio.elsewhere ? found.concat("the radio is on " + radio.elsewhere + " MHz") : found;
}

let shown = null;
function show(told) {
  shown = told;
  remember(told);
  put(at("version"), [told.version, "channel " + told.channel, told.phy,
    told.by && "by " + told.by.replace("-", " ")].filter(Boolean).join(", "));
  figures(told);
  const stopped = told.record?.fault ? ["the recording stopped: " + told.record.fault] : [];
  const faults = stopped.concat(troubles(told.radio || {}), told.faults.slice().reverse().map(
    fault => duration(fault.seconds) + " ago: " + fault.text));
  at("faults").hidden = !faults.length;
  lines(at("faults").lastElementChild, faults);
  arrange();
  const left = [...Object.entries(told.drops).map(([reason, number]) => count(number) + " dropped of " + reason),
    ...Object.entries(told.left_out || {}).map(([reason, number]) => count(number) + " left out of " + reason)];
  at("counts").hidden = !left.length;
  lines(at("counts").lastElementChild, left);
  put(at("proved"), told.proved);
  put(at("not_proved"), told.not_proved);
}

function arrange() {
  if (!shown) return;
  leadTo(shown.networks);
  each(at("networks"), shown.networks, network => network.bssid, cardOf, fillCard);
}
at("search").addEventListener("input", arrange);
at("sort").addEventListener("change", arrange);

let last = null, historyDue = 0;
function touch(reason) {
  const mark = at("touch"), lost = reason !== null;
  document.body.classList.toggle("lost", lost);
  mark.className = "mark " + (lost ? "bad" : "good");
  put(mark, lost ? last === null ? "no answer" : "lost touch" : "in touch, " + clock(last));
  document.title = lost ? "lost touch – Waltigon" : "Waltigon";
  at("lost").hidden = !lost;
  if (lost) put(at("lost"), (last === null ? "No answer yet" : "Lost touch " + duration((Date.now() - last) / 1000) +
    " ago, and what is shown is of " + clock(last)) + ": " + reason);
}
async function answer(path) {
  const signal = AbortSignal.timeout(PATIENCE_MS);
  const got = await fetch(path, { cache: "no-store", signal }).catch(fault => {
    throw new Error(fault.name === "TimeoutError" ? "no answer came in time" :
      "nobody answers here; has the access point ended?");
  });
  if (!got.ok) throw new Error((await got.text()).trim().replace(/^[0-9]{3} /, "").slice(0, MOST_REASON));
  return got.json();
}
async function refresh() {
  try {
    const told = await answer("/status.json");
    if (Date.now() >= historyDue) {
      historyDue = Date.now() + HISTORY_MS;
      await refreshHistories();
    }
    show(told);
    last = Date.now();
    touch(null);
  } catch (fault) {
    touch(fault.message);
  }
  setTimeout(refresh, EACH_MS);
}
refresh();
