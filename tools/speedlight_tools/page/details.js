// Elements.
function made(name, attributes = {}, ...inside) {
  const element = document.createElement(name);
  for (const [key, value] of Object.entries(attributes)) {
    if (key === "onclick") element.addEventListener("click", value);
    else if (key === "class") element.className = value;
    else if (key === "title") { if (value) { element.dataset.tip = value; element.setAttribute("aria-description", value); } }
    else element.setAttribute(key, value);
  }
  element.append(...inside.filter((part) => part !== null && part !== undefined));
  return element;
}
const goTo = (place) => { change({ turn: place + 1, tab: "turn" }); show(place + 1); };
const toTurn = (place, text) => made("button", { class: "go short", title: `Go to turn ${place + 1}, and say what it did`, onclick: () => goTo(place) }, text || `turn ${place + 1}`);
const toSnapshot = (k, text) => made("button", { class: "go short", onclick: () => choose(k) }, text || `snapshot ${k}`);
const toPacket = (p, text) => made("button", { class: "go", onclick: () => change({ packet: p, tab: "packet" }) }, text || packetName(p));
const toUnit = (who) => made("button", { class: nameOf(who).length > 12 ? "go" : "go short", onclick: () => change({ unit: who, tab: "unit" }) }, nameOf(who));

// What the words of the protocol and of the trace mean, for titles.
const MEANING = {
  initiation: "an initiation: a control plane gives an in unit the number of a snapshot", probe: "a probe: a message between units that carries a number without a packet. Only where an in unit takes an initiation does it send probes",
  notice: "a notice: a unit tells its control plane that a number changed", poll: "a poll: a control plane asks a unit for its registers", dump: "a dump: a unit answers a poll with its registers",
  Begin: "a Begin: the observer asks a control plane to begin a snapshot", Done: "a Done: a control plane reports to the observer what it collected", cable: "the channel over the cable, from the unit at its other end",
};
// A link within a sentence. What it shows has an address of its own, and a click shows it here.
function inline(said, title, address, call, kind = "") {
  return made("a", { class: `inline${kind}`, title, href: `#${state.snapshot ? `snapshot=${state.snapshot}&` : ""}${address}`, onclick: (event) => { event.preventDefault(); call(); } }, said);
}
const ofCrossbar = (word) => `${word}: the channel over the crossbar inside the switch, from the in unit of port ${word.slice(1)}`;
// A sentence with its turns as links and its words explained; `own` is a turn that stands beside it already.
function explained(text, own) {
  return text.split(/\b(turn \d+|(?<=turns (?:\d+, |\d+ and |\d+ or )*)\d+(?! more)|\d+ more units|(?:in|out) [\w-]+\.\d+|initiation|probe|notice|poll|dump|Begin|Done|(?<=over the )cable|(?<=over (?:x\d+, |x\d+ and |x\d+ or )*)x\d+)\b/).map((part, i) => {
    if (i % 2 === 0) return part;
    const who = actorOf.get(part);
    if (who !== undefined) return inline(part, `Say more of unit ${part}`, `unit=${part.replace(" ", "_")}`, () => change({ unit: who, tab: "unit" }), " unit-name");
    if (part.endsWith("units")) return inline(part, "Lists where each unit is", "", listUnits);
    const turn = /^(?:turn )?(\d+)$/.exec(part);
    if (!turn) return made("abbr", { title: MEANING[part] || ofCrossbar(part), tabindex: 0 }, part);
    return Number(turn[1]) - 1 === own ? part : inline(part, `Go to turn ${turn[1]}, and say what it did`, `turn=${turn[1]}`, () => goTo(Number(turn[1]) - 1));
  });
}
// What a choice of an actor is, as the trace spells it.
function choiceMeaning(name) {
  const choice = name.slice(name.lastIndexOf(" ") + 1), [word, of] = choice.split(":"), port = /^x(\d+)$/.exec(choice), where = of && of.replace(".", " ");
  if (port) return `takes what came through the switch from its port ${port[1]}`;
  return { init: "takes an initiation: its control plane gives it the number of a snapshot", cable: "takes what came over the cable", host: "takes what its host sent", net: "takes a packet", inject: "sends its next packet",
    poll: "takes a poll, and answers with a dump of its registers", notice: `takes a notice: a number of ${where} changed`, dump: `takes a dump: the registers of ${where}`, begin: "takes a Begin, and sends initiations to its in units",
    done: `takes a Done: what control plane ${of} collected`, issue: "begins the next snapshot", resend: "begins the last snapshot once more", sweep: "polls all its units" }[word] || "";
}
const many = (n, name, ending = "s") => `${n.toLocaleString("en")} ${name}${n === 1 ? "" : ending}`;
// The head and the strip of snapshots.
function head() {
  const counts = {};
  for (const told of words.snapshots) counts[told.verdict] = (counts[told.verdict] || 0) + 1;
  const verdicts = Object.keys(MARKS).filter((v) => counts[v]).map((v) => `${counts[v].toLocaleString("en")} ${v}`);
  $("summary").textContent = `${many(words.devices.length, "switch", "es")}, ${many(words.hosts.length, "host")}, ${many(T, "turn")}; snapshots: ${verdicts.join(", ") || "none"}`;
  $("turn").max = T;
}
const STRIP = 150;
function strip() {
  const list = $("snapshots");
  list.textContent = "";
  const numbers = [];
  const kept = (k) => !state.onlyFailed || failed(k);
  for (let k = state.shown + 1; k <= K && numbers.length < STRIP; k++) if (kept(k)) numbers.push(k);
  for (const k of numbers) {
    const verdict = words.snapshots[k - 1].verdict;
    list.append(made("button", { class: verdict.replace(" ", "-"), "data-snapshot": k, "aria-pressed": String(k === state.snapshot), "aria-label": `snapshot ${k}, ${verdict}`, title: words.snapshots[k - 1].line, onclick: () => choose(k) },
      String(k), made("span", { class: "mark", "aria-hidden": "true" }, MARKS[verdict])));
  }
  if (!numbers.length) list.append(made("span", { class: "dim" }, K ? "all are consistent" : "the run takes none"));
  const last = numbers.length ? numbers[numbers.length - 1] : K;
  $("strip-back").hidden = state.shown === 0;
  $("strip-on").hidden = last >= K;
  $("strip-on").onclick = () => { state.shown = last; strip(); };
  $("strip-back").onclick = () => { state.shown = Math.max(0, state.shown - STRIP); strip(); };
}
function showStrip(k) {
  if (state.onlyFailed && !failed(k)) { state.onlyFailed = $("only-failed").checked = false; }
  const there = $("snapshots").querySelector(`[data-snapshot="${k}"]`);
  if (!there) state.shown = Math.max(0, k - 1 - (STRIP >> 1)), strip();
  for (const button of $("snapshots").children) button.setAttribute("aria-pressed", String(Number(button.dataset.snapshot) === k));
  const button = $("snapshots").querySelector(`[data-snapshot="${k}"]`);
  if (button) button.scrollIntoView({ block: "nearest", inline: "center" });
}

function titleOf(k) {
  const { verdict } = words.snapshots[k - 1];
  return { consistent: `Snapshot ${k}: consistent`, pending: `Snapshot ${k}: not finished (pending)`, "not issued": `Snapshot ${k}: not begun (not issued)`, skipped: `Snapshot ${k} failed: skipped`, miscredited: `Snapshot ${k} failed: miscredited` }[verdict];
}
// The verdict with its unit, in a heading.
function headline(k) {
  const told = words.snapshots[k - 1], unit = told.unit >= 0 ? nameOf(told.unit) : "";
  const by = { skipped: ` by ${unit}`, miscredited: ` at ${unit}`, pending: `, ${unit} waits` }[told.verdict];
  return titleOf(k) + (by || "");
}
// A line of the banner: the name that it begins with, its words, and what lies one step beyond, which opens in place.
function lineOf([name, said, why]) {
  if (!name) return made("li", {}, ...explained(said));
  const meaning = (word) => ({ init: MEANING.initiation, cable: MEANING.cable, host: "the channel from the host" }[word] || (/^x\d+$/.test(word) ? ofCrossbar(word) : ""));
  const first = actorOf.has(name) ? explained(name) : [made("b", { title: meaning(name) }, name)];
  const beyond = why ? [" ", made("details", { class: "beyond" }, made("summary", {}, "why?"), ...explained(` ${why}`))] : [];
  return made("li", {}, ...first, " ", ...explained(said), ...beyond);
}
// What is said of the unit that the verdict names.
const waits = (told) => told.verdict === "pending" || told.verdict === "not issued";
const standing = (told) => (waits(told) ? "waiting" : "at fault");
// The banner: the verdict of the chosen snapshot and why.
let banner = null;
function verdictBanner() {
  if (banner === state.snapshot) return;
  banner = state.snapshot;
  const place = $("verdict");
  place.textContent = "";
  if (!state.snapshot) {
    place.className = "not-issued";
    place.append(made("div", { class: "head" }, made("b", {}, K ? "Choose a snapshot above" : "No snapshot in this run")), made("p", { class: "why" }, "Its cut, its values or why it failed are then shown here and in both pictures."));
    return;
  }
  const k = state.snapshot, told = words.snapshots[k - 1];
  place.className = told.verdict.replace(" ", "-");
  place.append(made("div", { class: "head" }, made("b", {}, `${MARKS[told.verdict]} ${headline(k)}`)));
  place.append(made("ul", { class: "why" }, ...told.lines.map(lineOf)));
  if (told.right) place.append(made("p", { class: "right" }, ...explained(told.right)));
}

// The details.
let shownPanel = "";
function panel() {
  for (const tab of $("tabs").children) tab.setAttribute("aria-selected", String(tab.dataset.tab === state.tab));
  const key = [state.tab, state.tab === "snapshot" ? state.snapshot : "", state.tab === "packet" ? state.packet : "", state.tab === "unit" || state.tab === "turn" ? state.snapshot : "", state.unit, state.tab === "poll" ? state.poll : "", state.turn].join();
  if (key === shownPanel) return;
  const again = shownPanel.split(",")[0] === state.tab;
  shownPanel = key;
  const place = $("panel"), at = place.scrollTop;
  if (state.tab === "snapshot" && again && place.dataset.snapshot === String(state.snapshot)) return;
  place.dataset.snapshot = state.tab === "snapshot" ? state.snapshot : "";
  place.textContent = "";
  place.append(...{ snapshot: snapshotPanel, turn: turnPanel, packet: packetPanel, unit: unitPanel, poll: pollPanel }[state.tab]());
  place.scrollTop = again && state.tab !== "snapshot" ? at : 0;
}
function table(heads, rows, here = () => false) {
  const body = rows.map((row, place) => made("tr", here(place) ? { class: "here" } : {}, ...row.map((cell) => made("td", {}, cell))));
  return made("table", {}, made("thead", {}, made("tr", {}, ...heads.map((name) => made("th", { scope: "col" }, name)))), made("tbody", {}, ...body));
}
const inFlight = (m, k) => column.across[m] >= k && column.stamp[m] < k;
let flightOf = [0, []];
function flight(k) {
  if (flightOf[0] === k) return flightOf[1];
  const found = [];
  if (k && cutOf(k, 0) !== undefined) for (let m = 0; m < M; m++) if (column.across[m] >= k && column.stamp[m] < k) found.push(m);
  flightOf = [k, found];
  return found;
}
function lateOf(k) {
  const found = [];
  for (let i = 0; i < column.lateMessage.length; i++) if (column.lateStamp[i] < k && k < column.lateWritten[i]) found.push(column.lateMessage[i]);
  return found;
}
const channelsOf = words.units.map((who) => links.map((link, place) => ({ ...link, place })).filter((link) => link.target === who && (link.sort === "cable" || link.sort === "crossbar")));
const channelStart = [0];
for (const list of channelsOf) channelStart.push(channelStart[channelStart.length - 1] + list.length);
const shortName = (link) => link.spelling.slice(link.spelling.lastIndexOf(" ") + 1);
function valuesOf(k, place) {
  const width = channelStart[U];
  const row = ((k - 1) * U + place) * 2;
  return {
    packets: column.counts[row], bytes: column.counts[row + 1],
    channels: channelsOf[place].map((link, i) => {
      const at = ((k - 1) * width + channelStart[place] + i) * 2;
      return { name: shortName(link), link: link.place, packets: column.channels[at], bytes: column.channels[at + 1] };
    }),
  };
}
function snapshotPanel() {
  const k = state.snapshot;
  if (!k) return [made("p", {}, "No snapshot is chosen. Choose one in the strip above, or press n for the next that isn't consistent.")];
  const told = words.snapshots[k - 1], isWhole = told.verdict === "consistent";
  const parts = [made("h2", {}, isWhole ? "How it was taken" : "What happened, in order"), storyOf(told)];
  parts.push(reportLine(k, told));
  if (told.verdict === "not issued") return parts;
  return [...parts, ...latePart(k), ...(isWhole ? valuesPart(k) : unitsPart(k, told)), ...flightPart(k, told)];
}
// What the report says of it, with links to what it came of and to where it failed.
function reportLine(k, told) {
  const line = made("p", { class: "line" }, "In the report: ", made("code", {}, told.line), " ");
  const by = / miscredited by (\d+)$/.exec(told.line);
  if (by) line.append(`(“by ${by[1]}”: the packet is credited to snapshot ${by[1]}, not to ${k}) `);
  for (const turn of new Set([told.causeTurn, told.turn])) if (turn !== null) line.append(toTurn(turn, `show turn ${turn + 1}`));
  return line;
}
function storyOf(told) {
  const story = made("ol", { class: "story" });
  told.steps.forEach(([place, said, message, snapshot]) => {
    const isFault = told.verdict !== "consistent" && (place === told.turn || (told.turn === null && place === null));
    const item = made("li", isFault ? { class: "fault" } : {}, place === null ? made("span", { class: "dim" }, snapshot ? "" : "at the end ") : toTurn(place), made("span", { class: "words" }, " ", ...explained(said, place), " "));
    if (message !== null && column.packet[message] >= 0) item.append(toPacket(column.packet[message], "follow the packet"));
    if (snapshot) item.append(toSnapshot(snapshot));
    story.append(item);
  });
  return story;
}
function valuesPart(k) {
  const rows = words.units.map((who, place) => {
    const value = valuesOf(k, place);
    const flying = value.channels.filter((c) => c.packets).map((c) => `${c.name}: ${c.packets} (${c.bytes} bytes)`).join(", ");
    return [toUnit(who), String(value.packets), String(value.bytes), made("span", { class: "wraps" }, flying || "–"), toTurn(cutOf(k, place), String(cutOf(k, place) + 1))];
  });
  return [made("h2", {}, "Values: what each unit had counted before the cut"), table(["unit", "packets", "bytes", "in flight to it", "cut at"], rows)];
}
function unitsPart(k, told) {
  const isPending = told.verdict === "pending";
  const order = words.units.map((who, place) => [who, place]).sort(([a], [b]) => (b === told.unit) - (a === told.unit) || told.waiting.includes(b) - told.waiting.includes(a));
  const rows = order.map(([who, place]) => {
    const at = cutOf(k, place), mark = who === told.unit ? made("span", { class: isPending ? "pending" : "bad" }, ` ${standing(told)}`) : told.waiting.includes(who) ? made("span", { class: "pending" }, " waits too") : "";
    const went = at < 0 ? idAt(who, T) : column.id[at];
    return [made("span", {}, toUnit(who), mark), at < 0 ? "never" : toTurn(at, String(at + 1)), went > k ? made("span", { class: "bad", title: `it went over ${k} and saved nothing for it` }, `${went}, over ${k}`) : String(went)];
  });
  const said = `A snapshot that ${isPending ? "isn't finished" : "failed"} has no values. These are the turns in which each unit reached its number, and the number that it went to.`;
  return [made("h2", { id: "units" }, "Where the units were"), made("p", { class: "dim" }, said), table(["unit", "at turn", "went to"], rows)];
}
function flightPart(k, told) {
  const flying = flight(k), parts = [];
  if (told.verdict === "pending") {
    parts.push(made("h2", {}, "In flight across the cut: not known"), made("p", { class: "dim" }, `It isn't known while ${nameOf(told.unit)} waits.${flying.length ? ` Seen so far: ${flying.length}.` : ""}`));
  } else parts.push(made("h2", {}, `In flight across the cut: ${flying.length}`));
  if (flying.length) {
    const rows = flying.slice(0, 100).map((m) => [toPacket(column.packet[m]), links[column.link[m]].spelling, toTurn(put[m], String(put[m] + 1)), toTurn(column.take[m], String(column.take[m] + 1))]);
    parts.push(table(["packet", "link", "sent", "taken"], rows));
    if (flying.length > 100) parts.push(made("p", { class: "dim" }, `and ${flying.length - 100} more`));
  }
  return parts;
}
// Of a snapshot that failed, the packets that came too late for it, each with its turns.
function latePart(k) {
  const late = failed(k) ? lateOf(k) : [];
  if (!late.length) return [];
  const rows = late.slice(0, MOST_LATE).map((m) => [toPacket(column.packet[m]), made("span", {}, toUnit(links[column.link[m]].target)), toTurn(put[m], String(put[m] + 1)), toTurn(column.take[m], String(column.take[m] + 1))]);
  const parts = [made("h2", { id: "late" }, `Packets that came too late, missing from snapshot ${k}: ${late.length}`), table(["packet", "to", "sent at turn", "came at turn"], rows)];
  if (late.length > MOST_LATE) parts.push(made("p", { class: "dim" }, `and ${late.length - MOST_LATE} more`));
  return parts;
}
const MOST_LATE = 500;
// The way of a message, in words.
function wayOf(m) {
  const link = links[column.link[m]], over = { cable: "over the cable ", crossbar: `over ${shortName(link)} ` }[link.sort] || "";
  return `${over}to ${nameOf(link.target)}`;
}
function wordsOf(m) {
  const inside = [column.packet[m] >= 0 ? toPacket(column.packet[m], messageName(m)) : messageName(m)];
  return made("span", {}, ...inside, ` ${wayOf(m)}`, isLost(m) ? made("span", { class: "bad" }, ", lost") : "");
}
function turnPanel() {
  const t = state.turn - 1;
  if (t < 0) return [made("h2", {}, "Before the first turn"), made("p", {}, "Nothing was sent yet. Step on with →.")];
  const back = state.snapshot ? [made("p", {}, made("button", { class: "go", id: "to-story", onclick: () => change({ tab: "snapshot" }) }, `‹ what happened to snapshot ${state.snapshot}`))] : [];
  const parts = [...back, made("h2", {}, `Turn ${t + 1}: `, made("code", { title: choiceMeaning(turnName(t)) }, turnName(t))), made("p", { class: "dim" }, `${nameOf(actor[t])} ${choiceMeaning(turnName(t))}.`)];
  const who = actor[t];
  if (unitOf.has(who)) {
    const before = idAt(who, t);
    parts.push(made("p", {}, toUnit(who), before === column.id[t] ? ` stays at ${before}` : ` goes from ${before} to ${column.id[t]}`, `; it has counted ${many(column.packets[t], "packet")}, ${many(column.bytes[t], "byte")}.`));
    if (column.id[t] > before + 1) parts.push(made("p", { class: "bad" }, column.id[t] - before === 2 ? `It skips ${before + 1}.` : `It skips ${before + 1} to ${column.id[t] - 1}.`));
  }
  const m = took[t];
  parts.push(made("h2", {}, "It took"), made("p", {}, m < 0 ? "nothing" : wordsOf(m), m < 0 ? "" : made("span", {}, ", put at ", toTurn(put[m]))));
  if (m >= 0 && column.packet[m] >= 0 && column.packetEndTurn[column.packet[m]] === t && column.packetEnd[column.packet[m]] > 1)
    parts.push(made("p", { class: "bad" }, `and dropped it: ${endWords[words.ends[column.packetEnd[column.packet[m]]]]}`));
  const puts = [];
  for (let i = first[t]; i < first[t + 1]; i++) puts.push(i);
  parts.push(made("h2", {}, `It put${puts.length ? "" : " nothing"}`));
  for (const i of puts.slice(0, 60)) parts.push(made("p", {}, wordsOf(i), isLost(i) ? "" : column.take[i] < 0 ? ", never taken" : made("span", {}, ", taken at ", toTurn(column.take[i]))));
  if (puts.length > 60) parts.push(made("p", { class: "dim" }, `and ${puts.length - 60} more`));
  return parts;
}
const endWords = { "under way": "it is still under way at the end", delivered: "delivered", bad: "no plain frame (bad)", expired: "no hops were left (expired)", noroute: "no way leads there (noroute)", lost: "lost on the way" };
function packetPanel() {
  const p = state.packet;
  if (p < 0) return [made("p", {}, "No packet is chosen. Click an arrow of a packet in the diagram, a dot in the net, or find one: packet 5.")];
  const flow = column.packetFlow[p], end = words.ends[column.packetEnd[p]];
  const parts = [made("h2", {}, packetName(p)), made("p", {}, `${column.packetBytes[p]} bytes; ${flow < 0 ? "a raw frame" : `flow ${flow}`}; packet ${p} of the run.`)];
  const rows = [];
  for (let i = ofPacket.start[p]; i < ofPacket.start[p + 1]; i++) {
    const m = ofPacket.items[i], link = links[column.link[m]];
    rows.push([link.spelling, column.stamp[m] === NONE || link.sort === "net" || link.sort === "host" ? "–" : String(column.stamp[m]), toTurn(put[m], String(put[m] + 1)), isLost(m) ? made("span", { class: "bad" }, "lost") : column.take[m] < 0 ? "never" : toTurn(column.take[m], String(column.take[m] + 1))]);
  }
  parts.push(table(["link", "number it carries", "put", "taken"], rows, (i) => { const m = ofPacket.items[ofPacket.start[p] + i]; return put[m] < state.turn && takeOf(m) >= state.turn && !isLost(m); }));
  const at = column.packetEndTurn[p];
  parts.push(made("p", {}, made("b", end === "delivered" ? {} : { class: "bad" }, `End: ${endWords[end]}`), at < 0 ? "" : made("span", {}, " at ", toTurn(at))));
  const cuts = new Set();
  for (let i = ofPacket.start[p]; i < ofPacket.start[p + 1]; i++) { const m = ofPacket.items[i]; for (let k = column.stamp[m] + 1; column.across[m] >= k && k <= K; k++) cuts.add(k); }
  if (cuts.size) parts.push(made("p", {}, "In flight across the cut of ", ...[...cuts].slice(0, 20).map((k) => toSnapshot(k))));
  return parts;
}
// The unit that is chosen; where none is, the one at fault, or that waits.
function unitShown() {
  if (state.unit >= 0 || !state.snapshot) return state.unit;
  const told = words.snapshots[state.snapshot - 1];
  return told.verdict === "consistent" ? -1 : told.unit;
}
function unitPanel() {
  const who = unitShown();
  if (who < 0) return [made("p", {}, "No unit is chosen. Click one in the net, or find one: in a.0.")];
  const place = unitOf.get(who), now = state.turn, t = lastTurn(who, now), told = state.snapshot ? words.snapshots[state.snapshot - 1] : null;
  const mark = told && told.verdict !== "consistent" && told.unit === who ? made("span", { class: waits(told) ? "pending" : "bad" }, `, ${standing(told)}${waits(told) ? "" : ` in snapshot ${state.snapshot}`}`) : "";
  const parts = [made("h2", {}, `${nameOf(who)}, after turn ${now}`, mark)];
  parts.push(table(["number", "packets counted", "bytes"], [[String(t < 0 ? 0 : column.id[t]), String(t < 0 ? 0 : column.packets[t]), String(t < 0 ? 0 : column.bytes[t])]]));
  parts.push(chart(who));
  parts.push(made("h2", {}, made("abbr", { title: "Of each channel, the last number that came over it. A snapshot is complete where its unit and all its channels have reached it.", tabindex: 0 }, "Last-seen numbers")));
  const seen = links.map((link, i) => [link, i]).filter(([link]) => link.target === who && ["cable", "crossbar", "init"].includes(link.sort)).map(([link, i]) => {
    const from = column.seenStart[i], end = lower(from, column.seenStart[i + 1], now, (j) => column.seenTurn[j]);
    return [shortName(link), end === from ? "0" : String(column.seenNumber[end - 1]), end === from ? "–" : toTurn(column.seenTurn[end - 1], String(column.seenTurn[end - 1] + 1))];
  });
  parts.push(table(["channel", "number", "since"], seen));
  const ring = words.settings.ring, from = column.saveStart[place], to = lower(from, column.saveStart[place + 1], now, (j) => column.saveTurn[j]);
  const id = t < 0 ? 0 : column.id[t];
  parts.push(made("h2", {}, made("abbr", { title: "The slots in which the unit saves its counters, one for each number; a newer number takes the slot of the oldest.", tabindex: 0 }, "Ring"), `: ${ring} ${ring === 1 ? "slot" : "slots"}`));
  const credits = new Map();
  const lastCredit = lower(column.creditStart[place], column.creditStart[place + 1], now, (j) => column.creditTurn[j]);
  for (let j = lastCredit - 1; j >= column.creditStart[place] && j > lastCredit - 20000; j--) {
    const key = `${column.creditNumber[j]} ${column.creditLink[j]}`;
    if (column.creditNumber[j] + ring > id && !credits.has(key)) credits.set(key, `${shortName(links[column.creditLink[j]])}: ${column.creditPackets[j]} (${column.creditBytes[j]} bytes)`);
  }
  const rows = [];
  for (let j = to - 1; j >= from && column.saveNumber[j] + ring > id; j--) {
    const number = column.saveNumber[j];
    const given = [...credits].filter(([key]) => key.startsWith(`${number} `)).map(([, text]) => text).join(", ");
    rows.push([String(number), String(number % ring), String(column.savePackets[j]), String(column.saveBytes[j]), made("span", { class: "wraps" }, given || "–"), toTurn(column.saveTurn[j], String(column.saveTurn[j] + 1))]);
  }
  parts.push(rows.length ? table(["number", "slot", "packets", "bytes", "in flight", "saved"], rows.slice(0, 64)) : made("p", { class: "dim" }, "nothing is saved yet"));
  return parts;
}
// A unit's counters and number over all turns, with the chosen turn.
function chart(who) {
  const canvas = made("canvas", { class: "chart", role: "img", "aria-label": "packets counted and number over the turns" });
  const from = turnsOf.start[who], to = turnsOf.start[who + 1];
  requestAnimationFrame(() => {
    const [w, h, context] = sized(canvas);
    const look = colours(), last = to > from ? turnsOf.items[to - 1] : 0;
    const most = Math.max(1, column.packets[last] || 0), top = Math.max(1, column.id[last] || 0);
    context.fillStyle = look.paper;
    context.fillRect(0, 0, w, h);
    const step = Math.max(1, Math.floor((to - from) / (2 * w)));
    const line = (value, high, colour) => {
      context.strokeStyle = colour; context.lineWidth = 1.6; context.beginPath(); context.moveTo(0, h - 4);
      let y = h - 4;
      for (let i = from; i < to; i += step) { const t = turnsOf.items[i], x = ((t + 1) / T) * w; context.lineTo(x, y); y = h - 4 - (value[t] / high) * (h - 22); context.lineTo(x, y); }
      context.lineTo(w, y); context.stroke();
    };
    line(column.packets, most, look.data);
    line(column.id, top, look.spread);
    context.font = "11px sans-serif";
    context.fillStyle = look.data; context.fillText(`packets, to ${most}`, 6, 12);
    context.fillStyle = look.spread; context.fillText(`number, to ${top}`, 120, 12);
    context.strokeStyle = look.ink; context.lineWidth = 1; context.beginPath(); context.moveTo((state.turn / T) * w, 0); context.lineTo((state.turn / T) * w, h); context.stroke();
  });
  canvas.addEventListener("click", (event) => { const turn = (event.offsetX / canvas.clientWidth) * T; change({ turn }); show(state.turn); });
  return canvas;
}
// Polling: the unit at place i is read after start + i * gap turns.
let reading = null;
function readingOf(poll) {
  if (!poll) return null;
  if (reading && reading.poll === poll) return reading;
  const [start, gap] = poll;
  const at = words.units.map((who, place) => Math.min(start + place * gap, T));
  const of = new Map(words.units.map((who, place) => [who, at[place]]));
  let broken = -1;
  for (let t = 0; t < T && broken < 0; t++) {
    const m = took[t];
    if (m < 0 || kindOf(m) !== KIND.data) continue;
    const link = links[column.link[m]];
    if (link.sort !== "cable" && link.sort !== "crossbar") continue;
    if (t < of.get(link.target) && put[m] >= of.get(link.source)) broken = m;
  }
  reading = { poll, at, of, broken };
  return reading;
}
function pollPanel() {
  const parts = [made("h2", {}, "Polling in place of a snapshot"), made("p", {}, "One unit after the other is read: the first after S turns, each further one G turns later.")];
  const field = (name, value) => made("input", { type: "number", min: 0, max: 1000000, id: name, value, style: "width: 90px", "aria-label": name === "poll-start" ? "S, the turn of the first reading" : "G, the turns between two readings" });
  const start = field("poll-start", state.poll ? state.poll[0] : state.turn), gap = field("poll-gap", state.poll ? state.poll[1] : 3);
  const go = made("button", { id: "poll-read", onclick: () => { const pair = [start, gap].map((f) => Math.max(0, Math.min(1000000, Math.floor(Number(f.value) || 0)))); change({ poll: pair }); shownPanel = ""; } }, "Read");
  const off = made("button", { onclick: () => { change({ poll: null }); shownPanel = ""; } }, "Off");
  parts.push(made("p", {}, "S ", start, " G ", gap, " ", go, " ", off));
  const found = readingOf(state.poll);
  if (!found) return parts;
  if (found.broken < 0) parts.push(made("p", { id: "poll-answer" }, made("b", { class: "consistent" }, "whole"), ": no packet was taken before its taker was read and sent after its sender was."));
  else {
    const m = found.broken, link = links[column.link[m]];
    parts.push(made("p", { id: "poll-answer" }, made("b", { class: "bad" }, "broken"), " by ", toPacket(column.packet[m]), ` on ${link.spelling}: sent at `, toTurn(put[m]), `, after ${nameOf(link.source)} was read, and taken at `, toTurn(column.take[m]), `, before ${nameOf(link.target)} was. So it counts as taken and not as sent: no moment was so.`));
  }
  const rows = words.units.map((who, place) => { const t = lastTurn(who, found.at[place]); return [toUnit(who), String(found.at[place]), String(t < 0 ? 0 : column.packets[t]), String(t < 0 ? 0 : column.bytes[t])]; });
  parts.push(table(["unit", "read after turn", "packets", "bytes"], rows));
  return parts;
}
