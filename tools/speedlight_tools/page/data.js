"use strict";
// Shows a run. All that is said of it was made by tools/view; here it is looked up, and drawn.
(async function () {
const $ = (id) => document.getElementById(id);
const NONE = 0xffffffff, LOST = 0x80, NEVER = 0x7fffffff;
const MARKS = { consistent: "✓", skipped: "✕", miscredited: "!", pending: "…", "not issued": "–" };

// What the tool wrote.
const words = JSON.parse(new TextDecoder().decode(await unpacked("words")));
const column = await columns();
async function unpacked(id) {
  const text = atob($(id).textContent.trim()), packed = new Uint8Array(text.length);
  for (let i = 0; i < text.length; i++) packed[i] = text.charCodeAt(i);
  $(id).remove();
  return new Response(new Blob([packed]).stream().pipeThrough(new DecompressionStream("gzip"))).arrayBuffer();
}
async function columns() {
  const buffer = await unpacked("block"), types = { Uint8Array, Uint16Array, Uint32Array, Int32Array, Float64Array };
  const made = {};
  for (const [name, [type, at, length]] of Object.entries(words.columns)) made[name] = new types[type](buffer, at, length);
  return made;
}
const T = words.turns, M = column.link.length, U = words.units.length, L = words.links.length, K = words.snapshots.length;
const KIND = Object.fromEntries(words.kinds.map((name, place) => [name, place]));
const unitOf = new Map(words.units.map((actor, place) => [actor, place]));
const actorOf = new Map(words.actors.map((name, place) => [name, place]));
const links = words.links.map(([spelling, source, target, sort]) => ({ spelling, source, target, sort }));
const isControl = words.actors.map((name) => name === "observer" || name.startsWith("control "));

// The columns once more, in the orders in which they are looked up.
const first = new Int32Array(T + 1), put = new Int32Array(M), took = new Int32Array(T).fill(-1), actor = new Uint16Array(T);
for (let t = 0; t < T; t++) {
  first[t + 1] = first[t] + column.puts[t];
  put.fill(t, first[t], first[t + 1]);
  actor[t] = words.choices[column.choice[t]][1];
}
for (let m = 0; m < M; m++) if (column.take[m] >= 0) took[column.take[m]] = m;
const kindOf = (m) => column.kind[m] & 0x7f;
const isLost = (m) => (column.kind[m] & LOST) !== 0;
function grouped(count, length, key) {
  const start = new Int32Array(count + 1);
  for (let i = 0; i < length; i++) { const k = key(i); if (k >= 0) start[k + 1]++; }
  for (let k = 0; k < count; k++) start[k + 1] += start[k];
  const items = new Int32Array(start[count]), next = start.slice();
  for (let i = 0; i < length; i++) { const k = key(i); if (k >= 0) items[next[k]++] = i; }
  return { start, items };
}
const turnsOf = grouped(words.actors.length, T, (t) => actor[t]);
const onLink = grouped(L, M, (m) => (isLost(m) ? -1 : column.link[m]));
const ofPacket = grouped(column.packetHost.length, M, (m) => column.packet[m]);

// The first place from `from` to `to` whose value isn't below the one given.
function lower(from, to, value, at) {
  while (from < to) { const middle = (from + to) >> 1; if (at(middle) < value) from = middle + 1; else to = middle; }
  return from;
}
const takeOf = (m) => (column.take[m] < 0 ? NEVER : column.take[m]);
// The messages on a link after so many turns, as places among those of the link.
function held(link, turns) {
  const from = onLink.start[link], to = onLink.start[link + 1];
  const end = lower(from, to, turns, (i) => put[onLink.items[i]]);
  return [lower(from, end, turns, (i) => takeOf(onLink.items[i])), end];
}
// The last turn of an actor among the first `turns`, or -1.
function lastTurn(who, turns) {
  const place = lower(turnsOf.start[who], turnsOf.start[who + 1], turns, (i) => turnsOf.items[i]);
  return place > turnsOf.start[who] ? turnsOf.items[place - 1] : -1;
}
const idAt = (who, turns) => { const t = lastTurn(who, turns); return t < 0 ? 0 : column.id[t]; };
const cutOf = (k, place) => column.cut[(k - 1) * U + place];
const packetName = (p) => `packet ${column.packetSeq[p]} from ${words.hosts[column.packetHost[p]].name} to ${(words.hosts[column.packetTo[p]] || { name: "no host" }).name}`;
function messageName(m) {
  const name = words.kinds[kindOf(m)], stamp = column.stamp[m] === NONE ? "" : ` with ${column.stamp[m]}`;
  if (name === "data") return packetName(column.packet[m]) + stamp;
  if (name === "frame") return "bytes that are no packet";
  const said = { init: "initiation", begin: "Begin", done: "Done" }[name] || name;
  return column.stamp[m] === NONE ? said : `${said} ${column.stamp[m]}`;
}
const turnName = (t) => words.choices[column.choice[t]][0];
const nameOf = (who) => words.actors[who];

// What is chosen. `turn` is how many turns were taken.
const state = { turn: 0, snapshot: 0, packet: -1, unit: -1, poll: null, tab: "snapshot", control: false, focus: false, onlyFailed: false, shown: 0 };
const failed = (k) => words.snapshots[k - 1].verdict !== "consistent";

function change(next) {
  if (next.turn !== undefined) next.turn = Math.max(0, Math.min(T, Math.round(next.turn)));
  Object.assign(state, next);
  $("turn").value = state.turn;
  remember();
  asked = true;
}
// All columns have no room beside one another.
const crowded = () => words.order.filter((who) => state.control || !isControl[who]).length * EASY > plot.clientWidth - 200;
function focus(on) { state.focus = on; $("focus").setAttribute("aria-pressed", String(on)); asked = true; }
let asked = true, timer = 0;
function remember() {
  clearTimeout(timer);
  timer = setTimeout(() => {
    const parts = [];
    if (state.snapshot) parts.push(`snapshot=${state.snapshot}`);
    parts.push(`turn=${state.turn}`);
    if (state.packet >= 0) parts.push(`packet=${state.packet}`);
    if (state.unit >= 0) parts.push(`unit=${encodeURIComponent(nameOf(state.unit).replace(" ", "_"))}`);
    if (state.poll) parts.push(`poll=${state.poll[0]},${state.poll[1]}`);
    history.replaceState(null, "", `#${parts.join("&")}`);
  }, 120);
}
function readAddress() {
  const given = Object.fromEntries(location.hash.slice(1).split("&").map((part) => part.split("=")));
  const number = (text) => (/^\d+$/.test(text || "") ? Number(text) : null);
  const next = {};
  const k = number(given.snapshot), t = number(given.turn), p = number(given.packet);
  if (k !== null && k >= 1 && k <= K) next.snapshot = k;
  if (k === 0) next.snapshot = 0;
  if (p !== null && p < column.packetHost.length) { next.packet = p; next.tab = "packet"; }
  const unit = given.unit && actorOf.get(decodeURIComponent(given.unit).replace("_", " "));
  if (unitOf.has(unit)) { next.unit = unit; next.tab = "unit"; }
  const poll = (given.poll || "").split(",").map(number);
  if (poll.length === 2 && poll.every((n) => n !== null)) { next.poll = poll; next.tab = "poll"; }
  if (t !== null) next.turn = t;
  else if (next.snapshot) next.turn = momentOf(next.snapshot);
  return next;
}
function momentOf(k) {
  const told = words.snapshots[k - 1];
  if (told.turn !== null) return told.turn + 1;
  let last = -1;
  for (let u = 0; u < U; u++) last = Math.max(last, cutOf(k, u));
  return last < 0 ? T : last + 1;
}
function choose(k) {
  change({ snapshot: k, turn: momentOf(k), tab: "snapshot", packet: -1, unit: failed(k) ? -1 : state.unit });
  if (words.snapshots[k - 1].message !== null && column.packet[words.snapshots[k - 1].message] >= 0 && words.snapshots[k - 1].verdict === "miscredited")
    state.packet = column.packet[words.snapshots[k - 1].message];
  focus(crowded() && failed(k));
  showStrip(k);
  verdictBanner();
  // The banner may have another height now.
  view.high = plot.clientHeight;
  layColumns();
  lookAt(k);
}
