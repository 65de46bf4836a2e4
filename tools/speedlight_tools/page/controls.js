// Tips.
function tip(event, said) {
  const place = $("tip");
  if (!event) { place.hidden = true; return; }
  place.textContent = said; place.hidden = false;
  place.style.left = `${Math.min(event.clientX + 14, innerWidth - place.offsetWidth - 8)}px`;
  place.style.top = `${Math.min(event.clientY + 14, innerHeight - place.offsetHeight - 8)}px`;
}
// The tips of what stands in the page: where the mouse is, or what the keys have reached.
let tipped = null;
function pointed(event) {
  const over = event.target.closest ? event.target.closest("[data-tip]") : null;
  if (over === tipped) return;
  tipped = over;
  if (!over) return tip(null);
  const box = over.getBoundingClientRect();
  tip({ clientX: box.left - 6, clientY: box.bottom - 8 }, over.dataset.tip);
}
for (const name of ["mouseover", "focusin"]) document.addEventListener(name, pointed);
for (const name of ["focusout", "click"]) document.addEventListener(name, () => { tipped = null; tip(null); });
for (const element of document.querySelectorAll("[data-tip]")) element.setAttribute("aria-description", element.dataset.tip);
const labelAt = (x, y) => labels.find(({ box: [l, t, r, b] }) => x >= l && x <= r && y >= t && y <= b);
// Shows the list of the packets that came too late.
function listLate() { listPart("late"); }
// Shows the list of where the units are.
function listUnits() { listPart("units"); }
function listPart(id) { change({ tab: "snapshot" }); panel(); if ($(id)) $(id).scrollIntoView(); }
function nearest(x, y) {
  let best = 7, found = -1;
  for (const [m, x1, y1, x2, y2] of segments) {
    const dx = x2 - x1, dy = y2 - y1, f = Math.max(0, Math.min(1, ((x - x1) * dx + (y - y1) * dy) / Math.max(1, dx * dx + dy * dy)));
    const far = Math.hypot(x - x1 - f * dx, y - y1 - f * dy) - (colourOf[kindOf(m)] === "data" ? 2 : 0);
    if (far < best) { best = far; found = m; }
  }
  return found;
}
plot.addEventListener("mousemove", (event) => {
  if (event.buttons) return tip(null);
  const edge = edgeAt(event.offsetX, event.offsetY);
  plot.style.cursor = edge ? "pointer" : "";
  if (edge) return tip(event, `${edge.said}\nA click leads there.`);
  const named = labelAt(event.offsetX, event.offsetY);
  if (named) return tip(event, labelMeaning(named.said));
  const m = event.offsetX > view.gutter - 10 ? nearest(event.offsetX, event.offsetY) : -1;
  const { k, y } = d3.zoomTransform(plot), t = Math.floor(turnOf((event.offsetY - y) / k)), fold = foldAt(t);
  if (fold) tip(event, `turns ${fold.from + 1} to ${fold.to} are folded\nA click shows them.`);
  else if (m >= 0) tip(event, `${messageName(m)}\nfrom ${nameOf(links[column.link[m]].source)} ${wayOf(m)}\nput at turn ${put[m] + 1}, ${isLost(m) ? "lost" : column.take[m] < 0 ? "never taken" : `taken at turn ${column.take[m] + 1}`}`);
  else if (t >= 0 && t < T && k >= 3) tip(event, `turn ${t + 1}: ${turnName(t)}\n${nameOf(actor[t])} ${choiceMeaning(turnName(t))}`);
  else tip(null);
});
plot.addEventListener("mouseleave", () => tip(null));
plot.addEventListener("click", (event) => {
  if (event.defaultPrevented) return;
  const edge = edgeAt(event.offsetX, event.offsetY);
  if (edge) { change({ turn: edge.turn + 1 }); return show(edge.turn + 1); }
  const named = labelAt(event.offsetX, event.offsetY);
  if (named && / more$/.test(named.said)) return listLate();
  const m = event.offsetX > view.gutter - 10 ? nearest(event.offsetX, event.offsetY) : -1;
  if (m >= 0 && column.packet[m] >= 0) return change({ packet: column.packet[m], tab: "packet" });
  const { k, y } = d3.zoomTransform(plot), t = Math.floor(turnOf((event.offsetY - y) / k)), fold = foldAt(t);
  if (fold) setFolds(folds.filter((other) => other !== fold));
  else if (t >= 0 && t < T) change({ turn: t + 1, tab: "turn" });
});
// The actor whose name stands here above the diagram; names that stand aslant lean to the right.
function headAt(x, y) {
  const foot = view.width >= 62 ? x : x - (heads.clientHeight - 5 - y) / Math.tan(Math.PI / 3.2) - 3;
  return view.shown.find((who) => Math.abs(view.xs[who] - foot) <= view.width / 2);
}
// A place within an actor's name there.
const headOf = (who) => { const up = 12; return [view.xs[who] + (view.width >= 62 ? 0 : 3 + (up - 5) / Math.tan(Math.PI / 3.2)), heads.clientHeight - up]; };
const unitHead = (event) => { const who = headAt(event.offsetX, event.offsetY); return unitOf.has(who) ? who : undefined; };
heads.addEventListener("click", (event) => { const who = unitHead(event); if (who !== undefined) change({ unit: who, tab: "unit" }); });
heads.addEventListener("mousemove", (event) => {
  const who = unitHead(event);
  heads.style.cursor = who === undefined ? "" : "pointer";
  tip(who === undefined ? null : event, who === undefined ? "" : `Say more of unit ${nameOf(who)}`);
});
heads.addEventListener("mouseleave", () => tip(null));

// Finding.
function search(text) {
  const said = text.trim().toLowerCase(), found = [];
  const add = (name, call) => { if (found.length < 14) found.push([name, call]); };
  const number = /^(turn\s+)?(\d+)$/.exec(said);
  if (number && Number(number[2]) <= T) add(`turn ${number[2]}${Number(number[2]) ? `: ${turnName(number[2] - 1)}` : ""}`, () => { change({ turn: Number(number[2]), tab: "turn" }); show(state.turn); });
  const snapshot = /^s(?:napshot)?\s*(\d+)$/.exec(said) || (number && [0, number[2]]);
  if (snapshot && Number(snapshot[1]) >= 1 && Number(snapshot[1]) <= K) add(`${words.snapshots[snapshot[1] - 1].line}`, () => choose(Number(snapshot[1])));
  const packet = /^p(?:acket)?\s*(\d+)$/.exec(said);
  if (packet && Number(packet[1]) < column.packetHost.length) add(`packet ${packet[1]}: ${packetName(Number(packet[1]))}`, () => follow(Number(packet[1])));
  const flow = /^f(?:low)?\s*(\d+)$/.exec(said);
  const ends = /^(?:host\s+)?(\w+)(?:\s*(?:to|->|>|\s)\s*(\w+))?$/.exec(said);
  words.flows.forEach(([a, b, count], place) => {
    if ((flow && Number(flow[1]) === place) || (ends && words.hosts.some((h) => h.name === ends[1]) && a === ends[1] && (!ends[2] || b === ends[2]))) {
      add(`flow ${place}: ${a} to ${b}, ${many(count, "packet")}`, () => follow(firstOf(place)));
      for (let p = 0, shown = 0; p < column.packetHost.length && shown < 4; p++) if (column.packetFlow[p] === place) { const q = p; add(packetName(q), () => follow(q)); shown++; }
    }
  });
  if (said) for (const who of words.units) if (nameOf(who).includes(said)) add(`unit ${nameOf(who)}`, () => change({ unit: who, tab: "unit" }));
  if (said && words.choices.some(([name]) => name === said)) {
    const choice = words.choices.findIndex(([name]) => name === said);
    for (let round = 0, t = state.turn; round < T; round++, t = (t + 1) % T) if (column.choice[t % T] === choice) { const at = t % T; add(`turn ${at + 1}: ${said}, the next`, () => { change({ turn: at + 1, tab: "turn" }); show(at + 1); }); break; }
  }
  return found;
}
function firstOf(flow) { for (let p = 0; p < column.packetHost.length; p++) if (column.packetFlow[p] === flow) return p; return -1; }
function follow(p) { if (p < 0) return; const m = ofPacket.items[ofPacket.start[p]]; change({ packet: p, tab: "packet", turn: put[m] + 1 }); show(state.turn); }
$("search").addEventListener("input", () => {
  const list = $("found"), found = search($("search").value);
  list.textContent = "";
  list.hidden = !$("search").value.trim();
  for (const [name, call] of found) list.append(made("li", {}, made("button", { onclick: () => { call(); list.hidden = true; $("search").value = ""; } }, name)));
  if (!found.length) list.append(made("li", { class: "dim" }, "nothing of that name"));
});
$("search").addEventListener("keydown", (event) => {
  if (event.key === "Enter") { const button = $("found").querySelector("button"); if (button) button.click(); }
  if (event.key === "ArrowDown") { const button = $("found").querySelector("button"); if (button) button.focus(); event.preventDefault(); }
  if (event.key === "Escape") { $("found").hidden = true; $("search").blur(); }
  event.stopPropagation();
});

// Playing, keys and buttons.
let playing = 0, carried = 0;
function play(on) {
  playing = on ? performance.now() : 0; carried = 0;
  if (on && state.turn >= T) change({ turn: 0 });
  $("play").textContent = on ? "❚❚ stop" : "▶ play";
  $("play").setAttribute("aria-label", on ? "Stop" : "Play");
  asked = true;
}
const step = (by) => { change({ turn: state.turn + by }); show(state.turn); };
const keys = {
  ArrowRight: (e) => step(e.shiftKey ? 10 : 1), ArrowLeft: (e) => step(e.shiftKey ? -10 : -1), ArrowDown: (e) => step(e.shiftKey ? 10 : 1), ArrowUp: (e) => step(e.shiftKey ? -10 : -1),
  PageDown: () => step(100), PageUp: () => step(-100), Home: () => step(-T), End: () => step(T), " ": () => play(!playing),
  "]": () => state.snapshot < K && choose(state.snapshot + 1), "[": () => state.snapshot > 1 && choose(state.snapshot - 1),
  n: () => { for (let i = 1; i <= K; i++) { const k = ((state.snapshot + i - 1) % K) + 1; if (failed(k)) return choose(k); } },
  "+": () => zoomBy(1.5), "=": () => zoomBy(1.5), "-": () => zoomBy(1 / 1.5), f: () => { setFolds([]); setView(zoom.scaleExtent()[0], T / 2); },
  o: () => $("focus").click(), z: () => $("fold").click(), c: () => $("control").click(), "/": () => $("search").focus(), "?": help, Escape: () => change({ packet: -1, unit: -1 }),
};
function zoomBy(by) {
  const { k, y } = d3.zoomTransform(plot), h = plot.clientHeight, row = rowOf(state.turn - 0.5), at = y + row * k;
  const centre = at > 0 && at < h ? row : (h / 2 - y) / k;
  const next = Math.max(zoom.scaleExtent()[0], Math.min(zoom.scaleExtent()[1], k * by));
  setView(next, centre);
}
document.addEventListener("keydown", (event) => {
  if (event.ctrlKey || event.metaKey || event.altKey || $("help").open) return;
  const name = event.target.tagName, field = name === "SELECT" || (name === "INPUT" && event.target.id !== "turn");
  if (field || (event.key === " " && name === "BUTTON") || (event.target.id === "panel" && /^(Arrow|Page|Home|End)/.test(event.key))) return;
  if (keys[event.key]) { event.preventDefault(); keys[event.key](event); }
});
$("start").onclick = () => step(-T); $("end").onclick = () => step(T); $("back").onclick = () => step(-1); $("on").onclick = () => step(1);
$("play").onclick = () => play(!playing);
$("turn").addEventListener("input", () => { change({ turn: Number($("turn").value) }); show(state.turn); });
$("zoom-in").onclick = () => zoomBy(1.5); $("zoom-out").onclick = () => zoomBy(1 / 1.5); $("zoom-fit").onclick = keys.f;
$("columns-out").onclick = () => { view.wide = Math.min(6, view.wide * 1.25); asked = true; };
$("columns-in").onclick = () => { view.wide = Math.max(0.2, view.wide / 1.25); asked = true; };
$("control").onclick = () => { change({ control: !state.control }); $("control").setAttribute("aria-pressed", String(state.control)); };
$("fold").onclick = () => { setFolds(folds.length ? [] : foldsOf(state.snapshot)); show(state.turn, true); };
$("focus").onclick = () => { focus(!state.focus); show(state.turn); };
$("only-failed").onchange = () => { state.onlyFailed = $("only-failed").checked; state.shown = 0; strip(); };
function help() { $("help").showModal(); $("help").scrollTop = 0; }
$("help-open").onclick = help;
for (const tab of $("tabs").children) tab.onclick = () => { change({ tab: tab.dataset.tab }); shownPanel = ""; };
for (const button of $("switch").children) button.onclick = () => part(button.dataset.show);
function part(name) {
  document.body.dataset.show = name;
  for (const button of $("switch").children) button.setAttribute("aria-pressed", String(button.dataset.show === name));
  extents(); atOnce(); drawnNet = ""; asked = true;
}
// The view at first: of the chosen snapshot where the turn is the one that it is shown at, else of the turn.
function atOnce() {
  show(state.turn, true);
  if (state.snapshot && state.turn === momentOf(state.snapshot)) lookAt(state.snapshot);
}
function theme(name) { document.documentElement.dataset.theme = name; look = null; sheet = null; shownPanel = ""; asked = true; legend(); }
$("theme").onclick = () => theme(document.documentElement.dataset.theme === "dark" ? "light" : "dark");
const wish = window.matchMedia("(prefers-color-scheme: dark)");
wish.addEventListener("change", () => theme(wish.matches ? "dark" : "light"));
function legend() {
  const list = $("legend");
  list.textContent = "";
  marksLegend();
  const line = (colour, said) => list.append(made("span", { style: `height:4px;background:var(--${colour})` }), made("span", {}, said));
  line("data", "a data packet"); line("spread", "a Begin, an initiation or a probe: what spreads a snapshot"); line("collect", "a notice, a poll, a dump or a Done: what collects it");
  line("flight", "a packet in flight across the cut of the chosen snapshot; beside a unit in the net, +n inside its switch"); line("fault", "what the chosen snapshot failed by, or the message that it waits for"); line("packet", "the way of the chosen packet"); line("poll", "where polling reads the units");
  list.append(made("span", { class: "bad" }, "✕"), made("span", {}, "a message that is lost"), made("span", {}, "◆"), made("span", {}, "the turn in which a unit reaches the chosen snapshot: its cut"), made("span", {}, "○ ●"), made("span", {}, "a unit's turn before and after its cut; the shade is what lies before the cut"));
  list.append(made("span", { class: "round dashed" }), made("span", {}, "in the net: a unit that has not reached the chosen snapshot; one that has, has a thick edge"));
  list.append(made("span", { style: "display:flex" }, ...[1, 2, 3].map((n) => made("span", { class: "round", style: `background:var(--id${n})` }, String(n)))), made("span", {}, "in the net: a unit's number, and a colour for each; after 7 the colours begin anew"));
  for (const verdict of Object.keys(MARKS)) list.append(made("b", { class: verdict.replace(" ", "-") }, MARKS[verdict]), made("span", {}, { consistent: "consistent: the snapshot is a cut that could have been", skipped: "skipped: a unit went over the number and saved nothing for it", miscredited: "miscredited: a packet in flight came too late to be credited to it", pending: "pending: a unit or a channel never heard of it", "not issued": "not issued: the observer never began it" }[verdict]));
}

// The few marks that stand below the diagram.
function marksLegend() {
  const list = $("marks-list");
  list.textContent = "";
  const mark = (sign, said, title) => list.append(made("li", { title }, typeof sign === "string" ? made("b", {}, sign) : sign, said));
  const swatch = (colour, kind = "") => made("span", { class: `swatch ${kind}`, style: kind === "dashed" ? "" : `background:var(--${colour})` });
  mark("◆", "reaches the snapshot's number", "The turn in which a unit reaches the chosen snapshot's number; red where it goes over it.");
  mark("○ ●", "a unit's turn before, after that", "A unit's turn before and after it reached the number. A small grey dot is a turn of a host or of a control plane.");
  mark(swatch("", "dashed"), "the cut", "The cut: it goes through each unit's ◆.");
  mark(made("span", { style: "display:flex" }, swatch("shade-failed", "area"), swatch("shade", "area")), "before it (green: consistent)", "What lies before the cut: green where the snapshot is consistent, pink where it failed or isn't finished.");
  mark(swatch("data"), "packet"); mark(swatch("spread"), "Begin, initiation, probe", "What spreads a snapshot's number."); mark(swatch("collect"), "notice, poll, dump, Done", "What collects what the units saved.");
  mark(swatch("flight"), "in flight across the cut", "Sent before its sender's cut, taken after its taker's."); mark(swatch("fault"), "at fault"); mark(swatch("packet"), "the chosen packet"); mark("✕", "lost");
}

// Drawing, where something changed.
let frames = 0;
function frame(now) {
  if (playing) {
    carried += ((now - playing) * Number($("speed").value)) / 1000; playing = now;
    const by = Math.floor(carried);
    if (by) { carried -= by; step(by); if (state.turn >= T) play(false); }
  }
  if (asked) draw();
  requestAnimationFrame(frame);
}
function draw() {
  asked = false;
  verdictBanner();
  layColumns();
  updateNet();
  if (plot.clientHeight) { drawHeads(); drawTime(); }
  panel();
  const name = state.turn ? turnName(state.turn - 1) : "";
  $("now").replaceChildren(`turn ${state.turn.toLocaleString("en")} of ${T.toLocaleString("en")}: `, made("code", { title: name && choiceMeaning(name) }, name || "nothing yet"));
  frames++;
}
// Drawn at once where the size changes, so that nothing is seen stretched; what was in the middle stays there.
new ResizeObserver(() => {
  const h = plot.clientHeight, { k, y } = d3.zoomTransform(plot);
  if (h && view.high && h !== view.high) setView(k, (view.high / 2 - y) / k);
  else extents();
  if (h) view.high = h;
  drawnNet = "";
  scaleNames();
  if (state.tab === "unit") shownPanel = "";
  if (window.speedlight && window.speedlight.ready) draw(); else asked = true;
}).observe(plot);
window.addEventListener("hashchange", () => { const next = readAddress(); change(next); verdictBanner(); view.high = plot.clientHeight; setFolds([]); if (next.snapshot) showStrip(next.snapshot); show(state.turn); });
// For those who drive the page: where a message, a turn and the name of a column are drawn in the diagram, how often it was
// drawn, the labels, and the marks at its edges.
function middleOf(m) { const { k, y } = d3.zoomTransform(plot), [x1, y1, x2, y2] = endsOf(m, (turn) => y + rowOf(turn + 0.5) * k, k); return [(x1 + x2) / 2, (y1 + y2) / 2]; }
window.speedlight = { state, words, column, change, show, middleOf, frames: () => frames, edges: () => edges.map((edge) => edge.said), heightOf: (t) => { const { k, y } = d3.zoomTransform(plot); return y + rowOf(t + 0.5) * k; }, folds: () => folds.map(({ from, to }) => [from, to]), labels: () => labels.map(({ said, box }) => [said, box]), edgeBoxes: () => edges.map(({ said, box }) => [said, box]), columns: () => view.shown.map((who) => [nameOf(who), ...headOf(who)]), ready: false };

theme(wish.matches ? "dark" : "light");
head();
drawNet();
const failedFirst = words.snapshots.findIndex((told) => told.verdict !== "consistent") + 1;
Object.assign(state, { snapshot: failedFirst || (K ? 1 : 0) });
if (words.readings.length) state.poll = words.readings[0];
if (state.snapshot) state.turn = momentOf(state.snapshot);
Object.assign(state, readAddress());
const chosen = state.snapshot && words.snapshots[state.snapshot - 1];
if (chosen && chosen.verdict === "miscredited" && state.packet < 0) state.packet = column.packet[chosen.message];
strip();
if (state.snapshot) showStrip(state.snapshot);
focus(crowded() && Boolean(state.snapshot) && failed(state.snapshot));
part("details");
$("turn").value = state.turn;
$("loading").hidden = true;
if (innerWidth <= 700) { $("marks").open = false; $("search").placeholder = "Find"; }
verdictBanner();
extents();
setView(Math.max(zoom.scaleExtent()[0], 17), rowOf(state.turn - 0.5));
setFolds([]);
if (plot.clientHeight) atOnce();
view.high = plot.clientHeight;
requestAnimationFrame((now) => { frame(now); window.speedlight.ready = true; });
})();
