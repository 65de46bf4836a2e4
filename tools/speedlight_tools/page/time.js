// Canvases and colours.
function sized(canvas) {
  const ratio = window.devicePixelRatio || 1, w = canvas.clientWidth, h = canvas.clientHeight;
  if (canvas.width !== Math.round(w * ratio) || canvas.height !== Math.round(h * ratio)) { canvas.width = Math.round(w * ratio); canvas.height = Math.round(h * ratio); }
  const context = canvas.getContext("2d");
  context.setTransform(ratio, 0, 0, ratio, 0, 0);
  return [w, h, context];
}
let look = null;
function colours() {
  if (look) return look;
  const style = getComputedStyle(document.documentElement);
  look = {};
  for (const name of ["paper", "panel", "ink", "dim", "line", "faint", "accent", "data", "flight", "spread", "collect", "fault", "poll", "packet", "consistent", "pending", "shade", "shade-failed", "now"]) look[name] = style.getPropertyValue(`--${name}`).trim();
  return look;
}
const COLOUR = { data: "data", frame: "data", begin: "spread", init: "spread", probe: "spread" };
const colourOf = words.kinds.map((name) => COLOUR[name] || "collect");

// The space-time diagram.
const plot = $("plot"), heads = $("heads"), LEAST = 14, EASY = 24;
const DIGITS = String(T).length, LONGEST = words.choices.reduce((most, [name]) => Math.max(most, name.length), 12);
const view = { width: 0, pan: 0, gutter: 150, margin: 14, high: 0, wide: 1, lastX: 0, xs: new Float64Array(words.actors.length), shown: [] };
// As high as the longest name is, aslant.
heads.style.height = `${Math.max(62, Math.min(140, Math.round(6.4 * words.actors.reduce((most, name) => Math.max(most, name.length), 0) + 8)))}px`;
const zoom = d3.zoom().filter((event) => filtered(event)).on("zoom", zoomed);
const plotted = d3.select(plot);
function filtered() {
  const event = d3.event;
  if (event.type === "wheel") return event.ctrlKey || event.metaKey;
  return !event.button;
}
function zoomed() {
  const { transform, sourceEvent } = d3.event;
  if (sourceEvent && sourceEvent.type !== "wheel" && transform.k === view.lastK) view.pan += transform.x - view.lastX;
  view.lastX = transform.x; view.lastK = transform.k;
  asked = true;
}
plotted.call(zoom).on("dblclick.zoom", null);
plot.addEventListener("wheel", (event) => {
  if (event.ctrlKey || event.metaKey) return;
  event.preventDefault();
  const unit = event.deltaMode === 1 ? 17 : event.deltaMode === 2 ? plot.clientHeight : 1;
  const dx = event.shiftKey ? event.deltaY : event.deltaX, dy = event.shiftKey ? 0 : event.deltaY;
  view.pan -= dx * unit;
  if (dy) plotted.call(zoom.translateBy, 0, (-dy * unit) / d3.zoomTransform(plot).k);
  asked = true;
}, { passive: false });
// The actors that the chosen snapshot, packet, unit and reading tell of.
function involved() {
  const found = new Set(), add = (m) => { found.add(links[column.link[m]].source); found.add(links[column.link[m]].target); };
  if (state.snapshot) {
    const told = words.snapshots[state.snapshot - 1];
    for (const [, , m, , sender] of told.steps) { if (m !== null) add(m); if (sender >= 0) found.add(sender); }
    if (told.unit >= 0) found.add(told.unit);
    if (told.message !== null) add(told.message);
  }
  if (state.packet >= 0) for (let i = ofPacket.start[state.packet]; i < ofPacket.start[state.packet + 1]; i++) add(ofPacket.items[i]);
  const read = readingOf(state.poll);
  if (read && read.broken >= 0) add(read.broken);
  if (state.unit >= 0) { found.add(state.unit); for (const link of links) if (link.target === state.unit) found.add(link.source); }
  return found;
}
function layColumns() {
  const told = state.focus ? involved() : new Set();
  view.shown = words.order.filter((who) => (told.size ? told.has(who) : state.control || !isControl[who]));
  const w = plot.clientWidth;
  // Room for the longest row, and on the right for a name that stands aslant.
  view.gutter = Math.round(Math.min(Math.max(w < 420 ? 104 : 120, 6.7 * (LONGEST + DIGITS + 1) + 22), w * 0.44));
  const fit = (margin) => (w - view.gutter - margin) / Math.max(1, view.shown.length);
  view.margin = fit(14) >= 62 ? 14 : Math.max(40, 4.2 * view.shown.reduce((most, who) => Math.max(most, nameOf(who).length), 0));
  view.width = Math.max(LEAST, Math.min(110, fit(view.margin))) * view.wide;
  const whole = view.width * view.shown.length + view.margin - 14, room = w - view.gutter - 8;
  view.pan = Math.min(0, Math.max(view.pan, Math.min(0, room - whole)));
  view.xs.fill(NaN);
  view.shown.forEach((who, place) => { view.xs[who] = view.gutter + view.pan + (place + 0.5) * view.width; });
}
// Long stretches of turns may be folded: each then stands in the room of FOLD rows. A row is a turn's place without what is folded.
const FOLD = 2;
let folds = [];
function rowOf(turn) {
  let less = 0;
  for (const { from, to } of folds) {
    if (turn <= from) break;
    if (turn < to) return from - less + ((turn - from) * FOLD) / (to - from);
    less += to - from - FOLD;
  }
  return turn - less;
}
function turnOf(row) {
  let less = 0;
  for (const { from, to } of folds) {
    if (row < from - less) break;
    if (row < from - less + FOLD) return from + ((row - from + less) * (to - from)) / FOLD;
    less += to - from - FOLD;
  }
  return row + less;
}
const foldAt = (turn) => folds.find(({ from, to }) => turn >= from && turn < to);
// What isn't folded of these turns.
function stretches(from, to) {
  const found = [];
  for (const fold of folds) if (fold.to > from && fold.from < to) { if (fold.from > from) found.push([from, fold.from]); from = fold.to; }
  return from < to ? [...found, [from, to]] : found;
}
function setFolds(next) {
  folds = next.filter(({ from, to }) => to - from > 2 * FOLD);
  $("fold").setAttribute("aria-pressed", String(folds.length > 0));
  $("fold").disabled = !folds.length && !foldsOf(state.snapshot).length;
  extents();
  asked = true;
}
// Between the turns by which a snapshot failed all but a few rows is folded: as many stand around each as there is room for.
function foldsOf(k) {
  const keys = k ? words.snapshots[k - 1].keys : [], room = Math.max(plot.clientHeight, 200) / 14;
  const around = Math.max(1, Math.min(6, Math.floor(((room - FOLD * (keys.length - 1)) / keys.length - 1) / 2)));
  return keys.slice(1).map((key, i) => ({ from: keys[i] + around + 1, to: key - around })).filter(({ from, to }) => to - from > 2 * FOLD);
}
// Opens what is folded around a turn.
const opened = (turn) => setFolds(folds.flatMap((fold) => (turn >= fold.from && turn < fold.to ? [{ from: fold.from, to: turn - 3 }, { from: turn + 4, to: fold.to }] : [fold])));
function extents() {
  const w = Math.max(1, plot.clientWidth), h = Math.max(1, plot.clientHeight), high = rowOf(T);
  zoom.extent([[0, 0], [w, h]]).translateExtent([[-Infinity, -1.5], [Infinity, high + 1.5]]).scaleExtent([Math.min(1, (h / (high + 3))), 44]);
}
function setView(k, centre) {
  extents();
  const h = plot.clientHeight;
  plotted.call(zoom.transform, d3.zoomIdentity.translate(view.lastX, h / 2 - centre * k).scale(k));
  plotted.call(zoom.translateBy, 0, 0);
}
// Brings the turns by which a snapshot failed into view, with what lies between folded where there is no room for it; of a
// consistent one, its whole cut where it fits.
function lookAt(k) {
  const told = words.snapshots[k - 1], h = plot.clientHeight, isWhole = told.verdict === "consistent";
  const keys = isWhole ? words.units.map((who, place) => cutOf(k, place)) : told.keys, from = Math.min(...keys), to = Math.max(...keys);
  const fits = () => (rowOf(to) - rowOf(from) + 3) * 12 <= h;
  setFolds([]);
  if (!h) return;
  show(state.turn);
  if (!keys.length) return;
  if (!isWhole && !fits()) setFolds(foldsOf(k));
  const row = Math.max(17, d3.zoomTransform(plot).k), middle = (rowOf(from) + rowOf(to) + 1) / 2, near = rowOf(to) - rowOf(from);
  if (told.turn !== null && (near * row <= h / 2 - 24 || !fits())) setView(row, rowOf(told.turn) + 0.5);
  else if (fits()) setView(Math.max(12, Math.min(row, h / (near + 3))), middle);
  else show(state.turn, true);
}
// Brings a turn into view, where it isn't, and the column of the unit at fault.
function show(turn, force) {
  if (!plot.clientHeight) return;
  if (foldAt(turn - 1)) opened(turn - 1);
  layColumns();
  const told = state.snapshot ? words.snapshots[state.snapshot - 1] : null, who = told && told.turn === turn - 1 ? told.unit : turn ? actor[turn - 1] : -1;
  const x = who >= 0 ? view.xs[who] : NaN, right = plot.clientWidth - 90;
  if (x < view.gutter || x > right) { view.pan += (view.gutter + right) / 2 - x; layColumns(); }
  const { k, y } = d3.zoomTransform(plot), middle = rowOf(turn - 1) + 0.5, at = y + middle * k, h = plot.clientHeight;
  if (force || at < h * 0.06 || at > h * 0.94) setView(k, middle);
}
const MANY = 4000;
function drawHeads() {
  const [w, h, context] = sized(heads), c = colours();
  context.fillStyle = c.panel; context.fillRect(0, 0, w, h);
  context.save();
  context.beginPath(); context.rect(view.gutter - 12, 0, w, h); context.clip();
  const fault = state.snapshot ? words.snapshots[state.snapshot - 1].unit : -1;
  const faultColour = state.snapshot && waits(words.snapshots[state.snapshot - 1]) ? c.pending : c.fault;
  const flat = view.width >= 62, acting = state.turn ? actor[state.turn - 1] : -1;
  for (const who of view.shown) {
    const x = view.xs[who];
    context.font = `${unitOf.has(who) ? "bold " : ""}${view.width < 18 ? 10.5 : 12}px "DejaVu Sans", system-ui, sans-serif`;
    context.fillStyle = who === fault ? faultColour : who === state.unit ? c.packet : who === acting ? c.accent : unitOf.has(who) ? c.ink : c.dim;
    context.save();
    if (flat) { context.textAlign = "center"; context.fillText(nameOf(who), x, h - 10); if (who === fault) context.fillText(standing(words.snapshots[state.snapshot - 1]), x, h - 26); }
    else { context.translate(x + 3, h - 5); context.rotate(-Math.PI / 3.2); context.fillText(nameOf(who), 0, 0); }
    context.restore();
  }
  context.restore();
  context.fillStyle = c.dim; context.font = '12px "DejaVu Sans", system-ui, sans-serif';
  context.fillText("turn", 8, h - 10);
}
let segments = [];
const clamp = (v) => Math.max(-1e5, Math.min(1e5, v));
function drawTime() {
  const [w, h, context] = sized(plot), c = colours();
  const { k, y } = d3.zoomTransform(plot), xs = view.xs;
  const at = (turn) => y + rowOf(turn + 0.5) * k, edge = (turn) => y + rowOf(turn) * k;
  const from = Math.max(0, Math.floor(turnOf(-y / k))), to = Math.min(T, Math.ceil(turnOf((h - y) / k)));
  segments = []; labels = [];
  context.fillStyle = c.paper; context.fillRect(0, 0, w, h);
  const left = view.gutter - 10;
  context.save();
  context.beginPath(); context.rect(left, 0, w - left, h); context.clip();
  const s = state.snapshot, told = s ? words.snapshots[s - 1] : null, isWhole = told && told.verdict === "consistent";
  const cut = s && told.verdict !== "not issued" ? (who) => { const turn = cutOf(s, unitOf.get(who)); return turn < 0 ? edge(T) + 6 : edge(turn); } : null;
  const units = view.shown.filter((who) => unitOf.has(who)), half = view.width * 0.28;
  const along = (height) => { context.beginPath(); units.forEach((who, i) => { const x = xs[who], v = clamp(height(who)); i ? context.lineTo(x - half, v) : context.moveTo(x - half, v); context.lineTo(x + half, v); }); };
  if (cut && units.length) {
    along(cut);
    context.lineTo(xs[units[units.length - 1]] + half, -10); context.lineTo(xs[units[0]] - half, -10); context.closePath();
    context.fillStyle = isWhole ? c.shade : c["shade-failed"]; context.fill();
  }
  if (state.turn) { const v = at(state.turn - 1), tall = Math.max(2, k); context.fillStyle = c.now; context.fillRect(left, v - tall / 2, w, tall); }
  for (const fold of folds) { context.fillStyle = c.faint; context.fillRect(left, edge(fold.from) + 1, w, FOLD * k - 2); }
  for (const who of view.shown) { context.strokeStyle = unitOf.has(who) ? c.line : c.faint; context.lineWidth = 1.2; context.beginPath(); context.moveTo(xs[who], Math.max(0, y)); context.lineTo(xs[who], Math.min(h, edge(T))); context.stroke(); }
  const few = rowOf(to) - rowOf(from) <= MANY;
  if (few) { context.globalAlpha = isNarrowed(told) ? 0.3 : 1; arrows(context, c, from, to, k, at); context.globalAlpha = 1; }
  else density(context, c, from, to, k, y, h);
  for (const [look, marked] of marks(s, told)) marksOf(context, c, look, marked, k, at, h, few);
  if (cut && units.length) {
    along(cut);
    context.setLineDash([7, 4]); context.strokeStyle = isWhole ? c.consistent : c.dim; context.lineWidth = 2.2; context.stroke(); context.setLineDash([]);
  }
  const found = readingOf(state.poll);
  if (found && units.length) {
    along((who) => edge(found.of.get(who)));
    context.setLineDash([2, 3]); context.strokeStyle = c.poll; context.lineWidth = 2.2; context.stroke(); context.setLineDash([]);
  }
  if (few && k >= 5) dots(context, c, from, to, k, at, s, told);
  const here = { left, w, h, k, at, from, to, y, taken: [], lines: few ? [...segments] : [] };
  writeLabels(context, c, here, told, cut, found, units, half);
  context.restore();
  rows(context, c, from, to, k, at, h);
}
// What is written in the diagram: at the turns that are pointed at, at the cut and the reading, and at the edges.
function writeLabels(context, c, here, told, cut, found, units, half) {
  const xs = view.xs;
  if (cut) units.forEach((who, i) => {
    const v = clamp(cut(who)), before = units[i - 1];
    here.lines.push([-1, xs[who] - half, v, xs[who] + half, v]);
    if (i) here.lines.push([-1, xs[before] + half, clamp(cut(before)), xs[who] - half, v]);
  });
  const spots = told && told.turn !== null && told.unit >= 0 ? spotsOf(told) : [];
  const seen = spots.filter((spot) => isSeen(here, spot)), own = new Set(told ? [told.message, told.causeMessage, ...told.steps.map((step) => step[2])] : []);
  here.isTold = (m) => own.has(m);
  edges = [];
  for (const spot of spots) if (here.at(spot.turn) < 0) edgeMark(context, c, spot, here);
  for (const spot of [...spots].reverse()) if (here.at(spot.turn) > here.h) edgeMark(context, c, spot, here);
  for (const { box } of edges) here.taken.push(box);
  for (const [m, , , x, y] of here.lines) if (m >= 0 && own.has(m) && isLost(m)) here.taken.push([x - 8, y - 8, x + 8, y + 8]);
  for (const spot of seen) spotMark(context, c, spot, here);
  for (const spot of seen) {
    here.side = spot.side;
    const written = label(context, spot.said, [spot.end ? endsOf(spot.lost, here.at, here.k).slice(2, 4) : [xs[spot.who], here.at(spot.turn)]], c[spot.colour], c.paper, here);
    here.above = spot.side ? null : written;
  }
  here.above = here.side = null;
  names(context, c, cut, found, units, half, here);
}
// Whether only what is involved in a failed snapshot is shown: then what the snapshot tells of is thick, and all else thin.
const isNarrowed = (told) => state.focus && told && !["consistent", "not issued"].includes(told.verdict);
// What is drawn over all else: what was in flight, what is at fault, the chosen packet.
function marks(s, told) {
  const found = [];
  const add = (m, name, wide) => { const key = `${name} ${wide}`; const there = found.find(([look]) => look === key); if (there) there[1].push(m); else found.push([key, [m]]); };
  if (s && told.verdict !== "not issued") {
    for (const m of flight(s).slice(0, 4000)) add(m, "flight", isNarrowed(told) ? 0.6 : 2.2);
    if (told.verdict === "miscredited") for (const m of lateOf(s).slice(0, 400)) add(m, "fault", isNarrowed(told) ? 0.8 : 2.6);
    for (const [, , m] of told.steps) if (m !== null && m !== told.message) add(m, "fault", 2.2);
    if (told.message !== null) add(told.message, "fault", 3);
  }
  const read = readingOf(state.poll);
  if (read && read.broken >= 0) add(read.broken, "poll", 3);
  if (state.packet >= 0) for (let i = ofPacket.start[state.packet]; i < ofPacket.start[state.packet + 1]; i++) add(ofPacket.items[i], told && ofPacket.items[i] === told.message ? "fault" : "packet", 3);
  return found;
}
function endsOf(m, at, k) {
  const link = links[column.link[m]], x1 = view.xs[link.source], x2 = view.xs[link.target], y1 = at(put[m]);
  if (column.take[m] >= 0) return [x1, y1, x2, at(column.take[m]), false];
  return [x1, y1, x1 + (x2 - x1) * 0.3, y1 + Math.max(4, k * 0.6), true];
}
// The messages of one look, as one stroke.
function marksOf(context, c, look, marked, k, at, h, few) {
  const [name, wide] = look.split(" "), drawn = [];
  context.strokeStyle = context.fillStyle = c[name]; context.lineWidth = Number(wide);
  context.beginPath();
  for (const m of marked) {
    const [x1, y1, x2, y2, stub] = endsOf(m, at, k);
    if (Number.isNaN(x1) || Number.isNaN(x2) || Math.max(y1, y2) < -20 || Math.min(y1, y2) > h + 20) continue;
    context.moveTo(x1, y1); context.lineTo(x2, y2);
    segments.push([m, x1, y1, x2, y2]); drawn.push([m, x1, y1, x2, y2, stub]);
  }
  context.stroke();
  for (const [m, x1, y1, x2, y2, stub] of drawn) { if (!stub && few) tipOf(context, x1, y1, x2, y2, 5); if (isLost(m)) cross(context, x2, y2, 4.5); }
}
function cross(context, x, y, r) { context.beginPath(); context.moveTo(x - r, y - r); context.lineTo(x + r, y + r); context.moveTo(x - r, y + r); context.lineTo(x + r, y - r); context.stroke(); }
function tipOf(context, x1, y1, x2, y2, gap) {
  const far = Math.max(1, Math.hypot(x2 - x1, y2 - y1)), ux = (x2 - x1) / far, uy = (y2 - y1) / far, tx = x2 - ux * gap, ty = y2 - uy * gap, bx = tx - ux * 7, by = ty - uy * 7;
  context.beginPath(); context.moveTo(tx, ty); context.lineTo(bx - uy * 3.2, by + ux * 3.2); context.lineTo(bx + uy * 3.2, by - ux * 3.2); context.closePath(); context.fill();
}
// The messages that are put or taken in these turns, or lie on a link all that time.
function each(from, to, call) {
  for (let m = first[from]; m < first[to]; m++) call(m);
  for (let t = from; t < to; t++) { const m = took[t]; if (m >= 0 && put[m] < from) call(m); }
  for (let l = 0; l < L; l++) {
    if (Number.isNaN(view.xs[links[l].source]) || Number.isNaN(view.xs[links[l].target])) continue;
    const [a, b] = held(l, from);
    for (let i = lower(a, b, to, (j) => takeOf(onLink.items[j])); i < b && takeOf(onLink.items[i]) < NEVER; i++) call(onLink.items[i]);
  }
}
function arrows(context, c, from, to, k, at) {
  const paths = { collect: [], spread: [], data: [] };
  const drawn = new Set(), isFolded = (m) => foldAt(put[m]) && (column.take[m] < 0 || foldAt(column.take[m]));
  const add = (m) => { const link = links[column.link[m]]; if (!Number.isNaN(view.xs[link.source]) && !Number.isNaN(view.xs[link.target])) paths[colourOf[kindOf(m)]].push(m); };
  if (!folds.length) each(from, to, add);
  else for (const [a, b] of stretches(from, to)) each(a, b, (m) => { if (!drawn.has(m) && !isFolded(m)) add(m); drawn.add(m); });
  for (const name of ["collect", "spread", "data"]) {
    context.strokeStyle = context.fillStyle = c[name]; context.lineWidth = name === "collect" ? 1 : k >= 5 ? 1.5 : 1;
    const crosses = [], tips = [];
    context.beginPath();
    for (const m of paths[name]) {
      const [x1, y1, x2, y2, stub] = endsOf(m, at, k);
      context.moveTo(x1, y1); context.lineTo(x2, y2);
      if (k >= 5) segments.push([m, x1, y1, x2, y2]);
      if (isLost(m)) crosses.push([x2, y2]); else if (!stub && k >= 5) tips.push([x1, y1, x2, y2]);
    }
    context.stroke();
    for (const [x1, y1, x2, y2] of tips) tipOf(context, x1, y1, x2, y2, 5);
    context.lineWidth = 2;
    if (k >= 1.5) for (const [x, y] of crosses) cross(context, x, y, 4);
  }
}
// Too many turns for arrows: where each actor did something.
let sheet = null;
function density(context, c, from, to, k, y, h) {
  const width = view.shown.length * 4, high = Math.max(1, Math.ceil(h));
  if (!sheet || sheet.canvas.width !== width || sheet.canvas.height !== high) {
    const canvas = document.createElement("canvas"); canvas.width = width; canvas.height = high;
    sheet = { canvas, context: canvas.getContext("2d") };
    sheet.image = sheet.context.createImageData(width, high); sheet.pixels = new Uint32Array(sheet.image.data.buffer);
  }
  const key = [from, to, k, y, folds.length, ...view.shown].join();
  if (sheet.key !== key) { sheet.key = key; fill(c, from, to, k, y, high, width); }
  context.imageSmoothingEnabled = false;
  context.drawImage(sheet.canvas, view.gutter + view.pan + view.width * 0.2, 0, view.shown.length * view.width, high);
}
function fill(c, from, to, k, y, high, width) {
  const pixels = sheet.pixels, columnOf = new Int32Array(words.actors.length).fill(-1);
  view.shown.forEach((who, place) => { columnOf[who] = place * 4; });
  pixels.fill(0);
  const hue = (name) => { const rgb = d3.color(c[name]).rgb(); return (255 << 24) | (rgb.b << 16) | (rgb.g << 8) | rgb.r; };
  const shades = words.kinds.map((name, place) => hue(colourOf[place])), plain = hue("collect");
  for (let t = from; t < to; t++) {
    const place = columnOf[actor[t]];
    if (place < 0) continue;
    const row = (y + rowOf(t + 0.5) * k) | 0;
    if (row < 0 || row >= high) continue;
    const m = took[t], kind = m >= 0 ? kindOf(m) : -1, cell = row * width + place;
    if (kind <= KIND.frame && kind >= 0) pixels[cell] = pixels[cell + 1] = shades[kind];
    else if (!pixels[cell + 2]) pixels[cell + 2] = kind < 0 ? plain : shades[kind];
  }
  sheet.context.putImageData(sheet.image, 0, 0);
}
function dots(context, c, from, to, k, at, s, told) {
  const r = Math.min(4, k / 3.2);
  for (const [a, b] of stretches(from, to)) for (let t = a; t < b; t++) {
    const who = actor[t], x = view.xs[who], y = at(t);
    if (Number.isNaN(x)) continue;
    const unit = unitOf.get(who);
    context.beginPath();
    if (unit === undefined) { context.fillStyle = c.collect; context.arc(x, y, r * 0.8, 0, 7); context.fill(); continue; }
    const cut = s && told.verdict !== "not issued" ? cutOf(s, unit) : -2;
    if (t === cut) { const d = r + 2.5; context.moveTo(x, y - d); context.lineTo(x + d, y); context.lineTo(x, y + d); context.lineTo(x - d, y); context.closePath(); context.fillStyle = column.id[t] > s ? c.fault : told.verdict === "consistent" ? c.consistent : c.dim; context.fill(); continue; }
    context.arc(x, y, r, 0, 7);
    context.lineWidth = 1.5; context.strokeStyle = c.ink;
    if (cut >= 0 && t > cut) { context.fillStyle = c.ink; context.fill(); } else { context.fillStyle = c.paper; context.fill(); context.stroke(); }
  }
}
// The turns that are pointed at: the one that the snapshot failed by, and the one that it came of.
function spotsOf(told) {
  const ends = (m) => { const link = links[column.link[m]]; return Number.isNaN(view.xs[link.source]) ? link.target : link.source; };
  const isPending = told.verdict === "pending", lost = isPending && told.message !== null, spots = [];
  const more = told.verdict === "miscredited" ? lateOf(state.snapshot).length - 1 : 0;
  const said = { skipped: `skips ${state.snapshot}`, miscredited: more > 0 && isNarrowed(told) ? `too late, and ${more} more` : "too late", pending: lost ? "lost here" : "waits" }[told.verdict];
  if (told.verdict === "miscredited") spots.push({ turn: told.moved, who: told.unit, said: `moved on to ${column.id[told.moved]}`, cross: false, colour: "fault" });
  spots.push({ turn: told.turn, who: lost ? ends(told.message) : told.unit, said, cross: lost && isHidden(told.message), colour: isPending && !lost ? "pending" : "fault", lost: lost ? told.message : null });
  for (const [, , lost] of told.steps) if (lost !== null && lost !== told.causeMessage && isLost(lost) && told.keys.includes(put[lost])) spots.push({ turn: put[lost], who: ends(lost), said: told.verdict === "miscredited" ? "lost here" : "lost too", cross: isHidden(lost), colour: "fault", lost });
  const m = told.causeMessage;
  if (m !== null && told.causeTurn !== null && told.causeTurn !== told.turn) spots.push({ turn: told.causeTurn, who: ends(m), said: isLost(m) ? "lost here" : "sent here", cross: isLost(m) && isHidden(m), colour: "fault" });
  // Of two that were lost in one turn it is said for whom each was.
  const twice = spots.filter((spot) => spots.some((other) => other !== spot && other.turn === spot.turn));
  for (const [i, spot] of twice.entries()) if (spot.lost !== null && spot.lost !== undefined) { spot.side = i % 2 ? -1 : 1; spot.said += `: to ${nameOf(links[column.link[spot.lost]].target)}`; spot.end = !isHidden(spot.lost); }
  return spots.sort((a, b) => a.turn - b.turn);
}
// Whether a message isn't drawn, as the column of its sender isn't there.
const isHidden = (m) => Number.isNaN(view.xs[links[column.link[m]].source]);
const isSeen = (here, spot) => here.at(spot.turn) >= 0 && here.at(spot.turn) <= here.h && !Number.isNaN(view.xs[spot.who]);
function spotMark(context, c, spot, here) {
  const x = view.xs[spot.who], y = here.at(spot.turn);
  context.strokeStyle = c[spot.colour]; context.lineWidth = 2.5; context.beginPath(); context.arc(x, y, 10, 0, 7); context.stroke();
  if (spot.cross) cross(context, x, y, 4.5);
  here.taken.push([x - 11, y - 11, x + 11, y + 11]);
}
// The labels that are drawn, and what each means.
let labels = [];
function labelMeaning(said) {
  const k = state.snapshot;
  if (/no cut/.test(said)) return `Snapshot ${k} failed: the line goes through the turns in which the units reached ${k} or went over it, and that is no cut.`;
  if (/^cut .*\?$/.test(said)) return `Snapshot ${k} isn't finished: the line goes through the turns in which the units reached ${k}, and one or a channel of it hasn't.`;
  if (/^cut/.test(said)) return `Cut ${k}: the turns in which the units reached ${k}. What they counted before are the snapshot's values.`;
  if (/^skips/.test(said)) return `The unit goes over ${k} and saves nothing for it.`;
  if (/^too late/.test(said)) return `A packet from before ${k} comes when its unit can't credit it to ${k} any more.${/ more$/.test(said) ? "\nA click lists all of them." : ""}`;
  if (/^moved on/.test(said)) return "Here the unit goes on to a newer number, before the packet has come.";
  return { "lost here": "The message is lost on its way.", "lost too": "One more message is lost that would have brought the number, or a newer one.", "sent here": "The message is sent here.", waits: `The unit still waits for ${k} at the end.` }[said.replace(/: to .*/, "")] || said;
}
// Writes a label where it covers least, beside one of its anchors or above or below it.
const PLACES = [[1, 0], [-1, 0], [1, 1], [1, -1], [-1, 1], [-1, -1], [0, 1], [0, -1], [1, 2], [1, -2], [-1, 2], [-1, -2], [0, 2], [0, -2], [1, 3], [1, -3], [-1, 3], [-1, -3], [0, 3], [0, -3]];
function label(context, said, anchors, fill, ink, here, edge) {
  context.font = 'bold 12px "DejaVu Sans", system-ui, sans-serif';
  const wide = context.measureText(said).width + 10, high = 18, near = here.lines.filter(([, , y1, , y2]) => anchors.some(([, y]) => Math.max(y1, y2) > y - 70 && Math.min(y1, y2) < y + 70));
  let best = null, from = null, least = Infinity, rank = 0;
  for (const [x, y] of anchors) for (const [dx, dy] of PLACES) {
    const l = Math.max(here.left + 2, Math.min(here.w - 2 - wide, x + (dx > 0 ? 15 : dx < 0 ? -15 - wide : -wide / 2))), t = y - high / 2 + dy * 24, box = [l, t, l + wide, t + high];
    let cost = rank++ * 0.5 + (Math.abs(dy) > 1 ? 30 : 0);
    if (here.side && dy * here.side < 1) cost += 150;
    if (t < 1 || t + high > here.h - 1) cost += 1000;
    // Labels of turns stand in the order of their turns.
    if (here.above && t < here.above[1] + high && l < here.above[2] + 160 && l + wide > here.above[0] - 160) cost += 100;
    for (const other of here.taken) if (meets(other, box)) cost += 400;
    for (const [m, x1, y1, x2, y2] of near) if (through({ x1, y1, x2, y2 }, m >= 0 && isLost(m) ? [l - 6, t - 6, l + wide + 6, t + high + 6] : box)) cost += m < 0 ? 40 : here.isTold(m) ? 60 : 12;
    for (const who of view.shown) { const at = view.xs[who]; if (at > l && at < l + wide) cost += 1; }
    if (here.k >= 5) for (let row = Math.floor((t - 6 - here.y) / here.k); row < (t + high + 6 - here.y) / here.k; row++) { const n = Math.floor(turnOf(row + 0.5)), at = n >= here.from && n < here.to ? view.xs[actor[n]] : NaN; if (at > l - 6 && at < l + wide + 6) cost += 25; }
    if (cost < least) { least = cost; best = box; from = [x, y]; }
  }
  here.taken.push(best);
  labels.push({ box: best, said });
  const [l, t] = best;
  // A line to what it names, where it stands apart.
  const close = [Math.max(l, Math.min(l + wide, from[0])), Math.max(t, Math.min(t + high, from[1]))];
  if (!edge && Math.hypot(close[0] - from[0], close[1] - from[1]) > 20) { context.strokeStyle = fill; context.lineWidth = 1.5; context.beginPath(); context.moveTo(...from); context.lineTo(...close); context.stroke(); }
  context.fillStyle = fill; context.fillRect(l, t, wide, high);
  if (edge) { context.strokeStyle = edge; context.lineWidth = 1; context.strokeRect(l + 0.5, t + 0.5, wide - 1, high - 1); }
  context.fillStyle = ink; context.textAlign = "left"; context.textBaseline = "middle"; context.fillText(said, l + 5, t + high / 2 + 0.5); context.textBaseline = "alphabetic";
  return best;
}
// Where a turn that is pointed at lies out of view: its number, with an arrow, at the edge. A click leads there.
let edges = [];
function edgeMark(context, c, spot, here) {
  const y = here.at(spot.turn), up = y < 0;
  if (y >= 0 && y <= here.h) return;
  const said = `${up ? "↑" : "↓"} ${spot.said.replace(/ here\b/, "")} at turn ${spot.turn + 1}`;
  context.font = 'bold 12px "DejaVu Sans", system-ui, sans-serif';
  const wide = context.measureText(said).width + 12, x = view.xs[spot.who], middle = Number.isNaN(x) ? (here.left + here.w) / 2 : x;
  const l = Math.max(here.left + 2, Math.min(here.w - wide - 4, middle - wide / 2));
  // In the order of their turns, one below the other.
  const there = edges.filter((edge) => edge.up === up).length, t = up ? 3 + 22 * there : here.h - 23 - 22 * there;
  edges.push({ box: [l, t, l + wide, t + 20], turn: spot.turn, said, up });
  context.fillStyle = c.paper; context.fillRect(l, t, wide, 20);
  context.strokeStyle = c[spot.colour]; context.lineWidth = 1.5; context.strokeRect(l, t, wide, 20);
  context.fillStyle = c[spot.colour]; context.textAlign = "left"; context.textBaseline = "middle"; context.fillText(said, l + 6, t + 10.5); context.textBaseline = "alphabetic";
}
const edgeAt = (x, y) => edges.find(({ box: [l, t, r, b] }) => x >= l && x <= r && y >= t && y <= b);
// The turns beside the columns, each where there is room.
function rows(context, c, from, to, k, at, h) {
  context.textAlign = "left"; context.textBaseline = "middle"; context.font = '11px "DejaVu Sans Mono", ui-monospace, monospace';
  const step = k >= 12 ? 1 : [2, 5, 10, 20, 50, 100, 200, 500, 1000, 2000, 5000, 10000, 20000, 50000, 100000, 200000].find((n) => n * k >= 22) || 500000;
  // A name that is too long for its room is drawn narrower, and whole.
  const name = (n, x, y) => { const said = turnName(n - 1), room = view.gutter - 12 - x; context.fillText(said, x, y, ...(6.7 * said.length > room ? [room] : [])); };
  context.fillStyle = c.dim;
  for (const fold of folds) context.fillText(`⋮ ${many(fold.to - fold.from, "turn")} folded`, 6, (at(fold.from - 1) + at(fold.to)) / 2, view.gutter - 18);
  for (const [a, b] of stretches(from, to)) for (let n = Math.ceil((a + 1) / step) * step; n <= b; n += step) {
    const y = at(n - 1);
    if (n === state.turn) continue;
    if (k < 12 && state.turn && Math.abs(y - at(state.turn - 1)) < 14) continue;
    context.fillStyle = c.dim; context.fillText(String(n), 6, y);
    if (k >= 12) { context.fillStyle = c.ink; name(n, 6 + 6.7 * (String(n).length + 1), y); }
  }
  if (state.turn) {
    const y = at(state.turn - 1);
    if (y > -10 && y < h + 10) { context.fillStyle = c.now; context.fillRect(0, y - 8, view.gutter - 10, 16); context.fillStyle = c.ink; context.font = `bold ${context.font}`; context.fillText(String(state.turn), 6, y); name(state.turn, 6 + 6.7 * (String(state.turn).length + 1), y); }
  }
  context.textBaseline = "alphabetic";
}
// What is written at the line of a failed snapshot, which is no cut.
const noCut = (verdict) => (verdict === "skipped" ? `no cut: ${state.snapshot} not reached` : `reached ${state.snapshot}: no cut`);
// The names of the cut and of the reading, at either end of their lines.
function names(context, c, cut, found, units, half, here) {
  if (!units.length) return;
  const first = units[0], last = units[units.length - 1], seen = (y) => y > 4 && y < here.h - 4;
  const tag = (said, height, colour) => {
    const ends = [[view.xs[last] + half - 10, height(last)], [view.xs[first] - half + 10, height(first)]].filter(([x, y]) => seen(y) && x > here.left && x < here.w);
    if (ends.length) label(context, said, ends, c.paper, colour, here, colour);
  };
  if (cut) {
    const { verdict } = words.snapshots[state.snapshot - 1];
    tag(verdict === "consistent" ? `cut ${state.snapshot}` : verdict === "pending" ? `cut ${state.snapshot}?` : noCut(verdict), cut, verdict === "consistent" ? c.consistent : c.dim);
  }
  if (found) tag(found.broken < 0 ? "whole reading" : "broken reading", (who) => here.y + rowOf(found.at[unitOf.get(who)]) * here.k, c.poll);
}
