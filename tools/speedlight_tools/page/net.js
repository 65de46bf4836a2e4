// The net.
const svg = d3.select("#picture"), sheetOfNet = svg.append("g");
// Where actors stand, and the links that are drawn outside switches, by their ends.
const places = {}, backOf = new Map();
function drawNet() {
  const { layout } = words;
  const wide = Math.max(layout.width, 300), high = Math.max(layout.height, 300);
  svg.attr("viewBox", `${(layout.width - wide) / 2} ${(layout.height - high) / 2} ${wide} ${high}`).attr("preserveAspectRatio", "xMidYMid meet");
  const layers = Object.fromEntries(["wires", "devices", "inner", "hosts", "messages", "units", "names", "over"].map((name) => [name, sheetOfNet.append("g").attr("class", name)]));
  const peers = {}, named = U <= 24;
  for (const [d, p, e, q] of words.cables) { peers[`${d}.${p}`] = e; peers[`${e}.${q}`] = d; }
  for (const host of words.hosts) peers[`${host.device}.${host.port}`] = `host ${host.name}`;
  const labels = [];
  for (const device of words.devices) {
    const [x, y, r] = layout.devices[device.name];
    const angles = spread(device.ports.map((p) => { const peer = peers[`${device.name}.${p}`], [u, v] = peer.startsWith("host ") ? layout.hosts[peer.slice(5)] : layout.devices[peer]; return Math.atan2(v - y, u - x); }), (named ? 74 : 42) / r);
    const group = layers.devices.append("g").attr("class", "device").attr("data-device", device.name);
    group.append("circle").attr("cx", x).attr("cy", y).attr("r", r);
    layers.names.append("text").attr("class", "name").attr("x", x).attr("y", y - 4).text(device.name);
    const control = layers.names.append("text").attr("class", "told").attr("data-device", device.name).attr("x", x).attr("y", y + 12);
    control.append("tspan");
    control.attr("data-tip", `Messages on the way to or from the control plane of ${device.name}.`);
    places[`control ${device.name}`] = [x, y];
    device.ports.forEach((p, i) => {
      const a = angles[i];
      for (const [side, shift] of [["in", -10.5], ["out", 10.5]]) {
        const who = actorOf.get(`${side} ${device.name}.${p}`), cx = x + r * Math.cos(a) - shift * Math.sin(a), cy = y + r * Math.sin(a) + shift * Math.cos(a);
        places[nameOf(who)] = [cx, cy];
        const unit = layers.units.append("g").attr("class", "unit").attr("data-unit", nameOf(who)).attr("transform", `translate(${cx},${cy})`);
        unit.append("circle").attr("class", "ring").attr("r", 13);
        unit.append("circle").attr("class", "body").attr("r", 9).on("click", () => change({ unit: who, tab: "unit" }))
          .on("mousemove", () => tip(d3.event, unitTip(who))).on("mouseleave", () => tip(null));
        unit.append("text").text("0");
        labels.push({ who, cx, cy, along: a + (Math.sign(shift) * Math.PI) / 2, text: `${side} ${p}`, x, y, r });
      }
    });
  }
  for (const host of words.hosts) {
    const [x, y] = layout.hosts[host.name], wide = Math.max(34, 9 * host.name.length + 12);
    const group = layers.hosts.append("g").attr("class", "host").attr("data-host", host.name);
    group.append("rect").attr("x", x - wide / 2).attr("y", y - 12).attr("width", wide).attr("height", 24).attr("rx", 5);
    group.append("text").attr("x", x).attr("y", y).text(host.name);
    places[`host ${host.name}`] = [x, y];
  }
  links.forEach((link, place) => {
    if (!["cable", "host", "net", "crossbar"].includes(link.sort)) return;
    const [x1, y1] = places[nameOf(link.source)], [x2, y2] = places[nameOf(link.target)];
    const inner = link.sort === "crossbar", [mx, my] = inner ? around(layout.devices[deviceOf(link.source)], x1, y1, x2, y2) : [(x1 + x2) / 2, (y1 + y2) / 2];
    link.drawn = { x1, y1, x2, y2, mx, my };
    if (!inner) backOf.set(endsKey(link.source, link.target), link);
    (inner ? layers.inner : layers.wires).append("path").attr("class", inner ? "wire inner" : "wire").attr("data-link", place).attr("d", `M${x1},${y1}Q${mx},${my} ${x2},${y2}`);
  });
  scaleNames();
  const [wires, rects] = obstacles();
  for (const one of labels) {
    const [x, y] = beside(one, wires, rects, labels);
    if (named) layers.over.append("text").attr("class", "side").attr("x", x).attr("y", y).text(one.text);
    layers.over.append("text").attr("class", "value").attr("data-value", nameOf(one.who)).attr("x", x).attr("y", y);
  }
  layers.over.append("text").attr("class", "culprit");
  const zoomNet = d3.zoom().scaleExtent([0.3, 30]).on("zoom", () => { sheetOfNet.attr("transform", d3.event.transform); scaleNames(d3.event.transform.k); });
  svg.call(zoomNet).on("dblclick.zoom", null);
  $("net-fit").onclick = () => svg.call(zoomNet.transform, d3.zoomIdentity);
}
// The least sizes of names and numbers on the screen, and of each kind its own size and the largest that it has room for. What
// would be smaller is left out: it is there once the net is larger.
const LEAST_TEXT = 10, HIGHEST = column.id.reduce((most, id) => Math.max(most, id), 0);
const least = (count, of) => { let found = Infinity; for (let i = 0; i < count; i++) found = Math.min(found, of(i)); return found; };
const TEXTS = {
  name: [15, least(words.devices.length, (i) => (2 * (words.layout.devices[words.devices[i].name][2] - 14)) / (0.7 * words.devices[i].name.length))],
  host: [12, least(words.hosts.length, (i) => Math.min(20, (Math.max(34, 9 * words.hosts[i].name.length + 12) - 4) / (0.65 * words.hosts[i].name.length)))],
  number: [9.5, HIGHEST < 10 ? 16.5 : 13.5], long: [9.5, 10.5], side: [9.5, 11], value: [10, 14.5], told: [9.5, 12], badge: [10, 16],
};
let zoomed1 = 1;
function scaleNames(by = zoomed1) {
  zoomed1 = by;
  const picture = $("picture"), { width, height } = picture.viewBox.baseVal, scale = by * Math.min(picture.clientWidth / width, picture.clientHeight / height);
  if (!(scale > 0)) return;
  for (const [kind, [own, most]] of Object.entries(TEXTS)) {
    const needed = (kind === "number" || kind === "long" ? LEAST_TEXT - 1 : LEAST_TEXT) / scale;
    picture.style.setProperty(`--${kind}`, `${needed <= most ? Math.max(own, needed) : 0}px`);
  }
  picture.style.setProperty("--ring", `${Math.max(13, 7 / scale)}px`);
  nameCulprit(scale);
}
// The name of the unit at fault, or that waits, where the names of units have no room.
let culprit = -1;
function nameCulprit(scale) {
  const isNamed = U <= 24 && LEAST_TEXT / scale <= TEXTS.side[1];
  const text = svg.select(".culprit"), there = culprit >= 0 && !isNamed ? places[nameOf(culprit)] : null;
  text.style("display", there ? null : "none");
  if (!there) return;
  // Away from its switch.
  const size = 12 / scale, [x, y] = words.layout.devices[deviceOf(culprit)], far = Math.max(1, Math.hypot(there[0] - x, there[1] - y));
  const dx = (there[0] - x) / far, dy = (there[1] - y) / far, off = Math.max(13, 7 / scale) + 0.4 * size;
  const anchor = dx > 0.5 ? "start" : dx < -0.5 ? "end" : "middle";
  text.text(nameOf(culprit)).attr("x", there[0] + dx * off).attr("y", there[1] + dy * (off + 0.3 * size)).style("text-anchor", anchor).style("font-size", `${size}px`).style("stroke-width", `${size / 3}px`);
}
// The middle handle of a link inside a switch, which goes around the name of the switch.
function around([x, y, r], x1, y1, x2, y2) {
  const mx = (x1 + x2) / 2, my = (y1 + y2) / 2, off = Math.hypot(mx - x, my - y), far = Math.max(1, Math.hypot(x2 - x1, y2 - y1));
  if (off > 0.74 * r) return [mx, my];
  let nx = -(y2 - y1) / far, ny = (x2 - x1) / far;
  if ((mx - x) * nx + (my - y) * ny < 0) { nx = -nx; ny = -ny; }
  const push = 2 * (0.74 * r - off);
  return [mx + nx * push, my + ny * push];
}
const deviceOf = (who) => portOf(who).slice(0, portOf(who).lastIndexOf("."));
// The place on a link at this part of its way.
function along({ x1, y1, x2, y2, mx, my }, f) {
  const a = (1 - f) * (1 - f), b = 2 * f * (1 - f), c = f * f;
  return { x: a * x1 + b * mx + c * x2, y: a * y1 + b * my + c * y2 };
}
// What no label should lie on: the links that are drawn, and the boxes of hosts and of the names of switches.
function obstacles() {
  const { layout } = words, wires = links.filter((link) => link.drawn && link.sort !== "crossbar").map((link) => link.drawn);
  const rects = words.hosts.map(({ name }) => { const [x, y] = layout.hosts[name], half = Math.max(34, 9 * name.length + 12) / 2 + 1; return [x - half, y - 13, x + half, y + 13]; });
  for (const { name } of words.devices) { const [x, y] = layout.devices[name]; rects.push([x - 30, y - 14, x + 30, y + 19]); }
  return [wires, rects];
}
const meets = ([l, t, r, b], [l2, t2, r2, b2]) => l < r2 && l2 < r && t < b2 && t2 < b;
// Whether a line goes through a box.
function through({ x1, y1, x2, y2 }, [l, t, r, b]) {
  if (Math.max(x1, x2) < l || Math.min(x1, x2) > r || Math.max(y1, y2) < t || Math.min(y1, y2) > b) return false;
  let low = 0, high = 1;
  for (const [d, from, to] of [[x2 - x1, l - x1, r - x1], [y2 - y1, t - y1, b - y1]]) {
    if (!d) { if (from > 0 || to < 0) return false; continue; }
    low = Math.max(low, Math.min(from / d, to / d)); high = Math.min(high, Math.max(from / d, to / d));
  }
  return low <= high;
}
// The place beside a unit where a label covers least; the first choice is away from the other unit of its port.
const HALF = 16, TALL = 6, TURNS = [0, 0.35, -0.35, 0.7, -0.7, 1.05, -1.05, 1.4, -1.4, 1.9, -1.9, 2.5, -2.5, Math.PI];
function beside(one, allWires, allRects, allLabels) {
  const near = [one.cx - 60, one.cy - 60, one.cx + 60, one.cy + 60];
  const wires = allWires.filter((wire) => through(wire, near)), rects = allRects.filter((rect) => meets(rect, near));
  const labels = allLabels.filter((other) => Math.abs(other.cx - one.cx) < 110 && Math.abs(other.cy - one.cy) < 110);
  let best = null, least = Infinity;
  TURNS.forEach((turn, rank) => {
    const a = one.along + turn, far = 12 + HALF * Math.abs(Math.cos(a)) + TALL * Math.abs(Math.sin(a));
    const x = one.cx + far * Math.cos(a), y = one.cy + far * Math.sin(a), box = [x - HALF, y - TALL, x + HALF, y + TALL];
    const ends = [[box[0], box[1]], [box[2], box[1]], [box[0], box[3]], [box[2], box[3]]].map(([u, v]) => Math.hypot(u - one.x, v - one.y));
    let cost = rank + (Math.min(...ends) > one.r + 1 ? 0 : Math.max(...ends) < one.r ? 8 : 10);
    for (const wire of wires) if (through(wire, box)) cost += 20;
    for (const rect of rects) if (meets(rect, box)) cost += 60;
    for (const other of labels) {
      if (meets([other.cx - 9, other.cy - 9, other.cx + 9, other.cy + 9], box)) cost += 40;
      if (other.box && meets(other.box, box)) cost += 80;
    }
    if (cost < least) { least = cost; best = [x, y, box]; }
  });
  one.box = best[2];
  return best;
}
// Angles at least so far apart, each as near to its own as may be.
function spread(angles, gap) {
  const n = angles.length, order = angles.map((a, i) => i).sort((i, j) => angles[i] - angles[j] || i - j);
  const least = Math.min(gap, (2 * Math.PI) / Math.max(1, n)), at = order.map((i) => angles[i]);
  for (let round = 0; round < 200 && n > 1; round++)
    for (let i = 0; i < n; i++) {
      const j = (i + 1) % n, between = at[j] - at[i] + (j ? 0 : 2 * Math.PI);
      if (between < least) { const push = (least - between) / 2; at[i] -= push; at[j] += push; }
    }
  const found = new Array(n);
  order.forEach((place, i) => { found[place] = at[i]; });
  return found;
}
function unitTip(who) {
  const t = lastTurn(who, state.turn), place = unitOf.get(who), k = state.snapshot;
  let said = `${nameOf(who)}\nnumber ${t < 0 ? 0 : column.id[t]}, ${t < 0 ? 0 : column.packets[t]} packets, ${t < 0 ? 0 : column.bytes[t]} bytes`;
  if (k && words.snapshots[k - 1].verdict === "consistent") { const v = valuesOf(k, place); said += `\nvalue of snapshot ${k}: ${v.packets} packets, ${v.bytes} bytes` + v.channels.filter((ch) => ch.packets).map((ch) => `\nin flight on ${ch.name}: ${ch.packets}`).join(""); }
  return said;
}
let drawnIds = new Float64Array(U).fill(-1), drawnNet = "", drawnActing = -1, drawnChosen = "";
// What changes with the chosen snapshot and packet alone: the values, and the way of the packet.
function drawChosen(k, told) {
  culprit = told && told.verdict !== "consistent" ? told.unit : -1;
  svg.select(".culprit").attr("class", `culprit ${told && waits(told) ? "waits" : "failed"}`);
  scaleNames();
  svg.selectAll(".side").style("display", told && told.verdict === "consistent" ? "none" : null);
  svg.selectAll(".value").each(function () {
    this.textContent = "";
    if (!told || told.verdict !== "consistent") return;
    const value = valuesOf(k, unitOf.get(actorOf.get(this.dataset.value))), inside = value.channels.reduce((sum, c) => sum + (links[c.link].sort === "crossbar" ? c.packets : 0), 0);
    this.append(String(value.packets));
    if (inside) d3.select(this).append("tspan").attr("class", "flying").text(` +${inside}`);
  });
  const path = new Set();
  if (state.packet >= 0) for (let i = ofPacket.start[state.packet]; i < ofPacket.start[state.packet + 1]; i++) path.add(column.link[ofPacket.items[i]]);
  svg.selectAll(".wire").attr("class", function () { const l = Number(this.dataset.link), inner = links[l].sort === "crossbar"; return `wire${inner ? " inner" : ""}${path.has(l) ? " path" : ""}`; });
}
function updateNet() {
  const now = state.turn, k = state.snapshot, told = k ? words.snapshots[k - 1] : null;
  const key = [now, k, state.packet, state.unit].join();
  if (key === drawnNet) return;
  drawnNet = key;
  $("net-turn").textContent = now;
  const acting = now ? actor[now - 1] : -1;
  svg.selectAll(".unit").each(function (_, place) {
    const who = actorOf.get(this.dataset.unit), id = idAt(who, now), unit = unitOf.get(who);
    if (drawnIds[unit] !== id) { drawnIds[unit] = id; this.children[1].setAttribute("fill", `var(--id${id % 8})`); this.children[2].textContent = id > 999 ? `…${String(id % 100).padStart(2, "0")}` : id; this.children[2].classList.toggle("long", id > 99); }
    const reached = k && cutOf(k, unit) >= 0 && cutOf(k, unit) < now && told.verdict !== "not issued";
    const name = `unit${reached ? " reached" : k ? " short" : ""}${told && told.verdict !== "consistent" && told.unit === who ? (waits(told) ? " waiting" : " fault") : ""}${who === acting ? " acting" : ""}${who === state.unit ? " chosen" : ""}`;
    if (this.getAttribute("class") !== name) this.setAttribute("class", name);
  });
  const chosen = [k, state.packet].join();
  if (acting !== drawnActing) {
    drawnActing = acting;
    svg.selectAll(".host").attr("class", function () { return actorOf.get(`host ${this.dataset.host}`) === acting ? "host acting" : "host"; });
    svg.selectAll(".device").attr("class", function () { return actorOf.get(`control ${this.dataset.device}`) === acting ? "device acting" : "device"; });
  }
  if (chosen !== drawnChosen) { drawnChosen = chosen; drawChosen(k, told); }
  drawMessages(now, told);
}
function drawMessages(now, told) {
  const dots = [], badges = [], control = {};
  for (let l = 0; l < L; l++) {
    const link = links[l], [a, b] = held(l, now);
    if (!link.drawn) {
      if (a < b) { const name = link.sort === "init" ? nameOf(link.source) : nameOf(link.sort === "notice" || link.sort === "dump" || link.sort === "begin" ? link.target : link.source); control[name] = (control[name] || 0) + b - a; }
      continue;
    }
    if (a === b) continue;
    const { x1, y1, x2, y2 } = link.drawn, inner = link.sort === "crossbar", few = Math.min(b - a, inner ? 1 : 4), far = Math.hypot(x2 - x1, y2 - y1);
    for (let i = 0; i < few; i++) {
      const m = onLink.items[a + i], f = inner ? Math.max(0.5, 1 - 15 / Math.max(1, far)) : 1 - (i + 1) / (few + 1);
      dots.push({ m, ...along(link.drawn, f), r: inner ? 3 : 5 });
    }
    if (b - a > few && !inner) badges.push({ ...away(link, 0.5, 8), text: String(b - a), colour: "ink" });
  }
  if (now) for (let m = first[now - 1]; m < first[now]; m++) if (isLost(m)) { const at = lossPlace(m); if (at) dots.push({ m, ...at, r: 6, lost: true }); }
  for (const m of told ? new Set([told.message, told.causeMessage]) : []) if (m !== null && isLost(m) && !(now && put[m] === now - 1)) { const at = lossPlace(m); if (at) dots.push({ m, ...at, r: 6, lost: true }); }
  if (told && told.verdict === "consistent") {
    const counts = new Map();
    for (const m of flight(state.snapshot)) counts.set(column.link[m], (counts.get(column.link[m]) || 0) + 1);
    for (const [l, n] of counts) if (links[l].sort === "cable") badges.push({ ...away(links[l], 0.62, 30), text: `${n} in flight`, colour: "flight" });
  }
  const layer = sheetOfNet.select(".messages");
  const joined = layer.selectAll("g").data(dots);
  joined.exit().remove();
  const entered = joined.enter().append("g");
  entered.append("circle"); entered.append("path");
  entered.merge(joined).each(function (d) {
    const c = d.lost ? "fault" : column.packet[d.m] === state.packet && state.packet >= 0 ? "packet" : colourOf[kindOf(d.m)];
    this.setAttribute("transform", `translate(${d.x},${d.y})`);
    const [circle, path] = this.children;
    circle.setAttribute("r", d.lost ? 0 : d.r); circle.setAttribute("fill", `var(--${c})`); circle.setAttribute("stroke", "var(--paper)");
    path.setAttribute("d", d.lost ? "M-6,-6L6,6M-6,6L6,-6" : ""); path.setAttribute("stroke", `var(--${c})`); path.setAttribute("stroke-width", 3);
    this.onclick = () => { if (column.packet[d.m] >= 0) change({ packet: column.packet[d.m], tab: "packet" }); };
    this.onmousemove = (event) => tip(event, `${messageName(d.m)}\nfrom ${nameOf(links[column.link[d.m]].source)} ${wayOf(d.m)}${d.lost ? ", lost" : ""}`);
    this.onmouseleave = () => tip(null);
  });
  const told2 = sheetOfNet.select(".over").selectAll(".badge").data(badges);
  told2.exit().remove();
  told2.enter().append("text").attr("class", "badge").merge(told2).attr("x", (d) => d.x).attr("y", (d) => d.y).text((d) => d.text).style("fill", (d) => `var(--${d.colour})`);
  svg.selectAll(".told").each(function () { const n = control[`control ${this.dataset.device}`], said = n ? `control: ${n}` : ""; if (this.firstChild.textContent !== said) this.firstChild.textContent = said; });
}
// A place beside a link, away from the link that goes back, for a text of this half width.
function away(link, f, half) {
  const { x1, y1, x2, y2 } = link.drawn, far = Math.max(1, Math.hypot(x2 - x1, y2 - y1)), back = backOf.get(endsKey(link.target, link.source));
  let nx = -(y2 - y1) / far, ny = (x2 - x1) / far;
  if (back && back !== link) { const bx = (back.drawn.x1 + back.drawn.x2 - x1 - x2) / 2, by = (back.drawn.y1 + back.drawn.y2 - y1 - y2) / 2; if (bx * nx + by * ny > 0) { nx = -nx; ny = -ny; } }
  const off = 8 + half * Math.abs(nx) + 5 * Math.abs(ny);
  return { x: x1 + (x2 - x1) * f + nx * off, y: y1 + (y2 - y1) * f + ny * off };
}
const portOf = (who) => nameOf(who).slice(nameOf(who).indexOf(" ") + 1);
const endsKey = (from, to) => `${portOf(from)} ${portOf(to)}`;
function lossPlace(m) {
  const link = links[column.link[m]];
  if (link.drawn) return along(link.drawn, 0.4);
  // Between a control plane and a unit, near the unit.
  const ends = [places[nameOf(link.source)], places[nameOf(link.target)]], [a, b] = unitOf.has(link.target) ? ends : ends.reverse();
  if (!a || !b) return null;
  const f = 1 - 18 / Math.max(18, Math.hypot(b[0] - a[0], b[1] - a[1]));
  return { x: a[0] + (b[0] - a[0]) * f, y: a[1] + (b[1] - a[1]) * f };
}
