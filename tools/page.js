"use strict";
// The page of a trace: `trace` is what tools/page wrote before this.
const cells = trace.cells.map(([name, kind, comp, arena, slot, fields, target], id) =>
  ({ id, name, kind, comp, arena, slot, fields, target, spot: null }));
const steps = trace.steps.map(([line, text, why, changes]) => ({ line, text, why, changes, undo: [] }));
const REGISTERS = Array.from({ length: 16 }, (_, n) => `r${n}`);
const SLOTS = Array.from({ length: 64 }, (_, n) => `g${n}`);
const WEAK_SLOTS = Array.from({ length: 64 }, (_, n) => `q${n}`);
const KINDS = { o: "object", m: "weak map", w: "wrapper" };
const STATES = {
  b: ["black", "Registers led to it when its zone was last collected, or it was made or read since."],
  g: ["gray", "Only gray slots led to it when its zone was last collected."],
  p: ["not marked yet", "Its zone is being prepared: marks are cleared, and it has no colour until marking begins."],
  B: ["sure to be black", "The snapshot leads to it from a black start or from a woken cell. It will be kept."],
  G: ["gray so far", "Only gray starts lead to it in the snapshot. It ends gray, or black if something wakes it."],
  W: ["not reached", "The snapshot does not lead to it. It is freed, unless it is a wrapper and wrap finds it."],
  d: ["dead", "Nothing reached it. Its slot is free again when its arena is swept."],
};
const STAR = '<path class="woken" d="M23 3 25 9 31 11 25 13 23 19 21 13 15 11 21 9z"/>';
const LARGE = 250;
const BY_ID = name => document.getElementById(name);

// ---- The picture after each step: a map from keys to values (tools/world.py says which keys there are).
const picture = new Map();
let at = 0;

function each(pairs, act) {
  for (let index = 0; index < pairs.length; index += 2) act(pairs[index], pairs[index + 1]);
}
const value = key => picture.get(key) ?? null;
const isState = key => key[0] === "s" && key !== "since";
const stateOf = id => value(`s${id}`) || "";
const isPresent = id => "bgpBGW".includes(stateOf(id) || "-");
const zoneOf = id => value(`k${cells[id].comp}`);
// The arena and the slot of a cell, which compaction may have moved.
const placeOf = id => value(`p${id}`) ?? [cells[id].arena, cells[id].slot];
const hasName = (id, name) => isPresent(id) && cells[id].name === name;

function goForward() {
  each(steps[at].changes, (key, to) => picture.set(key, to));
  at += 1;
}
function goBack() {
  at -= 1;
  each(steps[at].undo, (key, to) => picture.set(key, to));
}
function moveTo(step) {
  while (at < step) goForward();
  while (at > step) goBack();
}

// ---- What is found once, going through all steps: undo, the spots of cells, and the timeline.
const comps = new Map();
const zones = new Map();
const spans = { rows: new Map(), units: [] };

function neighbours() {
  const found = cells.map(() => null);
  const pair = (one, other) => {
    const [young, old] = one > other ? [one, other] : [other, one];
    if (young !== old && found[young] === null && cells[young].comp === cells[old].comp) found[young] = old;
  };
  for (const step of steps) {
    each(step.changes, (key, to) => {
      if (to === null || (key[0] !== "f" && key[0] !== "e")) return;
      const [owner, other] = key.slice(1).split(".").map(Number);
      pair(owner, to);
      if (key[0] === "e") { pair(owner, other); pair(other, to) }
    });
  }
  return found;
}

function mostAtOnce() {
  const now = new Map(), alive = new Set();
  const count = (map, key, by) => {
    map.now += by;
    map.most = Math.max(map.most, map.now);
  };
  for (const step of steps) {
    each(step.changes, (key, to) => {
      if (key[0] === "k") {
        comps.set(Number(key.slice(1)), { zone: to, now: 0, most: 0, taken: new Map(), rows: 1 });
        zones.get(to).comps.push(Number(key.slice(1)));
      }
      if (key[0] === "z" && key !== "zones" && !zones.has(Number(key.slice(1)))) {
        zones.set(Number(key.slice(1)), { comps: [], arenas: [], now: 0, most: 0 });
      }
      if (key[0] === "a" && to !== null) {
        const owned = zones.get(to).arenas, arena = Number(key.slice(1));
        if (!owned.includes(arena)) owned.push(arena);
      }
    });
    each(step.changes, (key, to) => {
      if (!isState(key)) return;
      const id = Number(key.slice(1)), is = to !== "";
      if (alive.has(id) === is) return;
      alive[is ? "add" : "delete"](id);
      const comp = comps.get(cells[id].comp);
      count(comp, id, is ? 1 : -1);
      count(zones.get(comp.zone), id, is ? 1 : -1);
    });
  }
  for (const comp of comps.values()) {
    comp.columns = Math.min(10, Math.max(3, Math.round(Math.sqrt(comp.most * 1.5))));
    comp.wanted = Math.ceil(comp.most / comp.columns) + 1;
    comp.pitch = comp.most > 30 ? [62, 46] : [92, 64];
  }
}

// The free spot for a cell: as near as can be to the right of its neighbour, or else the first of the even columns.
function freeSpot(comp, near) {
  if (near === null) {
    const order = [...Array(comp.columns).keys()].sort((one, other) => one % 2 - other % 2 || one - other);
    for (const column of order) {
      for (let row = 0; row < comp.wanted; row++) if (!comp.taken.has(`${column} ${row}`)) return [column, row];
    }
  }
  const [column, row] = near ? [near[0] + 1, near[1]] : [0, comp.wanted];
  let best = null, least = Infinity;
  for (let r = 0; r <= comp.rows + 1; r++) {
    for (let c = 0; c < comp.columns; c++) {
      const far = (c - column) ** 2 + 1.5 * (r - row) ** 2;
      if (far < least && !comp.taken.has(`${c} ${r}`)) { least = far; best = [c, r] }
    }
  }
  return best;
}

function placeCell(id, near) {
  const comp = comps.get(cells[id].comp);
  const other = near[id] === null ? null : cells[near[id]].spot;
  const spot = freeSpot(comp, other);
  comp.taken.set(spot.join(" "), id);
  comp.rows = Math.max(comp.rows, spot[1] + 1);
  cells[id].spot = spot;
}

function row(zone) {
  if (!spans.rows.has(zone)) spans.rows.set(zone, []);
  return spans.rows.get(zone);
}
function openSpan(zone, kind) {
  return row(zone).findLast(span => span.kind === kind && span.to === null);
}
function noteSpans(step, index) {
  each(step.changes, (key, to) => {
    if (key[0] === "z" && key !== "zones") {
      const zone = Number(key.slice(1)), prepared = openSpan(zone, "preparing"), open = openSpan(zone, "marking");
      if (to === "p" && !prepared) row(zone).push({ kind: "preparing", from: index, to: null, ticks: [] });
      if (to !== "p" && prepared) prepared.to = index + 1;
      if (to === "m" && !open) row(zone).push({ kind: "marking", from: index + 1, to: null, ticks: [] });
      if (to !== "m" && open) {
        open.to = index + 1;
        if (to !== "e") return;
        const groups = value("groups").split(" | ");
        const group = groups.findIndex(text => text.split(" ").includes(`${zone}`));
        open.group = `, group ${group + 1} of ${groups.length}`;
      }
    }
  });
  each(step.changes, (key, to) => {
    if (key[0] !== "o") return;
    const arena = Number(key.slice(1)), zone = value(`a${arena}`);
    let open = openSpan(zone, "sweeping");
    if (to === 1 && !open) {
      open = { kind: "sweeping", from: index + 1, to: null, arenas: [], ticks: [] };
      row(zone).push(open);
    }
    if (to === 1) open.arenas.push(arena);
    if (to === 0 && open && open.arenas.includes(arena)) {
      open.ticks.push([index + 1, arena]);
      if (open.ticks.length === open.arenas.length) open.to = index + 1;
    }
  });
  const told = /^slice (\d+)$/.exec(step.text);
  if (told) spans.units.push({ step: index, line: step.line, count: Number(told[1]) });
}

function survey() {
  const near = neighbours();
  mostAtOnce();
  steps.forEach((step, index) => {
    each(step.changes, (key, to) => {
      step.undo.unshift(key, value(key));
      picture.set(key, to);
    });
    each(step.changes, (key, to) => {
      if (!isState(key)) return;
      const id = Number(key.slice(1));
      if (to && !cells[id].spot) placeCell(id, near);
      if (!to && cells[id].spot) comps.get(cells[id].comp).taken.delete(cells[id].spot.join(" "));
    });
    noteSpans(step, index);
  });
  at = steps.length;
  for (const list of spans.rows.values()) for (const span of list) span.to ??= steps.length;
  moveTo(0);
}

// ---- Where everything is drawn.
const folded = new Set();
const layout = { zones: new Map(), comps: new Map(), arenas: new Map(), width: 0, height: 0, scale: 1 };

// Puts boxes, each with a width and a height, into rows; returns the size of them all.
function flow(boxes, widest, gap) {
  let x = 0, y = 0, high = 0, wide = 0;
  for (const box of boxes) {
    if (x > 0 && x + box.width > widest) { x = 0; y += high + gap; high = 0 }
    box.x = x;
    box.y = y;
    x += box.width + gap;
    high = Math.max(high, box.height);
    wide = Math.max(wide, x - gap);
  }
  return [wide, y + high];
}

function compBox(number) {
  const comp = comps.get(number), [wide, high] = comp.pitch;
  return { number, width: comp.columns * wide + 12, height: comp.rows * high + 26, map: layout.comps };
}
const arenaBox = number => ({ number, width: 142, height: 54, map: layout.arenas });

function arrange(width) {
  const boxes = [...zones].sort(([one], [other]) => one - other).map(([number, zone]) => {
    const inner = folded.has(number) ? zone.arenas.map(arenaBox) : zone.comps.map(compBox);
    const [wide, high] = flow(inner, width - 50, 10);
    return { number, inner, width: Math.max(wide, 230) + 20, height: high + 42 };
  });
  const [wide, high] = flow(boxes, width - 20, 14);
  layout.comps.clear();
  layout.arenas.clear();
  for (const box of boxes) {
    box.x += 10;
    box.y += 10;
    layout.zones.set(box.number, box);
    for (const part of box.inner) {
      part.map.set(part.number, { ...part, x: box.x + part.x + 10, y: box.y + part.y + 32 });
    }
  }
  layout.width = wide + 20;
  layout.height = high + 20;
  layout.scale = Math.max(1, Math.min(1.4, width / layout.width));
}

// The middle of a cell, and how far it reaches to each side.
function spotOf(id) {
  const cell = cells[id];
  if (folded.has(comps.get(cell.comp).zone)) {
    const [arena, slot] = placeOf(id), box = layout.arenas.get(arena);
    return [box.x + 11 + slot % 16 * 8, box.y + 22 + Math.floor(slot / 16) * 8, 4, 4];
  }
  const box = layout.comps.get(cell.comp), [wide, high] = comps.get(cell.comp).pitch;
  return [box.x + 6 + (cell.spot[0] + 0.5) * wide, box.y + 22 + (cell.spot[1] + 0.5) * high + 4, 25, 13];
}

// ---- Ways through the graph.
function* edgesFrom(id, get) {
  const cell = cells[id];
  for (let field = 0; field < cell.fields; field++) {
    const to = get(`f${id}.${field}`);
    if (to !== null) yield { to, how: cell.fields > 1 ? `field ${field}` : "its field", kind: "field", field };
  }
  if (cell.target !== null) yield { to: cell.target, how: "its target", kind: "wrapper" };
}

// What two cells hold together: map and key the value of an entry, and map and delegate its key.
function pairsOf(get, keys) {
  const found = [];
  for (const { map, key, to } of entriesOf(get, keys)) {
    const [kept, owner, delegate] = [cells[key].name, cells[map].name, cells[key].target];
    found.push([map, key, to, `its entry with key ${kept}`], [key, map, to, `as key in map ${owner}`]);
    if (delegate !== null) {
      found.push([map, delegate, key, "key of its entry"], [delegate, map, key, `behind its key in map ${owner}`]);
    }
  }
  return found;
}

function entriesOf(get, keys) {
  const found = [];
  for (const key of keys) {
    const to = key[0] === "e" ? get(key) : null;
    if (to !== null) {
      const [map, held] = key.slice(1).split(".").map(Number);
      found.push({ map, key: held, to });
    }
  }
  return found;
}

// From these starts, each with what it is, the shortest way to a cell: the starts' text and the steps, or null.
function wayTo(goal, starts, get, keys) {
  const reached = new Map(), queue = [], byEnd = new Map();
  for (const [end, ...rest] of pairsOf(get, keys)) byEnd.set(end, [...(byEnd.get(end) ?? []), rest]);
  const reach = (id, from) => {
    if (!reached.has(id)) { reached.set(id, from); queue.push(id) }
  };
  for (const [id, text] of starts) reach(id, { start: text });
  for (let index = 0; index < queue.length && !reached.has(goal); index++) {
    const id = queue[index];
    for (const edge of edgesFrom(id, get)) reach(edge.to, { from: id, how: edge.how });
    for (const [other, to, how] of byEnd.get(id) ?? []) if (reached.has(other)) reach(to, { from: id, how });
  }
  if (!reached.has(goal)) return null;
  const way = [];
  let id = goal, from = reached.get(goal);
  for (; from.start === undefined; from = reached.get(id)) {
    way.unshift({ from: from.from, to: id, how: from.how });
    id = from.from;
  }
  return { start: from.start, first: id, way };
}

function rootsIn(get, names) {
  return names.filter(name => get(name) !== null).map(name => [get(name), name]);
}

// The picture as it was after a step, as a function and its keys.
function pictureAt(step) {
  const here = at;
  moveTo(step);
  const copy = new Map(picture);
  moveTo(here);
  return [key => copy.get(key) ?? null, copy];
}

// The shortest way to a cell now: from registers, or else from gray slots and what registers hold.
function wayNow(id) {
  const keys = picture.keys.bind(picture), black = wayTo(id, rootsIn(value, REGISTERS), value, keys());
  if (black) return { ...black, isGray: false };
  const live = wayTo(id, rootsIn(value, [...SLOTS, ...REGISTERS]), value, keys());
  return live && { ...live, isGray: true };
}

// The shortest way to a cell in the snapshot of the collection: from its black starts and woken cells, or else from
// its live starts.
function wayInSnapshot(id) {
  const [get, copy] = pictureAt(value("since"));
  const outside = cells.filter(cell => !value("zones").includes(get(`k${cell.comp}`)));
  const left = states => outside.filter(cell => states.includes(get(`s${cell.id}`) || "-"))
    .map(cell => [cell.id, `not collected: ${cells[cell.id].name}`]);
  const woken = cells.filter(cell => value(`w${cell.id}`)).map(cell => [cell.id, `woken: ${cell.name}`]);
  const black = [...rootsIn(get, REGISTERS), ...left("b"), ...woken];
  return wayTo(id, black, get, copy.keys())
    ?? wayTo(id, [...black, ...rootsIn(get, SLOTS), ...left("bg")], get, copy.keys());
}

const isAnyIn = state => [...zones.keys()].some(zone => value(`z${zone}`) === state);

// ---- Drawing.
const escaped = text => String(text).replace(/[&<>"]/g, sign => `&#${sign.charCodeAt(0)};`);
let chosen = null;

function bodyOf(kind, wide, high) {
  if (kind === "m") {
    const in_ = wide - 9;
    return `<polygon class="body" points="${-wide},0 ${-in_},${-high} ${in_},${-high} ${wide},0 ${in_},${high}`
      + ` ${-in_},${high}"/>`;
  }
  const round = kind === "o" ? ` rx="${high}"` : "";
  return `<rect class="body" x="${-wide}" y="${-high}" width="${2 * wide}" height="${2 * high}"${round}/>`;
}

function cellLook(kind, state, name, woken) {
  const parts = [bodyOf(kind, 25, 13)];
  parts.push(`<text class="name${name.length > 7 ? " long" : ""}" y="4">${escaped(name)}</text>`);
  if (state === "d") parts.push('<path class="cross" d="M-20 -9 20 9M-20 9 20 -9"/>');
  if (woken) parts.push(STAR);
  return parts.join("");
}

function tagsOf(names) {
  const shown = names.length > 3 ? [...names.slice(0, 2), `+${names.length - 2}`] : names;
  return shown.map((name, index) => {
    const gray = "gq".includes(name[0]) ? " gray" : "", x = -25 + index * 21;
    return `<rect class="tag${gray}" x="${x}" y="-26" width="20" height="12" rx="3"/>`
      + `<text class="tag-text${gray}" x="${x + 10}" y="-16.5">${name}</text>`;
  }).join("");
}

function heldIn(names) {
  const found = new Map();
  for (const [id, name] of rootsIn(value, names)) found.set(id, [...(found.get(id) ?? []), name]);
  return found;
}
const rootsOf = () => heldIn([...REGISTERS, ...SLOTS]);

function saidOf(id, roots) {
  const cell = cells[id], woken = value(`w${id}`) ? ", woken" : "";
  const held = roots.has(id) ? `, in ${roots.get(id).join(" and ")}` : "";
  return `${KINDS[cell.kind]} ${cell.name}, ${STATES[stateOf(id)][0]}${woken}${held}`;
}

function drawCell(id, roots, weak) {
  const cell = cells[id], [x, y] = spotOf(id), said = saidOf(id, roots);
  const ring = id === chosen ? '<rect class="ring" x="-30" y="-18" width="60" height="36" rx="10"/>' : "";
  return `<g class="cell s-${stateOf(id)} k-${cell.kind}" data-cell="${id}" transform="translate(${x} ${y})"`
    + ` role="button" tabindex="0" aria-label="${said}"><title>${said}</title>`
    + cellLook(cell.kind, stateOf(id), cell.name, value(`w${id}`))
    + tagsOf([...(roots.get(id) ?? []), ...(weak.get(id) ?? [])]) + ring + "</g>";
}

function slotLook(state, x, y) {
  if ("gG".includes(state)) return `<path d="M${x - 3.5} ${y + 3.5}h7l-7 -7z"`;
  if (state === "d") return `<path d="M${x - 3} ${y - 3}l6 6m0 -6l-6 6"`;
  return `<rect x="${x - 3}" y="${y - 3}" width="6" height="6"`;
}

function drawSlot(id, roots) {
  const [x, y] = spotOf(id), state = stateOf(id);
  const ring = id === chosen ? `<circle class="ring" cx="${x}" cy="${y}" r="8"/>` : "";
  const look = slotLook(state, x, y), root = roots.has(id) ? " root" : "";
  return `${look} class="slot s-${state}${root}" data-cell="${id}"><title>${saidOf(id, roots)}</title>`
    + `</${look.slice(1, 5)}>${ring}`;
}

function drawHalo(id) {
  const [x, y, wide, high] = spotOf(id), more = wide > 4 ? 7 : 1.5;
  return `<rect class="halo" x="${x - wide - more}" y="${y - high - more}" width="${2 * (wide + more)}"`
    + ` height="${2 * (high + more)}" rx="${more * 2}"/>`;
}

// A curve from one cell to another, which leaves and enters at their borders, and where its label stands.
function curve(from, to) {
  const [x, y, wide, high] = spotOf(from), [u, v, width, height] = spotOf(to);
  if (from === to) return [`M${x + wide - 6} ${y - high + 3}c26 -22 34 12 6 ${high - 2}`, x + wide + 12, y - high + 2];
  const far = Math.hypot(u - x, v - y) || 1, push = Math.min(46, far * 0.16);
  const cx = (x + u) / 2 - (v - y) / far * push, cy = (y + v) / 2 + (u - x) / far * push;
  const border = (px, py, rx, ry) => {
    const scale = 1 / Math.hypot((cx - px) / (rx + 2), (cy - py) / (ry + 2));
    return [px + (cx - px) * scale, py + (cy - py) * scale];
  };
  const start = border(x, y, wide, high), end = border(u, v, width, height);
  const line = [...start, cx, cy, ...end].map(part => part.toFixed(1));
  const label = side => (start[side] * 0.5 + [cx, cy][side] * 0.4 + end[side] * 0.1).toFixed(1);
  return [`M${line.slice(0, 2).join(" ")}Q${line.slice(2).join(" ")}`, label(0), label(1)];
}

function drawEdge(from, edge, onWay) {
  const near = from === chosen || edge.to === chosen ? " near" : "", path = onWay(from, edge.to) ? " path" : "";
  const thin = spotOf(from)[2] < 9 && spotOf(edge.to)[2] < 9, [line, x, y] = curve(from, edge.to);
  const isTold = edge.kind === "field" && cells[from].fields > 1 && !thin;
  const number = isTold ? `<text class="label" x="${x}" y="${y}">${edge.field}</text>` : "";
  return `<path class="edge ${edge.kind}${near}${path}${thin ? " thin" : ""}" d="${line}"/>${number}`;
}

const isEdge = (from, to) => [...edgesFrom(from, value)].some(edge => edge.to === to);

// A part of a way in the snapshot that is there no more.
function drawGone({ from, to }) {
  return stateOf(from) && stateOf(to) ? `<path class="edge path gone" d="${curve(from, to)[0]}"/>` : "";
}

// Where the dot of an entry stands: between the cells, as near as can be to the middle of its three.
function dotOf(ends, taken) {
  const all = ends.map(spotOf), middle = side => all.reduce((sum, spot) => sum + spot[side], 0) / 3;
  const comp = comps.get(cells[ends[0]].comp), box = layout.comps.get(cells[ends[0]].comp), [wide, high] = comp.pitch;
  if (!box) return [middle(0), middle(1) + 6];
  let best = null, least = Infinity;
  for (let row = 1; row <= comp.rows; row++) {
    for (let half = 2; half < 2 * comp.columns; half++) {
      const x = box.x + 6 + (half >> 1) * wide + (half % 2 ? 9 : -9), y = box.y + 20 + row * high;
      const far = Math.hypot(x - middle(0), y - middle(1));
      if (far < least && !taken.has(`${x} ${y}`)) { least = far; best = [x, y] }
    }
  }
  taken.add((best ?? []).join(" "));
  return best ?? [middle(0), middle(1) + 6];
}

function drawEntry(entry, taken, onWay) {
  const ends = [entry.map, entry.key, entry.to], [x, y] = dotOf(ends, taken), [u, v, wide, high] = spotOf(entry.to);
  const far = Math.hypot((x - u) / (wide + 2), (y - v) / (high + 2)) || 1;
  const tip = `${(u + (x - u) / far).toFixed(1)} ${(v + (y - v) / far).toFixed(1)}`;
  const near = ends.includes(chosen) ? " near" : "";
  const path = onWay(entry.map, entry.to) || onWay(entry.key, entry.to) ? " path" : "";
  const lines = ends.slice(0, 2).map(spotOf).map(([px, py]) => `<path class="edge both" d="M${px} ${py}L${x} ${y}"/>`);
  return `${lines.join("")}<path class="edge value${near}${path}" d="M${x} ${y}L${tip}"/>`
    + `<circle class="dot" cx="${x}" cy="${y}" r="3.5"/>`;
}

function sweptText(arenas) {
  if (!arenas.length) return "";
  return arenas.length > 3 ? `sweeping ${arenas.length} arenas` : `sweeping arena ${arenas.join(", ")}`;
}

function zoneTitle(number) {
  const state = { p: "being prepared", m: "marking", e: "ended", i: "" }[value(`z${number}`)];
  const sweep = sweptText(zones.get(number).arenas.filter(arena => value(`o${arena}`)));
  const present = cells.filter(cell => isPresent(cell.id) && zoneOf(cell.id) === number).length;
  const count = `${present} ${present === 1 ? "cell" : "cells"}`;
  return [`zone ${number}`, state, sweep, count].filter(part => part).join(" · ");
}

const frame = box => `x="${box.x}" y="${box.y}" width="${box.width}" height="${box.height}"`;

function drawZone(number) {
  const box = layout.zones.get(number), isOpen = !folded.has(number);
  const state = zones.get(number).arenas.some(arena => value(`o${arena}`)) ? "out" : value(`z${number}`);
  const parts = [`<rect class="zone ${state}" ${frame(box)} rx="9"/>`];
  parts.push(`<g class="zone-title" data-zone="${number}" role="button" tabindex="0" aria-expanded="${isOpen}">`
    + `<rect ${frame({ ...box, height: 28 })}/>`
    + `<text x="${box.x + 12}" y="${box.y + 20}">${isOpen ? "▾" : "▸"} ${zoneTitle(number)}</text></g>`);
  for (const part of box.inner) parts.push(drawPart(isOpen ? "comp" : "arena", part.map.get(part.number)));
  return parts.join("");
}

function drawPart(kind, box) {
  if (value(`${kind === "comp" ? "k" : "a"}${box.number}`) === null) return "";
  const out = kind === "arena" && value(`o${box.number}`);
  const label = kind === "comp" ? `compartment ${box.number}` : `arena ${box.number}${out ? " · being swept" : ""}`;
  return `<rect class="${kind}${out ? " out" : ""}" ${frame(box)} rx="5"/>`
    + `<text class="label" x="${box.x + 6}" y="${box.y + 13}">${label}</text>`;
}

// The cells whose state or fields the last step changed.
function changedCells() {
  const found = new Set();
  if (at > 0) {
    each(steps[at - 1].changes, key => {
      if (isState(key) || "fwep".includes(key[0])) found.add(Number(key.slice(1).split(".")[0]));
    });
  }
  return found;
}

function waysOfChosen() {
  if (chosen === null || !isPresent(chosen)) return null;
  const now = wayNow(chosen);
  return { now, snapshot: now || !isAnyIn("m") ? null : wayInSnapshot(chosen) };
}

function drawHeap(ways) {
  const shown = cells.filter(cell => stateOf(cell.id)).map(cell => cell.id);
  const roots = rootsOf(), isOpen = id => !folded.has(comps.get(cells[id].comp).zone);
  const taken = new Set((ways?.now ?? ways?.snapshot)?.way.map(part => `${part.from} ${part.to}`) ?? []);
  const onWay = (from, to) => taken.has(`${from} ${to}`);
  const parts = [...zones.keys()].filter(zone => value(`z${zone}`) !== null).map(drawZone);
  const edges = [];
  for (const id of shown.filter(isPresent)) {
    for (const edge of edgesFrom(id, value)) {
      const isShown = isOpen(id) || id === chosen || edge.to === chosen || onWay(id, edge.to);
      if (isShown) edges.push(drawEdge(id, edge, onWay));
    }
  }
  const dots = new Set();
  for (const entry of entriesOf(value, picture.keys())) {
    const isNear = [entry.map, entry.key, entry.to].includes(chosen);
    if (isOpen(entry.map) || isNear || onWay(entry.map, entry.to)) edges.push(drawEntry(entry, dots, onWay));
  }
  for (const part of ways?.snapshot?.way ?? []) if (!isEdge(part.from, part.to)) edges.push(drawGone(part));
  const halos = [...changedCells()].filter(stateOf).map(drawHalo);
  const slots = shown.filter(id => !isOpen(id)).map(id => drawSlot(id, roots));
  const weak = heldIn(WEAK_SLOTS), open = shown.filter(isOpen).map(id => drawCell(id, roots, weak));
  const crowded = edges.length > 60 ? ' class="crowded"' : "";
  const empty = value("z0") !== null ? "" : '<text x="20" y="40">The heap is empty. Press the right arrow.</text>';
  const focus = document.activeElement?.dataset ?? {};
  const wide = Math.max(layout.width, 300), high = Math.max(layout.height, 80);
  BY_ID("heap").innerHTML = `<svg${crowded} viewBox="0 0 ${wide} ${high}" width="${wide * layout.scale}"`
    + ` height="${high * layout.scale}">`
    + [parts, halos, slots, edges, open].map(part => `<g>${part.join("")}</g>`).join("") + `${empty}</svg>`;
  for (const kind of ["cell", "zone"]) {
    if (focus[kind] !== undefined) BY_ID("heap").querySelector(`[data-${kind}="${focus[kind]}"]`)?.focus();
  }
}

// ---- The timeline.
const times = { high: 20, step: 10 };
const timeX = step => step * times.step + 4;

function drawSpan(span, y) {
  const x = timeX(span.from), wide = Math.max(timeX(span.to) - x, 3);
  const texts = { preparing: "being prepared", marking: `marking${span.group ?? ""}` };
  const text = texts[span.kind] ?? sweptText(span.arenas);
  const ticks = span.ticks.map(([step, arena]) =>
    `<path class="tick" d="M${timeX(step)} ${y + 2}v16"><title>arena ${arena} is swept</title></path>`);
  if (span.group) ticks.push(`<path class="end" d="M${timeX(span.to)} ${y}v20"><title>its group ends</title></path>`);
  const label = wide > text.length * 6.2 ? `<text x="${x + 4}" y="${y + 14}">${text}</text>` : "";
  return `<rect class="${span.kind}" x="${x}" y="${y + 3}" width="${wide}" height="14" rx="3"><title>${text}</title>`
    + `</rect>${label}${ticks.join("")}`;
}

function drawUnits(unit, most, base) {
  const tall = unit.count ? 4 + 14 * unit.count / most : 1, x = timeX(unit.step + 0.15), y = base - tall;
  const wide = Math.max(times.step * 0.7, 1), label = `<text class="label" x="${x}" y="${y - 2}">${unit.count}</text>`;
  return `<rect class="units" x="${x}" y="${y}" width="${wide}" height="${tall}"><title>line ${unit.line}:`
    + ` ${unit.count} units</title></rect>${times.step > 18 ? label : ""}`;
}

function drawTimes() {
  const rows = [...spans.rows].filter(([, list]) => list.length).sort(([one], [other]) => one - other);
  const left = 64, width = Math.max(BY_ID("times").clientWidth - left - 4, steps.length * 1.5 + 10);
  times.step = Math.min(44, (width - 10) / Math.max(steps.length, 1));
  const most = Math.max(...spans.units.map(unit => unit.count), 1);
  const high = rows.length * times.high + (spans.units.length ? 44 : 10), base = high - 6;
  const names = rows.map(([zone], index) => `<text x="8" y="${index * times.high + 18}">zone ${zone}</text>`);
  if (spans.units.length) names.push(`<text x="8" y="${base - 4}">units</text>`);
  const bars = rows.map(([, list], index) => `<path class="rule" d="M0 ${(index + 1) * times.high + 4}H${width}"/>`
    + list.map(span => drawSpan(span, index * times.high + 4)).join(""));
  const units = spans.units.map(unit => drawUnits(unit, most, base));
  BY_ID("times").innerHTML = `<svg class="names" width="${left}" height="${high}">${names.join("")}</svg>`
    + `<svg id="bars" width="${width}" height="${high}">${bars.join("")}${units.join("")}`
    + '<path id="cursor" class="cursor"/></svg>';
  BY_ID("times").hidden = !rows.length;
}

function drawCursor() {
  const x = timeX(at), box = BY_ID("times");
  BY_ID("cursor").setAttribute("d", `M${x} 0V999`);
  if (x < box.scrollLeft + 20 || x > box.scrollLeft + box.clientWidth - 90) box.scrollLeft = x - box.clientWidth / 2;
}

// ---- The texts beside the heap.
const joined = (names, most = 10) =>
  names.slice(0, most).join(", ") + (names.length > most ? ` and ${names.length - most} more` : "");
const nameOf = id => id === null ? "nothing" : cells[id].name;

const numbered = (word, numbers) => `${word}${numbers.length > 1 ? "s" : ""} ${joined(numbers)}`;
const inOrder = names => names.map(name => [name.includes(":"), ...name.split(":").map(Number), name])
  .sort((one, other) => one[0] - other[0] || one[1] - other[1] || one[2] - other[2]).map(parts => parts.at(-1));

function drawChanges(step) {
  const moved = new Map(), texts = [];
  const was = new Map();
  each(step.undo, (key, old) => was.set(key, old));
  for (const [key, old] of was) {
    const now = value(key);
    if (isState(key)) {
      const text = `${old ? `${STATES[old][0]} → ` : "made: "}${now ? STATES[now][0] : "its slot is free"}`;
      moved.set(text, [...(moved.get(text) ?? []), nameOf(Number(key.slice(1)))]);
    } else if ("rq".includes(key[0]) || (key[0] === "g" && key !== "groups")) {
      texts.push(`${key}: ${nameOf(old)} → ${nameOf(now)}`);
    } else if (key[0] === "f") {
      const [owner, field] = key.slice(1).split(".");
      texts.push(`field ${field} of ${nameOf(Number(owner))}: ${nameOf(old)} → ${nameOf(now)}`);
    } else if (key[0] === "e") {
      const [map, held] = key.slice(1).split(".").map(Number);
      texts.push(`entry of map ${nameOf(map)} with key ${nameOf(held)}: ${nameOf(old)} → ${nameOf(now)}`);
    } else if (key[0] === "w" && now) {
      texts.push(`${nameOf(Number(key.slice(1)))} is woken`);
    } else if (key[0] === "p") {
      const [arena, slot] = placeOf(Number(key.slice(1)));
      texts.push(`${nameOf(Number(key.slice(1)))} lies in arena ${arena}, slot ${slot}`);
    }
  }
  const lines = [...texts.slice(0, 8), ...[...moved].map(([text, names]) => `${joined(inOrder(names))}: ${text}`)];
  return lines.length ? `<ul>${lines.map(line => `<li>${escaped(line)}</li>`).join("")}</ul>` : "";
}

function drawStep() {
  if (at === 0) {
    BY_ID("step").innerHTML = "<p>Nothing was done yet. The right arrow does the first line of the trace.</p>";
    return;
  }
  const step = steps[at - 1], [why, differs] = step.why.split(" -- but ");
  BY_ID("step").innerHTML = `<p class="told">line ${step.line}: <b>${escaped(trace.lines[step.line - 1])}</b></p>`
    + `<p class="told">→ ${escaped(step.text)}</p><p>${escaped(why)}</p>`
    + (differs ? `<p class="warns">but ${escaped(differs)}</p>` : "") + drawChanges(step);
}

function unitsSoFar() {
  const done = spans.units.filter(unit => unit.step >= value("begun") && unit.step < at);
  return done.reduce((sum, unit) => sum + unit.count, 0);
}

function drawCollection() {
  const counts = Object.keys(STATES).map(state => [state, cells.filter(cell => stateOf(cell.id) === state).length]);
  const lines = [];
  if (value("zones") === null) {
    lines.push("No collection runs.");
  } else {
    const by = state => value("zones").filter(zone => value(`z${zone}`) === state);
    const all = [...zones.values()].flatMap(zone => zone.arenas).sort((one, other) => one - other);
    const out = all.filter(arena => value(`o${arena}`));
    const woken = cells.filter(cell => isPresent(cell.id) && value(`w${cell.id}`)).map(cell => cell.name);
    lines.push(`A collection of ${numbered("zone", value("zones"))} runs. It began at line`
      + ` ${steps[value("begun")].line}.`);
    if (by("p").length) lines.push("Its zones are being prepared: their marks are cleared, and then marking begins.");
    else lines.push(`Its marking began at line ${steps[value("since")].line}, and finds what that moment's graph, the`
      + " snapshot, reaches.");
    if (by("m").length) lines.push(`Marking: ${numbered("zone", by("m"))}.`);
    if (value("groups")) lines.push(`Zones end in this order: ${value("groups").replaceAll(" | ", ", then ")}.`);
    if (by("e").length) lines.push(`Ended: ${numbered("zone", by("e"))}.`);
    if (out.length) lines.push(`Being swept: ${numbered("arena", out)}.`);
    if (woken.length) lines.push(`Woken since: ${joined(woken)}.`);
    lines.push(`Units done so far, as slices tell: ${unitsSoFar()}.`);
  }
  const rows = counts.filter(([, count]) => count).map(([state, count]) =>
    `<tr><td>${sample("o", state, "")}</td><td>${STATES[state][0]}</td><td class="count">${count}</td></tr>`);
  const told = lines.map(line => `<p>${escaped(line)}</p>`);
  BY_ID("collection").innerHTML = `${told.join("")}<table>${rows.join("")}</table>`;
}

function heldBy(id) {
  const found = rootsIn(value, [...REGISTERS, ...SLOTS]).filter(([held]) => held === id).map(([, name]) =>
    `${name[0] === "r" ? "register" : "gray slot"} ${name}`);
  for (const name of heldIn(WEAK_SLOTS).get(id) ?? []) found.push(`weak slot ${name}, which does not keep it`);
  for (const cell of cells.filter(cell => isPresent(cell.id))) {
    for (const edge of edgesFrom(cell.id, value)) {
      const holder = edge.kind === "field" ? `field ${edge.field} of` : "wrapper";
      if (edge.to === id) found.push(`${holder} ${cell.name}`);
    }
  }
  for (const entry of entriesOf(value, picture.keys())) {
    if (entry.to === id) found.push(`map ${nameOf(entry.map)} as the value of key ${nameOf(entry.key)}`);
  }
  return found;
}

function wayText(way) {
  const parts = way.way.map(part => `${cells[part.to].name} (${part.how})`);
  if (parts.length > 14) parts.splice(6, parts.length - 12, `.. ${parts.length - 12} cells ..`);
  const first = /^[rg]\d/.test(way.start) ? `${way.start} → ${cells[way.first].name}` : way.start;
  return `<span class="told">${escaped([first, ...parts].join(" → "))}</span>`;
}

function drawPaths(ways) {
  if (ways.now) {
    const root = ways.now.start[0] === "g" ? "gray slot" : "register";
    const none = ways.now.isGray ? `No register ${root === "register" ? "alone " : ""}leads to it. ` : "";
    return `<p>${none}The shortest way from a ${root}: ${wayText(ways.now)}</p>`;
  }
  if (ways.snapshot) {
    return `<p>No root leads to it now. In the snapshot there is a way: ${wayText(ways.snapshot)}</p>`;
  }
  const next = isAnyIn("m") ? "The snapshot does not lead to it either."
    : isAnyIn("p") ? "Marking has not begun." : "A collection of all zones would free it.";
  return `<p>No root leads to it. ${next}</p>`;
}

function drawChosen(ways) {
  if (chosen === null) {
    BY_ID("cell").innerHTML = '<p class="dim">Click on a cell, or type its name above the heap.</p>';
    return;
  }
  const cell = cells[chosen], state = stateOf(chosen);
  const [arena, slot] = placeOf(chosen), place = `compartment ${cell.comp}, arena ${arena}, slot ${slot}`;
  const head = `<p><b>${KINDS[cell.kind]} ${cell.name}</b>, ${place}</p>`;
  if (!state) {
    BY_ID("cell").innerHTML = `${head}<p>It is not there at this step.</p>`;
    return;
  }
  const woken = value(`w${chosen}`) ? " It was woken since the collection began." : "";
  const told = `<p><b>${STATES[state][0]}</b>: ${STATES[state][1]}${woken}</p>`;
  if (!ways) {
    BY_ID("cell").innerHTML = head + told;
    return;
  }
  const holders = heldBy(chosen);
  const held = holders.slice(0, 12).map(text => `<li>${text}</li>`);
  if (holders.length > 12) held.push(`<li>${holders.length - 12} more</li>`);
  const list = held.length ? `<p>Held by:</p><ul>${held.join("")}</ul>` : "<p>Nothing holds it.</p>";
  BY_ID("cell").innerHTML = `${head}${told}${drawPaths(ways)}${list}`;
}

function sample(kind, state, name) {
  const look = cellLook(kind, state, name, false);
  return `<svg width="58" height="34"><g class="s-${state}" transform="translate(29 17)">${look}</g></svg>`;
}

function drawLegend() {
  const rows = Object.entries(STATES).map(([state, [name, text]]) =>
    `<tr><td>${sample("o", state, "7")}</td><td><b>${name}</b>. ${text}</td></tr>`);
  const kinds = [
    ["o", "7", "An object: its fields hold other cells."],
    ["m", "8", "A weak map. A dot is an entry: dotted to map and key, dashed to the value, which lives while both do. A"
      + " key that is a wrapper lives while the map and its target do."],
    ["w", "2:7", "A wrapper: stands in compartment 2 for cell 7."],
  ];
  const others = kinds.map(([kind, name, text]) => `<tr><td>${sample(kind, "b", name)}</td><td>${text}</td></tr>`);
  const tags = `<svg width="58" height="34"><g transform="translate(34 36)">${tagsOf(["r0", "g3"])}</g></svg>`;
  const star = `<svg width="58" height="34"><g transform="translate(6 6)">${STAR}</g></svg>`;
  BY_ID("legend").innerHTML = `<p>A trace is a list of commands: make cells, link them, drop them, collect garbage. A
    cell to which no root leads is garbage. Registers r0 to r15 are what the running program holds, gray slots g0 to g63
    what the browser around it holds. A collection of zones turns cells black or gray, and frees the others, piece by
    piece, while the program runs on.</p>
    <table>${rows.join("")}</table><table>${others.join("")}
    <tr><td>${tags}</td><td>A register, and a gray slot, that hold the cell. A weak slot, as q2, names it and does not
    keep it.</td></tr>
    <tr><td>${star}</td><td><b>Woken</b>: made or handed to the program while the collection runs.</td></tr></table>
    <p class="after">A folded zone shows its arenas, the pieces of memory with 64 slots: dark squares are black,
    triangles gray, white squares not reached, crosses dead; a thick border marks what a root holds. A halo marks what
    the step changed. A dashed way is one that only the snapshot has. While zones are marking the colours are those that
    the definitions ask for; the program has them when a group ends.</p>
    <p><b>Keys</b>: left and right, a step; page up and page down, ten lines; home and end; Tab to a cell or a zone,
    Enter to choose it or to fold it; Escape chooses none.</p>`;
}

// ---- The trace.
const firstStep = new Map(), lastStep = new Map();

function listLines() {
  steps.forEach((step, index) => {
    if (!firstStep.has(step.line)) firstStep.set(step.line, index + 1);
    lastStep.set(step.line, index + 1);
  });
  BY_ID("lines").innerHTML = trace.lines.map((line, index) =>
    `<li data-line="${index + 1}"><span class="reply">${escaped(steps[lastStep.get(index + 1) - 1]?.text ?? "")}</span>`
    + `<span class="number">${index + 1}</span>${escaped(line)}</li>`).join("");
}

function drawLine() {
  const list = BY_ID("lines"), line = at ? steps[at - 1].line : 0;
  const old = list.querySelector(":scope > li[aria-current]");
  if (old && Number(old.dataset.line) !== line) {
    old.removeAttribute("aria-current");
    old.querySelector("ul")?.remove();
  }
  const item = list.children[line - 1];
  if (!item) {
    list.scrollTop = 0;
    return;
  }
  item.setAttribute("aria-current", "step");
  item.querySelector("ul")?.remove();
  const [from, to] = [firstStep.get(line), lastStep.get(line)];
  if (from < to) {
    const rows = [];
    for (let index = from; index <= to; index++) {
      const now = index === at ? ' aria-current="step"' : "";
      rows.push(`<li data-step="${index}"${now}>${escaped(steps[index - 1].text)}</li>`);
    }
    item.insertAdjacentHTML("beforeend", `<ul>${rows.join("")}</ul>`);
  }
  const row = (item.querySelector("ul [aria-current]") ?? item).getBoundingClientRect();
  const box = list.getBoundingClientRect();
  if (row.top < box.top || row.bottom > box.bottom) list.scrollTop += row.top - box.top - list.clientHeight / 2;
}

// ---- Going through it.
function show() {
  const ways = waysOfChosen(), step = steps[at - 1];
  drawHeap(ways);
  drawCursor();
  drawLine();
  drawStep();
  drawCollection();
  drawChosen(ways);
  BY_ID("slider").value = at;
  BY_ID("place").value = `step ${at} of ${steps.length}` + (step ? `, line ${step.line} of ${trace.lines.length}` : "");
  BY_ID("said").textContent = step ? `line ${step.line}, ${trace.lines[step.line - 1]}: ${step.text}. ${step.why}` : "";
}

// A browser takes no more than some changes of its address a second.
let remembering = 0;
function remember() {
  clearTimeout(remembering);
  remembering = setTimeout(() => history.replaceState(null, "", `#${at}`), 300);
}

function goTo(step) {
  moveTo(Math.max(0, Math.min(steps.length, step)));
  remember();
  show();
}

function goLines(count) {
  const line = Math.max(0, Math.min(trace.lines.length, (at ? steps[at - 1].line : 0) + count));
  goTo(line ? lastStep.get(line) ?? steps.length : 0);
}

function choose(id) {
  chosen = id;
  show();
}

function toggle(zone) {
  if (!folded.delete(zone)) folded.add(zone);
  redraw();
}

function redraw() {
  arrange(Math.max(BY_ID("heap").clientWidth - 4, 320));
  drawTimes();
  show();
}

function findCell(name) {
  const found = cells.findLast(cell => hasName(cell.id, name)) ?? cells.findLast(cell => cell.name === name);
  choose(found ? found.id : null);
  if (!found) BY_ID("cell").innerHTML = `<p class="warns">There is no cell ${escaped(name)} in this trace.</p>`;
  BY_ID("heap").querySelector(".ring")?.scrollIntoView({ block: "nearest", inline: "nearest" });
}

function press(event) {
  if (event.ctrlKey || event.altKey || event.metaKey) return;
  if (event.key === "Escape") return choose(null);
  if (event.target.id === "find") return undefined;
  const part = event.target.closest?.("[data-cell], [data-zone]");
  if (part && (event.key === "Enter" || event.key === " ")) {
    event.preventDefault();
    return touch(part);
  }
  const moves = {
    ArrowRight: () => goTo(at + 1), ArrowLeft: () => goTo(at - 1), Home: () => goTo(0), End: () => goTo(steps.length),
    PageDown: () => goLines(10), PageUp: () => goLines(-10),
  };
  if (!moves[event.key]) return undefined;
  event.preventDefault();
  return moves[event.key]();
}

function touch(part) {
  if (part.dataset.cell !== undefined) choose(Number(part.dataset.cell));
  else toggle(Number(part.dataset.zone));
}

function listen() {
  document.addEventListener("keydown", press);
  BY_ID("slider").max = steps.length;
  BY_ID("slider").addEventListener("input", event => goTo(Number(event.target.value)));
  BY_ID("first").onclick = () => goTo(0);
  BY_ID("back").onclick = () => goTo(at - 1);
  BY_ID("on").onclick = () => goTo(at + 1);
  BY_ID("last").onclick = () => goTo(steps.length);
  BY_ID("fold").onclick = () => { [...zones.keys()].forEach(zone => folded.add(zone)); redraw() };
  BY_ID("unfold").onclick = () => { folded.clear(); redraw() };
  BY_ID("find").addEventListener("change", event => findCell(event.target.value.trim()));
  BY_ID("heap").addEventListener("click", event => {
    const part = event.target.closest("[data-cell], [data-zone]");
    if (part) touch(part);
  });
  BY_ID("lines").addEventListener("click", event => {
    const item = event.target.closest("li");
    if (item) goTo(item.dataset.step ? Number(item.dataset.step) : lastStep.get(Number(item.dataset.line)));
  });
  BY_ID("times").addEventListener("click", event => {
    const x = event.clientX - BY_ID("bars").getBoundingClientRect().left;
    goTo(Math.round((x - 4) / times.step));
  });
  window.addEventListener("resize", redraw);
  window.addEventListener("hashchange", () => goTo(Number(location.hash.slice(1)) || 0));
}

survey();
for (const [number, zone] of zones) if (zone.most > LARGE) folded.add(number);
listLines();
drawLegend();
listen();
moveTo(Math.min(steps.length, Number(location.hash.slice(1)) || 0));
redraw();
