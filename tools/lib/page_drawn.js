// Where everything lies, and how it is drawn.

// ---- from times to places
let times, least, greatest, knots, places, spotOf, leastOf, greatestOf, byLeast, byStart, low, high, view;
let isSqueezed = true;

// Lays out what is shown; where nothing is, all that there is.
function layTimes() {
  const zero = base.event.time, laid = shown.length ? shown : events;
  times = events.map((it) => drawn(it.time - zero));
  least = base.least.map((it) => it === null ? -Infinity : drawn(it));
  greatest = base.greatest.map((it) => it === null ? Infinity : drawn(it));
  knots = [...new Set(laid.map((it) => times[it.index]))].sort((a, b) => a - b);
  const gaps = knots.slice(1).map((it, k) => it - knots[k]), sorted = [...gaps].sort((a, b) => a - b);
  const small = sorted[Math.floor(sorted.length / 10)] || 1;
  places = [0];
  for (const gap of gaps) places.push(places[places.length - 1] + (isSqueezed ? 1 + Math.log2(1 + gap / small) : gap));
  const begins = laid.map((it) => least[it.index]), ends = laid.map((it) => greatest[it.index]);
  const first = place(Math.min(...finite(begins), knots[0])), last = place(Math.max(...finite(ends), knots[knots.length - 1]));
  const room = (last - first || 1) * 0.03;
  [low, high] = [first - room, last + room];
  if (!isSqueezed && !gaps.length) [low, high] = [low - 1, high + 1];
  // (where everything lies is worked out once, so that drawing only stretches it)
  spotOf = times.map(place); leastOf = least.map(place); greatestOf = greatest.map(place);
  byLeast = [...shown].sort((a, b) => leastOf[a.index] - leastOf[b.index] || a.index - b.index);
  byStart = [...shownMessages].sort((a, b) => spotOf[a.send.index] - spotOf[b.send.index]);
}
const finite = (list) => { let it = Infinity, most = -Infinity; for (const v of list) if (isFinite(v)) { it = Math.min(it, v); most = Math.max(most, v); } return it === Infinity ? [0] : [it, most]; };

// Returns where a time lies: between two events in proportion, outside of all as far as distances are squeezed there.
function place(time) {
  if (!isFinite(time)) return time;
  const last = knots.length - 1;
  if (!isSqueezed) return time - knots[0];
  const beyond = (span) => Math.log2(1 + span / ((knots[last] - knots[0]) / (last || 1) || 1));
  if (time <= knots[0]) return -beyond(knots[0] - time);
  if (time >= knots[last]) return places[last] + beyond(time - knots[last]);
  let from = 0, to = last;
  while (to - from > 1) { const mid = (from + to) >> 1; if (knots[mid] <= time) from = mid; else to = mid; }
  return places[from] + (places[to] - places[from]) * (time - knots[from]) / (knots[to] - knots[from]);
}

// ---- drawing
let wide = 100, tall = 100, chosen = null, hovered = null, relations = null, spots = [];
// How far apart the lines of hosts are, and where what stands below the last one ends.
let rowHigh = 110, foot = 100;
const rowY = (host) => AXIS + ABOVE + host * rowHigh;
const laneY = (host, lane) => rowY(host) + 9 + lane * LANE;
const across = (at) => LEFT + (at - view[0]) / (view[1] - view[0]) * (wide - LEFT);
const near = (at) => Math.max(-1e5, Math.min(1e5, across(at)));
const x = (time) => near(place(time));

function resize() {
  const ratio = window.devicePixelRatio || 1;
  const last = DATA.hosts.length - 1, under = LANES * LANE + BELOW;
  rowHigh = Math.min(Math.max((plot.clientHeight - AXIS - ABOVE - under) / (last || 1), ABOVE + under), ROW_MOST);
  foot = rowY(last) + under;
  wide = plot.clientWidth; tall = Math.max(plot.clientHeight, foot);
  canvas.width = wide * ratio; canvas.height = tall * ratio;
  canvas.style.width = wide + "px"; canvas.style.height = tall + "px";
  pen.setTransform(ratio, 0, 0, ratio, 0, 0);
  draw();
}

// Returns the ink of an event: by its host, or, beside a chosen one, by what is known of their order.
function ink(it) {
  if (!chosen || it === chosen) return INKS[it.host % INKS.length];
  const found = relations[it.index];
  return found === null ? "#bbb" : { open: OPEN, after: EARLIER, before: LATER, same: EQUAL }[found];
}

function line(x1, y1, x2, y2) { pen.beginPath(); pen.moveTo(x1, y1); pen.lineTo(x2, y2); pen.stroke(); }

// Draws once before the next frame, however often it is asked to.
let isWaiting = false;
function redraw() {
  if (isWaiting) return;
  isWaiting = true;
  requestAnimationFrame(() => { isWaiting = false; draw(); });
}

function draw() {
  pen.clearRect(0, 0, wide, tall);
  spots = [];
  const xs = spotOf.map(near), count = shown.filter((it) => xs[it.index] > LEFT - 8 && xs[it.index] < wide).length;
  drawAxis(xs);
  pen.save();
  pen.beginPath(); pen.rect(LEFT - 8, AXIS, wide, tall); pen.clip();
  drawLines();
  drawBars(xs, count > CROWDED);
  const arrows = drawArrows(xs);
  drawProof(xs);
  drawPoints(xs, count);
  drawNames(arrows);
  drawNumbers(xs);
  pen.restore();
  DATA.hosts.forEach((host, at) => {
    pen.fillStyle = INKS[at % INKS.length]; pen.font = "bold 14px Helvetica, Arial, sans-serif"; pen.textAlign = "right";
    pen.fillText(host, LEFT - 14, rowY(at) + 5, LEFT - 20);
  });
}

function drawLines() {
  DATA.hosts.forEach((_, host) => { pen.strokeStyle = INKS[host % INKS.length]; pen.lineWidth = 2; line(LEFT - 8, rowY(host), wide, rowY(host)); });
}

function drawAxis(xs) {
  pen.font = "11px Helvetica, Arial, sans-serif"; pen.fillStyle = "#666"; pen.strokeStyle = "#eee"; pen.lineWidth = 1; pen.textAlign = "center";
  let last = -Infinity;
  const mark = (at, text) => {
    if (at < LEFT || at > wide - 34 || at - last < 92) return;
    last = at; line(at, AXIS - 6, at, foot); pen.fillText(text, at, AXIS - 12);
  };
  if (isSqueezed) {
    // (marks have so many digits that neighbours differ, however far the first event is)
    const shown = [];
    for (let k = 0, end = -Infinity; k < knots.length; k++) { const at = x(knots[k]); if (at >= LEFT && at <= wide - 34 && at >= end) { shown.push(k); end = at + 92; } }
    const gaps = shown.slice(1).map((k, n) => knots[k] - knots[shown[n]]);
    for (const k of shown) mark(x(knots[k]), inShort(knots[k], Math.min(...gaps)));
    return;
  }
  const span = (view[1] - view[0]) / Math.max((wide - LEFT) / 110, 1), size = 10 ** Math.floor(Math.log10(span));
  const step = [1, 2, 5, 10].map((it) => it * size).find((it) => it >= span);
  const from = view[0] + knots[0], to = view[1] + knots[0];
  for (let k = Math.ceil(from / step); k * step <= to && k - from / step < 200; k++) mark(x(k * step), inShort(k * step, step));
}

// Bars lie below their host's line, in lanes, so that they do not cover one another while there is room. The last lane has
// what the bars in it cover together; where events are crowded, there is no other one.
function drawBars(xs, isCrowded) {
  const last = isCrowded ? 0 : LANES - 1, ends = DATA.hosts.map(() => Array(last + 1).fill(-Infinity));
  for (const it of byLeast) {
    const x1 = near(leastOf[it.index]), x2 = near(greatestOf[it.index]);
    if (x2 < LEFT - 8 || x1 > wide) continue;
    const lanes = ends[it.host], free = lanes.findIndex((end) => end < x1 - 2), lane = free < 0 ? last : free;
    const end = lanes[lane], isStrong = it === chosen || it === hovered;
    lanes[lane] = Math.max(end, x2);
    pen.fillStyle = ink(it);
    if (isStrong || (free >= 0 && !isCrowded)) drawBar(it, x1, x2, xs[it.index], lane, isStrong);
    else if (x2 > end) drawSpan(Math.max(x1, end), x2, laneY(it.host, lane), 0.55);
  }
  pen.globalAlpha = 1;
}

function drawSpan(x1, x2, y, alpha) {
  pen.globalAlpha = alpha; pen.fillRect(x1, y - 1.5, Math.max(x2 - x1, 1.5), 3);
}

// Draws a bar with its ends and, where the event is in sight, a line up to it.
function drawBar(it, x1, x2, at, lane, isStrong) {
  const y = laneY(it.host, lane);
  if (at > LEFT - 8 && at < wide && (lane || isStrong)) {
    pen.globalAlpha = isStrong ? 0.8 : 0.25; pen.fillRect(at - 0.5, rowY(it.host), 1, y - rowY(it.host));
  }
  drawSpan(x1, x2, y, isStrong ? 1 : 0.55);
  if (x2 - x1 < 3 && !isStrong) return;
  if (isFinite(least[it.index])) pen.fillRect(x1 - 0.6, y - 3, 1.2, 6);
  if (isFinite(greatest[it.index])) pen.fillRect(Math.max(x2, x1 + 1.5) - 0.6, y - 3, 1.2, 6);
}

// Draws the events, of which so many are in sight.
function drawPoints(xs, count) {
  const size = count > CROWDED ? 2 : count > 400 ? 3 : 4;
  for (const it of shown) {
    const at = xs[it.index], y = rowY(it.host);
    if (at < LEFT - 8 || at > wide + 8) continue;
    pen.fillStyle = pen.strokeStyle = ink(it);
    spots.push([at, y, it]);
    if (size === 2 && it !== chosen && it !== hovered) { pen.fillRect(at - 1.5, y - 2.5, 3, 5); continue; }
    pen.beginPath(); pen.arc(at, y, it === chosen || it === hovered ? size + 2 : size, 0, 7);
    // (an event without a message is hollow)
    if (it.peers.length) pen.fill(); else { pen.fillStyle = "#fff"; pen.fill(); pen.lineWidth = 1.5; pen.stroke(); }
  }
}

// Names stand where they cross no arrow and no other name, above the line; where there is no such place, one hovers to see it.
function drawNames(arrows) {
  if (spots.length > 500) return;
  pen.font = "11px Helvetica, Arial, sans-serif"; pen.textAlign = "left";
  const taken = counts.map((it) => it.box);
  const isFree = (box) => box[0] > LEFT - 6 && box[2] < wide && !taken.some((it) => it[0] < box[2] && box[0] < it[2] && it[1] < box[3] && box[1] < it[3])
    && !spots.some(([sx, sy]) => sx > box[0] - 4 && sx < box[2] + 4 && sy > box[1] - 4 && sy < box[3] + 4)
    && !(arrows.length < 800 && arrows.some((it) => crosses(it, box)));
  for (const [at, y, it] of [...spots].sort((a, b) => (b[2] === chosen || b[2] === hovered) - (a[2] === chosen || a[2] === hovered))) {
    const label = it.name.split("#")[0] === DATA.hosts[it.host] ? "#" + it.name.split("#").pop() : it.name;
    const texts = it.brief ? [label + " " + (it.brief.length > 26 ? it.brief.slice(0, 25) + "…" : it.brief), label] : [label];
    let box = null, text = null;
    for (text of texts) {
      const long = pen.measureText(text).width;
      box = [[at + 4, y - 20], [at - 4 - long, y - 20], [at + 4, y - 34], [at - 4 - long, y - 34], [at - long / 2, y - 34]]
        .map(([bx, by]) => [bx - 1, by - 1, bx + long + 1, by + 12]).find(isFree);
      if (box) break;
    }
    if (!box) continue;
    taken.push(box);
    pen.fillStyle = ink(it); pen.fillText(text, box[0] + 1, box[3] - 3);
  }
}

// Returns whether a line meets a box.
function crosses({ x1, y1, x2, y2 }, [left, top, right, foot]) {
  if (Math.max(x1, x2) < left || Math.min(x1, x2) > right || Math.max(y1, y2) < top || Math.min(y1, y2) > foot) return false;
  const side = (px, py) => Math.sign((x2 - x1) * (py - y1) - (y2 - y1) * (px - x1));
  const sides = [side(left, top), side(right, top), side(left, foot), side(right, foot)];
  return !(sides.every((it) => it > 0) || sides.every((it) => it < 0));
}
