// Arrows: several of one direction that begin and end within a few pixels are one arrow with their count.
const NEAR = 12, FAR = 192, ARROWS_MOST = 200, SEVERAL = 3, BUNDLES_OPEN = 8;
// The boxes of the counts that are drawn, each with its bundle.
let counts = [];

// Returns bundles of messages; where there would be many arrows, of messages that are farther apart.
function bundledFew(found) {
  let room = NEAR, bundles = bundled(found, room);
  while (room < FAR && bundles.length > ARROWS_MOST) bundles = bundled(found, room *= 2);
  return bundles;
}

// Returns bundles of messages, which come in the order of where they begin; those that are near to few are single. Wide bundles of
// different hosts do not begin together, so that their arrows do not lie on one another.
function bundled(found, room = NEAR) {
  const early = (ways) => room > NEAR ? room * (ways * 0.618 % 1) : 0, open = new Map(), groups = [];
  for (const it of found) {
    const way = it.message.send.host + "," + it.message.receive.host;
    const before = open.has(way) ? 0 : early(open.size), near = (open.get(way) || []).filter((one) => it.x1 - one.from <= room);
    let own = near.find((one) => Math.abs(it.x2 - one.to) <= room);
    if (!own) {
      own = { from: it.x1 - before, to: it.x2 - before, all: [] };
      groups.push(own); near.push(own);
    }
    own.all.push(it);
    open.set(way, near.slice(-BUNDLES_OPEN));
  }
  return groups.flatMap(({ all }) => all.length < SEVERAL ? all.map((it) => bundle([it])) : [bundle(all)]);
}

// Returns what is drawn of messages that are one bundle: the arrow in their middle, and their room at both ends.
function bundle(all) {
  const middle = (key) => all.reduce((sum, it) => sum + it[key], 0) / all.length;
  const room = (key) => finite(all.map((it) => it[key])), { y1, y2 } = all[0];
  const place = { x1: middle("x1"), x2: middle("x2"), y1, y2, from: room("x1"), to: room("x2") };
  return { messages: all.map((it) => it.message), ...place };
}

// Fills what the arrows of a bundle cover, the wider the more faintly.
function fillBundle({ from, to, y1, y2 }, alpha) {
  pen.globalAlpha = alpha * Math.min(0.25, 2 / (from[1] - from[0] + 1));
  pen.beginPath();
  pen.moveTo(from[0], y1); pen.lineTo(from[1], y1); pen.lineTo(to[1], y2); pen.lineTo(to[0], y2);
  pen.fill();
}

function arrow(x1, y1, x2, y2) {
  const length = Math.hypot(x2 - x1, y2 - y1) || 1, dx = (x2 - x1) / length, dy = (y2 - y1) / length;
  const ex = x2 - dx * 5, ey = y2 - dy * 5, bx = ex - dx * 7, by = ey - dy * 7, wing = 3 + pen.lineWidth / 2;
  line(x1, y1, ex, ey);
  pen.beginPath();
  pen.moveTo(ex, ey); pen.lineTo(bx - dy * wing, by + dx * wing); pen.lineTo(bx + dy * wing, by - dx * wing);
  pen.fill();
}

// Returns the messages that are in sight, with where their arrows begin and end.
function messagesInSight(xs) {
  const found = [];
  for (const message of byStart) {
    const x1 = xs[message.send.index], x2 = xs[message.receive.index];
    if (Math.max(x1, x2) < LEFT - 8 || Math.min(x1, x2) > wide) continue;
    found.push({ message, x1, y1: rowY(message.send.host), x2, y2: rowY(message.receive.host) });
  }
  return found;
}

// Draws the arrows, and returns them.
function drawArrows(xs) {
  const found = messagesInSight(xs), bundles = bundledFew(found);
  const alpha = Math.max(0.12, Math.min(1, 120 / (bundles.length || 1)));
  counts = [];
  pen.strokeStyle = pen.fillStyle = "#555"; pen.lineWidth = 1;
  for (const it of bundles) if (it.messages.length > 1) fillBundle(it, alpha);
  pen.globalAlpha = alpha;
  if (bundles.length > MANY) {
    pen.beginPath();
    for (const { x1, y1, x2, y2 } of bundles) { pen.moveTo(x1, y1); pen.lineTo(x2, y2); }
    pen.stroke();
  } else {
    const strength = Math.min(1, 60 / bundles.length);
    for (const it of bundles) {
      pen.lineWidth = 1.1 + Math.min(Math.log2(it.messages.length) * 0.5, 3) * strength;
      arrow(it.x1, it.y1, it.x2, it.y2);
    }
  }
  drawStrong(found);
  if (bundles.length <= MANY) drawCounts(bundles);
  return bundles;
}

// Draws the messages of the chosen event, and of that under the pointer, each by itself.
function drawStrong(found) {
  pen.globalAlpha = 1; pen.strokeStyle = pen.fillStyle = "#000"; pen.lineWidth = 1.8;
  const isOf = ({ send, receive }, it) => it !== null && (send === it || receive === it);
  const strong = found.filter((it) => isOf(it.message, chosen) || isOf(it.message, hovered));
  for (const { x1, y1, x2, y2 } of strong) arrow(x1, y1, x2, y2);
}

const isOver = (one, other) => one[0] < other[2] && other[0] < one[2] && one[1] < other[3] && other[1] < one[3];

// Writes how many messages an arrow is, the greatest number first, where no other one stands and no host's line goes.
function drawCounts(bundles) {
  pen.font = "bold 10px Helvetica, Arial, sans-serif"; pen.textAlign = "center";
  const isOnLine = (y) => DATA.hosts.some((_, host) => Math.abs(rowY(host) - y) < 12);
  const many = bundles.filter((it) => it.messages.length > 1).sort((a, b) => b.messages.length - a.messages.length);
  for (const own of many) {
    const text = "×" + own.messages.length, half = pen.measureText(text).width / 2 + 2;
    for (const part of [0.5, 0.4, 0.6, 0.3, 0.7]) {
      const at = own.x1 + (own.x2 - own.x1) * part, y = own.y1 + (own.y2 - own.y1) * part;
      const box = [at - half, y - 6, at + half, y + 6];
      if (box[0] < LEFT || box[2] > wide || isOnLine(y) || counts.some((it) => isOver(it.box, box))) continue;
      counts.push({ box, bundle: own });
      pen.fillStyle = "#fff"; pen.fillRect(box[0], box[1], 2 * half, 12);
      pen.fillStyle = "#333"; pen.fillText(text, at, y + 4);
      break;
    }
  }
}

// Returns the bundle whose count is there, if one is.
function bundleAt(px, py) {
  const it = counts.find(({ box }) => px >= box[0] && px <= box[2] && py >= box[1] && py <= box[3]);
  return it && it.bundle;
}
