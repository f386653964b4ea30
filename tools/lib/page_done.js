// What stands beside the picture, and what one does.

// ---- words beside the picture
const link = (it) => `<a data-event="${safe(it.name)}">${safe(it.name)}</a>`;
const row = (name, text) => `<tr><td>${name}</td><td>${text}</td></tr>`;

function details(it) {
  const rows = [row("host", safe(DATA.hosts[it.host])), row("stamp", safe(it.stamp))];
  if (it.text) rows.push(row("what", safe(it.text)));
  if (it.key) rows.push(row("key", safe(it.key)));
  if (it.frame) rows.push(row("frame", frameWords(it)));
  const since = it === base.event ? "the event itself" : between(base.least[it.index], base.greatest[it.index]);
  rows.push(row("since " + safe(base.event.name), since), row("drawn at", exact(it.time - base.event.time)));
  for (const { send, receive, least, greatest } of it.peers) {
    const delay = least === undefined ? "not asked" : `${exact(units(least))} to ${exact(units(greatest))}`;
    rows.push(row(it === send ? "sent to" : "came from", `${link(it === send ? receive : send)}, delay ${delay}`));
  }
  if (!it.peers.length) rows.push(row("message", "none"));
  return `<h2>${safe(it.name)}</h2><table>${rows.join("")}</table>`;
}

// Returns the number of a packet in Wireshark, with its file, and a button that copies a display filter for it.
function frameWords(it) {
  const text = `frame.number == ${it.frame}`;
  return `${it.frame} of ${safe(DATA.files[it.file])}<br><code>${text}</code> <button data-copy="${text}">copy</button>`;
}

function tell() {
  const parts = [];
  if (chosen) {
    parts.push(details(chosen));
    const counts = { before: 0, after: 0, same: 0, open: 0, none: 0 }, open = [];
    events.forEach((it) => { if (it === chosen) return; const found = relations[it.index]; counts[found === null ? "none" : found]++; if (found === "open") open.push(it); });
    parts.push(`<p><span class="key" style="background:${EARLIER}"></span>${counts.after} events are certainly earlier.<br><span class="key" style="background:${LATER}"></span>${counts.before} are certainly later.<br>`
      + (counts.same ? `<span class="key" style="background:${EQUAL}"></span>${counts.same} are at the same time.<br>` : "")
      + `<span class="key" style="background:${OPEN}"></span><span class="open">With ${counts.open} the order is open.</span><br>`
      + (counts.none ? `<span class="key" style="background:#bbb"></span><span class="grey">With ${counts.none} it was not asked: their bars lie over this one's. tools/timeline --from ${safe(chosen.name)} asks.</span>` : "") + "</p>");
    parts.push(proofWords());
    if (open.length) parts.push(`<p class="open">Open with: ${open.slice(0, 60).map(link).join(", ")}${open.length > 60 ? ", .." : ""}</p>`);
    parts.push("<p><a data-event=''>choose none</a></p>");
  } else {
    parts.push(`<p>Each event stands where the <b>earliest execution</b> has it: one of many that what was declared allows. The bar under it goes from the least to the greatest time that it has in <b>any</b> execution, since <b>${safe(base.event.name)}</b>.</p>`
      + "<p>Bars that lie apart: the order of the two is certain. Bars that lie over one another: <b>choose</b> one of the events; with which others its order is open is then shown.</p>"
      + "<p>A hollow point has no message. An arrow with a count is so many messages. Wheel: nearer, farther. Drag: along. "
      + "Click: choose. Shift and click: compare with the chosen one. Double click: nearer.</p>");
    parts.push(`<p>${DATA.words.map(safe).join("<br>")}</p>`);
    if (DATA.delays.length) {
      const cells = (it, tag) => `<tr>${it.map((cell) => `<${tag}>${safe(cell)}</${tag}>`).join("")}</tr>`;
      parts.push(`<table class="delays">${cells(DATA.delays[0], "th")}${DATA.delays.slice(1).map((it) => cells(it, "td")).join("")}</table>`);
    }
  }
  if (hovered && hovered !== chosen) parts.push("<hr>" + details(hovered));
  el("aside").innerHTML = parts.join("");
}

function showTip(event) {
  const tip = el("tip"), bundle = hovered ? null : bundleAt(event.offsetX, event.offsetY);
  if (!hovered && !bundle) { tip.style.display = "none"; return; }
  tip.innerHTML = hovered ? eventTip() : bundleTip(bundle);
  tip.style.display = "block";
  const px = Math.min(event.offsetX + 14, wide - tip.offsetWidth - 8), py = event.offsetY + 16;
  tip.style.left = Math.max(px, 4) + "px"; tip.style.top = (py + tip.offsetHeight > tall ? event.offsetY - tip.offsetHeight - 10 : py) + "px";
}

function bundleTip({ messages: own }) {
  const [first, last] = [own[0], own[own.length - 1]];
  return `${own.length} messages from ${safe(DATA.hosts[first.send.host])} to ${safe(DATA.hosts[first.receive.host])}, ${safe(first.send.name)} to ${safe(last.send.name)}`;
}

function eventTip() {
  const other = chosen && chosen !== hovered ? chosen : base.event !== hovered ? base.event : null, found = other && order(other, hovered);
  const told = !other ? "" : !found ? `<br><span class="grey">order with ${safe(other.name)}: not asked</span>`
    : found[0] === "open" ? `<br><span class="open">order with ${safe(other.name)} is open</span>`
      : `<br>certainly ${found[0] === "before" ? "after" : found[0] === "after" ? "before" : "at the time of"} ${safe(other.name)} <span class="grey">(by ${found[1]})</span>`;
  const frame = hovered.frame ? ` <span class="grey">frame ${hovered.frame}</span>` : "";
  return `<b>${safe(hovered.name)}</b>${frame} ${safe(hovered.text)}<br>${between(base.least[hovered.index], base.greatest[hovered.index])} since ${safe(base.event.name)}${told}`;
}

// ---- what one does
function choose(it) {
  chosen = it;
  if (!it || it === second) second = null;
  relations = it && events.map((other) => { const found = other === it ? null : order(it, other); return found && found[0]; });
  tell(); redraw();
}

function compareWith(it) {
  if (!chosen || !it || it === chosen) return;
  second = it === base.event ? null : it;
  tell(); redraw();
}

function show(kind, which, text) {
  filter = { kind, which, text: text.toLowerCase() };
  applyFilter(); layTimes(); open();
}

function copy(text, button) {
  const done = () => { button.textContent = "copied"; };
  const byHand = () => {
    const field = document.createElement("textarea");
    field.value = text; document.body.append(field); field.select();
    document.execCommand("copy"); field.remove(); done();
  };
  if (navigator.clipboard) navigator.clipboard.writeText(text).then(done, byHand); else byHand();
}

function zoom(factor, centre) {
  const at = view[0] + (centre - LEFT) / (wide - LEFT) * (view[1] - view[0]), span = (view[1] - view[0]) * factor;
  if (span > (high - low) * 1.5 || span < (high - low) * 1e-12) return;
  view = [at - (at - view[0]) * factor, at + (view[1] - at) * factor];
  redraw();
}

function goTo(it) {
  if (!it.isShown) { el("connection").value = ALL; el("text").value = ""; show(ALL, "", ""); }
  const span = Math.min(view[1] - view[0], isSqueezed ? 60 : high - low), at = place(times[it.index]);
  view = [at - span / 2, at + span / 2];
  choose(it);
}

function nearest(px, py) {
  let found = null, best = 14;
  for (const [at, y, it] of spots) { const far = Math.hypot(at - px, y - py); if (far < best) { best = far; found = it; } }
  if (found) return found;
  // (else the bar that is under the pointer, the shortest of several)
  let long = Infinity;
  for (const it of shown) {
    const y = rowY(it.host);
    if (py < y + 4 || py > y + 12 + LANES * LANE) continue;
    const x1 = near(leastOf[it.index]), x2 = near(greatestOf[it.index]);
    if (px >= x1 - 2 && px <= x2 + 2 && x2 - x1 < long) { long = x2 - x1; found = it; }
  }
  return found;
}

// A click on the count of a bundle goes nearer to it, and one with Shift compares.
function press(it, event) {
  const bundle = it ? null : bundleAt(event.offsetX, event.offsetY);
  if (bundle) return goNear(bundle.messages.flatMap(({ send, receive }) => [send, receive]));
  return event.shiftKey ? compareWith(it) : choose(it);
}

function goNear(own) {
  const [from, to] = finite(own.map((it) => spotOf[it.index])), room = (to - from || 1) * 0.1;
  view = [from - room, to + room];
  redraw();
}

let drag = null;
canvas.addEventListener("wheel", (event) => { event.preventDefault(); zoom(Math.exp(Math.sign(event.deltaY) * 0.2), event.offsetX); }, { passive: false });
canvas.addEventListener("pointerdown", (event) => { drag = { x: event.offsetX, moved: 0 }; canvas.setPointerCapture(event.pointerId); canvas.classList.add("drags"); });
canvas.addEventListener("pointerup", (event) => {
  canvas.classList.remove("drags");
  if (drag && drag.moved < 4) press(nearest(event.offsetX, event.offsetY), event);
  drag = null;
});
canvas.addEventListener("pointermove", (event) => {
  if (drag) {
    const by = (event.offsetX - drag.x) / (wide - LEFT) * (view[1] - view[0]);
    drag.moved += Math.abs(event.offsetX - drag.x); drag.x = event.offsetX;
    view = [view[0] - by, view[1] - by]; redraw(); return;
  }
  const it = nearest(event.offsetX, event.offsetY);
  if (it !== hovered) { hovered = it; redraw(); tell(); }
  showTip(event);
});
canvas.addEventListener("pointerleave", () => { hovered = null; el("tip").style.display = "none"; redraw(); });
canvas.addEventListener("dblclick", (event) => zoom(0.3, event.offsetX));
el("aside").addEventListener("click", ({ target }) => {
  const { event: name, second: other, end, copy: text } = target.dataset;
  if (text !== undefined) copy(text, target);
  else if (end !== undefined) showChain(end);
  else if (other !== undefined) compareWith(byName.get(other));
  else if (name !== undefined) name ? goTo(byName.get(name)) : choose(null);
});
el("in").onclick = () => zoom(0.6, (LEFT + wide) / 2);
el("out").onclick = () => zoom(1 / 0.6, (LEFT + wide) / 2);
el("fit").onclick = fit;
el("scale").onchange = () => { isSqueezed = el("scale").value === "squeezed"; layTimes(); fit(); };
el("from").onchange = () => { base = bases[el("from").selectedIndex]; layTimes(); fit(); choose(chosen); };
function filterAgain() {
  const [kind, which = ""] = el("connection").value.split(" ");
  show(kind, which, el("text").value.trim());
}
el("connection").onchange = filterAgain;
el("text").oninput = filterAgain;
el("find").onkeydown = (event) => {
  if (event.key !== "Enter") return;
  const wanted = el("find").value, start = chosen ? chosen.index + 1 : 0, turned = [...events.slice(start), ...events.slice(0, start)];
  const it = byName.get(wanted) || turned.find((one) => one.name.includes(wanted) || one.text.includes(wanted));
  if (it) goTo(it);
};
window.addEventListener("keydown", (event) => {
  if (event.target.tagName === "INPUT") return;
  const by = (view[1] - view[0]) * 0.2;
  if (event.key === "ArrowLeft") { view = [view[0] - by, view[1] - by]; redraw(); }
  if (event.key === "ArrowRight") { view = [view[0] + by, view[1] + by]; redraw(); }
  if (event.key === "+") zoom(0.6, (LEFT + wide) / 2);
  if (event.key === "-") zoom(1 / 0.6, (LEFT + wide) / 2);
  if (event.key === "Escape") choose(null);
});
function fit() { view = [low, high]; sayCounts(0, false); redraw(); }

for (const at of bases) el("from").add(new Option(at.event.name));
el("connection").add(new Option("all", ALL));
for (const { title, options } of filterGroups()) {
  const group = document.createElement("optgroup");
  group.label = title;
  for (const [value, words] of options) group.append(new Option(words, value));
  el("connection").append(group);
}

// Opens at the first message, for before it is mostly noise of the network; of a great timeline a part, for all at once
// would lie on one another.
const KNOTS_ALL = 150, KNOTS_PART = 80;
function open() {
  const ends = shownMessages.flatMap(({ send, receive }) => [times[send.index], times[receive.index]]);
  const first = ends.length ? finite(ends)[0] : knots[0], from = knots.findIndex((it) => it >= first), last = knots.length - 1;
  const isPart = knots.length > KNOTS_ALL, left = from || isPart ? place(knots[from]) : low;
  const right = isPart ? place(knots[Math.min(from + KNOTS_PART, last)]) : high;
  // (nothing earlier is in sight)
  const room = Math.min((right - left || 1) * 0.03, from ? (left - place(knots[from - 1])) / 2 : Infinity);
  view = left === low ? [low, right] : [left - room, right];
  sayCounts(shown.filter((it) => times[it.index] < first).length, isPart);
  redraw();
}

// Says how much of all is shown, and where the view begins if that is not at the first event, or ends before the last.
function sayCounts(before, isPart) {
  const told = (own, all, name) => `${own === all ? "" : `${own} of `}${all} ${name}`;
  const counted = `${told(shown.length, DATA.all[0], "events")}, ${told(shownMessages.length, DATA.all[1], "messages")}`;
  const earlier = before ? `, and ${before} ${before === 1 ? "event is" : "events are"} earlier` : "";
  const begin = `; it begins at the first ${shownMessages.length ? "message" : "event"}${earlier}; “all” shows all`;
  el("said").textContent = counted + (shown.length ? "" : ": no event is like that") + (before || isPart ? begin : "");
}
layTimes(); open();
window.addEventListener("resize", () => { if (!el("main").hidden) resize(); });
// The clocks and delays over time stand in the place of the events, and these in theirs.
function turn(isCharts) {
  el("charts").hidden = !isCharts; el("main").hidden = isCharts;
  el("turn").textContent = isCharts ? "events" : "clocks and delays";
  if (!isCharts) resize();
}
el("turn").onclick = () => turn(el("charts").hidden);
turn(false);
// #event=NAME chooses an event and &with=NAME another one, #text=TEXT shows what has it, #all=true shows all, #scale=true
// draws to scale, and #charts=true shows clocks and delays.
const wanted = new URLSearchParams(location.hash.slice(1));
if (wanted.get("text")) { el("text").value = wanted.get("text"); show(ALL, "", wanted.get("text")); }
if (wanted.get("scale") === "true") { el("scale").value = "true"; el("scale").onchange(); }
if (byName.has(wanted.get("event"))) goTo(byName.get(wanted.get("event"))); else if (DATA.first !== null) goTo(events[DATA.first]); else tell();
if (byName.has(wanted.get("with"))) compareWith(byName.get(wanted.get("with")));
if (wanted.get("all") === "true") fit();
if (wanted.get("charts") === "true") turn(true);
