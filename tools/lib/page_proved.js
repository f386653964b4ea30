// Why an event is so much later than another one: the chain of bounds that `prove` gave, in words and on the picture.
const MOST = "greatest", LEAST = "least", CHAIN = "#b0006d", PARTNERS_MOST = 20;
// The event that the chosen one is compared with, null for that where bars begin, and the end whose chain is drawn.
let second = null, drawnEnd = MOST;

const isPair = (it, one, other) => it.first === one && it.second === other;
const proofOf = (one, other) => proofs.find((it) => isPair(it, one, other) || isPair(it, other, one)) || null;
const compared = () => second && second !== chosen ? second : base.event;
const shownProof = () => chosen && chosen !== compared() ? proofOf(compared(), chosen) : null;

// Returns how much later one is than the other, in words: an end that is below 0 says how much earlier.
function laterText(later, isMost) {
  const isLater = later >= 0n, way = isLater ? "after" : "before";
  return `${isMost === isLater ? "at most" : "at least"} ${exact(isLater ? later : -later)} ${way}`;
}

// Returns an end of a proof with its chain, leg by leg.
function chainWords({ first, second: other, [MOST]: most, [LEAST]: least }, end) {
  const isMost = end === MOST, chain = isMost ? most : least;
  if (chain.end === null) {
    const name = chain.inside.length === 1 ? "clock" : "clocks", clocks = chain.inside.map(safe).join(", ");
    const told = `no bound leads from the ${name} ${clocks} to another one`;
    return `<p>${link(other)} has no ${end} time since ${link(first)}: ${told}.</p>`;
  }
  const turn = `<a data-end="${end}"${drawnEnd === end ? " class='chain'>on" : ">show on"} the picture</a>`;
  const leg = (it) => `<li>${link(it.to)} ${laterText(it.later, isMost)} ${link(it.from)}: ${safe(it.why)}</li>`;
  const sum = chain.legs.reduce((all, it) => all + it.later, 0n);
  return `<p>${link(other)} was ${laterText(chain.end, isMost)} ${link(first)}, ${turn}</p>`
    + `<ol class="chain">${chain.legs.map(leg).join("")}</ol><p class="grey">Together ${exact(sum)}.</p>`;
}

// Returns the events that have a proof with the chosen one, but for this one.
function partners(one) {
  const others = proofs.map((it) => it.first === chosen ? it.second : it.second === chosen ? it.first : null);
  return others.filter((it) => it && it !== one);
}

// Returns the words on the chosen event and the one that it is compared with.
function proofWords() {
  const one = compared();
  if (!chosen || one === chosen) return "";
  const proof = shownProof(), others = partners(one), ends = knownEnds(one, chosen), name = safe(one.name);
  const parts = [`<h3>${safe(chosen.name)} and ${link(one)}</h3>`];
  if (second) parts.push(`<p>${ends ? between(...ends) : "how long was not asked,"} since ${name}</p>`);
  const question = `<code>tools/timeline --prove ${name},${safe(chosen.name)}</code>`;
  if (proof) parts.push(chainWords(proof, MOST), chainWords(proof, LEAST));
  else parts.push(`<p class="grey">By which bounds was not asked: ${question} asks.</p>`);
  if (others.length) {
    const links = others.slice(0, PARTNERS_MOST).map((it) => `<a data-second="${safe(it.name)}">${safe(it.name)}</a>`);
    parts.push(`<p>Proofs with: ${links.join(", ")}${others.length > PARTNERS_MOST ? ", .." : ""}</p>`);
  }
  parts.push("<p class='grey'>Shift and click: another event to compare with.</p>");
  return parts.join("");
}

// Returns where each leg of the chain that is shown begins and ends.
function drawnLegs(xs) {
  const proof = shownProof(), at = (it) => [xs[it.index], rowY(it.host)];
  return proof ? proof[drawnEnd].legs.map((it) => [...at(it.from), ...at(it.to)]) : [];
}

// Draws a band along each leg of the chain that is shown, and a ring round what the chosen one is compared with.
function drawProof(xs) {
  if (second && second.isShown) {
    pen.strokeStyle = CHAIN; pen.lineWidth = 2;
    pen.beginPath(); pen.arc(xs[second.index], rowY(second.host), 8, 0, 7); pen.stroke();
  }
  pen.strokeStyle = CHAIN; pen.lineWidth = 7; pen.globalAlpha = 0.35; pen.lineCap = "round";
  drawnLegs(xs).forEach((leg) => line(...leg));
  pen.globalAlpha = 1; pen.lineCap = "butt";
}

// Writes on each leg, where it is long enough, the number of its line in the list: near its middle, and on no event.
function drawNumbers(xs) {
  pen.font = "bold 10px Helvetica, Arial, sans-serif"; pen.textAlign = "center";
  drawnLegs(xs).forEach(([x1, y1, x2, y2], number) => {
    if (Math.hypot(x2 - x1, y2 - y1) < 30) return;
    const places = [0.5, 0.4, 0.6, 0.3, 0.7].map((part) => [x1 + (x2 - x1) * part, y1 + (y2 - y1) * part]);
    const isFree = ([px, py]) => px > LEFT && px < wide && !spots.some(([sx, sy]) => Math.hypot(sx - px, sy - py) < 12);
    const [px, py] = places.find(isFree) || places[0];
    pen.fillStyle = CHAIN; pen.beginPath(); pen.arc(px, py, 7, 0, 7); pen.fill();
    pen.fillStyle = "#fff"; pen.fillText(String(number + 1), px, py + 3.5);
  });
}

// Draws the chain of an end, all of it in sight.
function showChain(end) {
  drawnEnd = end;
  const own = shownProof()[end].legs.flatMap(({ from, to }) => [from, to]);
  const isOut = (it) => spotOf[it.index] < view[0] || spotOf[it.index] > view[1];
  if (own.some(isOut)) goNear(own); else redraw();
  tell();
}
