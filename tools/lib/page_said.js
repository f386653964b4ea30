// What is drawn: events at their times in the earliest execution, since a chosen event; a bar from the least to the greatest such time of
// all executions. Orders are those that the program gave, or follow from the ends of bars from one event; all others are not known here.
const INKS = ["#1f5fa8", "#b3541e", "#2f7d4f", "#7a4aa0", "#a8324e", "#4d6b7a", "#8a6d1a", "#5a5a5a"];
const OPEN = "#e08a00", EARLIER = "#1c7a3c", LATER = "#3b6fd4", EQUAL = "#000", AXIS = 34, ABOVE = 46, LANES = 8, LANE = 6, BELOW = 14, ROW_MOST = 340, MANY = 1200, CROWDED = 1500;
const LEFT = Math.max(70, Math.min(300, 26 + 9 * Math.max(...DATA.hosts.map((it) => it.length))));
const UNITS = 1000000000n;
const el = (id) => document.getElementById(id);
const canvas = el("canvas"), pen = canvas.getContext("2d"), plot = el("plot");

// ---- numbers: exact ones are BigInt, in units of 1e-9 ns; those that are drawn are doubles, in ns
const units = (text) => {
  if (text === null) return null;
  const minus = text[0] === "-", [whole, rest = ""] = text.replace("-", "").split(".");
  const value = BigInt(whole) * UNITS + BigInt(rest.padEnd(9, "0"));
  return minus ? -value : value;
};
const drawn = (value) => Number(value / UNITS) + Number(value % UNITS) / 1e9;
const exact = (value) => {
  if (value === null) return "no limit";
  const whole = (value < 0n ? -value : value), rest = String(whole % UNITS).padStart(9, "0").replace(/0+$/, "");
  return (value < 0n ? "-" : "") + String(whole / UNITS).replace(/\B(?=(\d{3})+$)/g, "\u202f") + (rest ? "." + rest : "") + "\u00a0ns";
};
// Returns ns in few digits: six, and more where a neighbour is only `gap` ns away.
const inShort = (ns, gap = Infinity) => {
  const [size, name] = Math.abs(ns) >= 1e9 ? [1e9, "s"] : Math.abs(ns) >= 1e6 ? [1e6, "ms"] : Math.abs(ns) >= 1e3 ? [1e3, "us"] : [1, "ns"];
  const digits = isFinite(gap) && gap > 0 ? Math.min(Math.max(6, Math.ceil(Math.log10(Math.abs(ns) / gap || 1)) + 2), 15) : 6;
  return String(Number((ns / size).toPrecision(digits))) + " " + name;
};
// Returns what lies between two ends; of great ones that are near to each other, a number and what is less and more. No digit is lost.
const between = (least, greatest) => {
  if (least === null || greatest === null || greatest < least) return `between ${exact(least)} and ${exact(greatest)}`;
  const wide = greatest - least, far = least < 0n ? -greatest : least;
  if (far < 1000n * wide || far < 1000000n * UNITS) return `between ${exact(least)} and ${exact(greatest)}`;
  let size = 1n, next = 10n;
  for (; (greatest - (greatest % next + next) % next) >= least; next *= 10n) size = next;
  const middle = greatest - (greatest % size + size) % size;
  return wide === 0n ? exact(middle) : `${exact(middle)}, less ${exact(middle - least)}, plus ${exact(greatest - middle)}`;
};
const safe = (text) => text.replace(/[&<>"]/g, (it) => ({ "&": "&amp;", "<": "&lt;", ">": "&gt;", '"': "&quot;" })[it]);

// ---- what the program said
const events = DATA.events.map(([name, host, stamp, time, text, brief], index) => {
  const [connection, file, frame, key = ""] = DATA.records[index];
  const record = { connection, file, frame, key };
  return { name, host, stamp, time: units(time), text, brief: brief === undefined ? text : brief, ...record, index, peers: [] };
});
const byName = new Map(events.map((it) => [it.name, it]));
const messages = DATA.messages.map(([send, receive, least, greatest]) => ({ send: events[send], receive: events[receive], least, greatest }));
for (const it of messages) { it.send.peers.push(it); it.receive.peers.push(it); }
const bases = DATA.bases.map((it) => ({ event: events[it.event], least: it.least.map(units), greatest: it.greatest.map(units) }));
const readLeg = ([from, to, later, why]) => ({ from: events[from], to: events[to], later: units(later), why });
const readChain = ({ end, legs, inside }) => ({ end: units(end), inside, legs: legs.map(readLeg) });
const readProof = ({ first, second, least, greatest }) =>
  ({ first: events[first], second: events[second], least: readChain(least), greatest: readChain(greatest) });
const proofs = DATA.proofs.map(readProof);
const ORDERS = { b: "before", a: "after", s: "same", o: "open" };
const TURNED = { before: "after", after: "before", same: "same", open: "open" };
let base = bases[0];

// Which of two ends of an interval it is, just as the program's `order` says.
const orderOf = (least, greatest) => least !== null && least > 0n ? "before" : greatest !== null && greatest < 0n ? "after"
  : least === 0n && greatest === 0n ? "same" : "open";
const isApart = (at, one, other) => at.greatest[one] !== null && at.least[other] !== null && at.greatest[one] < at.least[other];

// Returns the least and the greatest time from an event to another; null where it was not asked.
const turnedEnds = ([least, greatest]) => [greatest, least].map((it) => it === null ? null : -it);
function knownEnds(one, other) {
  for (const at of bases) {
    if (at.event === one) return [at.least[other.index], at.greatest[other.index]];
    if (at.event === other) return turnedEnds([at.least[one.index], at.greatest[one.index]]);
  }
  for (const it of proofs) {
    if (it.first === one && it.second === other) return [it.least.end, it.greatest.end];
    if (it.first === other && it.second === one) return turnedEnds([it.least.end, it.greatest.end]);
  }
  for (const it of one.peers) {
    if (it.least === undefined) continue;
    if (it.receive === other) return [units(it.least), units(it.greatest)];
    if (it.send === other) return turnedEnds([units(it.least), units(it.greatest)]);
  }
  return null;
}

// Returns how an event stands to another, and by what that is known; null where nothing says it.
function order(one, other) {
  for (const at of bases) {
    if (at.event === one) return [orderOf(at.least[other.index], at.greatest[other.index]), "its interval"];
    if (at.event === other) return [TURNED[orderOf(at.least[one.index], at.greatest[one.index])], "its interval"];
  }
  const asked = DATA.orders[one.index + "," + other.index], turned = DATA.orders[other.index + "," + one.index];
  if (asked) return [ORDERS[asked], "a question for it"];
  if (turned) return [TURNED[ORDERS[turned]], "a question for it"];
  for (const at of bases) {
    if (isApart(at, one.index, other.index)) return ["before", "bars that lie apart"];
    if (isApart(at, other.index, one.index)) return ["after", "bars that lie apart"];
  }
  return null;
}
