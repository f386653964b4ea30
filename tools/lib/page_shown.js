// Which events are shown: all, or those of one connection or of two hosts, and with a text.
const ALL = "", HOSTS = "hosts", CONNECTION = "connection", OPTIONS_MOST = 1000;
// What is wanted: of which kind, which one of these, and a text in small letters.
let filter = { kind: ALL, which: "", text: "" }, shown = events, shownMessages = messages;

// Returns how often each thing is there, the most frequent first.
function counted(things) {
  const found = new Map();
  for (const it of things) found.set(it, (found.get(it) || 0) + 1);
  return [...found].sort((a, b) => b[1] - a[1]);
}
const hostsOf = (it) => [it.send.host, it.receive.host].sort((a, b) => a - b).join(",");
const connectionOf = (it) => it.connection < 0 ? "" : DATA.connections[it.connection];
const searched = (it) => `${it.name} ${it.text} ${it.key} ${connectionOf(it)}`.toLowerCase();

// Returns whether an event by itself is one that is wanted.
function isWanted(it) {
  if (filter.kind === CONNECTION && it.connection !== Number(filter.which)) return false;
  if (filter.kind === HOSTS && !it.peers.some((message) => hostsOf(message) === filter.which)) return false;
  return !filter.text || searched(it).includes(filter.text);
}

// Shows the events that are wanted, and the other ends of their messages, for an address may be another one there.
function applyFilter() {
  const own = events.map(isWanted), isAll = filter.kind === ALL && !filter.text;
  const isPeer = ({ send, receive }) => own[send.index] || own[receive.index];
  shown = isAll ? events : events.filter((it) => own[it.index] || it.peers.some(isPeer));
  events.forEach((it) => { it.isShown = false; });
  shown.forEach((it) => { it.isShown = true; });
  shownMessages = isAll ? messages : messages.filter((it) => it.send.isShown && it.receive.isShown);
}
events.forEach((it) => { it.isShown = true; });

// Returns what there is to choose from, in groups: of each choice its value, and its words with how often it is there.
function filterGroups() {
  const pairs = counted(messages.map(hostsOf));
  const connections = counted(events.map((it) => it.connection).filter((it) => it >= 0)).slice(0, OPTIONS_MOST);
  const names = (pair) => pair.split(",").map((it) => DATA.hosts[it]).join(" and ");
  const ofHosts = pairs.map(([it, count]) => [`${HOSTS} ${it}`, `${names(it)} (${count})`]);
  const ofConnections = connections.map(([it, count]) => [`${CONNECTION} ${it}`, `${DATA.connections[it]} (${count})`]);
  return [
    { title: "messages between", options: pairs.length > 1 ? ofHosts : [] },
    { title: "events of", options: ofConnections },
  ].filter((it) => it.options.length);
}
