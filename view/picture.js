// The picture of a network (docs/ARCHITECTURE.md): a lane for each peer, and below them the decision, the interior
// routes and the way to the forwarding table. Each link has its name and how many rows it has behind the present line.
// A journal of both families has two networks, and a picture for each.
'use strict';

const SVG = 'http://www.w3.org/2000/svg';
const WIDTH = 1240;
const MOST_PEERS = 256;
const DECIDED = 700;            // where the links res.K come together, and where those of the readers part
const QUEUED = 885;
const PROTOCOLS = ['connected', 'static', 'ospf', 'rip'];
const MARKS = {[ADD]: 'add', [DELETE]: 'delete', [REPLACE]: 'replace', [ASK]: 'ask', [BEGIN]: 'begin', [COPY]: 'begin',
  [WELD]: 'end', [END]: 'end'};

function draw(parent, name, attributes = {}, text) {
  const made = document.createElementNS(SVG, name);
  for (const key in attributes) made.setAttribute(key, attributes[key]);
  if (text !== undefined) made.textContent = text;
  parent.append(made);
  return made;
}

function drawBox(parent, x, y, width, height, text, told) {
  const box = draw(parent, 'g', {class: 'box'});
  draw(box, 'rect', {x, y: y - height / 2, width, height, rx: 5});
  const lines = text.split('\n');
  lines.forEach((line, number) => draw(box, 'text',
    {x: x + width / 2, y: y + 4 + (number - (lines.length - 1) / 2) * 12}, line));
  if (told) draw(box, 'title', {}, told);
  return box;
}

/** The tip of a path of horizontal and vertical parts. */
function tipOf(path) {
  let [x, y, toX, toY] = [0, 0, 0, 0];
  for (const [, letter, first, second] of path.matchAll(/([MHV])([0-9.]+)(?:,([0-9.]+))?/g)) {
    if (letter === 'M') [x, y] = [Number(first), Number(second)];
    if (letter === 'H') [toX, toY, x] = [Math.sign(first - x), 0, Number(first)];
    if (letter === 'V') [toX, toY, y] = [0, Math.sign(first - y), Number(first)];
  }
  const side = sign => `${x - 7 * toX - sign * 3.5 * toY},${y - 7 * toY + sign * 3.5 * toX}`;
  return toX || toY ? `M${x},${y}L${side(1)}L${side(-1)}Z` : '';
}

/** A wire that is no link: a bus, or a way on which the rows of a link are lent. */
function drawWay(parent, path) {
  draw(parent, 'path', {class: 'wire', d: path});
  draw(parent, 'path', {class: 'tip', d: tipOf(path)});
}

/** A link of the picture: its wire, its name, and how many rows it has. */
class Wire {
  constructor(parent, path, x, y, {term, side} = {}) {
    Object.assign(this, {x, y});
    this.drawn = draw(parent, 'g', {class: 'link', role: 'button', tabindex: 0});
    this.title = draw(this.drawn, 'title');
    this.path = draw(this.drawn, 'path', {class: 'wire'});
    this.tip = draw(this.drawn, 'path', {class: 'tip'});
    this.run(path);
    draw(this.drawn, 'rect', {class: 'touch', x: x - 36, y: y - 22, width: 72, height: 34});
    this.pill = draw(this.drawn, 'rect', {class: 'pill', y: y - 8, height: 16, rx: 8});
    this.rows = draw(this.drawn, 'text', {class: 'rows', x, y: y + 4});
    const [nameX, nameY] = side ? [x - 20, y + 2] : [x, y - 11];
    this.label = draw(this.drawn, 'text', {class: side ? 'name side' : 'name', x: nameX, y: nameY});
    if (term) this.term = draw(this.drawn, 'text', {class: side ? 'term side' : 'term', x: nameX, y: side ? y + 14 : y + 19}, term);
    this.link = null;
    this.count = undefined;
  }

  run(path) {
    this.path.setAttribute('d', path);
    this.tip.setAttribute('d', tipOf(path));
  }

  /** Whose link this wire is from now on; null where none is live. */
  be(link) {
    if (link === this.link) return;
    this.link = link;
    this.count = undefined;
    this.label.textContent = link ? link.name : '';
    if (link) this.drawn.dataset.link = link.name;
    else delete this.drawn.dataset.link;
  }

  have(name, is) {
    if (this[name] === is) return;
    this[name] = is;
    this.drawn.classList.toggle(name, is);
  }

  tell(count) {
    if (count === this.count) return;
    this.count = count;
    const text = count === -1 ? '' : String(count);
    const width = Math.max(24, 12 + 7 * text.length);
    this.rows.textContent = text;
    this.pill.setAttribute('x', this.x - width / 2);
    this.pill.setAttribute('width', width);
    this.drawn.classList.toggle('dead', count === -1);
    if (!this.link) return;
    this.title.textContent = `${this.link.name}: ${linkInWords(this.link)}` + (count === -1 ? ', not live' : `, ${count} rows`);
    this.drawn.setAttribute('aria-label', this.title.textContent);
  }
}

/** Links of which some are live at a time, in order: the stages of one chain, the sessions of one peer. */
class Group {
  constructor(links) {
    this.links = links;
    this.lines = links.flatMap(link => link.begins.concat(link.ends.filter(Number.isFinite))).sort((a, b) => a - b);
    this.version = -1;
    this.live = [];
  }

  /** The live ones behind a line, and the one whose stage the line takes out. */
  at(journal, line) {
    const version = atMost(this.lines, line);
    if (version !== this.version) {
      this.version = version;
      this.live = this.links.filter(link => journal.lifeAt(link, line) !== -1);
    }
    const going = journal.kind[line] === WELD ? journal.links[journal.link[line]] : null;
    return {live: this.live, going: this.links.includes(going) ? going : null};
  }
}

/** The live routes of one source, and the deletion stages below them: boxes that come and go. */
class Chain {
  constructor(picture, parent, journal, stages, bottom, {x, y, end, at}) {
    Object.assign(this, {picture, x, y, end, at});
    this.group = new Group(stages);
    this.bottom = new Wire(parent, '', at, y);
    this.bottom.be(bottom);
    this.zone = draw(parent, 'g');
    this.drawn = null;
    this.wires = [];
  }

  show(journal, line) {
    const {live, going} = this.group.at(journal, line);
    const key = `${this.group.version} ${going ? going.id : ''}`;
    if (key === this.drawn) return;
    const coming = this.drawn !== null && journal.kind[line] === BEGIN ? journal.links[journal.link[line]] : null;
    this.drawn = key;
    const number = link => link.numbers[link.numbers.length - 1];
    const stages = (going ? live.concat(going) : live.slice()).sort((a, b) => number(b) - number(a));
    this.zone.replaceChildren();
    const room = this.at - 44 - this.x;
    const step = Math.min(114, room / stages.length);
    const width = step >= 100 ? 44 : Math.min(22, step / 2);
    this.wires = stages.map((link, place) => {
      const left = this.x + place * step;
      const middle = left + (step - width) / 2;
      const wire = new Wire(this.zone, `M${left},${this.y}H${left + step - width}`, middle, this.y);
      wire.be(link);
      wire.drawn.classList.toggle('small', step < 100);
      wire.drawn.classList.toggle('bare', step < 48);
      const box = drawBox(this.zone, left + step - width, this.y, width, 24, step >= 100 ? `lost ${number(link)}` : step >= 44 ? `${number(link)}` : '',
        `deletion stage ${number(link)}`);
      box.classList.add('stage');
      box.classList.toggle('going', link === going);
      box.classList.toggle('coming', link === coming);
      return wire;
    });
    this.bottom.run(`M${this.x + stages.length * step},${this.y}H${this.end}`);
    this.picture.changed = true;
  }
}

class Picture {
  /** The picture in a box of the page, of the network that has this in front of its links' names. */
  constructor(box, tag, choose) {
    const [heads, lanes, core] = ['.heads', '.lanes svg', '.core'].map(part => box.querySelector(part));
    Object.assign(this, {box, tag, heads, lanes, core, choose});
    for (const drawn of [lanes, core]) {
      drawn.addEventListener('click', event => this.touched(event));
      drawn.addEventListener('keydown', event => { if (event.key === 'Enter') this.touched(event); });
    }
  }

  touched(event) {
    const link = event.target.closest('.link');
    if (link && link.dataset.link) this.choose(link.dataset.link);
  }

  /** Draws the picture of a journal, if that has the network. */
  open(journal) {
    this.box.hidden = this.tag !== '' && !journal.isOfBoth();
    this.journal = journal;
    this.wires = new Map();
    this.marked = [];
    this.chains = [];
    this.sessions = [];
    const peers = new Set();
    for (const link of journal.links) {
      if (link.tag === this.tag && ['in', 'filt', 'res', 'peer', 'read', 'outf', 'adv'].includes(link.family)) peers.add(link.numbers[0]);
    }
    this.peers = Array.from(peers).sort((a, b) => a - b).slice(0, MOST_PEERS);
    this.height = this.peers.length > 8 ? 42 : 48;
    this.drawHeads();
    this.drawLanes();
    this.drawCore();
    this.tokens = [this.lanes, this.core].map(parent => {
      const token = draw(parent, 'g', {class: 'token'});
      draw(token, 'rect', {y: 9, height: 17, rx: 4});
      draw(token, 'text', {y: 21});
      return token;
    });
    this.fixed = [...this.plain, ...this.chains.map(chain => chain.bottom)];
    this.changed = true;
  }

  family(family, peer) {
    return this.journal.links.filter(link => link.tag === this.tag && link.family === family && (peer === undefined || link.numbers[0] === peer));
  }

  /** The link of a name in this network, or null. */
  linkOf(name) {
    return this.journal.links[this.journal.linkOf.get(this.tag + name)] || null;
  }

  drawHeads() {
    this.heads.replaceChildren();
    this.heads.setAttribute('viewBox', `0 0 ${WIDTH} 20`);
    for (const [x, text] of [[45, 'live routes'], [196, 'deletion stages of lost sessions'], [354, 'Adj-RIB-In'],
      [500, 'behind import policy'], [653, 'next hop resolved'], [932, 'read of best'], [1068, 'behind export policy'],
      [1198, 'Adj-RIB-Out']]) draw(this.heads, 'text', {class: 'head', x, y: 14}, text);
  }

  drawLanes() {
    const bottom = this.peers.length * this.height + 6;
    this.lanes.replaceChildren();
    this.lanes.setAttribute('viewBox', `0 0 ${WIDTH} ${bottom}`);
    const middle = this.height / 2 + 3;
    if (this.peers.length) {
      draw(this.lanes, 'path', {class: 'wire', d: `M${DECIDED},${middle}V${bottom}`});
      draw(this.lanes, 'path', {class: 'wire', d: `M${QUEUED},${bottom}V${middle}`});
    }
    this.plain = [];
    this.peers.forEach((peer, place) => this.drawLane(peer, place * this.height + middle));
  }

  wire(parent, name, path, x, y, options) {
    const link = this.linkOf(name);
    const wire = new Wire(parent, path, x, y, options);
    wire.be(link);
    if (!link) wire.label.textContent = this.tag + name;
    this.plain.push(wire);
    return wire;
  }

  drawLane(peer, y) {
    const lane = draw(this.lanes, 'g', {class: 'lane'});
    drawBox(lane, 8, y, 74, 26, `peer ${peer}`, `the live routes of peer ${peer}`);
    const bottom = this.linkOf(`in.${peer}`);
    this.chains.push(new Chain(this, lane, this.journal, this.family('peer', peer), bottom, {x: 82, y, end: 398, at: 354}));
    drawBox(lane, 398, y, 58, 26, 'filter', 'the incoming filter');
    this.wire(lane, `filt.${peer}`, `M456,${y}H544`, 500, y);
    drawBox(lane, 544, y, 62, 26, 'resolver', 'next hops, resolved by interior routes');
    this.wire(lane, `res.${peer}`, `M606,${y}H${DECIDED}`, 653, y);
    const told = draw(lane, 'text', {class: 'told', x: (DECIDED + QUEUED) / 2, y: y + 4});
    const [read, outf, adv] = [[QUEUED, 980, 932], [1040, 1120, 1080], [1162, 1236, 1197]].map(([from, to, at]) => {
      const wire = new Wire(lane, `M${from},${y}H${to}`, at, y);
      this.plain.push(wire);
      return wire;
    });
    drawBox(lane, 980, y, 60, 26, 'filter', 'the outgoing filter');
    const sent = drawBox(lane, 1120, y, 42, 26, 'sent', 'what was sent, and the octets of each UPDATE');
    this.sessions.push({peer, told, group: new Group(['read', 'outf', 'adv'].flatMap(family => this.family(family, peer))), wires: {read, outf, adv}, sent});
  }

  drawCore() {
    const core = this.core;
    core.replaceChildren();
    core.setAttribute('viewBox', `0 0 ${WIDTH} 206`);
    const wire = (name, path, x, y, side) => this.wire(core, name, path, x, y, {term: TERMS[name], side});
    drawWay(core, `M${DECIDED},0V24`);
    draw(core, 'path', {class: 'wire', d: `M${QUEUED},24V0`});
    this.drawTree(core, wire);
    drawBox(core, 558, 104, 62, 34, 'redistri-\nbution', 'interior routes as this speaker’s own');
    wire('red', `M620,104H${DECIDED}V56`, 660, 104);
    drawBox(core, 658, 40, 84, 32, 'decision', 'RFC 4271, section 9.1, over all peers');
    wire('best', 'M742,40H846', 794, 40);
    drawBox(core, 846, 40, 78, 32, 'queue', 'changes of the best routes, which each reader reads at its pace');
    this.forwarding = wire('read.rib', `M${QUEUED},56V92`, QUEUED, 74, true);
    drawBox(core, 852, 128, 66, 72, 'splitter', 'routes of external peers, of internal peers');
    wire('ebgp', 'M918,106H1000', 957, 106);
    wire('ibgp', 'M918,152H1000', 957, 152);
    drawBox(core, 1000, 129, 10, 70, '', 'merge').classList.add('merge');
    wire('ext', 'M1010,129H1094', 1050, 129);
    drawBox(core, 1094, 129, 56, 28, 'ExtInt', 'external routes, by the interior routes to their next hops');
    wire('fib', 'M1150,129H1236', 1191, 129);
    if (this.tag === '') this.drawLegend(core);
  }

  /** The tree of the interior routes, and what `int` goes to. */
  drawTree(core, wire) {
    drawWay(core, 'M540,104V192H1122V143');
    drawBox(core, 560, 160, 66, 24, 'register', 'longest matches of interior routes, and who asked for them');
    drawWay(core, 'M540,160H560');
    PROTOCOLS.forEach((protocol, place) => {
      const y = 32 + place * 48;
      drawBox(core, 8, y, 74, 26, protocol, `the live routes of ${protocol}`);
      const stages = this.family('org').filter(link => link.protocol === protocol && link.numbers.length);
      const bottom = this.linkOf(`org.${protocol}`);
      this.chains.push(new Chain(this, core, this.journal, stages, bottom, {x: 82, y, end: 318, at: 270}));
    });
    for (const [x, from, to] of [[318, 32, 80], [318, 128, 176], [428, 56, 152]]) {
      drawBox(core, x, (from + to) / 2, 10, to - from + 24, '', 'merge: the row of least distance').classList.add('merge');
    }
    wire('low', 'M328,56H428', 378, 56);
    wire('dyn', 'M328,152H428', 378, 152);
    wire('int', 'M438,104H558', 492, 104);
    draw(core, 'circle', {class: 'joint', cx: 540, cy: 104, r: 3});
  }

  drawLegend(core) {
    const legend = draw(core, 'g', {class: 'legend'});
    [['this line', 'now'], ['before it in the fall', 'passed'], ['behind it', 'next']].forEach(([text, name], place) => {
      const x = 946 + [0, 76, 206][place];
      const sample = draw(legend, 'g', {class: `link ${name} replace`});
      draw(sample, 'path', {class: 'wire', d: `M${x},20h18`});
      draw(legend, 'text', {x: x + 23, y: 23.5}, text);
    });
    ['add', 'replace', 'delete'].forEach((name, place) => {
      const x = 946 + [0, 76, 146][place];
      draw(legend, 'rect', {class: name, x, y: 34, width: 10, height: 10, rx: 2});
      draw(legend, 'text', {x: x + 15, y: 42.5}, name);
    });
  }

  /** Shows how things stand behind a line; `chosen` is the name of the chosen link, `rank` that of a prefix or -1. */
  show(line, chosen, rank) {
    const {journal} = this;
    this.changed = false;
    for (const chain of this.chains) chain.show(journal, line);
    for (const session of this.sessions) this.showSession(session, line);
    const unread = this.forwarding.link ? this.unread(this.forwarding.link, line) : 0;
    putText(this.forwarding.term, unread ? `for forwarding · ${unread} unread` : 'read for forwarding');
    this.wires.clear();
    for (const wire of this.allWires()) {
      wire.tell(wire.link ? journal.countAt(wire.link, line) : -1);
      if (wire.link) this.wires.set(wire.link.name, wire);
      wire.have('chosen', wire.link !== null && wire.link.name === chosen);
      wire.have('has', rank !== -1 && wire.link !== null && journal.valueAt(wire.link, rank, line) !== -1);
    }
    this.mark(line);
  }

  *allWires() {
    yield* this.fixed;
    for (const chain of this.chains) yield* chain.wires;
  }

  showSession(session, line) {
    const {live} = session.group.at(this.journal, line);
    const number = Math.max(0, ...live.map(link => link.numbers[1]));
    const reader = live.find(link => link.family === 'read');
    const unread = reader ? this.unread(reader, line) : 0;
    const text = number ? `session ${number}` + (unread ? ` · ${unread} unread` : '') : 'no session';
    putText(session.told, text);
    if (number === session.number) return;
    session.number = number;
    for (const family in session.wires) session.wires[family].be(this.linkOf(`${family}.${session.peer}.${number}`));
  }

  /** How many changes of the best routes a reader hasn't read behind a line. */
  unread(reader, line) {
    const best = this.linkOf('best');
    const life = this.journal.lifeAt(reader, line);
    if (!best || life === -1) return 0;
    const since = link => atMost(link.changes, line) - atMost(link.changes, reader.begins[life]);
    return Math.max(0, since(best) - since(reader));
  }

  /** Marks the link of the line, and those of its fall that were passed and that are to come. */
  mark(line) {
    const {journal} = this;
    for (const drawn of this.marked) drawn.classList.remove('now', 'passed', 'next', ...Object.values(MARKS));
    this.marked = [];
    this.now = null;            // the wire of the line
    const put = (drawn, ...names) => { if (drawn) { drawn.classList.add(...names); this.marked.push(drawn); } };
    for (const token of this.tokens) token.classList.remove('seen');
    if (line === 0) return;
    const first = journal.fall[line];
    for (let other = first; other <= journal.last && journal.fall[other] === first && other - first < 64; other++) {
      if (other === line || journal.kind[other] > REPLACE) continue;
      const wire = this.wires.get(journal.links[journal.link[other]].name);
      put(wire && wire.drawn, other < line ? 'passed' : 'next');
    }
    const kind = journal.kind[line];
    if (kind === OUT || kind === NOTE) {
      const [, peer, hex] = journal.text(line).split(' ');
      if (this.tag !== (kind === OUT ? tagOfUpdate(hex || '') : '')) return;
      const session = this.sessions.find(found => found.peer === Number(peer));
      if (session) put(session.sent, 'now');
      if (session) this.now = session.wires.adv;
      return;
    }
    const wire = journal.link[line] === -1 ? null : this.wires.get(journal.links[journal.link[line]].name);
    if (!wire) return;
    this.now = wire;
    put(wire.drawn, 'now', MARKS[kind]);
    this.moveToken(wire, kind, journal.prefixes[journal.prefix[line]]);
  }

  moveToken(wire, kind, prefix) {
    const token = this.tokens[this.lanes.contains(wire.drawn) ? 0 : 1];
    const text = prefix ? `${KINDS[kind]} ${prefix}` : kind === WELD ? 'taken out' : kind === END ? 'ends' : 'begins';
    const width = 12 + 6.7 * text.length;
    const x = Math.min(Math.max(wire.x, width / 2 + 2), WIDTH - width / 2 - 2);
    token.firstChild.setAttribute('x', -width / 2);
    token.firstChild.setAttribute('width', width);
    token.lastChild.textContent = text;
    token.style.transform = `translate(${x}px, ${wire.y}px)`;
    token.setAttribute('class', `token seen ${MARKS[kind]}`);
  }
}
