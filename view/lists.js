// A list of any length of which only the rows in view are drawn; a journal's lines, and the rows of a link.
'use strict';

const MOST_HEIGHT = 8e6;        // browsers give up on taller elements; beyond it the scroll bar moves by more than a row

/** Writes a text or a class where it is another one than before, so that nothing else is laid out anew. */
function putText(element, text) {
  if (element.told === text) return;
  element.told = text;
  element.textContent = text;
}

function putClass(element, name) {
  if (element.named === name) return;
  element.named = name;
  element.className = name;
}

class VirtualList {
  /** `fill` writes a row's number into one of the drawn elements, which `make` made. */
  constructor(box, rowHeight, make, fill) {
    Object.assign(this, {box, rowHeight, make, fill, length: 0, full: 0, height: 0, drawn: [], seen: 0, scrolled: 0, revealed: -1});
    this.space = document.createElement('div');
    this.space.className = 'space';
    box.replaceChildren(this.space);
    box.addEventListener('scroll', () => {
      if (Math.abs(box.scrollTop - this.scrolled) >= 1) this.revealed = -1;
      this.scrolled = box.scrollTop;
      this.render();
    });
    new ResizeObserver(() => {
      this.measure();
      if (this.revealed !== -1) this.reveal(this.revealed);
      this.render();
      this.settle();
    }).observe(box);
  }

  /** How much is seen below what stands above the rows and stays there. */
  measure() {
    this.seen = Math.max(0, this.box.clientHeight - this.space.offsetTop);
  }

  setLength(length) {
    if (length === this.length) return;
    this.length = length;
    this.full = length * this.rowHeight;
    this.height = Math.min(this.full, MOST_HEIGHT);
    this.space.style.height = `${this.height}px`;
    this.scrolled = Math.max(0, Math.min(this.scrolled, this.height - this.seen));
  }

  /** Forgets what is drawn. */
  clear() {
    for (const row of this.drawn) row.remove();
    this.drawn = [];
  }

  /** How far down the list the first row in view is, in pixels of the whole list. */
  top() {
    if (this.full === this.height || this.height <= this.seen) return this.scrolled;
    return this.scrolled / (this.height - this.seen) * (this.full - this.seen);
  }

  /** Scrolls only as far as it takes to have a row in view, a few rows from the edges; `settle` then moves the box. */
  reveal(row, margin = 3) {
    const {seen} = this;
    this.revealed = row;
    const top = this.top();
    const upper = (row - margin) * this.rowHeight;
    const lower = (row + 1 + margin) * this.rowHeight - seen;
    let to = Math.max(lower, Math.min(top, upper));
    if (upper < lower || Math.abs(top - row * this.rowHeight) > 2 * seen) to = (upper + lower) / 2;
    to = Math.max(0, Math.min(to, this.full - seen));
    if (to === top) return;
    this.scrolled = this.full === this.height ? to : to / (this.full - seen) * (this.height - seen);
  }

  render() {
    const top = this.top();
    const first = Math.max(0, Math.floor(top / this.rowHeight) - 1);
    const most = Math.ceil(this.seen / this.rowHeight) + 3;
    const last = Math.min(this.length, first + most);
    while (this.drawn.length < Math.min(most, this.length)) {
      const row = this.make();
      row.style.height = `${this.rowHeight}px`;
      this.drawn.push(row);
      this.space.append(row);
    }
    // The row of a number is drawn by the same element while it is in view.
    const shift = this.scrolled - top;
    const size = this.drawn.length;
    for (let place = first; place < first + size; place++) {
      const row = this.drawn[place % size];
      const hidden = place >= last;
      if (row.hidden !== hidden) row.hidden = hidden;
      if (hidden) continue;
      const way = `translateY(${place * this.rowHeight + shift}px)`;
      if (row.way !== way) row.style.transform = row.way = way;
      this.fill(row, place);
    }
  }

  /** Moves the box to where `reveal` went: apart, so that a step lays the page out once. */
  settle() {
    if (Math.abs(this.box.scrollTop - this.scrolled) >= 1) this.box.scrollTop = this.scrolled;
  }
}

/** The rows of one link behind a line, kept while the line moves by little. */
class Table {
  constructor(journal, link) {
    Object.assign(this, {journal, link, line: -1, ranks: [], values: [], first: 'prefix'});
  }

  /** The head: what it is, and how many rows there are. */
  title() {
    const count = this.journal.countAt(this.link, this.line);
    return [this.link.name, `${linkInWords(this.link)} · ` +
      (count === -1 ? 'not live' : count === 1 ? '1 row' : `${count.toLocaleString('en')} rows`)];
  }

  rankOf(place) {
    return this.ranks[place];
  }

  /** The row at a prefix, or the one before it. */
  placeOf(rank) {
    return Math.max(0, atMost(this.ranks, rank) - 1);
  }

  nameOf(place) {
    return this.journal.prefixes[this.journal.byRank[this.ranks[place]]];
  }

  isMarked(place, rank) {
    return this.ranks[place] === rank;
  }

  moveTo(line) {
    const {journal, link} = this;
    const from = Math.min(line, this.line);
    const changes = link.changes.slice(atMost(link.changes, from), atMost(link.changes, Math.max(line, this.line)));
    if (this.line === -1 || changes.length > 64 || journal.lifeAt(link, line) !== journal.lifeAt(link, this.line)) {
      Object.assign(this, journal.rowsAt(link, line));
    } else {
      for (const changed of changes) this.set(journal.rank[journal.prefix[changed]], line);
    }
    this.line = line;
  }

  set(rank, line) {
    const value = this.journal.valueAt(this.link, rank, line);
    const place = atMost(this.ranks, rank - 1);
    const there = this.ranks[place] === rank ? 1 : 0;
    const added = value === -1 ? [] : [0];
    this.ranks.splice(place, there, ...added.map(() => rank));
    this.values.splice(place, there, ...added.map(() => value));
  }
}

/** The candidates at one prefix side by side: the rows there of all links whose routes the decision compares; the best one is marked. */
class Candidates {
  constructor(journal, rank) {
    const tag = journal.tagOf(journal.byRank[rank]);
    const links = journal.links.filter(link => link.tag === tag && (link.family === 'res' || link.family === 'red'));
    links.sort((a, b) => (a.numbers[0] || 0) - (b.numbers[0] || 0));
    Object.assign(this, {journal, rank, links, line: -1, names: [], values: [], best: -1, first: 'link'});
    this.link = journal.links[journal.linkOf.get(`${tag}best`)];
  }

  moveTo(line) {
    const {journal, rank} = this;
    const found = this.links.map(link => [link.name, journal.valueAt(link, rank, line)]).filter(([, value]) => value !== -1);
    this.names = found.map(([name]) => name);
    this.values = found.map(([, value]) => value);
    this.best = this.link ? journal.valueAt(this.link, rank, line) : -1;
    this.line = line;
  }

  title() {
    const {length} = this.values;
    return [this.journal.prefixes[this.journal.byRank[this.rank]], `all candidates · ${length} ${length === 1 ? 'route' : 'routes'}`];
  }

  rankOf() {
    return -2;
  }

  placeOf() {
    return Math.max(0, this.values.indexOf(this.best));
  }

  nameOf(place) {
    return this.names[place];
  }

  isMarked(place) {
    return this.values[place] === this.best;
  }
}
