// The page: which journal, which line, which link; its keys, buttons and lists.
'use strict';

const SPEEDS = [1, 2, 4, 8, 16, 64, 256, 1024, 4096];
const at = selector => document.querySelector(selector);

function part(name, parent) {
  const made = document.createElement('span');
  made.className = name;
  parent.append(made);
  return made;
}

class View {
  constructor() {
    this.journal = null;
    this.line = 0;
    this.chosen = null;         // the name of the chosen link
    this.table = null;
    this.printed = false;       // whether rows are shown as printed
    this.matches = null;        // the lines of the filter, or null where there is none
    this.rank = -1;             // the filter's prefix
    this.isNew = false;
    this.playing = null;
    this.stripWidth = 0;
    this.opened = 0;            // how many files were opened, or refused
    this.pictures = [['#first', ''], ['#second', '6.']].map(([box, tag]) => new Picture(at(box), tag, name => this.choose(name)));
    this.lines = new VirtualList(at('#lines .list'), 20, () => this.makeLine(), (row, place) => this.fillLine(row, place));
    this.rows = new VirtualList(at('#rows .list'), 20, () => this.makeRow(), (row, place) => this.fillRow(row, place));
    this.heads = document.createElement('div');
    this.heads.className = 'columns';
    at('#rows .list').prepend(this.heads);
    this.listen();
  }

  // Opening a file.

  async open(file) {
    this.stop();
    at('#complaint').hidden = true;
    const begun = performance.now();
    const told = part => { at('#progress').textContent = `Reading ${file.name}: ${Math.round(part * 100)} %`; };
    try {
      told(0);
      this.show(await Journal.read(file, told));
      this.seconds = (performance.now() - begun) / 1000;
    } catch (failure) {
      this.complain(failure instanceof Refusal ? failure.message : `${file.name} can’t be read: ${failure.message}.`);
    }
    at('#progress').textContent = '';
    this.opened += 1;
  }

  complain(text) {
    at('#complaint').textContent = text;
    at('#complaint').hidden = false;
  }

  show(journal) {
    this.journal = journal;
    document.body.classList.remove('empty');
    document.title = `${journal.name} – replay`;
    at('#file').textContent = `${journal.name} · ${journal.last.toLocaleString('en')} lines`;
    at('#last').textContent = journal.last.toLocaleString('en');
    at('#strip').setAttribute('aria-valuemax', journal.last);
    if (journal.broken) {
      const {line, rule, text} = journal.broken;
      this.complain(`Line ${line.toLocaleString('en')} breaks rule ${rule} (docs/OUTPUT.md): ${shortened(text)}, but ${RULES[rule]}. ` +
        'The lines before it are shown.');
    }
    Object.assign(this, {line: 0, matches: null, rank: -1});
    for (const picture of this.pictures) picture.open(journal);
    document.body.classList.toggle('both', journal.isOfBoth());
    this.lines.setLength(journal.last);
    at('#filter').value = '';
    this.choose(journal.linkOf.has('best') ? 'best' : journal.links[0].name);
    this.setFilter('');
    this.go(Math.min(1, journal.last));
  }

  // Going to lines.

  go(line) {
    if (!this.journal) return;
    this.line = Math.max(0, Math.min(line, this.journal.last));
    this.render();
  }

  /** The line that a step in a direction comes to: a line, or the last one of a fall or an event. */
  next(unit, direction) {
    const {journal, matches, line} = this;
    const parts = unit === 'fall' ? journal.fall : unit === 'event' ? journal.event : null;
    const count = matches ? matches.length : journal.last;
    const lineOf = place => (matches ? matches[place] : place + 1);
    let place = matches ? atMost(matches, line) : line;       // how many lines of the filter there are up to this one
    if (direction > 0) {
      if (place === count) return line;
      if (parts) while (place + 1 < count && parts[lineOf(place + 1)] === parts[lineOf(place)]) place++;
      return lineOf(place);
    }
    place -= place > 0 && lineOf(place - 1) === line ? 2 : 1;
    if (parts) while (place >= 0 && parts[lineOf(place)] === parts[line]) place--;
    return place >= 0 ? lineOf(place) : 0;
  }

  step(unit, direction) {
    if (this.journal) this.go(this.next(unit, direction));
  }

  play() {
    if (this.playing !== null || !this.journal) return this.stop();
    if (this.line === this.journal.last) this.line = 0;
    let owed = 1;
    let before = performance.now();
    const frame = now => {
      owed += (now - before) / 1000 * Number(at('#speed').value);
      before = now;
      const from = this.line;
      const until = performance.now() + 12;
      for (; owed >= 1 && performance.now() < until; owed--) this.line = this.next(at('#unit').value, 1);
      owed = Math.min(owed, 5000);
      if (this.line !== from) this.render();
      this.playing = requestAnimationFrame(frame);
      if (this.next('line', 1) === this.line) this.stop();
    };
    this.playing = requestAnimationFrame(frame);
    at('#play').textContent = '◼ stop';
    document.body.classList.add('playing');
  }

  stop() {
    if (this.playing !== null) cancelAnimationFrame(this.playing);
    this.playing = null;
    at('#play').textContent = '▶ play';
    document.body.classList.remove('playing');
  }

  // What is shown.

  render() {
    const {journal, line} = this;
    for (const picture of this.shown()) picture.show(line, this.chosen, this.rank);
    const [told, rest] = lineInWords(journal, line);
    putText(at('#says b'), told);
    putText(at('#says span'), rest);
    if (document.activeElement !== at('#line')) at('#line').value = line;
    at('#strip i').style.transform = `translateX(${line / (journal.last || 1) * this.stripWidth}px)`;
    at('#strip').setAttribute('aria-valuenow', line);
    at('#beside').hidden = this.rank === -1;
    const place = this.matches ? atMost(this.matches, line) - 1 : line - 1;
    this.lines.reveal(Math.max(0, place));
    this.lines.render();
    this.renderRows();
    this.lines.settle();
    this.keepInView();
  }

  /** The pictures of the networks that the journal has. */
  shown() {
    return this.pictures.filter(picture => !picture.box.hidden);
  }

  /** Scrolls the lanes to the link of the present line, and where there are two networks the picture to the one that it is of. */
  keepInView() {
    const picture = this.shown().find(found => found.now);
    if (!picture) return;
    const {now, size: {width, seen, height}} = picture;
    const lanes = picture.lanes.parentNode;
    if (lanes.contains(now.drawn) && height > seen) {
      const scale = width / WIDTH;
      const [upper, lower] = [(now.y - 24) * scale, (now.y + 30) * scale];
      if (upper < lanes.scrollTop) lanes.scrollTop = upper - 10;
      else if (lower > lanes.scrollTop + seen) lanes.scrollTop = lower - seen + 10;
    }
    if (this.shown().length > 1) revealPart(at('#picture'), now.drawn.querySelector('.touch'));
  }

  makeLine() {
    const row = document.createElement('div');
    for (const name of ['number', 'kind', 'link', 'prefix', 'rest']) part(name, row);
    row.addEventListener('click', () => this.go(row.line));
    row.addEventListener('pointerenter', () => { row.title = this.journal.text(row.line); });
    return row;
  }

  fillLine(row, place) {
    const {journal} = this;
    const line = this.matches ? this.matches[place] : place + 1;
    const kind = journal.kind[line];
    const text = journal.text(line);
    const words = text.split(' ');
    const isChange = kind <= ASK;
    const [number, first, link, prefix, rest] = row.children;
    putText(number, String(line));
    putText(first, words[0]);
    putText(link, words[1] || '');
    putText(prefix, isChange ? words[2] : '');
    putText(rest, words.slice(isChange ? 3 : 2).join(kind === REPLACE ? ' → ' : ' '));
    row.line = line;
    putClass(row, `line ${MARKS[kind] || 'other'}` + (line === this.line ? ' present' : '') +
      (line > this.line ? ' later' : '') + (journal.event[line] === line ? ' event' : '') +
      (journal.fall[line] === journal.fall[this.line] ? ' same' : ''));
  }

  choose(name) {
    if (!this.journal || !this.journal.linkOf.has(name)) return;
    this.chosen = name;
    this.showTable(new Table(this.journal, this.journal.links[this.journal.linkOf.get(name)]));
  }

  showTable(table) {
    this.table = table;
    this.rows.scrolled = 0;
    this.drawColumns();
    this.render();
  }

  /** All candidates at the filter's prefix side by side, or again the rows of the chosen link. */
  showCandidates() {
    if (this.rank === -1) return;
    if (this.table instanceof Candidates) this.choose(this.chosen);
    else this.showTable(new Candidates(this.journal, this.rank));
  }

  drawColumns() {
    const heads = columnHeads(this.table.link.family);
    this.keys = this.printed ? ['value'] : heads.map(([key]) => key);
    const names = this.printed ? ['value'] : heads.map(([, head]) => head);
    const isSecond = this.table.link !== undefined && this.table.link.tag !== '';
    const widthOf = key => (isSecond && key === 'hop' ? SECOND_WIDTHS.hop : WIDTHS[key]);
    const widths = this.keys.map(key => (WIDE.includes(key) ? `minmax(${widthOf(key)}ch, 1fr)` : `${widthOf(key)}ch`));
    const first = isSecond && this.table.first === 'prefix' ? SECOND_WIDTHS.prefix : 17;
    const least = this.keys.reduce((sum, key) => sum + widthOf(key) + 1.5, first);
    at('#rows').style.setProperty('--first', `${first}ch`);
    at('#rows').style.setProperty('--columns', widths.join(' '));
    at('#rows').style.setProperty('--least', `calc(${least}ch + 24px)`);
    this.heads.replaceChildren();
    for (const name of [this.table.first, ...names]) part('', this.heads).textContent = name;
    this.rows.measure();
    this.rows.clear();
    at('#form').textContent = this.printed ? 'as columns' : 'as printed';
    at('#beside').textContent = this.table instanceof Candidates ? 'rows of a link' : 'candidates';
  }

  renderRows() {
    const {table, line} = this;
    table.moveTo(line);
    const [name, told] = table.title();
    putText(at('#rows b'), name);
    putText(at('#rows .title span'), told);
    this.rows.setLength(table.values.length);
    const isHere = this.journal.links[this.journal.link[line]] === table.link && this.journal.kind[line] <= ASK;
    this.changed = isHere ? this.journal.rank[this.journal.prefix[line]] : -1;
    const shown = this.changed === -1 || this.isNew ? this.rank : this.changed;
    if (shown !== -1) this.rows.reveal(table.placeOf(shown));
    this.isNew = false;
    this.rows.render();
    this.rows.settle();
  }

  makeRow() {
    const row = document.createElement('div');
    for (const name of ['prefix', ...this.keys]) part(name, row);
    return row;
  }

  fillRow(row, place) {
    const {table, journal} = this;
    const value = journal.values[table.values[place]];
    const rank = table.rankOf(place);
    putText(row.children[0], table.nameOf(place));
    if (row.value !== value) {
      const told = this.printed ? null : columnsOf(table.link.family, value);
      this.keys.forEach((key, column) => putText(row.children[column + 1], told ? told[key] || '' : column ? '' : value));
      row.value = row.title = value;
    }
    putClass(row, 'row' + (place % 2 ? ' odd' : '') + (rank === this.changed ? ` changed ${MARKS[journal.kind[this.line]]}` : '') +
      (table.isMarked(place, this.rank) ? ' found' : ''));
  }

  // The filter.

  setFilter(text) {
    const {journal} = this;
    const words = text.split(/\s+/).filter(word => word !== '');
    this.rank = -1;
    this.isNew = true;          // the table goes to the row of the filter's prefix
    this.matches = null;
    if (words.length) {
      const tests = words.map(word => this.lineTest(word));
      const found = [];
      for (let line = 1; line <= journal.last; line++) if (tests.every(test => test(line))) found.push(line);
      this.matches = found;
    }
    at('#found').textContent = this.matches ? `${this.matches.length.toLocaleString('en')} lines` +
      (this.rank === -1 ? '' : '; filled: links with a row there') : '';
    this.lines.setLength(this.matches ? this.matches.length : journal.last);
    this.drawStrip();
    if (this.table instanceof Candidates) this.choose(this.chosen);
    else this.render();
  }

  /** Whether a line is of a word of the filter: a prefix, an address, an AS, a link or several, or a kind of line. */
  lineTest(word) {
    const {journal} = this;
    const {prefix, link, kind, before, after} = journal;
    if (/^([0-9.]+|[0-9a-f:]*:[0-9a-f:]*)\/[0-9]+$/i.test(word)) {
      const number = journal.prefixOf.get(printedPrefix(word));
      if (number !== undefined) this.rank = journal.rank[number];
      return line => prefix[line] === number;
    }
    if (word.includes(':') && secondAddress(word) !== null) {
      const address = secondAddress(word);
      const holds = journal.keys.map(key => typeof key === 'bigint' && (address ^ key >> 8n) >> 128n - (key & 255n) === 0n);
      return line => prefix[line] !== -1 && holds[prefix[line]];
    }
    if (/^([0-9]+\.){3}[0-9]+$/.test(word)) {
      const address = prefixKey(`${word}/32`) / 64;
      const holds = journal.keys.map(key => {
        if (typeof key === 'bigint') return false;
        const size = 2 ** (32 - key % 64);
        return Math.floor(address / size) === Math.floor(Math.floor(key / 64) / size);
      });
      return line => prefix[line] !== -1 && holds[prefix[line]];
    }
    const number = /^as([0-9]+)$/i.exec(word);
    if (number) {
      const has = journal.values.map(value => pathHas(value, number[1]));
      return line => kind[line] <= ASK && (has[before[line]] === true || has[after[line]] === true);
    }
    if (KIND_OF.has(word)) return line => KINDS[kind[line]] === word;
    const named = journal.links.map(({name}) => name === word || name.startsWith(word.endsWith('.') ? word : `${word}.`));
    return line => link[line] !== -1 && (named[link[line]] || (kind[line] === COPY || kind[line] === WELD) && named[before[line]]);
  }

  // The strip: how much happens where, and the present line.

  drawStrip() {
    const canvas = at('#strip canvas');
    const {width, height} = at('#strip').getBoundingClientRect();
    this.stripWidth = width;
    if (!width || !this.journal) return;
    const scale = window.devicePixelRatio || 1;
    Object.assign(canvas, {width: width * scale, height: height * scale});
    const pen = canvas.getContext('2d');
    const style = getComputedStyle(document.body);
    const {kind, last, link, links} = this.journal;
    const columns = Math.floor(width);
    const sums = ['add', 'replace', 'delete', 'end'].map(() => new Float64Array(columns + 1));
    const place = {[ADD]: 0, [REPLACE]: 1, [DELETE]: 2};
    const tick = line => {
      const column = Math.min(columns - 1, Math.floor((line - 1) / last * columns));
      if (kind[line] in place) sums[place[kind[line]]][column]++;
      else if (kind[line] === BEGIN && (links[link[line]].family === 'peer' || links[link[line]].family === 'org' &&
        links[link[line]].numbers.length)) sums[3][column]++;
    };
    if (this.matches) this.matches.forEach(tick);
    else for (let line = 1; line <= last; line++) tick(line);
    const most = Math.max(1, ...sums[0].map((sum, column) => sum + sums[1][column] + sums[2][column]));
    pen.scale(scale, scale);
    ['add', 'replace', 'delete'].forEach((name, number) => {
      pen.fillStyle = style.getPropertyValue(`--${name}`);
      for (let column = 0; column < columns; column++) {
        const below = number > 0 ? sums.slice(0, number).reduce((all, sum) => all + sum[column], 0) : 0;
        const [low, high] = [below, below + sums[number][column]].map(sum => Math.sqrt(sum / most) * (height - 8));
        const wide = Math.max(1, columns / last);
        pen.fillRect(column, height - high, wide > 2 ? wide - 1 : wide, high - low);
      }
    });
    pen.fillStyle = style.getPropertyValue('--end');
    for (let column = 0; column < columns; column++) if (sums[3][column]) pen.fillRect(column, 0, 2, 5);
  }

  slide(event) {
    const {left, width} = at('#strip').getBoundingClientRect();
    this.stop();
    this.go(Math.round((event.clientX - left) / width * this.journal.last));
  }

  // Buttons and keys.

  act(told) {
    const [word, unit] = told.split(' ');
    if (word === 'play') return this.play();
    this.stop();
    if (word === 'start') this.go(0);
    if (word === 'end' && this.journal) this.go(this.journal.last);
    if (word === 'on') this.step(unit, 1);
    if (word === 'back') this.step(unit, -1);
  }

  setSpeed(by) {
    const select = at('#speed');
    select.selectedIndex = Math.max(0, Math.min(SPEEDS.length - 1, select.selectedIndex + by));
  }

  key(event) {
    const typing = event.target.matches('input[type=text], input[type=search], select');
    if (event.key === 'Escape' && event.target === at('#filter')) {
      at('#filter').value = '';
      if (this.journal) this.setFilter('');
    }
    if ((event.key === 'Escape' || event.key === 'Enter') && event.target === at('#filter')) at('#filter').blur();
    if (event.key === 'Escape') at('#complaint').hidden = true;
    if (typing || event.ctrlKey || event.metaKey || event.altKey || at('#keys').open) return;
    const acts = {
      ArrowRight: () => this.act('on line'), ArrowLeft: () => this.act('back line'),
      ArrowDown: () => this.act('on fall'), ArrowUp: () => this.act('back fall'),
      PageDown: () => this.act('on event'), PageUp: () => this.act('back event'),
      Home: () => this.act('start'), End: () => this.act('end'), ' ': () => this.play(),
      '+': () => this.setSpeed(1), '-': () => this.setSpeed(-1),
      'g': () => at('#line').select(), '/': () => at('#filter').select(), 'o': () => at('#choose').click(),
      't': () => at('#form').click(), 'c': () => this.showCandidates(), '?': () => at('#keys').showModal(), 'l': () => this.chooseHere(),
    };
    const act = acts[event.key];
    if (!act) return;
    event.preventDefault();
    act();
  }

  /** Keeps how large a picture's lanes are, and makes its other parts as wide as they are beside their scroll bar. */
  measure(picture) {
    const lanes = picture.lanes.parentNode;
    const measure = () => {
      picture.size = {width: lanes.clientWidth, seen: lanes.clientHeight, height: lanes.scrollHeight};
      const bar = `${lanes.offsetWidth - lanes.clientWidth}px`;
      if (bar === picture.bar) return;
      picture.bar = bar;
      requestAnimationFrame(() => picture.box.style.setProperty('--bar', bar));
    };
    const observer = new ResizeObserver(measure);
    for (const element of [lanes, picture.lanes]) observer.observe(element);
    measure();
  }

  chooseHere() {
    const link = this.journal && this.journal.link[this.line];
    if (this.journal && link !== -1) this.choose(this.journal.links[link].name);
  }

  listen() {
    for (const speed of SPEEDS) at('#speed').add(new Option(`${speed}/s`, speed, speed === 4, speed === 4));
    document.addEventListener('keydown', event => this.key(event));
    document.addEventListener('keyup', event => { if (event.key === ' ' && event.target.matches('button')) event.preventDefault(); });
    document.addEventListener('dragover', event => { event.preventDefault(); document.body.classList.add('over'); });
    document.addEventListener('dragleave', event => { if (!event.relatedTarget) document.body.classList.remove('over'); });
    document.addEventListener('drop', event => {
      event.preventDefault();
      document.body.classList.remove('over');
      const file = event.dataTransfer.files[0];
      if (file) this.open(file);
      else this.complain('That is no file: drop the output of replay run.');
    });
    at('#open').addEventListener('click', () => at('#choose').click());
    at('#beside').addEventListener('click', () => this.showCandidates());
    at('#choose').addEventListener('change', event => {
      if (event.target.files[0]) this.open(event.target.files[0]);
      event.target.value = '';
    });
    at('.buttons').addEventListener('click', event => { if (event.target.dataset.do) this.act(event.target.dataset.do); });
    at('#line').addEventListener('change', event => {
      const number = Number(event.target.value.replace(/,/g, ''));
      event.target.blur();
      this.stop();
      this.go(Number.isInteger(number) ? number : this.line);
    });
    at('#filter').addEventListener('input', event => { if (this.journal) this.setFilter(event.target.value); });
    for (const select of [at('#unit'), at('#speed')]) select.addEventListener('change', () => select.blur());
    at('#strip').addEventListener('pointerdown', event => {
      if (!this.journal) return;
      at('#strip').setPointerCapture(event.pointerId);
      this.slide(event);
    });
    at('#strip').addEventListener('pointermove', event => { if (event.buttons && this.journal) this.slide(event); });
    at('#help').addEventListener('click', () => at('#keys').showModal());
    at('#form').addEventListener('click', () => {
      if (!this.table) return;
      this.printed = !this.printed;
      this.drawColumns();
      this.renderRows();
    });
    new ResizeObserver(() => {
      this.drawStrip();
      if (this.journal) this.render();
    }).observe(at('#strip'));
    this.pictures.forEach(picture => this.measure(picture));
    window.matchMedia('(prefers-color-scheme: dark)').addEventListener('change', () => this.drawStrip());
  }
}

/** Scrolls a box as far as it takes to have a part of it in view. */
function revealPart(box, part) {
  if (box.scrollHeight <= box.clientHeight) return;
  const [outer, inner] = [box, part].map(element => element.getBoundingClientRect());
  if (inner.top < outer.top + 30) box.scrollTop += inner.top - outer.top - 50;
  else if (inner.bottom > outer.bottom - 10) box.scrollTop += inner.bottom - outer.bottom + 30;
}

/** A prefix as it is printed: of IPv6 one may be written with `::`. */
function printedPrefix(text) {
  const [address, length] = text.split('/');
  const found = address.includes(':') ? secondAddress(address) : null;
  return found === null ? text : `${secondText(found)}/${length}`;
}

/** What is so where a rule is broken. */
const RULES = {
  1: 'that isn’t what the link has there, or it isn’t live',
  2: 'that isn’t what the link has there, or it isn’t live',
  3: 'the link is live already, or one isn’t live, or their rows differ',
};

/** How wide the columns of a table are at least, in characters, and which take more. */
const WIDTHS = {value: 40, hop: 15, path: 12, origin: 10, pref: 5, med: 5, from: 9, metric: 6, via: 12, other: 10};
const WIDE = ['value', 'path', 'other'];
const SECOND_WIDTHS = {prefix: 26, hop: 26};

const view = new View();
