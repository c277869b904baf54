// Reads a journal (docs/OUTPUT.md) and answers what stood on each link behind each of its lines.
//
// Nothing is replayed. Of each link the lines that change it are kept, in order of line (for how many rows it has) and in
// order of prefix and line (for the row at a prefix). So each question about any line is a binary search, and a step, a
// jump and a step back cost the same. Lines are numbered from 1; behind line 0 no link is live.
'use strict';

const MEBIBYTE = 1024 * 1024;
const MOST_BYTES = 64 * MEBIBYTE;
const MOST_LINE = 65536;
const FIRST_PIECE = 65536;
const PIECE = MEBIBYTE;

/** Kinds of lines: the first word of each, and whether it is of the journal. */
const KINDS = ['+', '-', '=', '?', 'b', 'i', 'w', 'e',
  'out', 'note', 'row', 'rows', 'cover', 'work', 'bound', 'idle', 'ignored', 'absent', 'refused', 'total', 'settled'];
const KIND_OF = new Map(KINDS.map((word, number) => [word, number]));
const [ADD, DELETE, REPLACE, ASK, BEGIN, COPY, WELD, END, OUT, NOTE, ROW, ROWS, COVER, WORK, BOUND, IDLE, IGNORED, ABSENT,
  REFUSED, TOTAL, SETTLED] = KINDS.keys();

const NUMBER = '([1-9][0-9]{0,9})';
const LINK_NAME = new RegExp(`^(6\\.)?(?:(in|filt|res)\\.${NUMBER}|(peer|read|outf|adv)\\.${NUMBER}\\.${NUMBER}` +
  `|(org)\\.(connected|static|ospf|rip)(?:\\.${NUMBER})?|(red|best|read\\.rib|low|dyn|int|ebgp|ibgp|ext|fib))$`);
const PREFIX_TEXT = /^(\d{1,3})\.(\d{1,3})\.(\d{1,3})\.(\d{1,3})\/(\d{1,2})$/;
const SECOND_TEXT = /^([0-9a-f]{1,4}(?::[0-9a-f]{1,4}){7})\/(\d{1,3})$/;

/** A sentence for the reader: why a file isn't shown. */
class Refusal extends Error {}

/** Whether a text begins as an event file does (docs/LANGUAGE.md): behind comments stands one of these lines. */
function isEventFile(text) {
  const line = text.split('\n', 100).find(found => found.trim() !== '' && !found.startsWith('#'));
  return line !== undefined && /^ *(as4|revised|reflect|local [0-9]+ .*)\r?$/.test(line);
}

/** The parts of a link's name, or null where it is none: what stands in front of the names of its network, its family, its numbers, its
 * protocol. */
function linkParts(name) {
  const found = LINK_NAME.exec(name);
  if (!found) return null;
  const [, tag = '', one, k, two, j, s, origin, protocol, loss, alone] = found;
  const numbers = [k, j, s, loss].filter(word => word !== undefined).map(Number);
  if (numbers.some(number => number >= 2 ** 32)) return null;
  return {tag, family: one || two || origin || alone, numbers, protocol};
}

/** An address of IPv6 as a BigInt, or null where the text is none: eight groups, of which one `::` may stand for some. */
function secondAddress(text) {
  const halves = text.toLowerCase().split('::');
  const [front, behind = []] = halves.map(half => (half === '' ? [] : half.split(':')));
  const missing = 8 - front.length - behind.length;
  if (halves.length > 2 || (halves.length === 2 ? missing < 1 : missing !== 0)) return null;
  const groups = [...front, ...Array(missing).fill('0'), ...behind];
  return groups.every(group => /^[0-9a-f]{1,4}$/.test(group)) ? groups.reduce((sum, group) => sum << 16n | BigInt(`0x${group}`), 0n) : null;
}

/** The text of an address of IPv6 as it is printed. */
function secondText(address) {
  return Array.from({length: 8}, (_, place) => (address >> BigInt(112 - 16 * place) & 0xffffn).toString(16)).join(':');
}

/** A prefix as a number that grows with address, then length, of IPv6 a BigInt; -1 where the text isn't a printed prefix. */
function prefixKey(text) {
  const found = PREFIX_TEXT.exec(text);
  if (!found) return secondKey(text);
  const [a, b, c, d, length] = found.slice(1).map(Number);
  if (a > 255 || b > 255 || c > 255 || d > 255 || length > 32) return -1;
  const address = ((a * 256 + b) * 256 + c) * 256 + d;
  if (`${a}.${b}.${c}.${d}/${length}` !== text || address % 2 ** (32 - length) !== 0) return -1;
  return address * 64 + length;
}

function secondKey(text) {
  const found = SECOND_TEXT.exec(text);
  if (!found) return -1;
  const address = secondAddress(found[1]);
  const length = Number(found[2]);
  if (length > 128 || `${secondText(address)}/${length}` !== text || BigInt.asUintN(128 - length, address) !== 0n) return -1;
  return address << 8n | BigInt(length);
}

/** Which of two prefixes comes first: those of IPv4 before those of IPv6. */
function inOrder(key, other) {
  if (typeof key !== typeof other) return typeof key === 'bigint' ? 1 : -1;
  return key < other ? -1 : key > other ? 1 : 0;
}

/** How many of a sorted list's first entries are at most `bound`. */
function atMost(sorted, bound) {
  let low = 0;
  let high = sorted.length;
  while (low < high) {
    const middle = (low + high) >> 1;
    if (sorted[middle] <= bound) low = middle + 1;
    else high = middle;
  }
  return low;
}

/** One link: its lives, how many rows it has from which line on, and its changes by prefix. */
class Link {
  constructor(id, name, parts) {
    Object.assign(this, {id, name}, parts);
    this.begins = [];           // of each life the line that begins it, its last line but one, and whose rows it copies
    this.ends = [];
    this.sources = [];
    this.lines = [];            // lines that change how many rows it has, and how many it has then; -1: not live
    this.counts = [];
    this.changes = [];          // lines that change a row
    this.cells = null;          // the same by prefix, then line: rank * 2^32 + line
    this.rows = null;           // while the journal is read: the rows by prefix, or null where the link isn't live
  }

  begin(line, source, rows) {
    this.begins.push(line);
    this.ends.push(Infinity);
    this.sources.push(source);
    this.rows = rows;
    this.count(line);
  }

  end(line) {
    this.ends[this.ends.length - 1] = line;
    this.rows = null;
    this.count(line);
  }

  count(line) {
    this.lines.push(line);
    this.counts.push(this.rows ? this.rows.size : -1);
  }
}

const CELL = 2 ** 32;

class Journal {
  constructor(name) {
    this.name = name;
    this.size = 0;              // octets
    this.last = 0;              // the last line
    this.kind = [-1];           // of each line: its kind, its link, its prefix, its old and its new value; -1 where it has none
    this.link = [-1];
    this.prefix = [-1];
    this.before = [-1];
    this.after = [-1];
    this.starts = [0];          // where each line begins
    this.pieces = [];           // texts of whole lines, and where each begins
    this.bases = [];
    this.links = [];
    this.linkOf = new Map();
    this.prefixes = [];
    this.prefixOf = new Map();
    this.tags = [];             // of each prefix what stands in front of the names of its network
    this.values = [];
    this.valueOf = new Map();
    this.broken = null;         // the line that breaks a rule, and which: the journal is shown up to the line before
  }

  /** Reads a file piece by piece. Throws a Refusal where it isn't a journal; `told` hears how much is read, 0 to 1. */
  static async read(file, told = () => {}) {
    if (file.size > MOST_BYTES) {
      throw new Refusal(`${file.name} has ${Math.ceil(file.size / MEBIBYTE).toLocaleString('en')} MiB; this page takes at most ` +
        `${MOST_BYTES / MEBIBYTE} MiB, about a million lines. The first lines of a journal are a journal too: ` +
        'head -n 500000 JOURNAL > FRONT');
    }
    if (file.size === 0) throw new Refusal(`${file.name} is empty.`);
    const journal = new Journal(file.name);
    journal.size = file.size;
    const decoder = new TextDecoder('latin1');
    let rest = '';
    for (let at = 0; at < file.size && !journal.broken;) {
      const end = Math.min(file.size, at + (at === 0 ? FIRST_PIECE : PIECE));
      const text = rest + decoder.decode(await file.slice(at, end).arrayBuffer());
      const whole = end === file.size ? text.length : text.lastIndexOf('\n') + 1;
      journal.takePiece(text.slice(0, whole), at - rest.length);
      rest = text.slice(whole);
      if (rest.length > MOST_LINE) journal.refuse('has more than 65,536 bytes');
      at = end;
      told(at / file.size);
    }
    if (!journal.links.length) {
      throw new Refusal(`${file.name} has no line of a journal: it has the lines that run --quiet leaves. ` +
        'Print it without --quiet.');
    }
    journal.close();
    return journal;
  }

  /** Throws: the line behind the last one isn't one of a journal. */
  refuse(why) {
    throw new Refusal(`${this.name} is no journal: line ${(this.last + 1).toLocaleString('en')} ${why}.`);
  }

  takePiece(text, base) {
    if (base === 0 && isEventFile(text)) {
      throw new Refusal(`${this.name} is an event file, not a journal. Run it, replay run < ${this.name} > journal, and drop the file journal.`);
    }
    this.pieces.push(text);
    this.bases.push(base);
    for (let at = 0; at < text.length && !this.broken;) {
      let end = text.indexOf('\n', at);
      const cut = end === -1;
      if (cut) end = text.length;
      const line = text.slice(at, !cut && text[end - 1] === '\r' ? end - 1 : end);
      if (this.takeLine(line)) {
        this.starts[this.last] = base + at;
      }
      at = end + 1;
    }
  }

  /** Takes the next line; false where it breaks a rule. */
  takeLine(text) {
    if (text.length > MOST_LINE) this.refuse('has more than 65,536 bytes');
    const odd = /[^ -~]/.exec(text);
    if (odd) this.refuse(`has a byte that no line of output has (${odd[0].charCodeAt(0)}, at column ${odd.index + 1})`);
    const space = text.indexOf(' ');
    const kind = KIND_OF.get(space === -1 ? text : text.slice(0, space));
    if (kind === undefined) {
      this.refuse(text === '' ? 'is empty' : `begins with no word of a journal (${shortened(text)})`);
    }
    const parsed = kind <= END ? this.parse(kind, text) : [-1, -1, -1, -1];
    if (!parsed) this.refuse(`isn't in the form of a line ${KINDS[kind]} (${shortened(text)})`);
    const rule = kind <= END ? this.step(kind, ...parsed) : 0;
    if (rule) {
      this.broken = {line: this.last + 1, rule, text};
      return false;
    }
    this.last += 1;
    this.kind.push(kind);
    this.link.push(parsed[0]);
    this.prefix.push(parsed[1]);
    this.before.push(parsed[2]);
    this.after.push(parsed[3]);
    return true;
  }

  /** Link, prefix, old and new of a journal line; of `i` and `w` the other link stands as the old value. */
  parse(kind, text) {
    const words = text.split(' ');
    if (words.length !== [4, 4, 5, 4, 2, 3, 3, 2][kind]) return null;
    const link = this.linkNumber(words[1]);
    if (link === -1) return null;
    if (kind === BEGIN || kind === END) return [link, -1, -1, -1];
    if (kind === COPY || kind === WELD) {
      const other = this.linkNumber(words[2]);
      return other === -1 ? null : [link, -1, other, -1];
    }
    const prefix = this.prefixNumber(words[2]);
    if (prefix === -1 || this.tagOf(prefix) !== this.links[link].tag || words.includes('') || (kind !== ASK && words.indexOf('-', 1) !== -1)) return null;
    const value = this.valueNumber(words[3]);
    if (kind === ADD) return [link, prefix, -1, value];
    if (kind === DELETE) return [link, prefix, value, -1];
    if (kind === REPLACE) return [link, prefix, value, this.valueNumber(words[4])];
    return [link, prefix, -1, words[3] === '-' ? -1 : value];
  }

  linkNumber(name) {
    let link = this.linkOf.get(name);
    if (link === undefined) {
      const parts = linkParts(name);
      if (!parts) return -1;
      link = this.links.length;
      this.links.push(new Link(link, name, parts));
      this.linkOf.set(name, link);
    }
    return link;
  }

  prefixNumber(text) {
    let prefix = this.prefixOf.get(text);
    if (prefix === undefined) {
      if (prefixKey(text) === -1) return -1;
      prefix = this.prefixes.length;
      this.prefixes.push(text);
      this.tags.push(text.includes(':') ? '6.' : '');
      this.prefixOf.set(text, prefix);
    }
    return prefix;
  }

  /** What stands in front of the names of the network that a prefix is of. */
  tagOf(prefix) {
    return this.tags[prefix];
  }

  /** Whether there are two networks. */
  isOfBoth() {
    return this.links.some(link => link.tag !== '');
  }

  valueNumber(text) {
    let value = this.valueOf.get(text);
    if (value === undefined) {
      value = this.values.length;
      this.values.push(text);
      this.valueOf.set(text, value);
    }
    return value;
  }

  /** Lets the line behind the last one happen; the rule of docs/OUTPUT.md that it breaks, or 0. */
  step(kind, number, prefix, before, after) {
    const line = this.last + 1;
    const link = this.links[number];
    const rows = link.rows;
    if (kind <= REPLACE) {
      if (!rows || (rows.get(prefix) ?? -1) !== before || before === after) return 1;
      if (kind === DELETE) rows.delete(prefix);
      else rows.set(prefix, after);
      link.changes.push(line);
      if (kind !== REPLACE) link.count(line);
      return 0;
    }
    if (kind === ASK) return rows && (rows.get(prefix) ?? -1) === after ? 0 : 2;
    if (kind === BEGIN || kind === COPY) {
      const other = kind === COPY ? this.links[before] : null;
      if (rows || (other && !other.rows)) return 3;
      link.begin(line, other ? before : -1, new Map(other ? other.rows : undefined));
      return 0;
    }
    if (!rows) return 3;
    if (kind === WELD && (number === before || !alike(rows, this.links[before].rows))) return 3;
    link.end(line);
    return 0;
  }

  /** Behind the last line: prefixes in order, and of each link the changes by prefix. */
  close() {
    const keys = this.prefixes.map(prefixKey);
    this.byRank = Array.from(keys.keys()).sort((a, b) => inOrder(keys[a], keys[b]));
    this.rank = new Array(keys.length);
    this.byRank.forEach((prefix, rank) => { this.rank[prefix] = rank; });
    this.keys = keys;
    for (const link of this.links) {
      link.cells = Float64Array.from(link.changes, line => this.rank[this.prefix[line]] * CELL + line).sort();
      link.rows = null;
    }
    const parts = markParts(this);
    this.fall = parts.fall;
    this.event = parts.event;
  }

  /** The text of a line, without its end. */
  text(line) {
    const start = this.starts[line];
    const piece = atMost(this.bases, start) - 1;
    const from = start - this.bases[piece];
    const end = this.pieces[piece].indexOf('\n', from);
    return this.pieces[piece].slice(from, end === -1 ? undefined : end).replace(/\r$/, '');
  }

  /** The life of a link that a line is in, or -1. */
  lifeAt(link, line) {
    const life = atMost(link.begins, line) - 1;
    return life !== -1 && line < link.ends[life] ? life : -1;
  }

  /** How many rows a link has behind a line, or -1 where it isn't live. */
  countAt(link, line) {
    const found = atMost(link.lines, line) - 1;
    return found === -1 ? -1 : link.counts[found];
  }

  /** The row of a link at the prefix of a rank behind a line, as the number of its value, or -1. */
  valueAt(link, rank, line) {
    const life = this.lifeAt(link, line);
    if (life === -1) return -1;
    const cell = link.cells[atMost(link.cells, rank * CELL + line) - 1];
    if (cell !== undefined && cell >= rank * CELL + link.begins[life]) return this.after[cell % CELL];
    const source = link.sources[life];
    return source === -1 ? -1 : this.valueAt(this.links[source], rank, link.begins[life]);
  }

  /** All rows of a link behind a line, by ascending prefix: ranks and values. */
  rowsAt(link, line) {
    const ranks = [];
    const values = [];
    const life = this.lifeAt(link, line);
    if (life === -1) return {ranks, values};
    const begin = link.begins[life];
    const source = link.sources[life];
    const base = source === -1 ? {ranks, values} : this.rowsAt(this.links[source], begin);
    const put = (rank, value) => { if (value !== -1) { ranks.push(rank); values.push(value); } };
    const cells = link.cells;
    let next = 0;
    const lower = base.ranks;
    const putBelow = rank => { for (; next < lower.length && lower[next] < rank; next++) put(lower[next], base.values[next]); };
    if (source === -1) next = Infinity;
    for (let at = 0; at < cells.length;) {
      const rank = Math.floor(cells[at] / CELL);
      let found = -1;
      for (; at < cells.length && cells[at] < (rank + 1) * CELL; at++) {
        const changed = cells[at] % CELL;
        if (changed >= begin && changed <= line) found = changed;
      }
      if (found === -1) continue;
      putBelow(rank);
      if (lower[next] === rank) next++;
      put(rank, this.after[found]);
    }
    if (source !== -1) putBelow(Infinity);
    return {ranks, values};
  }
}

function alike(rows, others) {
  if (!others || rows.size !== others.size) return false;
  for (const [prefix, value] of rows) if (others.get(prefix) !== value) return false;
  return true;
}

function shortened(text) {
  return `“${text.length > 40 ? text.slice(0, 40) + '…' : text}”`;
}
