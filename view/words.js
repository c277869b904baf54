// What links and lines mean, in the field's terms (docs/OUTPUT.md).
'use strict';

/** Beside the name of each kind of link: the field's term. */
const TERMS = {
  'peer': 'above a lost session',
  'in': 'Adj-RIB-In',
  'filt': 'behind import policy',
  'res': 'next hop resolved',
  'org': 'of one protocol',
  'low': 'connected, static',
  'dyn': 'OSPF, RIP',
  'int': 'interior routes',
  'red': 'redistributed',
  'best': 'Loc-RIB',
  'read.rib': 'read for forwarding',
  'ebgp': 'of external peers',
  'ibgp': 'of internal peers',
  'ext': 'external routes',
  'fib': 'forwarding table',
  'read': 'read of best',
  'outf': 'behind export policy',
  'adv': 'Adj-RIB-Out',
};

const VERBS = {[ADD]: 'Added', [DELETE]: 'Deleted', [REPLACE]: 'Replaced'};
const ORIGINS = {o0: 'IGP', o1: 'EGP', o2: 'incomplete'};
const WITH_ROUTES = ['filt', 'res', 'red', 'best', 'read.rib', 'read'];
const WITH_ATTRIBUTES = ['in', 'peer', 'outf', 'adv'];

/** A link in words: its term, and whose it is. */
function linkInWords(link) {
  return linkOfNetwork(link) + (link.tag ? ', IPv6' : '');
}

function linkOfNetwork(link) {
  const [peer, session] = link.numbers;
  const term = TERMS[link.family];
  if (link.family === 'org') {
    return `the routes of ${link.protocol}` + (peer === undefined ? '' : ` above the deletion stage of its loss ${peer}`);
  }
  if (peer === undefined) return term;
  if (link.family === 'peer') return `the routes of peer ${peer} above the deletion stage of its session ${session}`;
  if (session === undefined) return `${term}, peer ${peer}`;
  return `${term}, session ${session} of peer ${peer}`;
}

/** The attributes of a route by name, in the order of the columns; null where the text has another form. */
function attributes(text) {
  const told = {};
  const other = [];
  for (const word of text.split(',')) {
    const rest = word.slice(1);
    if (word in ORIGINS) told.origin = ORIGINS[word];
    else if (/^p([({][0-9.]*[)}])*$/.test(word)) told.path = rest.replace(/[().]+/g, ' ').trim() || 'empty';
    else if (/^n[0-9a-f.:]+$/.test(word)) told.hop = rest;
    else if (/^m[0-9]+$/.test(word)) told.med = rest;
    else if (/^l[0-9]+$/.test(word)) told.pref = rest;
    else if (word === 'a') other.push('atomic aggregate');
    else if (/^g/.test(word)) other.push(`aggregator ${rest}`);
    else if (/^x/.test(word)) other.push(`attribute ${rest}`);
    else return null;
  }
  if (other.length) told.other = other.join(', ');
  return told;
}

/** Whether the path of a value has an AS number. */
function pathHas(value, number) {
  const path = /(?:^|[:,])p((?:[({][0-9.]*[)}])+)(?:,|$)/.exec(value);
  return path !== null && path[1].split(/[(){}.]+/).includes(number);
}

/** A value by columns, as the link's kind has them; null where the text has another form. */
function columnsOf(family, value) {
  const parts = value.split(':');
  if (WITH_ATTRIBUTES.includes(family)) return attributes(value);
  if (WITH_ROUTES.includes(family)) {
    const found = /^(\d+):(\d+):(\d+|-):(\d+):(\d+|-):(.*)$/.exec(value);
    const told = found && attributes(found[6]);
    if (!told) return null;
    told.from = found[1] === '0' ? 'own' : `peer ${found[1]}`;
    told.pref = found[2];
    told.med = found[3] === '-' ? '' : found[3];
    if (found[4] !== '0') told.other = [`prepended ${found[4]}×`].concat(told.other || []).join(', ');
    if (found[5] !== '-') told.metric = found[5];
    return told;
  }
  // an address of IPv6 has colons of its own
  const [from, ...rest] = parts;
  const behind = ['ebgp', 'ibgp', 'ext'].includes(family) ? [] : rest.splice(family === 'fib' ? -1 : -2);
  const hop = rest.join(':');
  if (rest.length !== 1 && secondAddress(hop) === null) return null;
  const [via, metric] = behind;
  return Object.assign({from, hop}, via === undefined ? {} : {via}, metric === undefined ? {} : {metric});
}

/** The columns of a link's table: key and head. */
function columnHeads(family) {
  const route = [['hop', 'next hop'], ['path', 'AS path'], ['pref', 'pref'], ['med', 'MED'], ['origin', 'origin'],
    ['other', 'other']];
  if (WITH_ATTRIBUTES.includes(family)) return route;
  if (WITH_ROUTES.includes(family)) {
    const metric = family === 'filt' ? [] : [['metric', 'metric']];
    return [['from', 'from'], ...route.slice(0, 2), ...metric, ...route.slice(2)];
  }
  if (family === 'fib') return [['from', 'protocol'], ['hop', 'gateway'], ['via', 'interface']];
  if (['ebgp', 'ibgp', 'ext'].includes(family)) return [['from', 'kind'], ['hop', 'next hop']];
  return [['from', 'protocol'], ['hop', 'gateway'], ['via', 'interface'], ['metric', 'metric']];
}

/** A value in words, for the present line. */
function valueInWords(family, value) {
  const told = columnsOf(family, value);
  if (!told) return value;
  return columnHeads(family).filter(([key]) => told[key]).map(([key, head]) => `${head} ${told[key]}`).join(', ');
}

/** What changed between two values of one link: the columns that differ. */
function changeInWords(family, before, after) {
  const old = columnsOf(family, before);
  const told = columnsOf(family, after);
  if (!old || !told) return `${before} → ${after}`;
  return columnHeads(family).filter(([key]) => (old[key] || '') !== (told[key] || ''))
    .map(([key, head]) => `${head} ${old[key] || 'none'} → ${told[key] || 'none'}`).join(', ');
}

/** What the codes of a NOTIFICATION mean (RFC 4271, section 4.5; RFC 7313), and some of the subcodes. */
const NOTES = {1: 'message header error', 2: 'OPEN error', 3: 'UPDATE error', 4: 'hold timer expired', 5: 'error of the state machine', 6: 'cease',
  7: 'ROUTE-REFRESH error', '1/1': 'connection not synchronized', '1/2': 'bad message length', '1/3': 'bad message type',
  '3/1': 'malformed attribute list', '3/2': 'unrecognized well-known attribute', '3/3': 'missing well-known attribute',
  '3/4': 'attribute flags error', '3/5': 'attribute length error', '3/6': 'invalid ORIGIN', '3/8': 'invalid NEXT_HOP',
  '3/9': 'optional attribute error', '3/10': 'invalid network field', '3/11': 'malformed AS_PATH'};

function octetsOf(hex) {
  return Uint8Array.from({length: hex.length / 2}, (_, place) => parseInt(hex.slice(2 * place, 2 * place + 2), 16));
}

/** Code, subcode and data of a NOTIFICATION. */
function noteInWords(hex) {
  const [code, subcode] = octetsOf(hex.slice(38, 42));
  if (subcode === undefined) return `${hex.length / 2} octets`;
  const told = NOTES[`${code}/${subcode}`] ? `${NOTES[code]}, ${NOTES[`${code}/${subcode}`]}` : NOTES[code] || 'unknown';
  return `${code}/${subcode}, ${told}` + (hex.length > 42 ? `, with the data ${shortened(hex.slice(42))}` : '');
}

/** The prefixes of a field of an UPDATE, whose addresses have so many octets. */
function prefixesOf(octets, size = 4) {
  const found = [];
  for (let at = 0; at < octets.length;) {
    const length = octets[at];
    const part = Array.from({length: size}, (_, place) => (place < Math.ceil(length / 8) ? octets[at + 1 + place] || 0 : 0));
    found.push(`${addressOf(part)}/${length}`);
    at += 1 + Math.ceil(length / 8);
  }
  return found;
}

/** The text of an address of four octets, or of sixteen. */
function addressOf(octets) {
  return octets.length === 16 ? secondText(octets.reduce((sum, octet) => sum << 8n | BigInt(octet), 0n)) : Array.from(octets).join('.');
}

/** Type and value of each attribute of an UPDATE. */
function* eachAttribute(octets) {
  for (let at = 0; at < octets.length;) {
    const wide = octets[at] & 0x10 ? 2 : 1;
    const size = wide === 2 ? octets[at + 2] * 256 + octets[at + 3] : octets[at + 2];
    yield [octets[at + 1], octets.slice(at + 2 + wide, at + 2 + wide + size)];
    at += 2 + wide + size;
  }
}

/** Whether a value of type 14 or 15 is of IPv6 unicast. */
function isSecond(value) {
  return value[0] === 0 && value[1] === 2 && value[2] === 1;
}

/** The text of an AS_PATH whose numbers have so many octets; null where it doesn’t fit. */
function pathOf(octets, width) {
  let told = '';
  for (let at = 0; at < octets.length;) {
    const [kind, count] = octets.slice(at, at + 2);
    const end = at + 2 + count * width;
    if (count === undefined || count === 0 || (kind !== 1 && kind !== 2) || end > octets.length) return null;
    const numbers = [];
    for (let place = at + 2; place < end; place += width) numbers.push(octets.slice(place, place + width).reduce((sum, octet) => sum * 256 + octet, 0));
    told += kind === 2 ? `(${numbers.join('.')})` : `{${numbers.join('.')}}`;
    at = end;
  }
  return told;
}

/** The attributes of an UPDATE in the form of a value. The width of its AS numbers is told by the value on the line before, if by any. */
function valueOf(octets, near) {
  const words = [];
  for (const [kind, value] of eachAttribute(octets)) {
    const number = value.reduce((sum, octet) => sum * 256 + octet, 0);
    if (kind === 1) words.push(`o${number}`);
    if (kind === 2) {
      const paths = [pathOf(value, 2), pathOf(value, 4)];
      words.push(`p${paths.find(path => path !== null && near.includes(`p${path},`)) ?? paths[0] ?? paths[1] ?? ''}`);
    }
    if (kind === 3) words.push(`n${value.join('.')}`);
    if (kind === 4) words.push(`m${number}`);
    if (kind === 5) words.push(`l${number}`);
    if (kind === 6) words.push('a');
    if (kind === 14 && isSecond(value)) words.push(`n${addressOf(value.slice(4, 20))}`);
    else if (kind > 6 && kind !== 15) words.push(`x${kind}:${Array.from(value, octet => octet.toString(16).padStart(2, '0')).join('')}`);
  }
  return words.join(',');
}

/** What an UPDATE withdraws and announces, as texts, and its attributes as octets; null where its lengths don’t fit. */
function updateOf(hex) {
  const octets = octetsOf(hex);
  const gone = octets[19] * 256 + octets[20];
  const at = 23 + gone;
  const size = octets[at - 2] * 256 + octets[at - 1];
  if (!(at + size <= octets.length)) return null;
  const found = {withdrawn: prefixesOf(octets.slice(21, 21 + gone)), announced: prefixesOf(octets.slice(at + size)), said: octets.slice(at, at + size)};
  for (const [kind, value] of eachAttribute(found.said)) {
    if (kind === 14 && isSecond(value)) found.announced.push(...prefixesOf(value.slice(5 + value[3]), 16));
    if (kind === 15 && isSecond(value)) found.withdrawn.push(...prefixesOf(value.slice(3), 16));
  }
  return found;
}

/** What stands in front of the names of the network that an UPDATE is of: each is of one. */
function tagOfUpdate(hex) {
  const found = updateOf(hex);
  return found && found.withdrawn.concat(found.announced).some(prefix => prefix.includes(':')) ? '6.' : '';
}

/** What an UPDATE withdraws and announces, and with which attributes. */
function updateInWords(hex, near) {
  const found = updateOf(hex);
  if (!found) return `${hex.length / 2} octets`;
  const told = [['withdraws', found.withdrawn], ['announces', found.announced]]
    .filter(([, prefixes]) => prefixes.length).map(([verb, prefixes]) => `${verb} ${prefixes.join(', ')}`);
  const value = valueOf(found.said, near);
  if (value) told.push(valueInWords('adv', value));
  return told.join('; ') || 'nothing';
}

const OTHERS = {
  [OUT]: (words, near) => `UPDATE to peer ${words[1]}: ${updateInWords(words[2] || '', near)}.`,
  [NOTE]: words => `NOTIFICATION to peer ${words[1]}: ${noteInWords(words[2] || '')}; the session is lost.`,
  [ROW]: words => `A row of ${words[1]}, which the event file asked to be shown.`,
  [ROWS]: words => `That was all of ${words[1]}: ${words[2]} rows.`,
  [COVER]: words => `The longest interior route that holds ${words[1]}: ${words[2] === '-' ? 'none' : words[2]}; ` +
    `so it is throughout ${words[3]}.`,
  [WORK]: words => `${words[1]} ${words[1] === '1' ? 'turn' : 'turns'} of background work done.`,
  [BOUND]: words => `All background work begins: at most ${words[1]} turns.`,
  [IDLE]: words => `All background work is done, in ${words[1]} ${words[1] === '1' ? 'turn' : 'turns'}.`,
  [IGNORED]: () => 'The event changes nothing.',
  [ABSENT]: () => 'The link isn’t live.',
  [REFUSED]: words => `Line ${words[1]} of the event file was refused (${words[2]}).`,
  [TOTAL]: words => `Total: ${words.slice(1).join(' ')}.`,
  [SETTLED]: words => `${words[1]} is ${words[2] === 'yes' ? 'settled' : `not settled: ${words[3]} has work there`}.`,
};

/** A line in words: what was done where, and the rest of the sentence. */
function lineInWords(journal, line) {
  if (line === 0) return ['Before the first line', 'No link is live.'];
  const kind = journal.kind[line];
  const words = journal.text(line).split(' ');
  if (kind > END) return [KINDS[kind], OTHERS[kind](words, line > 1 ? journal.text(line - 1) : '')];
  const link = journal.links[journal.link[line]];
  const before = journal.values[journal.before[line]];
  const after = journal.values[journal.after[line]];
  const here = `${link.name} (${linkInWords(link)})`;
  switch (kind) {
    case ASK: return [`Lookup of ${words[2]}`, `on ${here}: ${after === undefined ? 'no row' : valueInWords(link.family, after)}.`];
    case BEGIN: return [`${link.name} begins`, link.family === 'peer' || link.numbers.length && link.family === 'org'
      ? `A deletion stage is spliced in; the link into it has ${linkInWords(link)}.` : `(${linkInWords(link)}), with no rows.`];
    case COPY: return [`${link.name} begins`, `(${linkInWords(link)}), with the rows of ${words[2]}.`];
    case WELD: return ['A deletion stage is taken out', `Between ${link.name} and ${words[2]}: it is empty, so their rows are the same.`];
    case END: return [`${link.name} ends`, `(${linkInWords(link)}).`];
    default: {
      const value = kind === REPLACE ? changeInWords(link.family, before, after)
        : valueInWords(link.family, kind === ADD ? after : before);
      return [`${VERBS[kind]} ${words[2]}`, `on ${here}: ${value}.`];
    }
  }
}
