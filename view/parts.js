// Which lines of a journal belong together: falls and events.
//
// A fall is one change on its way down (docs/OUTPUT.md): lines at one prefix, each on a link directly below one that the
// fall has come by, and behind them the octets that they make a router send and the welds of stages that they emptied.
//
// The output doesn't say where an event begins, unless it answers or begins links. What it leaves open is told by the
// falls: `work M` has the last turns before it, at most M and all of one task; one UPDATE announces equal attributes.
'use strict';

/** Whether a change of the one link may be caused by one of the other in the same fall. */
function isBelow(link, upper) {
  if (link.tag !== upper.tag) return false;
  const [peer, session] = link.numbers;
  const same = upper.numbers[0] === peer && upper.protocol === link.protocol;
  switch (link.family) {
    case 'peer': return upper.family === 'peer' && same && upper.numbers[1] > session;
    case 'in': return upper.family === 'peer' && same;
    case 'filt': return upper.family === 'in' && same;
    case 'res': return upper.family === 'filt' && same;
    case 'best': return upper.family === 'res' || upper.family === 'red';
    case 'org': return upper.family === 'org' && upper.protocol === link.protocol && upper.numbers.length === 1 &&
      (peer === undefined || upper.numbers[0] > peer);
    case 'low': return upper.protocol === 'connected' || upper.protocol === 'static';
    case 'dyn': return upper.protocol === 'ospf' || upper.protocol === 'rip';
    case 'int': return upper.family === 'low' || upper.family === 'dyn';
    case 'red': return upper.family === 'int';
    case 'ebgp': case 'ibgp': return upper.family === 'read.rib';
    case 'ext': return upper.family === 'ebgp' || upper.family === 'ibgp';
    case 'fib': return upper.family === 'ext' || upper.family === 'int';
    case 'outf': return upper.family === 'read' && same && upper.numbers[1] === session;
    case 'adv': return upper.family === 'outf' && same && upper.numbers[1] === session;
    default: return false;
  }
}

/** What a fall is a turn of, or the event that it is: told by its first link. */
function causeOf(link) {
  return link.tag + causeInNetwork(link);
}

function causeInNetwork(link) {
  switch (link.family) {
    case 'peer': case 'in': return `routes ${link.numbers[0]}`;
    case 'org': return `interior ${link.protocol}`;
    case 'filt': return `fin.${link.numbers[0]}`;
    case 'res': return `nh.${link.numbers[0]}`;
    case 'read': case 'outf': case 'adv': return `out.${link.numbers[0]}`;
    case 'read.rib': return 'rd.rib';
    case 'fib': case 'ext': return 'ext';
    default: return link.family;
  }
}

/** Of each line the first line of its fall, and the first line of its event. */
function markParts(journal) {
  const fall = markFalls(journal);
  return {fall, event: markEvents(journal, fall)};
}

function markFalls(journal) {
  const {kind, link, prefix, links, last} = journal;
  const fall = new Int32Array(last + 1);
  let first = 0;
  let passed = [];              // the links that the fall has come by; none where it is no fall
  for (let line = 1; line <= last; line++) {
    const on = link[line] === -1 ? null : links[link[line]];
    let goesOn = false;
    if (kind[line] <= REPLACE) {
      goesOn = passed.length > 0 && prefix[line] === prefix[first] && !passed.includes(on) &&
        passed.some(upper => isBelow(on, upper));
      if (!goesOn) passed = [];
      passed.push(on);
    } else if (kind[line] === OUT || kind[line] === WELD) {
      goesOn = passed.length > 0;
    } else {
      passed = [];
      goesOn = line > 1 && goesWith(journal, line);
    }
    if (!goesOn) first = line;
    fall[line] = first;
  }
  return fall;
}

/** Whether a line that is no change belongs to the line before: links that begin or end together, rows of one table. */
function goesWith(journal, line) {
  const {kind, link, links} = journal;
  const before = kind[line - 1];
  const isLink = number => number === BEGIN || number === COPY || number === END;
  if (kind[line] === ROW || kind[line] === ROWS) return before === ROW;
  if (kind[line] === END) return before === END && links[link[line]].family !== 'read';
  if (kind[line] === COPY) return before === BEGIN && links[link[line]].family === 'read.rib';
  if (kind[line] !== BEGIN || !isLink(before)) return false;
  const {family, numbers, protocol} = links[link[line]];
  return !(family === 'in' || family === 'peer' && before !== END || family === 'org' && (numbers.length > 0 || protocol === 'connected'));
}

/** Whether a line begins what an event does to the second network: a declared peer, a session, and its loss are one event for both. */
function isSecondHalf(journal, line) {
  const {kind, link, links} = journal;
  if (![BEGIN, COPY, END].includes(kind[line])) return false;
  const {tag, family} = links[link[line]];
  return tag !== '' && family === (kind[line] === BEGIN ? 'in' : 'read');
}

function markEvents(journal, fall) {
  const {kind, last} = journal;
  const event = new Int32Array(last + 1);
  let answered = 0;             // behind this line an event begins
  let idle = false;
  for (let line = 1; line <= last; line++) {
    const isFall = fall[line] === line;
    let begins = isFall && (line === answered + 1 || beginsEvent(journal, fall, event, line));
    if (idle) begins = false;
    if (kind[line] === BOUND) [idle, begins] = [true, true];
    if (kind[line] === IDLE) idle = false;
    event[line] = begins ? line : event[line - 1] || line;
    if (kind[line] === WORK) takeTurns(journal, fall, event, line, answered);
    if (kind[line] >= ROWS && kind[line] !== BOUND && !idle || kind[line] === ASK) answered = line;
  }
  return event;
}

/** Whether the fall that begins at a line is another event than the one before. */
function beginsEvent(journal, fall, event, line) {
  const {kind, link, links, after, prefix} = journal;
  const before = fall[line - 1];
  if (kind[line] === WORK || isSecondHalf(journal, line)) return false;
  if (kind[line] > REPLACE) return !(kind[line] === END && kind[line - 1] === NOTE);
  if (kind[before] > REPLACE) return true;
  const cause = causeOf(links[link[line]]);
  if (cause !== causeOf(links[link[before]]) || isInterior(cause)) return true;
  if (!isRoutes(cause)) return false;
  if (kind[line] === DELETE && kind[before] !== DELETE) return true;
  if (kind[line] !== DELETE && kind[before] !== DELETE && after[line] !== after[before]) return true;
  for (let other = before; other >= event[line - 1] && other > 0; other = fall[other - 1]) {
    if (prefix[other] === prefix[line]) return true;
  }
  return false;
}

function isRoutes(cause) {
  return /^(6\.)?routes/.test(cause);
}

function isInterior(cause) {
  return /^(6\.)?interior/.test(cause);
}

/** Gives a line `work M` the turns before it. */
function takeTurns(journal, fall, event, line, answered) {
  const {kind, link, links} = journal;
  const turns = Number(journal.text(line).split(' ')[1]) || 0;
  let first = line;
  let cause = null;
  for (let taken = 0; taken < turns && first - 1 > answered; taken++) {
    const start = fall[first - 1];
    if (kind[start] > REPLACE) break;
    const found = causeOf(links[link[start]]);
    const isTurn = kind[start] === DELETE || !(isRoutes(found) || isInterior(found));
    if (!isTurn || (cause !== null && found !== cause)) break;
    cause = found;
    first = start;
  }
  for (let other = first; other <= line; other++) event[other] = first;
}
