/**
 * Lamport's space-time diagram of the last messages: a line down for each member, time going down, a dot for each message in the order of
 * stamps, and an arrow to where each other member had first read it, by what that one's next messages say.
 * @module diagram
 */
import { byId, draw } from './dom.js';

const STEP = 16;
const HEAD = 26;
const SIDE = 34;
const BETWEEN = 84;

/**
 * @param {string[]} nodes
 * @param {any[]} messages in the order of their stamps
 * @param {Set<string>} isHeld by member and number
 * @param {Set<string>} silent
 */
export function drawMessages(nodes, messages, isHeld, silent) {
  const svg = byId('diagram');
  const between = Math.max(44, Math.min(BETWEEN, 300 / Math.max(1, nodes.length - 1)));
  const x = (member) => SIDE + 30 + (member - 1) * between;
  const clocks = [...new Set(messages.map((it) => it.stamp[0]))];
  const row = new Map(clocks.map((clock, place) => [clock, HEAD + 14 + place * STEP]));
  const y = (message) => row.get(message.stamp[0]);
  const atEnd = isAtEnd(byId('timeline'));
  const size = { width: x(nodes.length) + SIDE, height: 2 * HEAD + 14 + clocks.length * STEP };
  svg.setAttribute('viewBox', `0 0 ${size.width} ${size.height}`);
  svg.setAttribute('width', size.width);
  svg.setAttribute('height', size.height);
  svg.replaceChildren(
    ...nodes.flatMap((node, place) => [
      ...[16, size.height - 8].map((y) => draw('text', { x: x(place + 1), y, class: silent.has(node) ? 'name silent' : 'name' }, node)),
      draw('path', { d: `M${x(place + 1)} ${HEAD}V${size.height - HEAD}`, class: `line${silent.has(node) ? ' silent' : ''}` }),
    ]),
    ...clocks.filter((_, place) => place % 5 === 0).map((clock) => draw('text', { x: 4, y: row.get(clock) + 4, class: 'clock' }, String(clock))),
    ...arrows(messages, x, y),
    ...messages.map((message) => dot(nodes, message, x, y, isHeld.has(`${message.member}.${message.number}`))),
  );
  byId('diagram-about').textContent = messages.length
    ? 'Time goes down, by Lamport clocks. ● commands, ○ an acknowledgement, ringed while held.'
    : 'There is none yet.';
  if (atEnd) {
    byId('timeline').scrollTop = byId('timeline').scrollHeight;
  }
}

function isAtEnd(box) {
  return box.scrollHeight - box.scrollTop - box.clientHeight < 40;
}

/** Whether a message says that its member had read another. An acknowledgement is made before what it answers is taken. */
function hasRead(reader, message) {
  const taken = reader.taken[message.member - 1] ?? 0;
  const answers = reader.commands === 0 && taken + 1 === message.number && reader.stamp[0] === message.stamp[0] + 1;
  return taken >= message.number || answers;
}

/** From each message to the first later one of each other member that had taken it. */
function arrows(messages, x, y) {
  const readers = new Map();
  messages.forEach((message) => {
    readers.set(message.member, [...(readers.get(message.member) ?? []), message]);
  });
  return messages.filter((it) => it.commands > 0).flatMap((message) =>
    [...readers].filter(([member]) => member !== message.member).flatMap(([member, theirs]) => {
      const reader = theirs.find((it) => hasRead(it, message));
      // What was read before the first message that is drawn has no arrow.
      if (!reader || y(reader) <= y(message)) {
        return [];
      }
      return [draw('path', { d: `M${x(message.member)} ${y(message)}L${x(member)} ${y(reader)}`, class: 'arrow' })];
    }));
}

function dot(nodes, message, x, y, isHeld) {
  const what = message.commands ? `${message.commands} command${message.commands > 1 ? 's' : ''}` : 'acknowledgement';
  return draw('circle', {
    cx: x(message.member),
    cy: y(message),
    r: message.commands ? 5 : 3.5,
    class: `message ${message.commands ? 'commands' : 'acknowledges'}${isHeld ? ' held' : ''}`,
  }, draw('title', {}, `${nodes[message.member - 1]} message ${message.number}, stamp ${message.stamp.join('.')}: ${what}${isHeld ? ', held' : ''}`));
}
