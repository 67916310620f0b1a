/**
 * The members of the group, as this process knows them.
 * @module members
 */
import { byId, make } from './dom.js';
import { drawMessages } from './diagram.js';

/** @param {number[]} a @param {number[]} b whether stamp a is after stamp b */
function isAfter(a, b) {
  for (let place = 0; place < Math.max(a.length, b.length); place += 1) {
    const [first, second] = [a[place] ?? 0, b[place] ?? 0];
    if (first !== second) {
      return first > second;
    }
  }
  return false;
}

/**
 * The facts of the page's head.
 * @param {any} state what /v1/status tells
 */
export function tellFacts(state) {
  const engine = state.engine ?? {};
  const facts = [
    ['Node', state.node ?? 'follows'],
    ['Generation', state.generation],
    ['Phase', state.phase],
    ['Cells left', state.cells_left === null ? 'none' : state.cells_left.toLocaleString('en')],
    ['Engine', engine.condition ?? 'unknown'],
    ['Records', state.records.toLocaleString('en')],
  ];
  byId('facts').replaceChildren(
    ...facts.map(([name, value]) => make('div', {}, make('dt', {}, name), make('dd', {}, String(value)))));
}

/**
 * The table of members, whom calls wait for, and the diagram.
 * @param {any} state
 * @param {any[]} messages
 */
export function tellMembers(state, messages) {
  const shown = state.shown?.stamp ?? [0, 0, 0];
  // A message of n commands has the places 0 to n - 1.
  const held = messages.filter((it) => it.commands > 0 && isAfter([...it.stamp, it.commands - 1], shown));
  const isHeld = new Set(held.map((it) => `${it.member}.${it.number}`));
  const waits = state.waits_for;
  byId('waits').hidden = waits.length === 0;
  if (waits.length) {
    byId('waits').replaceChildren(make('p', { class: 'verdict denied' }, `Waits for ${waits.join(', ')}`),
      make('p', {}, 'Commands are held until a message of each member has come.'));
  } else {
    byId('waits').replaceChildren();
  }
  const last = lastOf(messages);
  const row = (node, place) => {
    const member = place + 1;
    const isSelf = member === state.member;
    const read = isSelf ? state.taken : last.get(member)?.taken;
    const holds = held.filter((it) => it.member === member).reduce((sum, it) => sum + it.commands, 0);
    const does = waits.includes(node) ? 'waited for' : isSelf ? 'this process' : 'heard';
    return make('tr', { class: waits.includes(node) ? 'silent' : undefined },
      make('th', { scope: 'row' }, node),
      make('td', {}, String(state.taken[place] ?? 0)),
      make('td', {}, read ? read.join(' · ') : '–'),
      make('td', {}, String(holds)),
      make('td', {}, does));
  };
  const head = ['Member', 'Sent', `Has read of ${state.nodes.join(' · ')}`, 'Held', 'State'];
  byId('members').replaceChildren(
    make('caption', {}, state.member ? 'As this process knows it; of others by their last message' : 'As this process follows it'),
    make('thead', {}, make('tr', {}, ...head.map((text) => make('th', { scope: 'col' }, text)))),
    make('tbody', {}, ...state.nodes.map(row)));
  drawMessages(state.nodes, messages, isHeld, new Set(waits));
}

function lastOf(messages) {
  const last = new Map();
  messages.forEach((message) => {
    if ((last.get(message.member)?.number ?? 0) < message.number) {
      last.set(message.member, message);
    }
  });
  return last;
}
