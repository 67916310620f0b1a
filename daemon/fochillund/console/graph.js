/**
 * The graph of the policy: all of a small one, of a large one what the chosen node touches.
 * @module graph
 */
import { byId, button, draw, make } from './dom.js';
import { place } from './layout.js';
import { setInWords } from './policy.js';
import { reached } from './reasons.js';

/** A policy of so many nodes is drawn whole. */
const MOST_WHOLE = 90;
/** Of a larger one so many are drawn of each kind. */
const MOST_ROLES = 32;
const MOST_OTHERS = 14;

const KINDS = { user: 'user', session: 'session', role: 'role', permission: 'permission', set: 'set' };

/** The graph, and what is chosen and marked in it. */
export class Graph {
  /** @param {(key: string) => void} whenChosen */
  constructor(whenChosen) {
    this.whenChosen = whenChosen;
    this.svg = byId('graph');
    this.chosen = '';
    /** @type {{kind: string, nodes: string[], edges: [string, string][]}} */
    this.marks = { kind: '', nodes: [], edges: [] };
    this.svg.addEventListener('keydown', (event) => this.key(event));
  }

  /** @param {import('./policy.js').Policy} policy */
  show(policy) {
    this.policy = policy;
    this.draw();
  }

  /**
   * Marks what an answer rests on.
   * @param {string} kind granted, refused or denied
   * @param {string[]} nodes
   * @param {[string, string][]} edges
   */
  mark(kind, nodes, edges) {
    this.marks = { kind, nodes, edges };
    this.chosen = '';
    this.draw(true);
    this.whenChosen('');
  }

  /** @param {string} key */
  choose(key) {
    this.chosen = key;
    this.draw(true);
    this.whenChosen(key);
  }

  /** @param {boolean} [scrolls] to what is chosen or marked */
  draw(scrolls = false) {
    const focused = this.svg.contains(document.activeElement) ? document.activeElement.dataset.key : '';
    const shown = this.isWhole() ? everything(this.policy) : around(this.policy, this.starts());
    const { nodes, edges } = parts(this.policy, shown);
    const size = place(nodes, edges);
    this.nodes = nodes;
    const at = new Map(nodes.map((node) => [node.key, node]));
    this.svg.setAttribute('viewBox', `0 0 ${size.width} ${size.height}`);
    this.svg.setAttribute('width', size.width);
    this.svg.setAttribute('height', size.height);
    const marked = new Set(this.marks.edges.map(([from, to]) => `${from}>${to}`));
    this.svg.replaceChildren(
      arrows(),
      ...this.policy.sets.flatMap((set) => this.ties(set, at)),
      ...edges.map((edge) => line(edge, marked.has(`${edge.from}>${edge.to}`) && this.marks.kind)),
      ...nodes.map((node) => this.box(node)),
    );
    this.tell(nodes);
    this.offerFocus(at, focused);
    if (scrolls) {
      this.scrollTo(at);
    }
  }

  isWhole() {
    const { users, roles, sessions, permissions } = this.policy;
    return users.size + roles.size + sessions.size + permissions.size <= MOST_WHOLE;
  }

  /** The nodes of a large policy round which it is drawn. */
  starts() {
    if (this.chosen) {
      return [this.chosen];
    }
    if (this.marks.nodes.length) {
      return this.marks.nodes;
    }
    const [first] = this.policy.roles.keys();
    return first ? [`role:${first}`] : [];
  }

  tell(nodes) {
    const { users, roles, sessions } = this.policy;
    const count = (number, word) => `${number.toLocaleString('en')} ${word}${number === 1 ? '' : 's'}`;
    const all = `${count(users.size, 'user')}, ${count(roles.size, 'role')}, ${count(sessions.size, 'session')}`;
    const by = this.marks.nodes.length ? 'the answer rests on' : 'the first role touches';
    const drawn = this.isWhole() ? '' : `; drawn are ${nodes.length} that ${this.chosen ? 'the chosen one touches' : by}`;
    byId('graph-about').textContent = roles.size + users.size ? `${all}${drawn}` : 'It is empty yet: add a user and a role above.';
  }

  /** Dashed lines between the roles of a set. */
  ties(set, at) {
    const nodes = [...set.roles].map((role) => at.get(`role:${role}`)).filter(Boolean);
    nodes.sort((a, b) => a.x - b.x || a.y - b.y);
    const isChosen = this.chosen === `set:${set.kind} ${set.name}`;
    return nodes.slice(1).map((node, before) => {
      const from = nodes[before];
      const [x, y] = [from.x + from.width / 2, from.y + from.height / 2];
      const [toX, toY] = [node.x + node.width / 2, node.y + node.height / 2];
      const path = `M${x} ${y}Q${Math.max(x, toX) + 70} ${(y + toY) / 2} ${toX} ${toY}`;
      return draw('path', { d: path, class: `tie ${set.kind}${isChosen ? ' chosen' : ''}` });
    });
  }

  box(node) {
    const isChosen = node.key === this.chosen;
    const mark = this.marks.nodes.includes(node.key) ? ` marked ${this.marks.kind}` : '';
    const sets = node.kind === 'role' ? this.policy.roles.get(node.name).sets : [];
    const group = draw(
      'g',
      {
        class: `node ${node.kind}${isChosen ? ' chosen' : ''}${mark}`,
        transform: `translate(${node.x} ${node.y})`,
        role: 'button',
        tabindex: -1,
        'aria-label': `${KINDS[node.kind]} ${node.label}${mark ? `, ${this.marks.kind}` : ''}`,
        'aria-pressed': String(isChosen),
        'data-key': node.key,
      },
      draw('rect', { width: node.width, height: node.height, rx: node.kind === 'role' ? 6 : 13 }),
      draw('text', { x: node.width / 2, y: node.height / 2 + 4.5 }, node.label),
      ...sets.slice(0, 6).map((set, place) =>
        draw('circle', { class: `dot ${set.kind}`, cx: node.width - 6 - 9 * place, cy: 0, r: 4 },
          draw('title', {}, `${set.kind} set ${set.name}: ${setInWords(set)}`))),
    );
    group.addEventListener('click', () => this.choose(node.key));
    return group;
  }

  /** One node is in the order of tabs: that which had the focus, the chosen one, a marked one, or the first. */
  offerFocus(at, focused) {
    const key = [focused, this.chosen, ...this.marks.nodes, this.nodes[0]?.key].find((it) => at.has(it));
    const element = key && this.element(key);
    element?.setAttribute('tabindex', 0);
    if (focused) {
      element?.focus({ preventScroll: true });
    }
  }

  scrollTo(at) {
    const nodes = (this.chosen ? [this.chosen] : this.marks.nodes).map((it) => at.get(it)).filter(Boolean);
    if (nodes.length) {
      const around = byId('drawing');
      const left = Math.min(...nodes.map((it) => it.x));
      around.scrollTo({ left: left - 60, top: nodes[0].y - around.clientHeight / 2 });
    }
  }

  element(key) {
    return this.svg.querySelector(`[data-key="${CSS.escape(key)}"]`);
  }

  /** Arrow keys go to the nearest node in their direction; Enter and the blank choose. */
  key(event) {
    const key = event.target.closest('[data-key]')?.dataset.key;
    const from = this.nodes.find((node) => node.key === key);
    if (!from) {
      return;
    }
    if (event.key === 'Enter' || event.key === ' ') {
      event.preventDefault();
      this.choose(from.key);
      return;
    }
    const to = nearest(this.nodes, from, event.key);
    if (to) {
      event.preventDefault();
      this.element(from.key).setAttribute('tabindex', -1);
      const element = this.element(to.key);
      element.setAttribute('tabindex', 0);
      element.focus();
    }
  }
}

const DIRECTIONS = { ArrowLeft: [-1, 0], ArrowRight: [1, 0], ArrowUp: [0, -1], ArrowDown: [0, 1] };

function nearest(nodes, from, key) {
  const direction = DIRECTIONS[key];
  if (!direction) {
    return null;
  }
  const [alongX, alongY] = direction;
  let best = null;
  let least = Infinity;
  for (const node of nodes) {
    const [x, y] = [(node.column - from.column) * 200, node.y - from.y];
    const ahead = x * alongX + y * alongY;
    const aside = Math.abs(x * alongY) + Math.abs(y * alongX);
    if (ahead > 0 && ahead + 3 * aside < least) {
      [best, least] = [node, ahead + 3 * aside];
    }
  }
  return best;
}

function arrows() {
  const size = { viewBox: '0 0 8 8', refX: 7, refY: 4, markerWidth: 10, markerHeight: 10, markerUnits: 'userSpaceOnUse', orient: 'auto' };
  const arrow = (kind) =>
    draw('marker', { id: `arrow-${kind}`, class: `arrow ${kind}`, ...size }, draw('path', { d: 'M0 0L8 4L0 8z' }));
  return draw('defs', {}, ...['plain', 'granted', 'refused', 'denied'].map(arrow));
}

function line(edge, mark) {
  const [from, ...others] = edge.way;
  let [x, y] = [from.x + from.width, from.y + from.height / 2];
  let path = `M${x} ${y}`;
  for (const to of others) {
    const [toX, toY] = [to.kind === 'place' ? to.x : to.x - 2, to.y + to.height / 2];
    const bend = (toX - x) / 2;
    path += `C${x + bend} ${y} ${toX - bend} ${toY} ${toX} ${toY}`;
    [x, y] = [to.x + to.width, toY];
    path += to.kind === 'place' ? `H${x}` : '';
  }
  return draw('path', {
    d: path,
    class: `edge ${edge.kind}${mark ? ` marked ${mark}` : ''}`,
    'marker-end': `url(#arrow-${mark || 'plain'})`,
  });
}

/** @returns {{users: Set<string>, sessions: Set<string>, roles: Set<string>, permissions: Set<string>}} */
function everything(policy) {
  const granted = [...policy.permissions].filter(([, { roles }]) => roles.size > 0);
  return {
    users: new Set(policy.users.keys()),
    sessions: new Set(policy.sessions.keys()),
    roles: new Set(policy.roles.keys()),
    permissions: new Set(granted.map(([name]) => name)),
  };
}

/** What a node touches: roles above and below it, and their users, sessions and permissions, some of each. Of an answer what it rests on, alone. */
function around(policy, starts) {
  const shown = { users: new Set(), sessions: new Set(), roles: new Set(), permissions: new Set() };
  for (const start of starts) {
    const at = start.indexOf(':');
    put(policy, shown, start.slice(0, at), start.slice(at + 1));
  }
  if (starts.length > 1) {
    return shown;
  }
  const first = [...shown.roles];
  const near = [...reached(policy, first, 'juniors'), ...reached(policy, first, 'seniors')];
  near.slice(0, MOST_ROLES).forEach((role) => shown.roles.add(role));
  first.forEach((role) => {
    const { users, sessions } = policy.roles.get(role);
    some(users).forEach((user) => shown.users.add(user));
    some(sessions).forEach((session) => shown.sessions.add(session));
  });
  [...shown.roles].flatMap((role) => policy.roles.get(role).grants).slice(0, MOST_OTHERS)
    .forEach((pair) => shown.permissions.add(pair.join(' ')));
  return shown;
}

function some(names) {
  return [...names].slice(0, MOST_OTHERS);
}

function put(policy, shown, kind, name) {
  const role = (it) => policy.roles.has(it) && shown.roles.size < MOST_ROLES && shown.roles.add(it);
  if (kind === 'role') {
    role(name);
  } else if (kind === 'user' && policy.users.has(name)) {
    shown.users.add(name);
    policy.users.get(name).roles.forEach(role);
    some(policy.users.get(name).sessions).forEach((session) => shown.sessions.add(session));
  } else if (kind === 'session' && policy.sessions.has(name)) {
    shown.sessions.add(name);
    shown.users.add(policy.sessions.get(name).user);
    policy.sessions.get(name).roles.forEach(role);
  } else if (kind === 'permission' && policy.permissions.has(name)) {
    shown.permissions.add(name);
    policy.permissions.get(name).roles.forEach(role);
  } else if (kind === 'set') {
    policy.sets.find((set) => `${set.kind} ${set.name}` === name)?.roles.forEach(role);
  }
}

/** The nodes and edges of what is shown. */
function parts(policy, shown) {
  const node = (kind, name, more = {}) => ({ key: `${kind}:${name}`, kind, name, label: name, ...more });
  const nodes = [
    ...[...shown.users].map((user) => node('user', user)),
    ...[...shown.sessions].map((session) =>
      node('session', session, { owner: `user:${policy.sessions.get(session).user}` })),
    ...[...shown.roles].map((role) => node('role', role)),
    ...[...shown.permissions].map((name) => node('permission', name)),
  ];
  const there = new Set(nodes.map(({ key }) => key));
  const edges = [];
  const edge = (from, to, kind) => there.has(from) && there.has(to) && edges.push({ from, to, kind });
  shown.users.forEach((user) =>
    policy.users.get(user).roles.forEach((role) => edge(`user:${user}`, `role:${role}`, 'assigned')));
  shown.sessions.forEach((session) =>
    policy.sessions.get(session).roles.forEach((role) => edge(`session:${session}`, `role:${role}`, 'active')));
  shown.roles.forEach((role) => {
    const { juniors, grants } = policy.roles.get(role);
    juniors.forEach((junior) => edge(`role:${role}`, `role:${junior}`, 'inherits'));
    grants.forEach((pair) => edge(`role:${role}`, `permission:${pair.join(' ')}`, 'granted'));
  });
  return { nodes, edges };
}

/**
 * What there is to tell of a node, with ways to what it touches.
 * @param {import('./policy.js').Policy} policy
 * @param {string} key
 * @param {(key: string) => void} choose
 * @returns {Node[]}
 */
export function about(policy, key, choose) {
  const at = key.indexOf(':');
  const [kind, name] = [key.slice(0, at), key.slice(at + 1)];
  const lists = listsOf(policy, kind, name);
  if (!lists) {
    return [];
  }
  const MOST = 40;
  const row = ([title, to, names]) => {
    const all = [...names];
    const links = all.slice(0, MOST).map((it) => button(it, () => choose(`${to}:${it}`), { class: 'link' }));
    const more = all.length > MOST ? ` and ${all.length - MOST} more` : '';
    return [make('dt', {}, title), make('dd', {}, ...(links.length ? links : ['none']), more)];
  };
  return [make('h3', {}, `${kind} ${name}`), make('dl', {}, ...lists.flatMap(row))];
}

function listsOf(policy, kind, name) {
  if (kind === 'role' && policy.roles.has(name)) {
    const role = policy.roles.get(name);
    return [
      ['Assigned to', 'user', role.users],
      ['Active in', 'session', role.sessions],
      ['Inherited by', 'role', role.seniors],
      ['Inherits', 'role', role.juniors],
      ['Granted itself', 'permission', role.grants.map((pair) => pair.join(' '))],
      ['In sets', 'set', role.sets.map((set) => `${set.kind} ${set.name}`)],
    ];
  }
  if (kind === 'user' && policy.users.has(name)) {
    const { roles, sessions } = policy.users.get(name);
    return [['Assigned', 'role', roles], ['Sessions', 'session', sessions]];
  }
  if (kind === 'session' && policy.sessions.has(name)) {
    const { user, roles } = policy.sessions.get(name);
    return [['Of', 'user', [user]], ['Active roles', 'role', roles]];
  }
  if (kind === 'permission' && policy.permissions.has(name)) {
    return [['Granted to', 'role', policy.permissions.get(name).roles]];
  }
  const set = kind === 'set' && policy.sets.find((it) => `${it.kind} ${it.name}` === name);
  return set ? [[`Rule: ${setInWords(set)}`, 'role', set.roles]] : null;
}

/**
 * The sets beneath the graph.
 * @param {import('./policy.js').Policy} policy
 * @param {(key: string) => void} choose
 */
export function listSets(policy, choose) {
  const MOST = 12;
  const chip = (set) =>
    button(`${set.kind} set ${set.name}: at most ${set.n - 1} of ${set.roles.size}`, () => choose(`set:${set.kind} ${set.name}`), {
      class: `chip ${set.kind}`,
      title: setInWords(set),
    });
  const more = policy.sets.length > MOST ? [`and ${policy.sets.length - MOST} more: search for them`] : [];
  byId('sets').replaceChildren(...policy.sets.slice(0, MOST).map(chip), ...more);
}
