/**
 * A check that is tried: the process answers, and what the answer rests on is drawn.
 * @module check
 */
import { ask } from './api.js';
import { byId, make, offer, suggest } from './dom.js';
import { permissionName } from './policy.js';
import { chain, rolesWith } from './reasons.js';
import { DENIALS, inWords } from './words.js';

/** The form, and what it tells. */
export class CheckForm {
  /** @param {() => any} world what is known: policy, founding and graph */
  constructor(world) {
    this.world = world;
    this.who = byId('check-who');
    this.operation = byId('check-operation');
    this.object = byId('check-object');
    suggest(this.who, function* names() {
      const { sessions, users } = world().policy;
      yield* sessions.keys();
      yield* users.keys();
    });
    this.who.addEventListener('input', () => this.tellKind());
    suggest(this.operation, () => world().founding.operations);
    suggest(this.object, () => world().founding.objects);
    byId('check-form').addEventListener('submit', (event) => {
      event.preventDefault();
      this.check();
    });
  }

  /** Checks that can be tried at once: of the first session, one that a role of it grants, and one that it does not. */
  offer() {
    const { policy } = this.world();
    const [session] = policy.sessions.keys();
    const pairs = [...policy.permissions.values()];
    const roles = policy.sessions.get(session)?.roles ?? [];
    const is = (pair) => chain(policy, roles, pair.operation, pair.object) !== null;
    const examples = [pairs.find((pair) => is(pair)), pairs.find((pair) => !is(pair))];
    offer(byId('check-examples'), examples.filter((pair) => pair && session).map(({ operation, object }) =>
      [`May ${session} ${operation} ${object}?`, () => this.fill(session, operation, object)]));
  }

  fill(who, operation, object) {
    [this.who.value, this.operation.value, this.object.value] = [who, operation, object];
    this.tellKind();
    this.check();
  }

  /** Says of which kind a name is, where there is but one. */
  tellKind() {
    const { sessions, users } = this.world().policy;
    const who = this.who.value.trim();
    if (sessions.has(who) !== users.has(who)) {
      byId('check-kind').value = users.has(who) ? 'user' : 'session';
    }
  }

  async check() {
    const who = this.who.value.trim();
    const [operation, object] = [this.operation.value.trim(), this.object.value.trim()];
    const isUser = byId('check-kind').value === 'user';
    const evaluation = {
      subject: { type: isUser ? 'user' : 'session', id: who },
      action: { name: operation },
      resource: { type: 'object', id: object },
    };
    const order = byId('check-ordered').checked ? 'ordered' : 'local';
    byId('check-answer').replaceChildren('Asking…');
    try {
      const told = await ask(`access/v1/evaluation?consistency=${order}`, evaluation);
      this.tell({ isUser, who, operation, object }, told);
    } catch (error) {
      byId('check-answer').replaceChildren(make('p', { class: 'verdict denied' }, inWords(error)));
    }
  }

  /** Shows the process's answer, and what it rests on. */
  tell(asked, told) {
    const { granted, kind, verdict } = verdictOf(told);
    const reason = granted ? this.granted(asked) : this.refused(asked, kind, told.context.reason);
    const at = told.context.at ? `As of ${told.context.at}.` : '';
    byId('check-answer').replaceChildren(
      make('p', { class: `verdict ${kind}` }, verdict),
      ...reason,
      make('p', { class: 'hint' }, `${asked.isUser ? 'Of all roles that the user is authorized for; of no session. ' : ''}${at}`),
    );
  }

  granted({ isUser, who, operation, object }) {
    const { policy, graph } = this.world();
    const starts = (isUser ? policy.users : policy.sessions).get(who)?.roles ?? [];
    const way = chain(policy, starts, operation, object);
    if (!way) {
      return [make('p', {}, 'The policy that is drawn here is older: its reason comes with the next reading.')];
    }
    const subject = `${isUser ? 'user' : 'session'}:${who}`;
    const permission = permissionName(operation, object);
    const keys = [subject, ...way.map((role) => `role:${role}`), `permission:${permission}`];
    const edges = keys.slice(1).map((key, before) => [keys[before], key]);
    graph.mark('granted', keys, edges);
    const step = (text, name) => make('li', {}, `${text} `, make('b', {}, name));
    return [
      make('ol', { class: 'way', 'aria-label': 'Why' },
        step(isUser ? 'user' : 'session', who),
        step(isUser ? 'is assigned the role' : 'has the active role', way[0]),
        ...way.slice(1).map((role) => step('which inherits', role)),
        step('which is granted', permission)),
    ];
  }

  refused({ isUser, who, operation, object }, kind, reason) {
    const { policy, graph } = this.world();
    const subject = `${isUser ? 'user' : 'session'}:${who}`;
    const starts = [...((isUser ? policy.users : policy.sessions).get(who)?.roles ?? [])];
    const permission = permissionName(operation, object);
    graph.mark(kind, [subject, ...starts.map((role) => `role:${role}`), `permission:${permission}`],
      starts.map((role) => [subject, `role:${role}`]));
    const word = reason?.word ?? 'Refused';
    if (word !== 'Refused') {
      return [make('p', {}, DENIALS[word] ?? 'That is what the process tells.')];
    }
    const has = isUser ? 'is assigned' : 'has active';
    const roles = [...rolesWith(policy, operation, object)];
    const some = roles.slice(0, 6).join(', ') + (roles.length > 6 ? ` and ${roles.length - 6} more` : '');
    return [
      make('p', {}, `${who} ${has} ${starts.join(', ') || 'no role'}: `, `none of it is granted ${permission}, nor what it inherits. `,
        roles.length ? `Roles that have it: ${some}.` : 'No role has it.'),
    ];
  }
}

/** The process's answer, in a word. */
function verdictOf(told) {
  if (told.decision === true) {
    return { granted: true, kind: 'granted', verdict: '✓ Granted' };
  }
  const { word, number } = told.context.reason ?? {};
  return word === 'Refused'
    ? { granted: false, kind: 'refused', verdict: '✗ Refused' }
    : { granted: false, kind: 'denied', verdict: `✗ Denied: ${word}${number ? ` (${number})` : ''}` };
}
