/**
 * A command that is tried on a copy, where the process tells what would deny it, and then sent.
 * @module change
 */
import { ask, newId } from './api.js';
import { button, byId, later, make, offer, suggest } from './dom.js';
import { reached, touched } from './reasons.js';
import { COMMANDS, DENIALS, inWords } from './words.js';

const LABELS = {
  user: 'User', role: 'Role', session: 'Session', set: 'Set', operation: 'Operation', object: 'Object',
  ascendant: 'Ascendant (senior)', descendant: 'Descendant (junior)', roles: 'Roles, with blanks between', n: 'Number n',
};

const FIELDS = Object.assign({}, ...Object.values(COMMANDS));

/** The form, and what it tells. */
export class ChangeForm {
  /**
   * @param {() => any} world
   * @param {(at: string) => void} whenDone where the policy has changed up to
   */
  constructor(world, whenDone) {
    this.world = world;
    this.whenDone = whenDone;
    this.select = byId('change-command');
    this.call = null;
    for (const [title, commands] of Object.entries(COMMANDS)) {
      const options = Object.keys(commands).map((name) => make('option', { value: name }, name));
      this.select.append(make('optgroup', { label: title }, ...options));
    }
    this.select.addEventListener('change', () => this.ask());
    byId('change-form').addEventListener('submit', (event) => {
      event.preventDefault();
      this.try();
    });
    byId('change-send').addEventListener('click', () => this.send());
    this.tryLater = later(() => this.isFilled() && this.try(), 350);
    this.ask();
  }

  /** Asks for the fields of the command that is chosen. */
  ask() {
    const fields = FIELDS[this.select.value].map((field) => this.field(field));
    byId('change-fields').replaceChildren(...fields);
    byId('change-answer').replaceChildren();
    byId('change-fields').querySelectorAll('input').forEach((input) => {
      suggest(input, () => this.names(input.name));
      input.addEventListener('input', this.tryLater);
    });
  }

  field(name) {
    const id = `change-${name}`;
    const type = name === 'n' ? 'number' : 'text';
    return make('div', { class: 'field' },
      make('label', { for: id }, LABELS[name]),
      make('input', { id, name, type, min: name === 'n' ? 2 : undefined, required: name !== 'roles', spellcheck: 'false', list: `${id}-names` }),
      make('datalist', { id: `${id}-names` }));
  }

  names(field) {
    const { policy, founding } = this.world();
    const lists = {
      user: () => policy.users.keys(),
      session: () => policy.sessions.keys(),
      operation: () => founding.operations,
      object: () => founding.objects,
      set: () => policy.sets.map((set) => set.name),
      n: () => [],
      roles: () => [],
    };
    return (lists[field] ?? (() => policy.roles.keys()))();
  }

  isFilled() {
    return byId('change-form').checkValidity();
  }

  command() {
    const command = { name: this.select.value };
    for (const field of FIELDS[command.name]) {
      const text = byId(`change-${field}`).value.trim();
      command[field] = field === 'n' ? Number(text) : field === 'roles' ? text.split(/[\s,]+/).filter(Boolean) : text;
    }
    return command;
  }

  /** Changes that can be tried at once: one that separation of duty stands in the way of, where there is one. */
  offer() {
    const { policy } = this.world();
    const examples = [];
    for (const set of policy.sets.filter((it) => it.kind === 'static')) {
      const found = pairOf(policy, set);
      if (found) {
        examples.push({ name: 'AssignUser', ...found });
        break;
      }
    }
    if (policy.users.size === 0) {
      examples.push({ name: 'AddUser', user: 'ann' });
    }
    const words = (command) => `${command.name} ${FIELDS[command.name].map((field) => command[field]).join(' ')}`;
    offer(byId('change-examples'), examples.map((command) => [words(command), () => this.fill(command)]));
  }

  fill(command) {
    this.select.value = command.name;
    this.ask();
    FIELDS[command.name].forEach((field) => { byId(`change-${field}`).value = command[field]; });
    this.try();
  }

  async try() {
    const command = this.command();
    const turn = Symbol('a try');
    this.turn = turn;
    try {
      const told = await ask('v1/commands/try', { command });
      if (this.turn === turn) {
        this.tell(command, told.answers[0], { would: true, at: told.at, reason: told.reasons[0] });
      }
    } catch (error) {
      if (this.turn === turn) {
        this.tellError(error);
      }
    }
  }

  async send() {
    if (!byId('change-form').reportValidity()) {
      return;
    }
    this.turn = null;
    const { generation, member } = this.world().place();
    const command = this.command();
    await this.sendCall({ command, body: { command, ...(member ? { generation, member, id: newId() } : {}) } });
  }

  /** Sends a call, and where it waits, offers to ask for its answer again by its id. */
  async sendCall(call) {
    byId('change-answer').replaceChildren('Sending…');
    try {
      const told = await ask('v1/commands', call.body);
      const record = told.records[0];
      const at = [told.generation, ...record.stamp].join('.');
      this.tell(call.command, record.answer, { would: false, at });
      if (record.answer === 'Done') {
        this.whenDone(at);
      }
    } catch (error) {
      this.tellError(error);
      if (error.told?.stands && call.body.id) {
        byId('change-answer').append(button('Ask for its answer again', () => this.sendCall(call)));
      }
    }
  }

  tellError(error) {
    byId('change-answer').replaceChildren(make('p', { class: 'verdict denied' }, inWords(error)));
  }

  /** Shows the process's answer, and what stands in the way. */
  tell(command, answer, { would, at, reason }) {
    const { policy, graph } = this.world();
    const place = make('p', { class: 'hint' }, `${would ? 'Tried on a copy' : 'Carried out'} as of ${at}.`);
    if (answer.denied === undefined) {
      graph.mark('granted', touched(policy, command).nodes, []);
      const verdict = would ? '✓ It would be done' : '✓ Done';
      byId('change-answer').replaceChildren(make('p', { class: 'verdict granted' }, verdict), place);
      return;
    }
    const { nodes, sentences } = touched(policy, command, reason);
    graph.mark('denied', nodes, []);
    const verdict = `✗ ${would ? 'It would be denied' : 'Denied'}: ${answer.denied} (${answer.number})`;
    byId('change-answer').replaceChildren(
      make('p', { class: 'verdict denied' }, verdict),
      make('p', {}, DENIALS[answer.denied] ?? ''),
      ...sentences.map((text) => make('p', {}, text)),
      place,
    );
  }
}

/** A user, and a role of a set, which would be one too many for what the user has of the set already, as it is drawn. */
function pairOf(policy, set) {
  for (const role of set.roles) {
    for (const user of policy.roles.get(role).users) {
      const other = [...set.roles].find((it) => !policy.users.get(user).roles.has(it));
      if (other && set.n === 2) {
        return { user, role: other };
      }
    }
    for (const senior of reached(policy, [role], 'seniors')) {
      const [user] = policy.roles.get(senior).users;
      const other = [...set.roles].find((it) => it !== role);
      if (user && other && set.n === 2) {
        return { user, role: other };
      }
    }
  }
  return null;
}
