/**
 * The search over all names, and the list of all.
 * @module search
 */
import { button, byId, make } from './dom.js';

/** So many are listed at once. */
const PAGE = 100;

/** The search. */
export class Search {
  /** @param {(key: string) => void} choose */
  constructor(choose) {
    this.choose = choose;
    /** @type {{key: string, kind: string, label: string, text: string}[]} */
    this.entries = [];
    this.isOpen = false;
    this.shown = PAGE;
    this.input = byId('find');
    this.kind = byId('find-kind');
    const anew = () => {
      this.shown = PAGE;
      this.show();
    };
    this.input.addEventListener('input', anew);
    this.kind.addEventListener('change', () => {
      this.isOpen = true;
      anew();
    });
    byId('find-all').addEventListener('click', () => {
      this.isOpen = !this.isOpen;
      anew();
    });
    byId('found-more').addEventListener('click', () => {
      this.shown += PAGE;
      this.show();
    });
  }

  /** @param {import('./policy.js').Policy} policy */
  take(policy) {
    const entry = (kind, label) => ({ key: `${kind}:${label}`, kind, label, text: label.toLowerCase() });
    const of = (kind, names) => [...names].map((name) => entry(kind, name));
    this.entries = [
      ...of('role', policy.roles.keys()),
      ...of('user', policy.users.keys()),
      ...of('session', policy.sessions.keys()),
      ...of('permission', policy.permissions.keys()),
      ...of('set', policy.sets.map((set) => `${set.kind} ${set.name}`)),
    ];
    this.show();
  }

  show() {
    const part = this.input.value.trim().toLowerCase();
    const isOpen = this.isOpen || part !== '';
    byId('found').hidden = !isOpen;
    byId('find-all').setAttribute('aria-expanded', String(isOpen));
    byId('find-all').textContent = this.isOpen ? 'Close the list' : 'List all';
    if (!isOpen) {
      return;
    }
    const kind = this.kind.value;
    const found = this.entries.filter((entry) => (!kind || entry.kind === kind) && entry.text.includes(part));
    const row = (entry) =>
      make('li', {},
        button(entry.label, () => this.choose(entry.key), { class: 'link', 'aria-label': `${entry.kind} ${entry.label}` }),
        make('span', { class: 'hint', 'aria-hidden': 'true' }, ` ${entry.kind}`));
    byId('found-list').replaceChildren(...found.slice(0, this.shown).map(row));
    byId('found-more').hidden = found.length <= this.shown;
    const rest = found.length > this.shown ? `, of which ${this.shown} are listed` : '';
    byId('found-count').textContent = `${found.length.toLocaleString('en')} found${rest}`;
  }
}
