/**
 * What an answer of the process rests on, found in what is drawn. The answer itself is never made here.
 * @module reasons
 */
import { permissionName } from './policy.js';

/**
 * The shortest way from one of these roles down to one that is granted the permission.
 * @param {import('./policy.js').Policy} policy
 * @param {Iterable<string>} starts
 * @param {string} operation
 * @param {string} object
 * @returns {string[]|null}
 */
export function chain(policy, starts, operation, object) {
  const granted = policy.permissions.get(permissionName(operation, object))?.roles ?? new Set();
  const before = new Map([...starts].map((role) => [role, null]));
  const reached = [...before.keys()];
  for (let next = 0; next < reached.length; next += 1) {
    const role = reached[next];
    if (granted.has(role)) {
      return wayTo(before, role);
    }
    for (const junior of policy.roles.get(role)?.juniors ?? []) {
      if (!before.has(junior)) {
        before.set(junior, role);
        reached.push(junior);
      }
    }
  }
  return null;
}

function wayTo(before, end) {
  const way = [];
  for (let role = end; role !== null; role = before.get(role)) {
    way.unshift(role);
  }
  return way;
}

/**
 * All roles that are reached from these by declared pairs, these among them.
 * @param {import('./policy.js').Policy} policy
 * @param {Iterable<string>} starts
 * @param {'juniors'|'seniors'} to
 * @returns {Set<string>}
 */
export function reached(policy, starts, to) {
  const found = new Set(starts);
  for (const role of found) {
    for (const next of policy.roles.get(role)?.[to] ?? []) {
      found.add(next);
    }
  }
  return found;
}

/**
 * The roles that have a permission, by a grant of their own or one below them.
 * @param {import('./policy.js').Policy} policy
 * @param {string} operation
 * @param {string} object
 */
export function rolesWith(policy, operation, object) {
  const granted = policy.permissions.get(permissionName(operation, object))?.roles ?? [];
  return reached(policy, granted, 'seniors');
}

/**
 * What a command touches: the nodes that are marked, and sentences on what stands in its way, as the process told it.
 * @param {import('./policy.js').Policy} policy
 * @param {any} command
 * @param {any} [reason] of a command that was tried
 * @returns {{nodes: string[], sentences: string[]}}
 */
export function touched(policy, command, reason = {}) {
  const { names = {}, roles = [], chain: way = [] } = reason;
  const nodes = [...namedBy(policy, command), ...namedBy(policy, names), ...[...roles, ...way].map((role) => `role:${role}`)];
  const sentences = [];
  if (roles.length > 0) {
    const gets = names.kind === 'static' ? 'would be authorized for' : 'would have active';
    sentences.push(`${names.kind} set ${names.set} allows ${reason.cardinality - 1} of its roles; ${names.user ?? names.session} ${gets} ${roles.join(' and ')}.`);
  } else if (way.length > 0) {
    sentences.push(`${way.join(', which inherits ')}.`);
  } else if (reason.size !== undefined) {
    sentences.push(`${names.kind} set ${names.set} would have ${reason.size} roles and the number ${reason.cardinality}.`);
  } else if (names.set) {
    sentences.push(`It is about the ${names.kind} set ${names.set}.`);
  }
  return { nodes: [...new Set(nodes)], sentences };
}

function namedBy(policy, command) {
  const nodes = [];
  for (const [field, kind] of [['user', 'user'], ['session', 'session'], ['role', 'role'], ['ascendant', 'role'], ['descendant', 'role']]) {
    if (command[field]) {
      nodes.push(`${kind}:${command[field]}`);
    }
  }
  (command.roles ?? []).forEach((role) => nodes.push(`role:${role}`));
  if (command.operation && policy.permissions.has(permissionName(command.operation, command.object))) {
    nodes.push(`permission:${permissionName(command.operation, command.object)}`);
  }
  return nodes;
}
