/**
 * The policy, as its dump tells it. Nothing is decided here: it is what is drawn and listed.
 * @module policy
 */

/**
 * @typedef {object} Role
 * @property {Set<string>} juniors which it inherits by a declared pair
 * @property {Set<string>} seniors which inherit it so
 * @property {Set<string>} users who are assigned it
 * @property {Set<string>} sessions in which it is active
 * @property {[string, string][]} grants the permissions that it is granted itself
 * @property {Separation[]} sets
 */

/**
 * @typedef {object} Separation
 * @property {'static'|'dynamic'} kind
 * @property {string} name
 * @property {Set<string>} roles
 * @property {number} n
 */

/**
 * @typedef {object} Policy
 * @property {Map<string, {roles: Set<string>, sessions: Set<string>}>} users
 * @property {Map<string, Role>} roles
 * @property {Map<string, {user: string, roles: Set<string>}>} sessions
 * @property {Map<string, {operation: string, object: string, roles: Set<string>}>} permissions granted ones, and those of the founding
 * @property {Separation[]} sets
 * @property {string} at up to where it is right
 * @property {number} generation
 */

/** @returns {Policy} */
export function noPolicy() {
  return {
    users: new Map(),
    roles: new Map(),
    sessions: new Map(),
    permissions: new Map(),
    sets: [],
    at: '',
    generation: 0,
  };
}

/** @param {string} operation @param {string} object */
export function permissionName(operation, object) {
  return `${operation} ${object}`;
}

/**
 * What a command of a dump says.
 * @type {Record<string, (policy: Policy, command: any) => void>}
 */
const SAYS = {
  AddUser: (policy, { user }) => policy.users.set(user, { roles: new Set(), sessions: new Set() }),
  AddRole: (policy, { role }) =>
    policy.roles.set(role, {
      juniors: new Set(),
      seniors: new Set(),
      users: new Set(),
      sessions: new Set(),
      grants: [],
      sets: [],
    }),
  AssignUser: (policy, { user, role }) => {
    policy.users.get(user).roles.add(role);
    policy.roles.get(role).users.add(user);
  },
  AddInheritance: (policy, { ascendant, descendant }) => {
    policy.roles.get(ascendant).juniors.add(descendant);
    policy.roles.get(descendant).seniors.add(ascendant);
  },
  GrantPermission: (policy, { operation, object, role }) => {
    policy.roles.get(role).grants.push([operation, object]);
    permission(policy, operation, object).roles.add(role);
  },
  CreateSession: (policy, { user, session, roles }) => {
    policy.sessions.set(session, { user, roles: new Set() });
    policy.users.get(user).sessions.add(session);
    roles.forEach((role) => SAYS.AddActiveRole(policy, { session, role }));
  },
  AddActiveRole: (policy, { session, role }) => {
    policy.sessions.get(session).roles.add(role);
    policy.roles.get(role).sessions.add(session);
  },
  CreateSsdSet: (policy, command) => addSet(policy, 'static', command),
  CreateDsdSet: (policy, command) => addSet(policy, 'dynamic', command),
  AddSsdRoleMember: (policy, command) => addMember(policy, 'static', command),
  AddDsdRoleMember: (policy, command) => addMember(policy, 'dynamic', command),
  SetSsdSetCardinality: (policy, command) => setNumber(policy, 'static', command),
  SetDsdSetCardinality: (policy, command) => setNumber(policy, 'dynamic', command),
};

function permission(policy, operation, object) {
  const name = permissionName(operation, object);
  if (!policy.permissions.has(name)) {
    policy.permissions.set(name, { operation, object, roles: new Set() });
  }
  return policy.permissions.get(name);
}

function setOf(policy, kind, name) {
  return policy.sets.find((set) => set.kind === kind && set.name === name);
}

function addSet(policy, kind, { set: name, roles, n }) {
  policy.sets.push({ kind, name, roles: new Set(), n });
  roles.forEach((role) => addMember(policy, kind, { set: name, role }));
}

function addMember(policy, kind, { set: name, role }) {
  const set = setOf(policy, kind, name);
  set.roles.add(role);
  policy.roles.get(role).sets.push(set);
}

function setNumber(policy, kind, { set: name, n }) {
  setOf(policy, kind, name).n = n;
}

/**
 * Reads a dump, and what the founding lists.
 * @param {{generation: number, at: string, commands: any[]}} dump
 * @param {{permissions: [string, string][]}} founding
 * @returns {Policy}
 */
export function readPolicy(dump, founding) {
  const policy = noPolicy();
  founding.permissions.forEach(([operation, object]) => permission(policy, operation, object));
  for (const command of dump.commands) {
    SAYS[command.name]?.(policy, command);
  }
  return { ...policy, at: dump.at, generation: dump.generation };
}

/**
 * What a set asks, in words.
 * @param {Separation} set
 */
export function setInWords({ kind, n, roles }) {
  const most = n - 1;
  const names = [...roles].join(', ');
  return kind === 'static'
    ? `a user may be authorized for at most ${most} of ${names}`
    : `a session may have at most ${most} of ${names} active`;
}
