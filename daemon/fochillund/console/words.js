/**
 * The commands with their fields, and what denials mean: docs/USE.md in short.
 * @module words
 */

/** The fields of each command; what a field takes is told by its name. Reviews are asked elsewhere. */
export const COMMANDS = {
  'Users and roles': {
    AssignUser: ['user', 'role'],
    DeassignUser: ['user', 'role'],
    AddUser: ['user'],
    DeleteUser: ['user'],
    AddRole: ['role'],
    DeleteRole: ['role'],
  },
  Permissions: {
    GrantPermission: ['operation', 'object', 'role'],
    RevokePermission: ['operation', 'object', 'role'],
  },
  Hierarchy: {
    AddInheritance: ['ascendant', 'descendant'],
    DeleteInheritance: ['ascendant', 'descendant'],
    AddAscendant: ['ascendant', 'descendant'],
    AddDescendant: ['ascendant', 'descendant'],
  },
  Sessions: {
    CreateSession: ['user', 'session', 'roles'],
    DeleteSession: ['user', 'session'],
    AddActiveRole: ['user', 'session', 'role'],
    DropActiveRole: ['user', 'session', 'role'],
  },
  'Static separation of duty': {
    CreateSsdSet: ['set', 'roles', 'n'],
    DeleteSsdSet: ['set'],
    AddSsdRoleMember: ['set', 'role'],
    DeleteSsdRoleMember: ['set', 'role'],
    SetSsdSetCardinality: ['set', 'n'],
  },
  'Dynamic separation of duty': {
    CreateDsdSet: ['set', 'roles', 'n'],
    DeleteDsdSet: ['set'],
    AddDsdRoleMember: ['set', 'role'],
    DeleteDsdRoleMember: ['set', 'role'],
    SetDsdSetCardinality: ['set', 'n'],
  },
};

/** What is so where a command is denied, by the word that the process tells. */
export const DENIALS = {
  UserExists: 'The user is there already.',
  NoUser: 'The user is not there.',
  RoleExists: 'The new role is there already.',
  NoRole: 'A role that the command names is not there.',
  Assigned: 'The user is assigned the role already.',
  NotAssigned: 'The user is not assigned the role itself; a senior role may authorize for it.',
  NoPermission: 'The operation and the object are no permission of the founding file.',
  NotGranted: 'The role itself is not granted the permission; it may inherit it.',
  SessionExists: 'The session is there already.',
  NoSession: 'The session is not there.',
  NotOwner: 'The session is another user’s.',
  NotAuthorized: 'The user is not authorized for a role: neither assigned it nor one that inherits it.',
  RoleActive: 'The role is active in the session already.',
  RoleNotActive: 'The role is not active in the session.',
  Inherits: 'This pair is declared already.',
  NoInheritance: 'This pair is not declared; a longer way may be.',
  Cycle: 'The descendant inherits the ascendant already, or both are one role.',
  SsdViolated: 'Static separation of duty: some user would be authorized for too many roles of a set.',
  DsdViolated: 'Dynamic separation of duty: some session would have too many roles of a set active.',
  SetExists: 'The kind has a set of this name already.',
  NoSet: 'The kind has no set of this name.',
  BadCardinality: 'A set’s number is at least 2 and at most the number of its roles.',
  InSet: 'The role is in the set already.',
  NotInSet: 'The role is not in the set.',
  RoleConstrained: 'A static or a dynamic set has the role.',
  Limit: 'A limit is met: 4,096 users, 1,024 roles, 8,192 sessions, 256 sets of a kind.',
  NoOperation: 'The operation is none of the founding file’s.',
  NoObject: 'The object is none of the founding file’s.',
  Limited: 'The hierarchy is limited: the ascendant has a descendant already.',
  Refused: 'Nothing that the subject has grants it.',
  BadName: 'A text is no name: 1 to 64 of A-Z a-z 0-9 _ - and the dot.',
};

/**
 * What the process refuses, in words.
 * @param {any} error
 */
export function inWords(error) {
  const words = {
    OutOfScope: `This token does not reach that: it takes the scope “${error.told?.scope}”.`,
    NotPermitted: 'The session of this token has no permission to administer so.',
    Unknown: 'This address answers who shows a token.',
    Waits: `It waits for ${(error.told?.waits_for ?? []).join(', ') || 'the rows'}. The call stands.`,
    Stale: 'The rows were not read lately: the engine is silent.',
    BadName: DENIALS.BadName,
    TooMuch: 'That was asked too often. Wait a second.',
  };
  if (error.status === undefined) {
    return 'The process does not answer.';
  }
  return words[error.word] ?? `${error.word}: ${error.message}.`;
}
