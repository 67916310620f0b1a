/**
 * The page: reads the policy and the state of the process, again and again, and has the parts show it.
 * @module page
 */
import { ask, onUnknown, useToken } from './api.js';
import { ChangeForm } from './change.js';
import { CheckForm } from './check.js';
import { byId } from './dom.js';
import { about, Graph, listSets } from './graph.js';
import { followLog } from './log.js';
import { tellFacts, tellMembers } from './members.js';
import { noPolicy, readPolicy } from './policy.js';
import { Search } from './search.js';
import { inWords } from './words.js';

const PERIOD = 1500;

const world = {
  policy: noPolicy(),
  founding: { operations: [], objects: [], permissions: [] },
  /** @type {any} */
  state: null,
  /** The next record of the history. */
  next: { generation: 0, number: 1 },
  graph: new Graph((key) => tellAbout(key)),
  place: () => ({ generation: world.state?.generation, member: world.state?.member }),
};

const choose = (key) => world.graph.choose(key);
const search = new Search(choose);
const check = new CheckForm(() => world);
const change = new ChangeForm(() => world, (at) => readAll(at));

function tellAbout(key) {
  byId('about').replaceChildren(...(key ? about(world.policy, key, choose) : []));
}

/**
 * Reads the policy, and shows it.
 * @param {string} [atLeast] what it has to rest on
 */
async function readAll(atLeast) {
  const [founding, dump] = await Promise.all([
    ask('v1/founding'),
    ask(`v1/dump${atLeast ? `?at_least=${atLeast}` : ''}`),
  ]);
  const isFirst = world.policy.at === '';
  world.founding = founding;
  world.policy = readPolicy(dump, founding);
  world.graph.show(world.policy);
  listSets(world.policy, choose);
  search.take(world.policy);
  tellAbout(world.graph.chosen);
  check.offer();
  change.offer();
  if (isFirst) {
    document.body.dataset.ready = 'yes';
  }
}

/** Whether records were delivered that change the policy. */
async function hasChanged() {
  const { generation, number } = world.next;
  if (world.state && world.state.generation === generation && world.state.records < number) {
    return false;
  }
  if (generation !== (world.state?.generation ?? generation)) {
    world.next = { generation: world.state.generation, number: world.state.records + 1 };
    return true;
  }
  return readRecords(generation, number);
}

/** Reads the history to its end, and tells whether a record of it changes the policy, or it is that of another generation. */
async function readRecords(generation, number) {
  const MOST_TOLD = 1000;
  let changes = false;
  let [from, length] = [number, MOST_TOLD];
  while (length === MOST_TOLD) {
    const told = await ask(`v1/records?from=${from}`);
    length = told.records.length;
    if (told.generation !== generation) {
      world.next = { generation: told.generation, number: 1 };
      return true;
    }
    from += length;
    changes ||= told.records.some((record) => record.answer === 'Done');
  }
  world.next = { generation, number: from };
  return changes;
}

async function look() {
  const problems = [];
  const part = async (name, work) => {
    try {
      await work();
    } catch (error) {
      problems.push(error.status === undefined ? inWords(error) : `${name}: ${inWords(error)}`);
      if (error.status === undefined) {
        console.debug(error);
      }
    }
  };
  await part('The members', async () => {
    const before = JSON.stringify(world.state?.taken);
    world.state = await ask('v1/status');
    tellFacts(world.state);
    const taken = JSON.stringify(world.state.taken);
    if (taken !== before || world.state.waits_for.length || world.wasWaiting) {
      world.messages = (await ask('v1/messages')).messages;
    }
    world.wasWaiting = world.state.waits_for.length > 0;
    tellMembers(world.state, world.messages ?? []);
  });
  await part('The policy', async () => {
    if (world.policy.at === '') {
      // What the dump has besides is read again.
      world.next = { generation: world.state?.generation ?? 0, number: (world.state?.records ?? 0) + 1 };
      await readAll();
    } else if (await hasChanged()) {
      await readAll();
    }
  });
  const banner = byId('banner');
  const told = [...new Set(problems)].join(' ');
  banner.hidden = told === '';
  if (banner.textContent !== told) {
    banner.textContent = told;
  }
}

async function goOn() {
  for (;;) {
    if (!document.hidden) {
      await look();
    }
    await new Promise((done) => { setTimeout(done, PERIOD); });
  }
}

onUnknown(() => {
  const form = byId('token-form');
  if (form.hidden) {
    form.hidden = false;
    byId('token').focus();
  }
});

byId('token-form').addEventListener('submit', async (event) => {
  event.preventDefault();
  useToken(byId('token').value.trim());
  byId('token').value = '';
  byId('token-form').hidden = true;
  await look();
});

goOn();
followLog();
