/**
 * The decision log, as it comes.
 * @module log
 */
import { follow } from './api.js';
import { byId, make } from './dom.js';
import { inWords } from './words.js';

const MOST = 200;
const PAUSE = 5000;

/** What a line decides, in words. */
function said(line) {
  if (line.evaluation) {
    const { subject, action, resource } = line.evaluation;
    const word = line.decision ? 'Granted' : line.answer?.word ?? 'Refused';
    return { what: `${subject.id} ${action} ${resource}`, word, kind: line.decision ? 'granted' : 'refused' };
  }
  if (line.command) {
    const { name, ...fields } = line.command;
    const word = line.answer?.denied ?? (typeof line.answer === 'string' ? line.answer : 'Told');
    const kind = line.answer?.denied || word === 'Refused' ? 'refused' : 'granted';
    return { what: `${name} ${Object.values(fields).flat().join(' ')}`, word, kind };
  }
  const subject = line.search?.subject?.id ?? '';
  return { what: `what may ${subject} do?`, word: 'Told', kind: 'granted' };
}

function row(line) {
  const { what, word, kind } = said(line);
  const tried = line.route === 'try' ? 'tried ' : '';
  return make('li', {},
    make('time', { datetime: line.time }, line.time.slice(11, 19)),
    make('span', { class: 'who' }, line.caller),
    make('span', { class: 'what' }, tried + what),
    make('b', { class: kind }, word));
}

/** Follows the log for as long as the page is open. */
export async function followLog() {
  const list = byId('log');
  const about = byId('log-about');
  const take = (event, data) => {
    if (event !== 'decision') {
      return;
    }
    list.prepend(row(data));
    while (list.children.length > MOST) {
      list.lastChild.remove();
    }
  };
  for (;;) {
    try {
      const opened = () => {
        list.replaceChildren();
        about.textContent = 'The newest first, as they are made.';
      };
      await follow('v1/decisions', take, opened, new AbortController().signal);
    } catch (error) {
      about.textContent = error.word === 'NoLog'
        ? 'This process keeps no decision log: start it with --decision-log FILE.'
        : inWords(error);
      if (error.word === 'NoLog') {
        return;
      }
    }
    await new Promise((done) => { setTimeout(done, PAUSE); });
  }
}
