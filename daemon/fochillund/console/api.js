/**
 * What the process is asked. Paths are beside the page, so that it works behind a proxy's folder too.
 * @module api
 */

const BASE = new URL('..', document.baseURI);

/** The bearer token: in this memory alone. */
let token = '';

/** @type {() => void} */
let whenUnknown = () => {};

/** What the process refuses, by its word. */
export class Refused extends Error {
  /**
   * @param {number} status
   * @param {any} told
   */
  constructor(status, told) {
    super(told.text || told.error || `status ${status}`);
    this.status = status;
    this.word = told.error || '';
    this.told = told;
  }
}

/** @param {string} shown */
export function useToken(shown) {
  token = shown;
}

/** @param {() => void} listener called where the process does not know who asks */
export function onUnknown(listener) {
  whenUnknown = listener;
}

/**
 * @param {string} path
 * @param {any} [body] where it is there, it is posted
 * @param {Record<string, string>} [more]
 * @param {AbortSignal} [signal]
 */
async function send(path, body, more = {}, signal) {
  const headers = { ...more };
  if (token) {
    headers.Authorization = `Bearer ${token}`;
  }
  if (body !== undefined) {
    headers['Content-Type'] = 'application/json';
  }
  const reply = await fetch(new URL(path, BASE), {
    method: body === undefined ? 'GET' : 'POST',
    body: body === undefined ? undefined : JSON.stringify(body),
    headers,
    signal,
    cache: 'no-store',
    redirect: 'error',
  });
  if (reply.ok) {
    return reply;
  }
  if (reply.status === 401) {
    whenUnknown();
  }
  const told = await reply.json().catch(() => ({}));
  throw new Refused(reply.status, told);
}

/**
 * Asks, and gives what is told.
 * @param {string} path
 * @param {any} [body]
 * @param {Record<string, string>} [headers]
 * @returns {Promise<any>}
 */
export async function ask(path, body, headers) {
  return (await send(path, body, headers)).json();
}

/**
 * Reads a stream of events until it ends.
 * @param {string} path
 * @param {(event: string, data: any) => void} take
 * @param {() => void} opened
 * @param {AbortSignal} signal
 */
export async function follow(path, take, opened, signal) {
  const reply = await send(path, undefined, {}, signal);
  opened();
  const reader = reply.body.pipeThrough(new TextDecoderStream()).getReader();
  let text = '';
  for (;;) {
    const { done, value } = await reader.read();
    if (done) {
      return;
    }
    text += value;
    const events = text.split('\n\n');
    text = events.pop();
    for (const event of events) {
      const field = (name) =>
        event.split('\n').find((line) => line.startsWith(`${name}: `))?.slice(name.length + 2);
      const data = field('data');
      if (data !== undefined) {
        take(field('event') || '', JSON.parse(data));
      }
    }
  }
}

/** @returns {string} an id that no other call has */
export function newId() {
  const bytes = crypto.getRandomValues(new Uint8Array(16));
  return `console-${Array.from(bytes, (byte) => byte.toString(16).padStart(2, '0')).join('')}`;
}
