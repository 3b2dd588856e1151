// A headless browser for a test to type into and to ask: Chromium, or Firefox if the variable BROWSER is `firefox`. The variables CHROMIUM and
// FIREFOX may name the programs.
import {spawn} from 'node:child_process';
import {once} from 'node:events';
import {mkdtempSync, rmSync, writeFileSync} from 'node:fs';
import {request} from 'node:http';
import {tmpdir} from 'node:os';
import {join} from 'node:path';

/** Commands that are sent by their numbers. `onEvent` gets each message that answers none. */
function commands(send, onEvent) {
  const waiting = new Map();
  return {
    ask: (method, params = {}, more = {}) => new Promise((done, failed) => {
      const id = waiting.size + 1;
      waiting.set(id, {done, failed});
      send(JSON.stringify({id, method, params, ...more}));
    }),
    heard(text) {
      const message = JSON.parse(text), asked = waiting.get(message.id);
      if (!asked) onEvent(message);
      else if (message.error) asked.failed(new Error(message.error.message ?? message.message));
      else asked.done(message.result);
    },
  };
}

/** Ends a program, and removes its folder. */
async function ended(program, folder) {
  const exit = once(program, 'exit');
  program.kill();
  await exit;
  // Other processes of the browser may write a file into the folder while it is removed, so that it isn't empty.
  for (let tries = 1; tries <= 50; tries++) {
    try {
      rmSync(folder, {recursive: true, force: true});
      return;
    } catch (error) {
      if (tries === 50) throw error;
      await new Promise((done) => setTimeout(done, 100));
    }
  }
}

/** Chromium, by the protocol of its own tools, over a pipe: each message ends with a zero. */
async function chromium(profile, errors) {
  const words = ['--headless', '--no-sandbox', '--disable-gpu', '--remote-debugging-pipe', `--user-data-dir=${profile}`];
  const program = spawn(process.env.CHROMIUM ?? 'chromium', words, {stdio: ['ignore', 'ignore', 'ignore', 'pipe', 'pipe']});
  const {ask, heard} = commands((text) => program.stdio[3].write(`${text}\0`),
    ({method, params}) => { if (method === 'Runtime.exceptionThrown') errors.push(params.exceptionDetails.exception?.description); });
  let rest = '';
  program.stdio[4].on('data', (data) => {
    const messages = (rest + data).split('\0');
    rest = messages.pop();
    messages.forEach(heard);
  });
  const {targetId} = await ask('Target.createTarget', {url: 'about:blank'}), {sessionId} = await ask('Target.attachToTarget', {targetId, flatten: true});
  const send = (method, params) => ask(method, params, {sessionId});
  await send('Runtime.enable');
  await send('Page.enable');
  return {
    program,
    visit: (url) => send('Page.navigate', {url}),
    evaluate: async (expression) => (await send('Runtime.evaluate', {expression, awaitPromise: true, returnByValue: true})).result.value,
    type: (text) => send('Input.insertText', {text}),
    tab: async () => {
      for (const type of ['rawKeyDown', 'keyUp']) await send('Input.dispatchKeyEvent', {type, key: 'Tab', code: 'Tab', windowsVirtualKeyCode: 9});
    },
  };
}

/** A frame of a WebSocket with a text of at most 65535 bytes. It is masked, and Firefox takes no mask of zeros. */
function frame(text) {
  const bytes = Buffer.from(text), {length} = bytes, size = length < 126 ? [length] : [126, length >> 8, length & 255];
  return Buffer.concat([Buffer.from([0x81, 128 + size[0], ...size.slice(1), 85, 85, 85, 85]), bytes.map((byte) => byte ^ 85)]);
}

/** The texts of the frames that are whole, and the rest. */
function unframed(data) {
  const texts = [];
  while (data.length > 1) {
    const short = data[1] & 127, at = short < 126 ? 2 : short === 126 ? 4 : 10;
    if (data.length < at) break;
    const length = short < 126 ? short : short === 126 ? data.readUInt16BE(2) : Number(data.readBigUInt64BE(2));
    if (data.length < at + length) break;
    if ((data[0] & 15) < 2) texts.push({text: data.subarray(at, at + length), isLast: data[0] > 127});
    data = data.subarray(at + length);
  }
  return [texts, data];
}

/** A socket to a program that prints its address. */
async function connected(program) {
  let said = '';
  for await (const data of program.stderr.iterator({destroyOnReturn: false})) {
    said += data;
    const port = /listening on ws:\/\/127\.0\.0\.1:(\d+)/.exec(said)?.[1];
    if (!port) continue;
    program.stderr.resume(); // what else it says
    const headers = {connection: 'Upgrade', upgrade: 'websocket', 'sec-websocket-version': 13, 'sec-websocket-key': Buffer.alloc(16).toString('base64')};
    const asked = request({host: '127.0.0.1', port, path: '/session', headers}).end(), [, socket] = await once(asked, 'upgrade');
    return socket;
  }
  throw new Error(`the browser ends: ${said}`);
}

/** Whether a message is an error that a page does not catch. What a policy forbids is none. */
const isError = (method, {type, level, text}) => method === 'log.entryAdded' && type === 'javascript' && level === 'error' && !text.startsWith('Content-Security-Policy');

/** Firefox, by WebDriver BiDi. */
async function firefox(profile, errors) {
  writeFileSync(join(profile, 'user.js'), 'user_pref("remote.active-protocols", 1);\n');
  const program = spawn(process.env.FIREFOX ?? 'firefox-esr', ['--headless', '--no-remote', '--remote-debugging-port=0', '--profile', profile],
    {stdio: ['ignore', 'ignore', 'pipe'], env: {...process.env, HOME: profile}});
  const socket = await connected(program);
  const {ask, heard} = commands((text) => socket.write(frame(text)),
    ({method, params}) => { if (isError(method, params)) errors.push(params.text); });
  let rest = Buffer.alloc(0), parts = [];
  socket.on('data', (data) => {
    const [found, left] = unframed(Buffer.concat([rest, data]));
    rest = left;
    for (const {text, isLast} of found) {
      parts.push(text);
      if (isLast) heard(Buffer.concat(parts.splice(0)).toString());
    }
  });
  await ask('session.new', {capabilities: {}});
  await ask('session.subscribe', {events: ['log.entryAdded']});
  const {contexts: [{context}]} = await ask('browsingContext.getTree');
  const perform = (...actions) => ask('input.performActions', {context, actions: [{type: 'key', id: 'keys', actions: actions.map(([type, value]) => ({type, value}))}]});
  const pressed = (keys) => keys.flatMap((key) => [['keyDown', key], ['keyUp', key]]);
  return {
    program,
    visit: (url) => ask('browsingContext.navigate', {context, url, wait: 'none'}),
    evaluate: async (expression) => {
      const words = {expression: `Promise.resolve(${expression}).then((it) => JSON.stringify(it))`, target: {context}, awaitPromise: true};
      const {result} = await ask('script.evaluate', words);
      return result?.type === 'string' ? JSON.parse(result.value) : undefined;
    },
    type: (text) => perform(...pressed([...text])),
    tab: () => perform(...pressed(['\uE004']), ['keyDown', '\uE009'], ...pressed(['a']), ['keyUp', '\uE009']), // and control with a, which selects all
  };
}

/** The browser, which `close` ends, and the list of the errors that pages do not catch. */
export async function opened() {
  const profile = mkdtempSync(join(tmpdir(), 'browser-')), errors = [];
  const browser = await (process.env.BROWSER === 'firefox' ? firefox : chromium)(profile, errors);
  return {...browser, errors, close: () => ended(browser.program, profile)};
}
