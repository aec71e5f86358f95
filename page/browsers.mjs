// This file drives headless browsers directly: Chromium over its pipe, Firefox by Marionette. It
// needs no package. CHROMIUM and FIREFOX name other programs. A page has run(expression),
// until(expression), shot(file), key(name, code), close() and troubles.
import { spawn } from 'node:child_process';
import fs from 'node:fs';
import net from 'node:net';
import os from 'node:os';
import path from 'node:path';

// This function returns the program that an environment variable names, else the first of `names`
// on the path.
function programOf(variable, names) {
  if (process.env[variable]) return process.env[variable];
  const folders = process.env.PATH.split(':');
  return names.find((name) => folders.some((folder) => fs.existsSync(path.join(folder, name))));
}

// This function returns a way to open each browser, by name; null if the browser isn't installed.
export function browsers() {
  return {
    chromium: programOf('CHROMIUM', ['chromium', 'chromium-browser', 'google-chrome'])
      ? chromium
      : null,
    firefox: programOf('FIREFOX', ['firefox', 'firefox-esr']) ? firefox : null,
  };
}

const pause = (time) => new Promise((resolve) => { setTimeout(resolve, time); });

// This function repeats the expression until it is true.
const waiter = (run) => async (expression, seconds = 60) => {
  for (const end = Date.now() + 1000 * seconds; Date.now() < end; await pause(20)) {
    const value = await run(expression);
    if (value) return value;
  }
  throw Error(`never: ${expression}`);
};

async function chromium(url, { width = 1360, height = 1000, dark = false } = {}) {
  const home = fs.mkdtempSync(path.join(os.tmpdir(), 'mcf-page-'));
  const words = [
    '--headless', '--no-sandbox', '--disable-gpu', '--disable-dev-shm-usage',
    '--remote-debugging-pipe', `--user-data-dir=${home}`, `--window-size=${width},${height}`,
    'about:blank',
  ];
  const child = spawn(
    programOf('CHROMIUM', ['chromium', 'chromium-browser', 'google-chrome']),
    words,
    { stdio: ['ignore', 'ignore', 'ignore', 'pipe', 'pipe'], env: { ...process.env, HOME: home } }
  );
  const waiting = new Map(), troubles = [];
  let count = 0, rest = '';
  child.on('error', (error) => { for (const { reject } of waiting.values()) reject(error); });
  child.stdio[4].setEncoding('utf8').on('data', (data) => {
    const parts = (rest + data).split('\0');
    rest = parts.pop();
    for (const message of parts.map((part) => JSON.parse(part))) {
      const { resolve, reject } = waiting.get(message.id) || {};
      waiting.delete(message.id);
      if (message.error) reject(Error(JSON.stringify(message.error)));
      else if (resolve) resolve(message.result);
      else if (
        message.method === 'Runtime.exceptionThrown'
        || (message.method === 'Runtime.consoleAPICalled' && message.params.type === 'error')
      ) troubles.push(JSON.stringify(message.params).slice(0, 500));
      else if (
        message.method === 'Network.requestWillBeSent'
        && !/^(file|blob|data|about):/.test(message.params.request.url)
      ) troubles.push(`it asks for ${message.params.request.url}`);
    }
  });
  const send = (method, params = {}, sessionId = undefined) => new Promise((resolve, reject) => {
    waiting.set(++count, { resolve, reject });
    child.stdio[3].write(`${JSON.stringify({ id: count, method, params, sessionId })}\0`);
  });
  const { targetId } = await send('Target.createTarget', { url: 'about:blank' });
  const { sessionId } = await send('Target.attachToTarget', { targetId, flatten: true });
  const call = (method, params) => send(method, params, sessionId);
  for (const domain of ['Page', 'Runtime', 'Network']) await call(`${domain}.enable`);
  if (dark) {
    await call('Emulation.setEmulatedMedia', {
      features: [{ name: 'prefers-color-scheme', value: 'dark' }],
    });
  }
  await call('Page.navigate', { url });
  const run = async (expression) => {
    const { exceptionDetails, result } = await call('Runtime.evaluate', {
      expression,
      awaitPromise: true,
      returnByValue: true,
    });
    if (exceptionDetails) {
      throw Error(JSON.stringify(exceptionDetails.exception ?? exceptionDetails));
    }
    return result.value;
  };
  await waiter(run)("document.readyState === 'complete' && location.href !== 'about:blank'");
  const shot = async (file) => fs.writeFileSync(
    file, Buffer.from((await call('Page.captureScreenshot', { format: 'png' })).data, 'base64')
  );
  const key = async (name, code, text) => {
    for (const type of ['keyDown', 'keyUp']) {
      await call('Input.dispatchKeyEvent', {
        type,
        key: name,
        windowsVirtualKeyCode: code,
        ...(type === 'keyDown' && text ? { text } : {}),
      });
    }
  };
  const close = async () => {
    await send('Browser.close').catch(() => {});
    await gone(child, home);
  };
  return { run, until: waiter(run), shot, key, call, close, troubles };
}

// This function ends a browser and removes its folder.
async function gone(child, home) {
  await Promise.race([new Promise((resolve) => { child.once('exit', resolve); }), pause(5000)]);
  child.kill('SIGKILL');
  fs.rmSync(home, { recursive: true, force: true, maxRetries: 5, retryDelay: 200 });
}

async function firefox(url) {
  const home = fs.mkdtempSync(path.join(os.tmpdir(), 'mcf-page-'));
  const port = 20000 + process.pid % 20000;
  fs.writeFileSync(
    path.join(home, 'user.js'),
    `user_pref("marionette.port", ${port});\n`
      + 'user_pref("browser.shell.checkDefaultBrowser", false);\n'
  );
  const child = spawn(
    programOf('FIREFOX', ['firefox', 'firefox-esr']),
    ['--headless', '--no-remote', '--marionette', '--profile', home],
    { stdio: 'ignore', env: { ...process.env, HOME: home, MOZ_DISABLE_CONTENT_SANDBOX: '1' } }
  );
  const socket = await reached(port), waiting = new Map();
  let count = 0, rest = Buffer.alloc(0);
  socket.on('data', (data) => {
    rest = Buffer.concat([rest, data]);
    for (;;) {
      const colon = rest.indexOf(58), size = Number(rest.subarray(0, colon));
      if (colon < 0 || rest.length < colon + 1 + size) return;
      const message = JSON.parse(rest.subarray(colon + 1, colon + 1 + size));
      rest = rest.subarray(colon + 1 + size);
      if (!Array.isArray(message)) continue;
      const [, id, error, result] = message, { resolve, reject } = waiting.get(id);
      if (error) reject(Error(JSON.stringify(error)));
      else resolve(result);
    }
  });
  const call = (command, params = {}) => new Promise((resolve, reject) => {
    waiting.set(++count, { resolve, reject });
    const text = Buffer.from(JSON.stringify([0, count, command, params]));
    socket.write(Buffer.concat([Buffer.from(`${text.length}:`), text]));
  });
  await call('WebDriver:NewSession', {
    capabilities: { alwaysMatch: { pageLoadStrategy: 'normal' } },
  });
  await call('WebDriver:Navigate', { url });
  const run = async (expression) =>
    (await call('WebDriver:ExecuteScript', { script: `return (${expression});`, args: [] })).value;
  const key = (name) =>
    call('WebDriver:PerformActions', {
      actions: [
        {
          type: 'key',
          id: 'keys',
          actions: ['keyDown', 'keyUp'].map((type) => ({ type, value: { Enter: '\ue007' }[name] })),
        },
      ],
    });
  const shot = async (file) => fs.writeFileSync(
    file, Buffer.from((await call('WebDriver:TakeScreenshot', { full: false })).value, 'base64')
  );
  const close = async () => {
    call('Marionette:Quit', { flags: ['eForceQuit'] }).catch(() => {});
    await gone(child, home);
    socket.destroy();
  };
  return { run, until: waiter(run), shot, key, close, troubles: [] };
}

// This function connects to a port that will open soon.
async function reached(port, seconds = 60) {
  for (const end = Date.now() + 1000 * seconds; Date.now() < end; await pause(200)) {
    const socket = net.connect(port, '127.0.0.1');
    const ok = await new Promise((resolve) => {
      socket.once('connect', () => resolve(true));
      socket.once('error', () => resolve(false));
    });
    if (ok) return socket;
  }
  throw Error('Firefox gives no Marionette');
}
