// Tests the calls and the page in each browser that BROWSERS names. A page posts its results to a server here.
import assert from 'node:assert/strict';
import {spawn} from 'node:child_process';
import {once} from 'node:events';
import {cpSync, mkdtempSync, readFileSync, rmSync, writeFileSync} from 'node:fs';
import {createServer} from 'node:http';
import {tmpdir} from 'node:os';
import {join} from 'node:path';
import {text} from 'node:stream/consumers';
import {after, test} from 'node:test';
import {fileURLToPath, pathToFileURL} from 'node:url';

const top = fileURLToPath(new URL('../..', import.meta.url));
const folder = mkdtempSync(join(tmpdir(), 'base62-'));
const html = '<!doctype html><script src="/js/tests/browser.mjs" type="module"></script>';

// The policy is the strictest that loads scripts at all.
const server = createServer(async (request, response) => {
  if (request.method === 'POST') server.emit('result', JSON.parse(await text(request)));
  const isFile = /^\/(js|tests)\//.test(request.url);
  response.setHeader('Content-Security-Policy', "default-src 'self'; script-src 'self'");
  response.setHeader('Content-Type', isFile ? 'text/javascript' : 'text/html');
  response.end(isFile ? readFileSync(join(top, request.url)) : html);
});
server.listen(0, '127.0.0.1');
await once(server, 'listening');
const address = `http://127.0.0.1:${server.address().port}/`;
after(() => {
  server.close();
  rmSync(folder, { recursive: true, force: true, maxRetries: 9, retryDelay: 100 });
});

// A copy of the page, as a file, also runs tests/page.js, which may post to the server.
cpSync(join(top, 'js'), folder, { recursive: true });
const page = join(folder, 'page/index.html');
const changed = readFileSync(page, 'utf8')
                  .replace("default-src 'none';", `$& connect-src ${address};`)
                  .replace('</body>', '<script src="../tests/page.js"></script>$&');
writeFileSync(page, changed);

const optionsOf = {
  chromium: (profile) => ['--no-sandbox', '--disable-dev-shm-usage', `--user-data-dir=${profile}`],
  'firefox-esr': (profile) => ['--no-remote', '--profile', profile]
};

for (const browser of process.env.BROWSERS?.split(' ') ?? Object.keys(optionsOf)) {
  test(`${browser}: the page, and the calls in a page and in a worker`, async () => {
    const profile = mkdtempSync(join(folder, 'profile-'));
    const options = ['--headless', ...optionsOf[browser](profile), `${pathToFileURL(page)}#${address}`];
    const env = {...process.env, HOME: profile, TMPDIR: profile };
    const child = spawn(browser, options, { stdio: 'ignore', env });
    const ended = once(child, 'exit');
    const signal = AbortSignal.timeout(300_000);
    try {
      const [checks] = await once(server, 'result', { signal });
      assert.equal(checks.length, 19);
      for (const [name, shown, expected] of checks) assert.deepEqual(shown, expected, name);
      const [calls] = await once(server, 'result', { signal });
      for (const result of calls) assert.ok(result > 100_000, `${result}`);
    } finally {
      child.kill('SIGKILL');
      await ended;
    }
  });
}
