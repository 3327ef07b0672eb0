// Tests the examples. scripts/check-js runs them beside the installed package and Debian's Express.
import {encode} from 'base62-proved';
import assert from 'node:assert/strict';
import {once} from 'node:events';
import {existsSync} from 'node:fs';
import {test} from 'node:test';

const noExpress = !existsSync(new URL('../node_modules/express', import.meta.url)) && 'install node-express';

test('a short link leads to its URL, which is of http: or https: and has at most 8 kB', async () => {
  process.env.PORT = 0;
  const { server } = await import('../examples/short_links.mjs');
  await once(server, 'listening');
  const request = (path, options) =>
    fetch(`http://127.0.0.1:${server.address().port}/${path}`, { redirect: 'manual', ...options });
  const post = async (body) => {
    const response = await request('', { method: 'POST', body, duplex: 'half' });
    return `${response.status} ${await response.text()}`;
  };
  const url = 'http://a/'.padEnd(8192, 'z');
  const other = '400 Not a URL of http: or https:';
  try {
    for (const [body, result] of [['HTTP://a/0', '201 /0'], ['https://a/1', '201 /1'], ['', '400 Invalid URL'],
           ['javascript:alert(1)', other], ['data:,a', other], ['httpx://a', other], ['ftp://a/https:', other],
           [url, '201 /2'], [`${url}z`, '413 '], [new Blob([url]).stream(), '413 '], ['http://a/3', '201 /3']])
      assert.equal(await post(body), result);
    assert.equal((await request('3')).headers.get('location'), 'http://a/3');
    assert.equal((await request('2')).headers.get('location'), url);
    for (const [path, status] of [['0', 302], ['4', 404], ['00', 400]])
      assert.equal((await request(path)).status, status);
  } finally { server.close(); }
});

test('a route of Express accepts the strings that it returns', { skip: noExpress }, async () => {
  const { createApp } = await import('../examples/express_route.mjs');
  const ids = [1337n, 0n, 2n ** 53n, 2n ** 63n - 1n];
  // Stands for a Pool of pg, with a table of these ids. PostgreSQL rejects a parameter that is not a bigint.
  const query = async (_, [id]) => {
    if (id >= 2n ** 63n || id === 1338n) throw new Error('rejected, or the connection is lost');
    return { rows: ids.includes(id) ? [{ item: `tea ${id}` }] : [] };
  };
  const server = createApp({ query }).listen(0, '127.0.0.1');
  await once(server, 'listening');
  const expect = async (path, status, body) => {
    const response = await fetch(`http://127.0.0.1:${server.address().port}/orders/${path}`);
    assert.equal(response.status, status, path);
    if (body) assert.deepEqual(await response.json(), body);
  };
  try {
    for (const id of ids) {
      const order = encode(id);
      await expect(order, 200, { order, item: `tea ${id}` });
      await expect(`0${order}`, 400, { code: 'NOT_CANONICAL', message: 'Encoded input has a leading zero' });
    }
    // 1338, after which requests are answered; then 1336, 2**63 and 2**128 - 1.
    await expect('La', 500);
    for (const other of ['LY', 'AzL8n0Y58m8', '7n42DGM5Tflk9n8mt7Fhc7']) await expect(other, 404);
    for (const wrong of ['LZ-', '%C3%A9', 'z'.repeat(22)]) await expect(wrong, 400);
  } finally { server.close(); }
});
