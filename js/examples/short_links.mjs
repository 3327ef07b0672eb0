// Short links: the response to a POST with a URL is a path such as /LZ, which leads to it. Ids are consecutive, so anyone
// can enumerate the links: for links that nobody can enumerate use encodeKey(crypto.randomUUID()).
import {decodeNumberCanonical, encode} from 'base62-proved';
import {createServer} from 'node:http';
import {text} from 'node:stream/consumers';

const links = [];  // The index is the id.

export const server = createServer(async (request, response) => {
  try {
    if (request.method === 'POST') {
      // Node reads no more bytes than this header says. Without it there may be any number.
      if (!(request.headers['content-length'] <= 8192)) return response.writeHead(413).end();
      const { href, protocol } = new URL(await text(request));
      // A link to javascript: or data: would run code.
      if (!['http:', 'https:'].includes(protocol)) throw new Error('Not a URL of http: or https:');
      return response.writeHead(201).end(`/${encode(links.push(href) - 1)}`);
    }
    // It accepts only what encode returns, so each link has one path.
    const id = decodeNumberCanonical(request.url.slice(1));
    if (id >= links.length) return response.writeHead(404).end();
    response.writeHead(302, { Location: links[id] }).end();
  } catch ({ message }) { response.writeHead(400).end(message); }
});
server.listen(process.env.PORT ?? 8080);
