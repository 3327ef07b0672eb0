// A route of Express with strings in the place of ids: /orders/LZ is order 1337. The Pool of pg has a table of orders.
import {decodeCanonical, encode} from 'base62-proved';
import express from 'express';

export function createApp(pool) {
  const app = express();

  // Each route with :order gets its id. decodeCanonical accepts only what encode returns, so each order has one address.
  app.param('order', (request, response, next, text) => {
    try {
      request.id = decodeCanonical(text);
    } catch ({ code, message }) { return response.status(400).json({ code, message }); }
    // No bigint column has such an id, and PostgreSQL rejects the parameter.
    if (request.id >= 2n ** 63n) return response.sendStatus(404);
    next();
  });

  app.get('/orders/:order', async ({ id }, response, next) => {
    try {
      const { rows: [row] } = await pool.query('SELECT item FROM orders WHERE id = $1', [id]);
      if (!row) return response.sendStatus(404);
      response.json({ order: encode(id), item: row.item });
    } catch (error) { next(error); }  // Express 4 does not wait for a promise.
  });

  return app;
}
