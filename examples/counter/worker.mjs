// A Worker in front of the counters and carts of script.js: requests come in, calls of objects go out.
// Run it, from the top of the repository: node client/serve.mjs examples/counter/worker.mjs examples/counter/script.js data --port 8787
//
//   GET    /                           what there is
//   GET    /counters/NAME              the count
//   POST   /counters/NAME              counts one more
//   GET    /carts/NAME                 the total, in cents
//   POST   /carts/NAME/items           puts {"article", "quantity", "price"} into the cart
//   DELETE /carts/NAME/items/ARTICLE   takes the article out
//   POST   /carts/NAME/orders          orders what is in the cart
const USAGE = `Try these:
  curl -X POST http://HOST/counters/visits
  curl http://HOST/counters/visits
  curl -X POST -d '{"article":"tea","quantity":2,"price":450}' http://HOST/carts/ann/items
  curl http://HOST/carts/ann
  curl -X POST http://HOST/carts/ann/orders
`;

export default {
  async fetch(request, env) {
    const { pathname, host } = new URL(request.url);
    const [kind, name, ...rest] = pathname.split('/').slice(1).map(decodeURIComponent);
    if (pathname === '/') return new Response(USAGE.replaceAll('HOST', host));
    if (kind === 'counters' && name) return await counter(request, env.Counter.getByName(name), rest);
    if (kind === 'carts' && name) return await cart(request, env.Cart.getByName(name), rest);
    return problem(404, 'there is nothing here');
  },
};

async function counter(request, object, rest) {
  if (rest.length > 0) return problem(404, 'there is nothing here');
  if (request.method === 'GET') return Response.json({ count: await object.value() });
  if (request.method === 'POST') return Response.json({ count: await object.increment() });
  return problem(405, 'a counter is read by GET and counts by POST');
}

async function cart(request, object, [what, article]) {
  switch (`${request.method} ${what ?? ''}`) {
    case 'GET ':
      return Response.json({ total: await object.total() });
    case 'POST items':
      return await addItem(request, object);
    case 'DELETE items':
      return Response.json({ removed: await object.remove(article ?? '') });
    case 'POST orders':
      return await order(object);
    default:
      return problem(404, 'there is nothing here');
  }
}

async function addItem(request, object) {
  const { article, quantity, price } = await request.json();
  if (typeof article !== 'string' || !Number.isSafeInteger(quantity) || !Number.isSafeInteger(price)) {
    return problem(400, 'an item has an article, a whole quantity and a price in whole cents');
  }
  return Response.json(await object.add(article, quantity, price), { status: 201 });
}

// What the script throws is an error of its own: here that the cart is empty.
async function order(object) {
  try {
    return Response.json(await object.order(), { status: 201 });
  } catch (error) {
    if (error.name !== 'Error') throw error;
    return problem(409, error.message);
  }
}

function problem(status, message) {
  return Response.json({ error: message }, { status });
}
