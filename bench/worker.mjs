// The Worker that bench/run measures: POST /NAME with ["KEY"] adds.
export default {
  async fetch(request, env) {
    const { pathname } = new URL(request.url);
    const [key] = await request.json();
    return Response.json(await env.Bench.getByName(pathname.slice(1)).add(key));
  },
};
