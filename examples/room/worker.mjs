// A Worker in front of the rooms of script.js, with a page to chat in.
// Run it, from the top of the repository: node client/serve.mjs examples/room/worker.mjs examples/room/script.js data --slots 256 --port 8787
// Then open http://localhost:8787/ in two windows. Each room and each member is an object and takes a slot.
//
//   GET    /                                    the page
//   GET    /rooms/ROOM?name=NAME&after=NUMBER   who is in, and what was said after that message
//   PUT    /rooms/ROOM/members/NAME             comes in
//   DELETE /rooms/ROOM/members/NAME             leaves
//   POST   /rooms/ROOM/messages                 says {"from", "text"}
import { page } from './page.mjs';

const LONGEST_NAME = 40;
const LONGEST_TEXT = 2_000;

export default {
  async fetch(request, env) {
    const url = new URL(request.url);
    if (url.pathname === '/') return new Response(page, { headers: { 'content-type': 'text/html; charset=utf-8', 'cache-control': 'no-store' } });
    const [kind, room, what, name] = url.pathname.split('/').slice(1).map(decodeURIComponent);
    if (kind !== 'rooms' || !room || room.length > LONGEST_NAME) return problem(404, 'there is nothing here');
    try {
      return await inRoom(request, env, { room: env.Room.getByName(room), what, name, url });
    } catch (error) {
      // The script's own errors are told to the page: that somebody isn't in the room, or that each slot has another object.
      if (error.name === 'Error') return problem(409, error.message);
      if (error.name === 'CallError' && error.message === 'NoSlot') return problem(503, 'no further member has room: serve with more --slots');
      throw error;
    }
  },
};

async function inRoom(request, env, { room, what, name, url }) {
  switch (`${request.method} ${what ?? ''}`) {
    case 'GET ':
      return await sinceThen(env, room, url.searchParams);
    case 'PUT members':
      if (!isName(name)) return problem(400, `a name has 1 to ${LONGEST_NAME} letters`);
      return Response.json({ members: await room.join(name) });
    case 'DELETE members':
      return Response.json({ left: await room.leave(name ?? '') });
    case 'POST messages':
      return await say(request, room);
    default:
      return problem(404, 'there is nothing here');
  }
}

// What is shown is read: the member's own list of unread lines is emptied, so that it never grows past what a value may have.
async function sinceThen(env, room, words) {
  const after = Number(words.get('after') ?? 0);
  const name = words.get('name') ?? '';
  if (!Number.isSafeInteger(after) || after < 0) return problem(400, 'after is the number of a message');
  const [members, messages] = await Promise.all([room.members(), room.history(after)]);
  if (members.includes(name) && messages.some(({ from }) => from !== name)) await env.Member.getByName(name).read();
  return Response.json({ members, messages });
}

async function say(request, room) {
  const { from, text } = await request.json();
  if (!isName(from)) return problem(400, `a name has 1 to ${LONGEST_NAME} letters`);
  if (typeof text !== 'string' || text.trim() === '' || text.length > LONGEST_TEXT) return problem(400, `a message has 1 to ${LONGEST_TEXT} letters`);
  return Response.json({ number: await room.say(from, text) }, { status: 201 });
}

function isName(name) {
  return typeof name === 'string' && name.trim() !== '' && name.length <= LONGEST_NAME;
}

function problem(status, message) {
  return Response.json({ error: message }, { status });
}
