// The page of the rooms. It asks for what is new a few times in a second, since the program has no sockets.
export const page = `<!doctype html>
<html lang="en">
<meta charset="utf-8">
<meta name="viewport" content="width=device-width, initial-scale=1">
<title>Rooms</title>
<style>
  :root { color-scheme: light dark; --line: #8884; --own: #2a78d622; }
  * { box-sizing: border-box; }
  body { margin: 0; font: 16px/1.45 system-ui, sans-serif; height: 100vh; display: flex; flex-direction: column; }
  header, form { display: flex; gap: .6rem; padding: .7rem 1rem; align-items: center; flex-wrap: wrap; }
  header { border-bottom: 1px solid var(--line); }
  h1 { font-size: 1.05rem; margin: 0; }
  #members { opacity: .75; flex: 1; }
  #messages { flex: 1; overflow-y: auto; margin: 0; padding: 1rem; list-style: none; }
  #messages li { margin: 0 0 .5rem; padding: .35rem .7rem; border-radius: .6rem; border: 1px solid var(--line); }
  #messages li { width: fit-content; max-width: 46rem; overflow-wrap: anywhere; white-space: pre-wrap; }
  #messages li.own { background: var(--own); margin-left: auto; }
  #messages b { display: block; font-size: .8rem; opacity: .7; }
  #problem { color: #c33; padding: 0 1rem; min-height: 1.5rem; }
  input, button { font: inherit; padding: .45rem .7rem; border-radius: .5rem; border: 1px solid var(--line); }
  input[name=text] { flex: 1; min-width: 8rem; }
  [hidden] { display: none !important; }
</style>

<form id="entrance">
  <label>Your name <input name="name" required maxlength="40" autocomplete="nickname" autofocus></label>
  <label>Room <input name="room" required maxlength="40" value="lobby"></label>
  <button>Come in</button>
</form>

<header hidden>
  <h1></h1>
  <span id="members"></span>
  <button id="leave" type="button">Leave</button>
</header>
<ol id="messages" aria-live="polite" hidden></ol>
<p id="problem" role="alert"></p>
<form id="speech" hidden>
  <input name="text" required maxlength="2000" autocomplete="off" placeholder="Say something" aria-label="Your message">
  <button>Say</button>
</form>

<script>
const entrance = document.getElementById('entrance');
const speech = document.getElementById('speech');
const list = document.getElementById('messages');
const LOOK_EVERY = 500;
let here;

entrance.addEventListener('submit', async (event) => {
  event.preventDefault();
  const name = entrance.elements.name.value.trim();
  const room = entrance.elements.room.value.trim();
  const came = await ask('PUT', '/rooms/' + encodeURIComponent(room) + '/members/' + encodeURIComponent(name));
  if (!came) return;
  here = { name, room, last: 0, lookNow() {} };
  list.replaceChildren();
  document.querySelector('h1').textContent = room;
  show(true);
  speech.elements.text.focus();
  look(here);
});

speech.addEventListener('submit', async (event) => {
  event.preventDefault();
  const text = speech.elements.text.value;
  if (!(await ask('POST', '/rooms/' + encodeURIComponent(here.room) + '/messages', { from: here.name, text }))) return;
  speech.elements.text.value = '';
  here?.lookNow();
});

document.getElementById('leave').addEventListener('click', async () => {
  const { name, room } = here;
  here = undefined;
  show(false);
  await ask('DELETE', '/rooms/' + encodeURIComponent(room) + '/members/' + encodeURIComponent(name));
});

async function look(mine) {
  while (here === mine) {
    const words = new URLSearchParams({ name: mine.name, after: mine.last });
    const told = await ask('GET', '/rooms/' + encodeURIComponent(mine.room) + '?' + words);
    if (told && here === mine) tell(told);
    await new Promise((resolve) => {
      mine.lookNow = resolve;
      setTimeout(resolve, LOOK_EVERY);
    });
  }
}

function tell({ members, messages }) {
  document.getElementById('members').textContent = members.join(', ');
  for (const { number, from, text } of messages) {
    const item = document.createElement('li');
    const by = document.createElement('b');
    by.textContent = from;
    item.append(by, text);
    item.classList.toggle('own', from === here.name);
    list.append(item);
    here.last = number;
  }
  if (messages.length > 0) list.scrollTop = list.scrollHeight;
}

function show(isIn) {
  entrance.hidden = isIn;
  document.querySelector('header').hidden = !isIn;
  list.hidden = speech.hidden = !isIn;
}

// What the server answers, or undefined where it refuses or can't be reached, which is told until the same kind of request succeeds again.
const problems = new Map();

async function ask(method, path, body) {
  const kind = method === 'GET' ? 'look' : 'deed';
  let told;
  try {
    const response = await fetch(path, { method, body: body && JSON.stringify(body), headers: body && { 'content-type': 'application/json' } });
    told = await response.json();
    problems.set(kind, told.error ? told.error.message || told.error : '');
  } catch (fault) {
    problems.set(kind, "The server can't be reached: trying again");
  }
  document.getElementById('problem').textContent = [...problems.values()].filter(Boolean).join('; ');
  return problems.get(kind) ? undefined : told;
}
</script>
</html>
`;
