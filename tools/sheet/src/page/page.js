'use strict';
// Choosing among the plans. What is chosen stands in the address, names percent-encoded: WINDOW=DUTY for a duty that the
// window has to have (of several, one), WINDOW!=DUTY for one that it may not have, :any for the windows together, :find
// for words, :pin for a plan, :with for the one that it is compared with, :day for the day of its duty sheet.
document.documentElement.className = 'loading'; // a long list isn't laid out before it is read
addEventListener('DOMContentLoaded', () => {
  document.documentElement.className = '';
  const ROOM = 200; // rows that are drawn before more are asked for
  const [FREE, REQUIRED, EXCLUDED] = [0, 1, 2];

  const [list, counts] = ['list', 'counts'].map(id => document.getElementById(id));
  const heading = document.querySelector('h1');
  const named = cells => [...cells].map(cell => cell.textContent);
  const windows = named(counts.tHead.rows[0].cells).slice(1, -1);
  const duties = named([...counts.tBodies[0].rows].map(row => row.cells[0]));
  const rows = [...list.tBodies[0].rows];
  const plans = rows.map(row => windows.map((_, window) => Number(row.cells[window + 1].className.slice(1))));
  const sets = plans.map(plan => plan.reduce((set, duty) => set | 1 << duty, 0));
  const ANY = windows.length;
  const away = [...counts.tBodies[0].rows].map(row => row.cells[ANY + 1].textContent === 'away');

  let state, unknown, shown, room;

  // The parts of the page that need the script.

  function make(tag, properties, ...children) {
    const element = document.createElement(tag);
    for (const [name, value] of Object.entries(properties)) {
      if (name in element) element[name] = value;
      else element.setAttribute(name, value);
    }
    element.append(...children);
    return element;
  }
  const button = (text, onclick, more) => make('button', { type: 'button', onclick, ...more }, text);
  const tools = (...parts) => make('div', { className: 'tools' }, ...parts);
  const hint = text => make('p', { className: 'soft' }, text);

  const find = make('input', { type: 'search', placeholder: 'names, or a number',
    oninput: () => { state.find = find.value; narrow(); }, onchange: () => change({}) });
  const clear = button('Show all', () => change({ choice: unchosen(), find: '' }));
  const status = make('p', { id: 'status', role: 'status', 'aria-live': 'polite' });
  const more = button('', drawMore, { id: 'more' });
  const printed = make('p', { className: 'printed' });
  const title = make('h3', { tabIndex: -1 });
  const sheet = make('table', { className: 'sheet' });
  const day = make('input', { type: 'date', onchange: () => change({ day: day.value }) });
  const swap = button('', () => change({ pin: state.with, with: state.pin }));
  const stop = button('Stop comparing', () => change({ with: 0 }));
  const chosen = make('aside', { id: 'chosen', 'aria-label': 'The pinned plan' }, title, sheet,
    tools(make('label', {}, 'Day ', day), button('Print the duty sheet', () => print()), swap, stop,
      button('Unpin', () => change({ pin: 0, with: 0 }))),
    hint('While a plan is pinned, its duty sheet is what is printed.'));

  function build() {
    const [listed, counted] = [list, counts].map(table => table.parentNode);
    counted.previousElementSibling.remove();
    const choosing = make('details', { open: true }, make('summary', {}, 'Choose duties by window'),
      hint('A number says how many plans have the duty at the window, by what is chosen at the others. Press it to ' +
        'require the duty there, again to exclude it, and again to leave it free. Arrow keys move.'), counted);
    const beside = make('div', { className: 'beside' });
    listed.replaceWith(tools(make('label', {}, 'Find ', find), clear), choosing, status,
      hint('Press a plan’s number to pin the plan, and another’s to compare the two.'), beside);
    beside.append(make('div', {}, listed, more), chosen);
    heading.after(printed);
    eachCount((cell, column, duty) => {
      if (Number(cell.textContent)) cell.replaceChildren(button('', () => press(column, duty), { tabIndex: -1 }));
    });
    [list, counts].forEach(rove);
  }

  function eachCount(act) {
    [...counts.tBodies[0].rows].forEach((row, duty) =>
      [...row.cells].slice(1).forEach((cell, column) => act(cell, column, duty)));
  }

  // The state and the address.

  const unchosen = () => [...windows, ''].map(() => duties.map(() => FREE));
  const coded = text => encodeURIComponent(text).replace(/!/g, '%21');

  function address() {
    const choices = state.choice.flatMap((choices, column) => duties.map((duty, number) => {
      const name = column === ANY ? ':any' : coded(windows[column]);
      return ['', `${name}=${coded(duty)}`, `${name}!=${coded(duty)}`][choices[number]];
    }));
    const others = ['find', 'pin', 'with', 'day'].map(name => state[name] && `:${name}=${coded(state[name])}`);
    return '#' + [...choices, ...others].filter(Boolean).join('&');
  }

  // Takes a part of an address; says whether it means something here.
  function take(part) {
    const [, name, not, value] = part.match(/^(.+?)(!?)=(.+)$/);
    const text = decodeURIComponent(value);
    const option = [':find', ':pin', ':with', ':day'].indexOf(name);
    if (option >= 0) {
      const number = /^\d+$/.test(text) && rows[text - 1] ? Number(text) : 0;
      day.value = text; // what is no day leaves it empty
      state[name.slice(1)] = [text, number, number, day.value][option];
      return Boolean(state[name.slice(1)]) && !not;
    }
    const column = name === ':any' ? ANY : windows.indexOf(decodeURIComponent(name));
    const duty = duties.indexOf(text);
    if (column < 0 || duty < 0) return false;
    state.choice[column][duty] = not ? EXCLUDED : REQUIRED;
    return true;
  }

  function read() {
    state = { choice: unchosen(), find: '', pin: Number(rows.length === 1), with: 0, day: '' }; // an only plan is pinned
    unknown = location.hash.slice(1).split('&').filter(part => {
      try { return part && !take(part); } catch { return true; }
    });
    if (!state.pin || state.pin === state.with) [state.pin, state.with] = [state.pin || state.with, 0];
    draw();
  }

  function change(parts) {
    Object.assign(state, parts);
    unknown = [];
    draw();
    if (document.activeElement.closest('[hidden]')) (chosen.hidden ? find : title).focus();
    history.pushState(null, '', address());
  }

  function press(column, duty) {
    state.choice[column][duty] = (state.choice[column][duty] + 1) % 3;
    change({});
  }

  function choose(number) {
    if (number === state.pin) change({ pin: state.with, with: 0 });
    else if (number === state.with) change({ with: 0 });
    else change(state.pin ? { with: number } : { pin: number });
  }

  // The list.

  const setOf = (column, kind) => state.choice[column].reduce((set, choice, duty) => set | (choice === kind) << duty, 0);
  const folded = text => text.normalize('NFD').replace(/\p{M}/gu, '').toLowerCase();

  // The words to be found: for each the duties with it in their names, and the plan whose number it is.
  function sought() {
    const words = folded(state.find).match(/"[^"]+"|\S+/g) || [];
    return words.map(word => word.replace(/^"(.+)"$/, '$1')).map(word => ({ number: Number(word),
      set: duties.reduce((set, duty, number) => set | folded(duty).includes(word) << number, 0) }));
  }

  // The plans that are left, and how many have each duty at each window by what is chosen at the others.
  function tally() {
    const words = sought();
    const [some, none] = [REQUIRED, EXCLUDED].map(kind => setOf(ANY, kind));
    const may = windows.map((_, window) => (setOf(window, REQUIRED) || ~0) & ~setOf(window, EXCLUDED));
    const times = unchosen();
    const left = [];
    plans.forEach((plan, index) => {
      const set = sets[index];
      if (~set & some || set & none || !words.every(word => set & word.set || word.number === index + 1)) return;
      const barred = plan.map((duty, window) => 1 - (may[window] >> duty & 1));
      const bars = barred.reduce((sum, bar) => sum + bar);
      plan.forEach((duty, window) => { times[window][duty] += bars === barred[window]; });
      if (bars) return;
      left.push(index);
      duties.forEach((_, duty) => { times[ANY][duty] += set >> duty & 1; });
    });
    return { left, times };
  }

  function narrow() {
    const { left, times } = tally();
    drawCounts(times);
    if (String(left) !== String(shown)) {
      [shown, room] = [left, ROOM];
      drawRows(room);
    }
    say();
  }

  const counted = (count, word) => `${count.toLocaleString('en')} ${word}${count === 1 ? '' : 's'}`;

  function drawCounts(times) {
    eachCount((cell, column, duty) => {
      const [count, choice, press] = [times[column][duty], state.choice[column][duty], cell.firstElementChild];
      if (!press) return;
      press.className = ['', 'required', 'excluded'][choice] || (count ? '' : 'none');
      press.textContent = ['', '✓ ', '✕ '][choice] + count;
      press.setAttribute('aria-label', `${windows[column] || 'any window'}: ${duties[duty]}, ` +
        counted(count, 'plan') + ['', ', required', ', excluded'][choice]);
    });
    enter(counts);
  }

  function drawRows(count) {
    const drawn = shown.slice(0, count).map(index => rows[index]);
    drawn.map(row => row.cells[0]).filter(head => !head.firstElementChild).forEach(head => {
      const number = Number(head.textContent);
      head.replaceChildren(button(number, () => choose(number), { tabIndex: -1, 'aria-label': `Plan ${number}`,
        'aria-pressed': head.parentNode.className !== '' }));
    });
    list.tBodies[0].replaceChildren(...drawn);
    more.hidden = drawn.length === shown.length;
    more.textContent = `Show more (${counted(shown.length - drawn.length, 'plan')} below)`;
    enter(list);
  }

  function drawMore() {
    room += ROOM;
    drawRows(room);
    rows[shown[room - ROOM]].cells[0].firstElementChild.focus();
  }

  // What is chosen, in words.
  function choices() {
    const some = (column, kind) => duties.filter((_, duty) => state.choice[column][duty] === kind).join(' or ');
    const parts = windows.flatMap((window, column) => [[REQUIRED, 'has'], [EXCLUDED, 'hasn’t']].map(([kind, has]) =>
      some(column, kind) && `${window} ${has} ${some(column, kind)}`));
    duties.forEach((duty, number) =>
      parts.push(['', `some window has ${duty}`, `no window has ${duty}`][state.choice[ANY][number]]));
    return [...parts, state.find.trim() && `“${state.find.trim()}” is found`].filter(Boolean).join(', ');
  }

  function say() {
    const { pin, with: other } = state, where = choices();
    const of = where && `${shown.length.toLocaleString('en')} of `;
    const differ = other && windows.filter((_, window) => plans[pin - 1][window] !== plans[other - 1][window]).length;
    status.textContent = [`${of}${counted(rows.length, 'plan')}${where && ` where ${where}`}.`,
      pin && `Plan ${pin} is pinned.`,
      other && `Compared with plan ${other}: ${counted(differ, 'window')} ${differ === 1 ? 'differs' : 'differ'}.`,
      unknown.length && `Not known here: ${unknown.join(', ')}.`].filter(Boolean).join(' ');
  }

  // The pinned plan, and the one that it is compared with.

  function drawDay() {
    const now = new Date();
    day.value = state.day || new Date(now - now.getTimezoneOffset() * 60000).toISOString().slice(0, 10);
    const words = new Date(`${day.value}T12:00`).toLocaleDateString('en-GB', { dateStyle: 'full' });
    printed.textContent = words;
    title.replaceChildren(heading.textContent, make('span', {}, words));
  }

  function dutySheet(numbers) {
    const line = (name, cells) => make('tr', {}, make('th', { scope: 'row' }, name), ...cells);
    const cell = (duty, pinned) => make('td', { className: `d${duty}` }, (duty === pinned ? '' : '≠ ') + duties[duty]);
    const chosen = numbers.map(number => plans[number - 1]);
    const free = plan => duties.filter((_, duty) => !plan.includes(duty) && !away[duty]).join(', ') || 'nobody';
    const names = ['Window', ...numbers.map(number => `Plan ${number}`)];
    return [
      make('thead', {}, make('tr', {}, ...names.map(name => make('th', { scope: 'col' }, name)))),
      make('tbody', {}, ...windows.map((name, window) =>
        line(name, chosen.map(plan => cell(plan[window], chosen[0][window]))))),
      make('tfoot', {}, line('Free', chosen.map(plan => make('td', {}, free(plan)))))];
  }

  function draw() {
    find.value = state.find;
    narrow();
    const numbers = [state.pin, state.with].filter(Boolean);
    rows.forEach((row, index) => {
      row.className = ['', 'pinned', 'other'][numbers.indexOf(index + 1) + 1];
      row.cells[0].firstElementChild?.setAttribute('aria-pressed', row.className !== '');
    });
    chosen.hidden = !state.pin;
    document.body.classList.toggle('pinned', state.pin > 0);
    swap.hidden = stop.hidden = !state.with;
    swap.textContent = `Pin plan ${state.with} instead`;
    sheet.replaceChildren(...dutySheet(numbers));
    drawDay();
  }

  // The keyboard: a table is one stop of the Tab key, and arrow keys move within it.

  function enter(table, press = table.querySelector('button[tabindex="0"]') || table.querySelector('button')) {
    table.querySelectorAll('button[tabindex="0"]').forEach(other => { other.tabIndex = -1; });
    if (press) press.tabIndex = 0;
  }

  function rove(table) {
    table.addEventListener('focusin', event => enter(table, event.target));
    table.addEventListener('keydown', event => {
      const step = { ArrowUp: [-1, 0], ArrowDown: [1, 0], ArrowLeft: [0, -1], ArrowRight: [0, 1] }[event.key];
      if (!step || event.altKey || event.ctrlKey || event.metaKey) return;
      let cell = event.target.parentNode;
      do {
        cell = table.rows[cell.parentNode.rowIndex + step[0]]?.cells[cell.cellIndex + step[1]];
      } while (cell && !cell.firstElementChild);
      event.preventDefault();
      cell?.firstElementChild.focus();
    });
  }

  build();
  read();
  addEventListener('hashchange', read);
  addEventListener('beforeprint', drawDay);
  addEventListener('beforeprint', () => drawRows(state.pin ? room : shown.length));
  addEventListener('afterprint', () => drawRows(room));
});
