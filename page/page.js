'use strict';
// The boxes, the buttons, and the address of the page.

const field = id => document.getElementById(id);
const tour = JSON.parse(field('tour-data').textContent);
const library = WebAssembly.compile(Uint8Array.from(atob(field('module').textContent), letter => letter.charCodeAt(0)));
const KINDS = { schemas: 'Schema', modules: 'Module' };
const USUAL_ROWS = 1000000;
const bytesOf = text => new TextEncoder().encode(text);
const textOf = bytes => new TextDecoder().decode(bytes);

// ---- the boxes

const boxesOf = kind => [...field(kind).querySelectorAll('textarea')];

// The boxes of a kind are numbered where there are several, as a refusal numbers them.
function number(kind) {
  const boxes = boxesOf(kind);
  boxes.forEach((box, place) => {
    box.parentElement.firstChild.textContent = KINDS[kind] + (boxes.length > 1 ? ' ' + (place + 1) : '') + ' ';
  });
}

function addBox(kind, text) {
  const part = document.createElement('div');
  const remove = document.createElement('button');
  const label = document.createElement('label');
  const box = document.createElement('textarea');
  part.className = 'text';
  remove.className = 'remove';
  remove.textContent = 'Remove';
  remove.onclick = () => {
    part.remove();
    number(kind);
    outdate();
  };
  box.spellcheck = false;
  box.value = text;
  box.rows = Math.min(12, Math.max(3, text.split('\n').length));
  label.append('', box);
  part.append(remove, label);
  field(kind).append(part);
  number(kind);
}

// The texts in the boxes now.
const texts = () => ({
  schemas: boxesOf('schemas').map(box => box.value),
  modules: boxesOf('modules').map(box => box.value),
  script: field('script').value,
  rows: Number(field('rows').value),
});

function fill(run) {
  for (const kind of Object.keys(KINDS)) {
    field(kind).replaceChildren();
    run[kind].forEach(text => addBox(kind, text));
  }
  field('script').value = run.script;
  field('script').rows = Math.min(20, Math.max(6, run.script.split('\n').length));
  field('rows').value = run.rows;
  clear();
}

// ---- what comes of them

function clear() {
  field('report').textContent = '';
  field('report').className = '';
  field('stepping').hidden = true;
  field('steps').srcdoc = '';
  field('note').textContent = '';
  document.querySelectorAll('textarea').forEach(box => box.classList.remove('refused'));
}

// What is shown is of other texts than those in the boxes.
function outdate() {
  if (!field('report').className) field('report').className = 'old';
  field('stepping').hidden = true;
  field('tour').value = '';
}

// Marks the box of a refusal, such as `module 2:3:5: Unexpected`, and puts the cursor where it stands.
function mark(line) {
  const [, kind, number, row, column] = /^(\w+) (\d+):(\d+):(\d+):/.exec(line);
  const box = kind === 'script' ? field('script') : boxesOf(kind + 's')[number - 1];
  const before = box.value.split('\n').slice(0, row - 1).reduce((sum, it) => sum + it.length + 1, 0);
  const at = before + Number(column) - 1;
  box.classList.add('refused');
  box.focus();
  box.setSelectionRange(at, at + 1);
}

function refuse(line) {
  field('report').textContent = line;
  field('report').className = 'refused';
  mark(line);
}

const given = run => ({
  schemas: run.schemas.map(bytesOf), modules: run.modules.map(bytesOf), script: bytesOf(run.script), rows: run.rows,
});

// Asks the library about the texts in the boxes, and shows what it answers by a function of the text that comes.
async function show(question, shown) {
  const run = texts();
  clear();
  const begun = performance.now();
  try {
    const { answer, bytes } = question(await library, given(run));
    const milliseconds = Math.ceil(performance.now() - begun);
    if (answer === 'refused') refuse(textOf(bytes));
    if (answer === 'done') shown(textOf(bytes));
    field('note').textContent = answer === 'done' ? 'in ' + milliseconds + ' ms' : answer;
  } catch (fault) {
    field('note').textContent = 'stopped: ' + fault.message;
  }
  await keepAddress(run);
}

const showReport = text => {
  field('report').textContent = text;
};

const runTexts = () => show(reportOf, showReport);

const stepTexts = async () => {
  await runTexts();
  if (field('report').className) return;
  const report = field('report').textContent;
  await show(stepsOf, page => {
    showReport(report);
    field('steps').srcdoc = page;
    field('stepping').hidden = false;
  });
};

// ---- stepping

// The view of the steps is a page of its own, which takes arrow keys.
function press(key) {
  const view = field('steps').contentWindow;
  view.document.dispatchEvent(new view.KeyboardEvent('keydown', { key, bubbles: true, cancelable: true }));
}

const isTyping = event => event.target.matches('textarea, input, select');

document.addEventListener('keydown', event => {
  if (event.key === 'Enter' && event.ctrlKey) runTexts();
  if (event.key.startsWith('Arrow') && !isTyping(event) && !field('stepping').hidden) {
    event.preventDefault();
    press(event.key);
  }
});

// ---- the address, which holds the texts

async function through(stream, bytes) {
  const passed = new Blob([bytes]).stream().pipeThrough(stream);
  return new Uint8Array(await new Response(passed).arrayBuffer());
}

async function packed(run) {
  const bytes = await through(new CompressionStream('deflate-raw'), bytesOf(JSON.stringify(run)));
  const letters = Array.from(bytes, byte => String.fromCharCode(byte)).join('');
  return btoa(letters).replaceAll('+', '-').replaceAll('/', '_').replaceAll('=', '');
}

async function unpacked(letters) {
  const bytes = Uint8Array.from(atob(letters.replaceAll('-', '+').replaceAll('_', '/')), letter => letter.charCodeAt(0));
  return JSON.parse(textOf(await through(new DecompressionStream('deflate-raw'), bytes)));
}

async function keepAddress(run) {
  history.replaceState(null, '', '#' + await packed(run));
}

// The texts in the address, or the first step of the tour where it has none.
async function openAddress() {
  const letters = location.hash.slice(1);
  if (!letters) {
    field('tour').value = '0';
    return tour[0];
  }
  const { schemas, modules, script, rows } = await unpacked(letters);
  return { schemas: schemas.map(String), modules: modules.map(String), script: String(script), rows: Number(rows) || USUAL_ROWS };
}

async function copyLink() {
  await keepAddress(texts());
  try {
    await navigator.clipboard.writeText(location.href);
    field('note').textContent = 'copied';
  } catch {
    field('note').textContent = 'the address of this page is the link';
  }
}

async function start() {
  tour.forEach((step, place) => field('tour').append(new Option(step.title, place)));
  try {
    fill(await openAddress());
  } catch {
    fill(tour[0]);
    field('note').textContent = 'the address holds no texts that can be read';
  }
}

field('run').onclick = runTexts;
field('step').onclick = stepTexts;
field('link').onclick = copyLink;
field('back').onclick = () => press('ArrowUp');
field('forward').onclick = () => press('ArrowDown');
field('tour').onchange = event => event.target.value && fill(tour[event.target.value]);
field('texts').addEventListener('input', outdate);
document.querySelectorAll('.add').forEach(button => {
  button.onclick = () => addBox(button.dataset.kind, '');
});
window.addEventListener('hashchange', async () => fill(await openAddress()));
const started = start();
