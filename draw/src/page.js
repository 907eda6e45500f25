// What the picture does in a browser: it says what is pointed at, and switches layers on and off. Viewers without scripts show the
// picture alone. The map has one listener for each kind of event, however many records it has, and no object for each record: what
// is said of a record is read from its title when it is pointed at.
(() => {
  'use strict';
  const root = document.documentElement;
  const part = (id) => document.getElementById(id);
  const [glass, ring, answer, paper, said] = ['glass', 'ring', 'answer', 'paper', 'said'].map(part);
  const MOST_SAID = 3;
  const NEAR = Number(glass.dataset.near); // how far from a dot a finger or a pointer may be
  let current = null; // the record or node that the ring is around

  const show = (element, yes) => (yes ? element.removeAttribute('display') : element.setAttribute('display', 'none'));
  const layersOf = (name) => document.querySelectorAll(`[data-layer="${name}"]`);
  const isShown = (layer) => layer.getAttribute('display') !== 'none';

  // The records, or the nodes, whose shapes lie under a point of the browser's window, those on top first.
  function under(holds, x, y) {
    return document.elementsFromPoint(x, y).map((shape) => shape.closest(`[data-holds="${holds}"] > g`)).filter((group) => group);
  }

  // The records under the pointer; else those close to it; else the nodes.
  function pointedAt(x, y) {
    for (const far of [0, NEAR]) {
      const steps = far === 0 ? [0] : [-far, 0, far];
      const around = steps.flatMap((dx) => steps.flatMap((dy) => under('records', x + dx, y + dy)));
      if (around.length > 0) return [...new Set(around)];
    }
    return under('nodes', x, y);
  }

  // 'record 7: 0, 0 to 10, 10; leaf in slot 5', a part to a line.
  function linesOf(group) {
    const [name, rest] = group.querySelector('title').textContent.split(': ');
    const [sides, ...more] = rest.split('; ');
    const [low, high] = sides.split(' to ');
    return [name, `from ${low}`, `to ${high}`, ...more];
  }

  function write(groups) {
    const lines = groups.slice(0, MOST_SAID).flatMap(linesOf);
    if (groups.length > MOST_SAID) lines.push(`and ${groups.length - MOST_SAID} more here`);
    if (lines.join('\n') === said.dataset.lines) return; // so that a reader of the screen is not told twice
    said.dataset.lines = lines.join('\n');
    said.replaceChildren(...lines.map(lineOf));
  }

  // The first line on a record or node is bold, with a gap above it.
  function lineOf(words, place) {
    const line = document.createElementNS(root.namespaceURI, 'tspan');
    const first = /^(record|slot) /.test(words);
    line.setAttribute('x', 10);
    line.setAttribute('dy', first && place > 0 ? 24 : 17);
    if (first) line.setAttribute('font-weight', 'bold');
    line.textContent = words;
    return line;
  }

  // The answer stands to the right of a place on the sheet and below it, or to the left and above, and never beyond the map.
  function put(x, y) {
    const words = said.getBBox(), sheet = glass.getBBox();
    const wide = words.width + 20, high = words.height + 16;
    paper.setAttribute('width', wide);
    paper.setAttribute('height', high);
    const left = x + 14 + wide > sheet.x + sheet.width ? x - 14 - wide : x + 14;
    const top = y + 14 + high > sheet.y + sheet.height ? y - 14 - high : y + 14;
    answer.setAttribute('transform', `translate(${Math.max(left, sheet.x)} ${Math.max(top, sheet.y)})`);
  }

  function surround(group) {
    const box = group.getBBox();
    const sides = { x: box.x - 4, y: box.y - 4, width: box.width + 8, height: box.height + 8 };
    Object.entries(sides).forEach(([name, value]) => ring.setAttribute(name, value));
    return sides;
  }

  // Says what the groups are, beside a place on the sheet, or beside the first of them.
  function say(groups, place) {
    current = groups.length > 0 ? groups[0] : null;
    show(ring, current !== null);
    show(answer, current !== null);
    if (current === null) {
      said.replaceChildren();
      said.dataset.lines = '';
      return;
    }
    const sides = surround(current);
    write(groups);
    put(...(place || [sides.x + sides.width, sides.y + sides.height]));
  }

  function point(event) {
    const at = new DOMPoint(event.clientX, event.clientY).matrixTransform(root.getScreenCTM().inverse());
    say(pointedAt(event.clientX, event.clientY), [at.x, at.y]);
  }

  // The next record that is shown, or the one before: those found first, each layer in the order of a search's answer.
  function step(by) {
    const layers = ['found', 'found-2', 'records', 'records-2']
      .flatMap((name) => [...document.querySelectorAll(`[data-layer="${name}"][data-holds]`)])
      .filter((layer) => isShown(layer) && layer.firstElementChild);
    if (layers.length === 0) return null;
    const at = current === null ? -1 : layers.indexOf(current.parentNode);
    const end = (layer) => (by > 0 ? layer.firstElementChild : layer.lastElementChild);
    if (at < 0) return end(by > 0 ? layers[0] : layers[layers.length - 1]);
    const beside = by > 0 ? current.nextElementSibling : current.previousElementSibling;
    return beside || end(layers[(at + by + layers.length) % layers.length]);
  }

  function walk(by) {
    const group = step(by);
    say(group === null ? [] : [group]);
    if (group !== null) ring.scrollIntoView({ block: 'nearest', inline: 'nearest' });
  }

  const KEYS = { ArrowRight: 1, ArrowDown: 1, ArrowLeft: -1, ArrowUp: -1, Home: 1, End: -1 };
  function key(event) {
    if (event.key === 'Escape') say([]);
    if (!(event.key in KEYS)) return;
    event.preventDefault();
    if (event.key === 'Home' || event.key === 'End') current = null;
    walk(KEYS[event.key]);
  }

  function turn(control) {
    const on = control.getAttribute('aria-checked') !== 'true';
    control.setAttribute('aria-checked', on);
    layersOf(control.dataset.shows).forEach((layer) => show(layer, on));
    say([]);
  }

  // From here on the picture is a page: what works without a script is left as it is, and what needs one appears.
  document.querySelectorAll('.needs-script').forEach((element) => show(element, true));
  document.querySelectorAll('.switch').forEach((control) => {
    const state = { role: 'checkbox', tabindex: 0, 'aria-checked': true, 'aria-label': control.querySelector('.words').textContent };
    Object.entries(state).forEach(([name, value]) => control.setAttribute(name, value));
    control.classList.add('on-page');
  });
  root.addEventListener('click', (event) => {
    const control = event.target.closest('.switch');
    if (control) turn(control);
  });
  root.addEventListener('keydown', (event) => {
    const control = event.target.closest('.switch');
    if (!control || (event.key !== ' ' && event.key !== 'Enter')) return;
    event.preventDefault();
    turn(control);
  });
  glass.addEventListener('pointermove', point);
  glass.addEventListener('pointerdown', point);
  glass.addEventListener('pointerleave', (event) => event.pointerType === 'mouse' && say([]));
  glass.addEventListener('keydown', key);
  glass.addEventListener('focus', () => glass.matches(':focus-visible') && current === null && walk(1));
  glass.addEventListener('blur', () => say([]));
})();
