// The board: shows the barriers that the desk tells, and lights what a candidate looks at. What it knows of the paper
// the page has: the gaps of each dependence that is listed, and where gaps and bars are drawn.
'use strict';

const element = (id) => document.getElementById(id);
const all = (selector) => [...document.querySelectorAll(selector)];
const shown = document.body.dataset;
const gaps = all('button[data-gap]');
const buttons = new Map(gaps.map((button) => [Number(button.dataset.gap), button]));
const places = new Map(all('[data-barrier]').map((place) => [Number(place.dataset.barrier), place]));
const items = new Map(all('#dependences li').map((item) => [Number(item.dataset.d), item]));
const runs = new Map([...items].map(([d, item]) => [d, item.dataset.gaps.split(' ').map(
    (run) => run.split('-').map(Number))]));
const homes = element('dependences').dataset.homes.split(' ').filter(Boolean);
const atHome = new Map(homes.map((home) => [home, []]));
homes.forEach((home, d) => atHome.get(home).push(d));
const numbers = (text) => text.split(' ').map(Number);
const bars = all('[data-bar]').map((bar) => ({ bar, of: numbers(bar.dataset.bar), x: Number(bar.dataset.x) }));
const labels = all('[data-number]').map((bar) => ({ bar, of: numbers(bar.dataset.number) }));
const strips = new Map(all('[data-strip]').map((strip) => [strip.dataset.strip, Number(strip.dataset.x)]));
const row = Number(shown.row);
const lanes = document.querySelector('.lanes');
const heading = element('told').textContent;

const high = (gap) => Number(buttons.get(gap).dataset.y);
const has = (d, gap) => runs.get(d).some(([first, last]) => first <= gap && gap <= last);
const having = (gap) => [...items.keys()].filter((d) => has(d, gap));
const path = (selector, d) => document.querySelector(selector)?.setAttribute('d', d);

// ---- What the desk tells

function write(place, words) {
    if (place.textContent !== words) {
        place.textContent = words;
    }
}

// What is there already is not written again: of hundreds of gaps a reply changes one.
function give(button, name, value) {
    if (button.getAttribute(name) !== String(value)) {
        button.setAttribute(name, value);
    }
}

function showBarriers(told) {
    const there = new Set(told.gaps);
    for (const [gap, button] of buttons) {
        give(button, 'aria-pressed', there.has(gap));
        give(button, 'aria-disabled', told.handed_in);
        places.get(gap).classList.toggle('filled', there.has(gap));
    }
    const here = told.gaps.filter((gap) => buttons.has(gap));
    const wide = lanes.width.baseVal.value;
    path('.across', here.map((gap) => `M-14 ${high(gap)}H${wide}`).join(''));
    path('.ticks', told.gaps.map((gap) => `M0 ${gap}H60`).join(''));
    const cuts = told.cuts && homes.map((_, d) => parseInt(told.cuts.slice(2 * d, 2 * d + 2), 16));
    showCounts(new Map(told.counts), cuts);
    lanes.classList.toggle('known', cuts !== undefined);
    if (cuts) {
        path('.dots', here.flatMap((gap) => bars.filter(({ of }) => of.some((d) => has(d, gap))).map(
            ({ x }) => `M${x} ${high(gap)}h.1`)).join(''));
        showCuts(cuts);
    }
}

function showCounts(counts, cuts) {
    for (const place of all('[data-count]')) {
        write(place, `count ${counts.get(Number(place.dataset.count))}`);
    }
    for (const place of all('[data-tree]')) {
        const mine = atHome.get(place.dataset.tree) ?? [];
        const open = cuts && mine.length ? `uncut ${mine.filter((d) => cuts[d] === 0).length} of` : 'at home';
        write(place, `barriers ${counts.get(Number(place.dataset.tree))}, ${open} ${mine.length}`);
    }
    for (const place of all('[data-inside]')) {
        const inside = [...counts].filter(([d]) => Number(place.dataset.inside) <= d && d < place.dataset.last);
        const many = inside.reduce((sum, [, count]) => sum + count, 0);
        write(place, many ? `${many} inside` : '');
    }
}

// Which dependences are cut, and by how many barriers. A shared bar is uncut if one of its own is.
function showCuts(cuts) {
    for (const [d, item] of items) {
        item.classList.toggle('u', cuts[d] === 0);
        if (item.childNodes.length < 3) {
            item.append('');
        }
        write(item.lastChild, cuts[d] === 0 ? '; UNCUT' : `; cut, barriers: ${cuts[d]}`);
    }
    for (const { bar, of } of [...bars, ...labels]) {
        bar.classList.toggle('u', of.some((d) => cuts[d] === 0));
    }
}

// ---- What is lit: a gap, a dependence, or several that share a bar. What the keyboard or a click chose is held; what
// the pointer is at is looked at meanwhile. A gap that is pinned is compared with the one that is lit.

let held = {};
let looked = null;
let pinned = null;

function light() {
    const { gap = null, one = null, group = [] } = looked ?? held;
    const theirs = pinned !== null && one === null ? having(pinned) : [];
    const hits = new Set(one !== null ? [...group, one] : [...group, ...gap === null ? [] : having(gap), ...theirs]);
    const compared = gap !== null && one === null && pinned !== null && pinned !== gap;
    document.body.classList.toggle('some', gap !== null || hits.size > 0);
    for (const [d, item] of items) {
        item.classList.toggle('hit', hits.has(d));
        item.classList.toggle('lit', d === one);
    }
    for (const { bar, of } of [...bars, ...labels]) {
        bar.classList.toggle('hit', of.some((d) => hits.has(d)));
        bar.classList.toggle('lit', of.includes(one));
    }
    for (const [other, place] of places) {
        place.classList.toggle('of', one !== null && has(one, other));
        place.classList.toggle('pin', other === pinned);
    }
    const bands = { '.band:not(.pinned)': gap, '.band.pinned': pinned };
    for (const [band, at] of Object.entries(bands)) {
        all(band).forEach((rect) => rect.setAttribute('y', at === null ? -9999 : high(at) - row / 2));
    }
    showOne(one, gap, group);
    tell(gap, one, group, compared ? pinned : null);
}

// The gaps of one dependence, on the map and, where there are no lanes, in the strip of its loop; its number beside it.
function showOne(one, gap, group) {
    const ofOne = one === null ? [] : runs.get(one);
    path('.map .of', ofOne.map(([first, last]) => `M56 ${first}V${last + 1}`).join(''));
    const strip = strips.get(homes[one]);
    path('.lone', strip === undefined ? '' : ofOne.map(
        ([first, last]) => `M${strip + 4} ${high(first) - row / 2}V${high(last) + row / 2}`).join(''));
    const tag = document.querySelector('.tag');
    const bar = bars.find(({ of }) => of.includes(one));
    tag.classList.toggle('on', bar !== undefined && gap !== null);
    if (bar !== undefined && gap !== null) {
        const words = group.length > 1 ? `\u00d7${group.length}: ${some(group)}` : String(one);
        const wide = 10 + 7 * words.length;
        tag.setAttribute('transform', `translate(${Math.max(bar.x, wide / 2)} ${high(gap)})`);
        tag.querySelector('rect').setAttribute('x', -wide / 2);
        tag.querySelector('rect').setAttribute('width', wide);
        tag.querySelector('text').textContent = words;
    }
}

const some = (group) => group.length > 4 ? `${group.slice(0, 4).join(', ')}, \u2026` : group.join(', ');
const dependences = (many) => `${many} ${many === 1 ? 'dependence' : 'dependences'}`;

// What is lit in words, beside the view's name and over the list.
function tell(gap, one, group, other) {
    let [words, title] = ['', heading];
    const link = element('in');
    link.hidden = one === null || group.length > 1 || shown.loop === homes[one];
    if (one !== null && group.length < 2) {
        const told = items.get(one).textContent.replace(/^\d+ /, '');
        [words, title] = [`Dependence ${one}: ${told}`, `Dependence ${one}`];
        link.href = `/?loop=${homes[one]}#d${one}`;
        link.textContent = `In loop ${homes[one]}`;
    } else if (group.length > 1) {
        words = `${group.length} that have the same gaps of this loop: ${some(group)}.`;
        title = `Dependences with the same gaps: ${group.length}`;
    } else if (other !== null) {
        const [mine, theirs] = [having(gap), having(other)];
        const both = mine.filter((d) => theirs.includes(d)).length;
        words = `Gap ${gap}: ${mine.length}. Gap ${other}: ${theirs.length}. Both: ${both}. Only ${gap}: `
            + `${mine.length - both}. Only ${other}: ${theirs.length - both}.`;
        title = `Dependences of gaps ${other} and ${gap}: ${mine.length + theirs.length - both}`;
    } else if (gap !== null) {
        const [here, every] = [having(gap).length, Number(buttons.get(gap).dataset.all)];
        words = shown.loop === '' ? `Gap ${gap}: ${dependences(here)} ${here === 1 ? 'has' : 'have'} it.`
            : `Gap ${gap}: ${here} at home here, ${every - here} of other loops.`;
        title = `Dependences of gap ${gap}: ${here}`;
    }
    write(element('lit'), words);
    write(element('told'), title);
}

function hold(what) {
    held = what;
    looked = null;
    light();
}

function look(what) {
    if (JSON.stringify(looked) !== JSON.stringify(what)) {
        looked = what;
        light();
    }
}

function pin(gap) {
    pinned = pinned === gap ? null : gap;
    light();
}

// ---- Ways through the paper

function reach(button) {
    for (const other of gaps) {
        other.tabIndex = other === button ? 0 : -1;
    }
}

function goToGap(button, block = 'nearest') {
    button.focus({ preventScroll: true, focusVisible: true });
    button.scrollIntoView({ block, inline: 'nearest' });
}

function goToDependence(d) {
    const first = gaps.find((button) => has(d, Number(button.dataset.gap)));
    hold({ one: d });
    if (first) {
        reach(first);
        bars.find(({ of }) => of.includes(d))?.bar.scrollIntoView({ block: 'nearest', inline: 'center' });
        first.scrollIntoView({ block: 'center', inline: 'nearest' });
    }
    items.get(d).scrollIntoView({ block: 'nearest' });
    write(element('found'), element('lit').textContent);
}

// What was lit goes along in the address: #g140 or #d317.
function arrive() {
    const [, kind, number] = /^#([gd])(\d{1,3})$/.exec(location.hash) ?? [];
    if (kind === 'g' && buttons.has(Number(number))) {
        goToGap(buttons.get(Number(number)), 'center');
    } else if (kind === 'd' && items.has(Number(number))) {
        goToDependence(Number(number));
    }
}

function goTo(words) {
    const [, kind = 'g', digits] = /^\s*([a-z]*)\s*(\d{1,3})\s*$/i.exec(words) ?? [];
    const number = Number(digits);
    const asked = { g: 'gap', d: 'dependence', l: 'loop' }[kind[0]?.toLowerCase() ?? 'g'];
    write(element('found'), '');
    if (digits === undefined || asked === undefined) {
        write(element('found'), 'Write gap 5, dep 2 or loop 1.');
    } else if (asked === 'loop' && document.querySelector(`[data-tree="${number}"]`)) {
        location.assign(`/?loop=${number}`);
    } else if (asked === 'dependence' && items.has(number)) {
        goToDependence(number);
    } else if (asked === 'dependence' && homes[number] !== undefined) {
        location.assign(`/?loop=${homes[number]}#d${number}`);
    } else if (asked === 'gap' && buttons.has(number)) {
        goToGap(buttons.get(number), 'center');
    } else if (asked === 'gap' && 0 < number && number <= Number(shown.last)) {
        location.assign(`/#g${number}`);
    } else {
        write(element('found'), `There is no ${asked} ${number} in this paper.`);
    }
}

function nextUncut() {
    const open = [...items].filter(([, item]) => item.classList.contains('u')).map(([d]) => d);
    if (open.length) {
        goToDependence(open.find((d) => d > (held.one ?? -1)) ?? open[0]);
    }
}

// Keys work while a gap has the focus. One that is held down puts or lifts once.
function pressed(event) {
    const at = gaps.indexOf(event.target);
    const { gap, loop } = event.target.dataset;
    const outside = (button) => Number(button.dataset.loop) < Number(loop);
    const inside = (button) => Number(button.dataset.loop) > Number(loop);
    const moves = {
        ArrowUp: () => at - 1, ArrowDown: () => at + 1, Home: () => 0, End: () => gaps.length - 1,
        PageUp: () => Math.max(at - 10, 0), PageDown: () => Math.min(at + 10, gaps.length - 1),
        ArrowLeft: () => gaps.findLastIndex((button, k) => k < at && outside(button)),
        ArrowRight: () => gaps.findIndex((button, k) => k > at && inside(button)),
    };
    const acts = {
        c: () => pin(Number(gap)), d: () => element('told').focus(), u: nextUncut, '/': () => element('place').focus(),
        l: () => location.assign(`/?loop=${loop}#g${gap}`), w: () => location.assign(`/#g${gap}`),
        Escape: () => pinned === null ? hold({}) : pin(pinned),
    };
    const key = event.key.length === 1 ? event.key.toLowerCase() : event.key;
    if (event.ctrlKey || event.altKey || event.metaKey) {
        return;
    }
    if (moves[key]) {
        event.preventDefault();
        const to = gaps[moves[key]()];
        if (to) {
            goToGap(to);
        }
    } else if (acts[key]) {
        event.preventDefault();
        acts[key]();
    } else if (key === 'Enter' && event.repeat) {
        event.preventDefault();
    }
}

// ---- The pointer: over the nest it lights a gap, over the lanes also the nearest dependence that has it.

function under(event) {
    const box = lanes.getBoundingClientRect();
    const [x, y] = [event.clientX - box.left, event.clientY - box.top];
    const near = [...buttons.keys()].filter((gap) => Math.abs(high(gap) - y) <= row / 2);
    const gap = near.length ? near[0] : null;
    if (gap === null || x < 0) {
        return gap === null ? null : { gap };
    }
    const close = bars.filter((bar) => Math.abs(bar.x - x) < 9 && bar.of.some((d) => has(d, gap)));
    close.sort((first, second) => Math.abs(first.x - x) - Math.abs(second.x - x));
    if (!close.length) {
        return { gap };
    }
    const { of } = close[0];
    return { gap, one: of[0], group: of.length > 1 ? of : [] };
}

function clickedLanes(event) {
    const at = under(event);
    if (event.target.closest('a, button') || at === null || event.clientX < lanes.getBoundingClientRect().left) {
        return;
    }
    if (at.one === undefined) {
        pin(at.gap);
    } else if (at.group.length > 1) {
        hold({ group: at.group });
    } else {
        goToDependence(at.one);
    }
}

const board = document.querySelector('.board');
board.addEventListener('pointermove', (event) => {
    if (event.pointerType === 'mouse') {
        look(under(event));
    }
});
board.addEventListener('pointerleave', () => look(null));
board.addEventListener('click', clickedLanes);
for (const button of gaps) {
    button.addEventListener('keydown', pressed);
    button.addEventListener('focus', () => {
        reach(button);
        hold({ gap: Number(button.dataset.gap) });
    });
}
for (const [d, item] of items) {
    item.addEventListener('pointerenter', () => look({ one: d }));
    item.addEventListener('click', () => goToDependence(d));
}
element('dependences').addEventListener('pointerleave', () => look(null));
document.querySelector('.where').addEventListener('focusin', (event) => {
    event.target.scrollIntoView({ block: 'nearest', inline: 'nearest' });
});
element('find').addEventListener('submit', (event) => {
    event.preventDefault();
    goTo(element('place').value);
});
element('only')?.addEventListener('change', (event) => {
    document.body.classList.toggle('only', event.target.checked);
});
addEventListener('hashchange', arrive);

// ---- The map: a frame for what is seen, and a click goes there.

const map = document.querySelector('.map');
const main = document.querySelector('main');

function frame() {
    const [from, many] = [(main.scrollTop - board.offsetTop) / row, main.clientHeight / row];
    const seen = map.querySelector('.seen');
    seen.setAttribute('y', Math.max(0, from));
    seen.setAttribute('height', Math.max(0, many + Math.min(0, from)));
}

if (map) {
    if (shown.loop === '') {
        main.addEventListener('scroll', frame, { passive: true });
        addEventListener('resize', frame);
        frame();
    }
    map.addEventListener('click', (event) => {
        const at = event.offsetY / map.clientHeight * map.viewBox.baseVal.height;
        gaps.find((button) => Number(button.dataset.gap) >= at)?.scrollIntoView({ block: 'center' });
    });
}
if (gaps.length) {
    reach(gaps[0]);
}
