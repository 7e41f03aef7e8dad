// The page of the person in charge. Nothing is kept here: every reply has the whole hall, and the page is drawn from
// it.
'use strict';

const element = (id) => document.getElementById(id);
const COLUMNS = ['name', 'paper', 'presence', 'machine', 'moves', 'left', 'ended'];
const AWAY = 'The desk does not answer.';
// Milliseconds until the desk is asked again, and until a request is given up.
const EVERY = 3000;
const LIMIT = 5000;
// What is asked before an act that cannot be undone by another, or is for all.
const QUESTIONS = {
    close: () => 'Close the hall? What stands is collected from all who have not handed in.',
    ticket: (who) => `A new ticket for ${who}? The old one opens nothing any more.`,
    reopen: (who) => `Reopen the sitting of ${who}? What was handed in counts no longer.`,
    extra: (who, told) => `${told.minutes} more minutes for ${who}?`,
};

const FIELDS = {
    late: ['identity', 'name', 'minutes', 'paper'], extra: ['minutes'], reopen: ['minutes'], message: ['text'],
};

function spelled(left) {
    if (left === null) {
        return '';
    }
    const seconds = Math.ceil(left / 1000);
    return `${Math.floor(seconds / 60)}:${String(seconds % 60).padStart(2, '0')}`;
}

const chosen = () => document.querySelector('input[name="who"]:checked')?.value ?? '';

function called() {
    return chosen() === '-' ? 'all' : chosen() || 'nobody chosen';
}

// The row of a candidate, made when it is first told of.
function rowOf(id) {
    let row = document.querySelector(`tr[data-id="${CSS.escape(id)}"]`);
    if (!row) {
        row = element('candidates').insertRow();
        row.dataset.id = id;
        const label = document.createElement('label');
        const radio = Object.assign(document.createElement('input'), { type: 'radio', name: 'who', value: id });
        label.append(radio, ` ${id}`);
        row.insertCell().append(label);
        for (const column of COLUMNS) {
            const cell = row.insertCell();
            cell.dataset.of = column;
            if (column === 'name') {
                cell.append(document.createElement('bdi'));
            }
        }
    }
    return row;
}

function show(told) {
    element('state').textContent = `${told.state}${told.closed ? ', closed' : ''}`;
    element('now').textContent = told.now;
    element('away').textContent = told.away;
    const papers = document.querySelector('select[name="paper"]');
    if (!papers.options.length) {
        papers.append(...told.papers.map((name) => new Option(name, name)));
    }
    for (const one of told.candidates) {
        const row = rowOf(one.id);
        for (const cell of row.querySelectorAll('td[data-of]')) {
            const { of } = cell.dataset;
            const words = of === 'left' ? spelled(one.left) : String(one[of]);
            const place = cell.firstElementChild ?? cell;
            if (place.textContent !== words) {
                place.textContent = words;
            }
        }
        row.querySelector('td[data-of="presence"]').classList.toggle('away', one.presence.startsWith('away'));
    }
    choose();
}

function choose() {
    element('whom').textContent = called();
    for (const row of element('candidates').rows) {
        row.classList.toggle('chosen', row.dataset.id === chosen());
    }
}

function say(words, refused) {
    element('said').textContent = refused ? '' : words;
    element('refused').textContent = refused ? words : '';
}

// Asks the desk; whoever is no longer in charge here is asked for the secret.
async function ask(path, body) {
    const said = body === undefined ? {} : { method: 'POST', body };
    try {
        const came = await fetch(path, {
            ...said, headers: { Charge: document.body.dataset.charge }, signal: AbortSignal.timeout(LIMIT) });
        if (came.status === 403) {
            location.replace('/charge');
            return;
        }
        const told = await came.json();
        if (told.candidates) {
            show(told);
        }
        if (body !== undefined && came.ok) {
            [...document.querySelectorAll('main form')].forEach((form) => form.reset());
        }
        if (body !== undefined) {
            say(told.said || 'The desk could not make sense of this.', !came.ok);
        } else if (element('refused').textContent === AWAY) {
            say('', false);
        }
    } catch {
        say(body === undefined ? AWAY : `${AWAY} It is not known whether this was done.`, true);
    }
}

// A body has plain letters only: all others are spelled.
function spelledOut(told) {
    return JSON.stringify(told).replace(/[^ -~]/g, (c) => `\\u${c.charCodeAt(0).toString(16).padStart(4, '0')}`);
}

// What a form asks for by one of its buttons, after a question.
function submitted(event) {
    event.preventDefault();
    const act = event.submitter.value;
    const given = new FormData(event.target);
    const told = { act, who: chosen() };
    for (const field of FIELDS[act] ?? []) {
        told[field] = given.get(field).trim();
    }
    const question = QUESTIONS[act]?.(called(), told);
    element('sure').dataset.asked = spelledOut(told);
    if (question) {
        element('question').textContent = question;
        element('sure').showModal();
    } else {
        done();
    }
}

async function done() {
    element('sure').close();
    await ask('/charge/act', element('sure').dataset.asked);
}

for (const id of ['acts', 'tell', 'late', 'end']) {
    element(id).addEventListener('submit', submitted);
}
element('yes').addEventListener('click', done);
element('no').addEventListener('click', () => element('sure').close());
document.addEventListener('change', choose);

async function again() {
    await ask('/charge/now');
    setTimeout(again, EVERY);
}
again();
