// Shows what the desk says. Nothing is kept here: every reply has the whole sitting, and the page is drawn from it.
// The board stands in board.js.
'use strict';

const AWAY = 'The desk does not answer. As soon as it does, the page shows the sitting as the desk has it.';
const CAME_LATE = 'The desk answers again. This is the sitting as the desk has it.';
const NO_HAND_IN = 'Your hand-in did not arrive. Hand in again.';
const NO_TAKE_BACK = 'Your Take back did not arrive. Click again.';
// Milliseconds until a request is given up, until it is shown to be under way, until the desk is asked again.
const LIMIT = 5000;
const SLOW = 300;
const AGAIN = 1000;

// Draws the sitting that a reply tells. Which dependences are cut is told for practice only. Words about a hand-in go
// when it is reopened.
function show(told) {
    if (shown.handedIn === 'true' && !told.handed_in) {
        say('', false);
    }
    showBarriers(told);
    document.body.classList.toggle('over', told.handed_in);
    element('back').disabled = element('hand').disabled = told.handed_in;
    element('candidate').textContent = told.candidate;
    element('state').textContent = told.state;
    element('brief').textContent = `${told.uncut} uncut`;
    shown.moves = told.moves;
    shown.gaps = told.gaps.join(' ');
    shown.question = told.question;
    shown.leaving = told.leaving;
    shown.handedIn = told.handed_in;
    document.dispatchEvent(new CustomEvent('told', { detail: told }));
}

// Says what came of the latest act; a refusal is an alert. It stays until the next act. What was said before this view
// was drawn the desk has put into it, where it is not called out again.
function say(words, refused) {
    element('before').textContent = '';
    element('said').textContent = refused ? '' : words;
    element('refused').textContent = refused ? words : '';
}

// What is told in reply to a request; nothing, if none came in time. Who is no longer the candidate of this page is
// sent to where that is said.
async function reply(path, body) {
    const said = body === undefined ? {} : { method: 'POST', body };
    const headers = { Sitting: shown.sitting };
    try {
        const came = await fetch(path, { ...said, headers, signal: AbortSignal.timeout(LIMIT) });
        if (came.status === 403) {
            location.replace('/another');
            return new Promise(() => {});
        }
        return { ok: came.ok, ...await came.json() };
    } catch {
        return null;
    }
}

// Asks the desk for one thing and shows what it tells. Until then whatever else is clicked is dropped. While the desk
// does not answer, it is asked again and again how the sitting is. Gives back whether this was answered.
let underWay = false;

async function ask(path, body, lost) {
    if (underWay) {
        return;
    }
    underWay = true;
    const slow = setTimeout(() => { element('under').textContent = 'Under way'; }, SLOW);
    const before = shown.moves;
    let told = await reply(path, body);
    const answered = told !== null;
    while (told === null) {
        say(AWAY, true);
        await new Promise((done) => { setTimeout(done, AGAIN); });
        told = await reply('/sitting');
    }
    clearTimeout(slow);
    element('under').textContent = '';
    show(told);
    if (!answered) {
        const arrived = told.handed_in || String(told.moves) !== before;
        say(arrived ? CAME_LATE : lost, !arrived);
    } else if (told.said) {
        say(told.said, !told.ok);
    }
    underWay = false;
    return answered;
}

// A click is an act; the second of a double click is none.
function clicked(button, act) {
    button.addEventListener('click', (event) => {
        if (event.detail < 2 && !underWay) {
            act();
        }
    });
}

// A gap is put or lifted, as it is shown. The desk declines if the sitting has other moves than the page has seen.
function turn(button) {
    const act = button.getAttribute('aria-pressed') === 'true' ? 'lift' : 'put';
    const lost = `Your click on gap ${button.dataset.gap} did not arrive. Click again.`;
    ask('/move', `${act} ${button.dataset.gap} at ${shown.moves}`, lost);
}

// Asks first, with the sitting that is shown; what is handed in is what the question was about.
function question() {
    element('question').textContent = shown.question;
    element('sure').dataset.asked = `hand in ${shown.gaps} at ${shown.moves}`.replace('  ', ' ');
    element('sure').showModal();
}

// A hand-in that did not arrive is told until one is answered.
async function handIn() {
    element('sure').close();
    const answered = await ask('/hand-in', element('sure').dataset.asked, '');
    const over = element('hand').disabled;
    element('lost').textContent = answered || over ? '' : NO_HAND_IN;
    if (over) {
        element('state').focus();
    }
}

for (const button of gaps) {
    clicked(button, () => turn(button));
}
clicked(element('back'), () => ask('/move', `take back at ${shown.moves}`, NO_TAKE_BACK));
clicked(element('hand'), question);
clicked(element('no'), () => element('sure').close());
clicked(element('yes'), handIn);
clicked(element('stay'), () => element('leaving').close());
element('leave').addEventListener('submit', (event) => {
    if (event.submitter !== element('go')) {
        event.preventDefault();
        element('asked').textContent = shown.leaving;
        element('leaving').showModal();
    }
});
document.addEventListener('visibilitychange', () => {
    if (!document.hidden) {
        ask('/sitting', undefined, '');
    }
});
document.addEventListener('look', () => ask('/sitting', undefined, ''));
ask('/sitting', undefined, '').then(arrive);
