// The clock of a sitting: the time left, as the desk told it last, words of the person in charge, and the receipt. The
// desk is asked now and again how long there is; what changed is shown by the page.
'use strict';

{
    const element = (id) => document.getElementById(id);
    const whose = document.body.dataset;
    // Milliseconds until the desk is asked again, until a request is given up, of a second; when warnings begin.
    const EVERY = 10000;
    const LIMIT = 5000;
    const SECOND = 1000;
    const CHANGED = 20 * SECOND;
    const RUNNING = ['read', 'message', 'known', 'warned', 'changed', 'receipt'];
    const WARNINGS = [
        [60 * SECOND, 'Less than one minute is left. Then what stands here is collected.'],
        [300 * SECOND, 'Less than five minutes are left. Then what stands here is collected.'],
    ];
    // The time left, and when that was told, by the browser's own clock; none where no clock runs.
    const drawn = element('time').dataset.left;
    let left = drawn === '' ? null : Number(drawn);
    let since = performance.now();
    // The warning that held already when the page was drawn: it is shown, and not called out again.
    let known = warning(left);

    const now = () => (left === null ? null : Math.max(left - (performance.now() - since), 0));

    function warning(rest) {
        const [, words] = WARNINGS.find(([from]) => rest !== null && rest <= from) ?? [0, ''];
        return words;
    }

    function spelled(rest) {
        const seconds = Math.ceil(rest / SECOND);
        const two = (number) => String(number).padStart(2, '0');
        const hours = Math.floor(seconds / 3600);
        const minutes = Math.floor(seconds / 60) % 60;
        return hours ? `${hours}:${two(minutes)}:${two(seconds % 60)}` : `${minutes}:${two(seconds % 60)}`;
    }

    // Says something once: a screen reader hears it when the words change.
    function say(id, words) {
        if (element(id).textContent !== words) {
            element(id).textContent = words;
        }
    }

    function tick() {
        const rest = now();
        element('time').hidden = rest === null;
        const words = warning(rest);
        known = words === known ? known : '';
        say('left', rest === null ? '' : spelled(rest));
        element('left').classList.toggle('late', words !== '');
        say('known', known);
        say('warned', known ? '' : words);
        element('running').hidden = !RUNNING.some((id) => element(id).textContent);
    }

    // What every reply tells beside the sitting.
    function take(told) {
        const rest = now();
        left = told.left;
        since = performance.now();
        if (rest !== null && left !== null && Math.abs(left - rest) > CHANGED) {
            say('changed', `The time was changed: ${spelled(left)} are left.`);
        }
        if (element('read').textContent !== told.message) {
            say('read', '');
            say('message', told.message);
        }
        if (told.receipt !== undefined) {
            say('receipt', told.receipt);
            element('print').hidden = !told.receipt;
        }
        tick();
    }

    // Asks how long there is. Where the page is behind, or the desk is away, the page looks after it. A window whose
    // ticket is dead goes; one of somebody who has left, or of another, is told so when something is done there.
    async function ask() {
        try {
            const came = await fetch('/clock', {
                headers: { Sitting: whose.sitting }, signal: AbortSignal.timeout(LIMIT) });
            if (came.status === 410) {
                location.replace('/another');
            }
            if (!came.ok) {
                return;
            }
            const told = await came.json();
            const before = whose.handedIn;
            take(told);
            if (String(told.moves) !== whose.moves || String(told.handed_in) !== before) {
                document.dispatchEvent(new Event('look'));
            }
        } catch {
            document.dispatchEvent(new Event('look'));
        }
    }

    function again() {
        setTimeout(async () => { await ask(); again(); }, EVERY * (0.9 + Math.random() / 5));
    }

    // When the time is over the page shows what was collected.
    let over = false;
    setInterval(() => {
        tick();
        const ends = now() === 0;
        if (ends && !over) {
            setTimeout(ask, SECOND);
        }
        over = ends;
    }, SECOND / 2);
    document.addEventListener('told', (event) => { take(event.detail); });
    again();
}
