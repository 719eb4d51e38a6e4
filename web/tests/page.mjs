// What checks/web-page looks at, in a headless Chromium.
import assert from 'node:assert/strict';
import { fileURLToPath } from 'node:url';
import { Chromium, findChromium, serve } from './chromium.mjs';
import { glbOfWalls } from './glb.mjs';

const ROOT = fileURLToPath(new URL('../..', import.meta.url));
const VIEWS = 20;
const SHOW = 'const { show } = await import("/web/page/page.js");';

const wait = (seconds) => new Promise((resolve) => setTimeout(resolve, 1000 * seconds));
const written = (number) => number.toLocaleString('en');

/** The value of some statements in the page, once it has started or told why not. */
const inPage = (browser, statements) => browser.evaluate(`(async () => { ${SHOW} ${statements} })()`);

async function open(browser, address) {
    const { errorText } = await browser.ask('Page.navigate', { url: address });
    if (errorText) throw new Error(`${address} can't be opened: ${errorText}`);
    for (let tries = 0; tries < 100; tries++) {
        if (await browser.evaluate('document.readyState === "complete"')) return;
        await wait(0.1);
    }
    throw new Error(`${address} isn't loaded after 10 seconds`);
}

/** What the page says is wrong, or nothing. */
function toldFault(browser) {
    return browser.evaluate(`(async () => {
        await import("/web/page/page.js");
        const fault = document.getElementById("fault");
        return fault.hidden ? "" : fault.textContent;
    })()`);
}

/** Ten seconds of flight, with culling and without. */
async function checkFlight(browser) {
    for (const culling of [true, false]) {
        const flown = await inPage(browser, `
            document.getElementById("culling").checked = ${culling};
            show.camera.isFlying = true;
            const from = [...show.camera.place], start = performance.now();
            const sums = { frames: 0, draw: 0, test: 0, submit: 0, drawn: 0 };
            for (let now = start; now < start + 10000;) {
                now = await new Promise(requestAnimationFrame);
                sums.frames++;
                sums.draw += show.last.milliseconds.draw;
                sums.test += show.last.milliseconds.test;
                sums.submit += show.last.submit;
                sums.drawn += show.last.drawn;
            }
            show.picture.finish();
            const way = Math.hypot(...show.camera.place.map((number, k) => number - from[k]));
            return { ...sums, way, milliseconds: performance.now() - start };`);
        assert(flown.frames >= 10 && flown.way > 10, JSON.stringify(flown));
        const each = (sum) => (sum / flown.frames).toFixed(1), { draw, test, submit } = flown;
        console.log(`ten seconds of flight ${culling ? 'with' : 'without'} culling: ${flown.frames} frames of `
            + `${each(flown.milliseconds)} ms, of which ${each(draw)} for occluders, ${each(test)} for tests and `
            + `${each(submit)} for calls of WebGL; ${each(flown.drawn)} objects drawn`);
    }
    assert.equal(await toldFault(browser), '');
}

/** Along the path, and from some of its places higher and with another direction. */
async function checkViews(browser, name) {
    const sums = await inPage(browser, `
        const sums = { culled: 0, visible: 0, seen: 0, occluded: 0, outside: 0 };
        show.camera.isFlying = false;
        for (let view = 0; view < ${VIEWS}; view++) {
            show.camera.fly(view * 6.7);
            show.camera.turn += view % 3 * 0.7;
            show.camera.place[1] += view % 4 * show.scene.speed * 0.4;
            show.camera.tilt -= view % 4 * 0.1;
            const { culled, visible, seen, counts } = show.countPixels();
            sums.culled += culled;
            sums.visible += visible;
            sums.seen += seen;
            sums.occluded += counts[17];
            sums.outside += counts[18];
        }
        return sums;`);
    assert.equal(sums.culled, 0, `what is culled has ${sums.culled} pixels in ${VIEWS} views of ${name}`);
    assert(sums.occluded > VIEWS && sums.outside > VIEWS && sums.visible > 0, JSON.stringify(sums));
    const { occluded, outside, seen, visible } = sums;
    console.log(`${VIEWS} views of ${name}: no pixel of ${written(occluded)} occluded and ${written(outside)} outside `
        + `objects; ${written(seen)} visible ones have ${written(visible)} pixels`);
}

/** Lets go of a file over the page, and waits for what it does. */
function drop(browser, bytes, name) {
    return inPage(browser, `
        const bytes = Uint8Array.from(atob("${Buffer.from(bytes).toString('base64')}"), (it) => it.charCodeAt(0));
        const dataTransfer = new DataTransfer(), before = show.scene;
        dataTransfer.items.add(new File([bytes], "${name}"));
        document.body.dispatchEvent(new DragEvent("drop", { dataTransfer, bubbles: true, cancelable: true }));
        const fault = document.getElementById("fault");
        for (let tries = 0; tries < 100 && show.scene === before && fault.hidden; tries++) {
            await new Promise((resolve) => setTimeout(resolve, 50));
        }`);
}

async function checkFiles(browser) {
    await drop(browser, Buffer.from('no glb at all, but text'), 'text.glb');
    assert.match(await toldFault(browser), /isn't a glb/);
    await drop(browser, glbOfWalls([0, 1, 9]), 'past.glb');
    assert.match(await toldFault(browser), /index 9 past the end/);
    await drop(browser, glbOfWalls([0, 1, 2, 0, 2, 3]), 'walls.glb');
    assert.equal(await toldFault(browser), '');
    await checkViews(browser, 'a glb');
}

/** What is wrong before the page can start, and what it has to say. */
const FAULTS = [
    ['a browser without 64-bit memories', 'WebAssembly.validate = () => false;', '', /no 64-bit memories/],
    ['a screen of 60 by 32', '', '?width=60&height=32', /A screen of 60 by 32 pixels can't be/],
    ['a memory that is full', 'WebAssembly.Memory.prototype.grow = () => { throw new RangeError("full"); };',
        '?width=2048&height=2048', /memory is full/],
    ['a browser without WebGL2', 'HTMLCanvasElement.prototype.getContext = () => null;', '', /draws no WebGL2/],
    ['a module that isn\'t there', 'const load = self.fetch; self.fetch = (place) => load(place + "-none");', '',
        /can't be loaded, the server answers 404/],
];

async function checkFaults(browser, address) {
    for (const [what, source, query, sentence] of FAULTS) {
        const { identifier } = await browser.ask('Page.addScriptToEvaluateOnNewDocument', { source });
        await open(browser, address + query);
        const told = await toldFault(browser);
        await browser.ask('Page.removeScriptToEvaluateOnNewDocument', { identifier });
        assert.match(told, sentence, what);
        console.log(`${what}: ${told}`);
    }
}

async function printTimes(browser) {
    const times = await browser.evaluate(`(async () => {
        const { measure } = await import("/web/tests/measure.mjs"), { loadModule } = await import("/web/maskcull.js");
        return measure(await loadModule());
    })()`);
    for (const [what, time] of Object.entries(times)) console.log(`${what}: ${Number(time.toPrecision(3))}`);
}

async function checkAll(browser, address, screenshot) {
    await open(browser, address);
    assert.equal(await toldFault(browser), '');
    await checkFlight(browser);
    await checkViews(browser, 'the town');
    await inPage(browser, 'document.getElementById("tiles").checked = true; show.camera.fly(47);');
    await wait(1);
    if (screenshot) await browser.screenshot(screenshot);
    await checkFiles(browser);
    await checkFaults(browser, address);
    await open(browser, 'about:blank');
    await open(browser, address.replace(/index.html$/, 'maskcull.d.ts')); // a page of that server that draws nothing
    await printTimes(browser);
}

const name = findChromium();
if (name === undefined) {
    console.log('web-page: there is no Chromium (apt-get install chromium)');
    process.exit(1);
}
const { server, address } = await serve(ROOT), browser = await Chromium.start(name);
try {
    await checkAll(browser, `${address}/web/index.html`, process.argv[2]);
    console.log('web-page: all is well');
} finally {
    await browser.stop();
    server.kill();
}
