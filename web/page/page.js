// The page: flies through a scene, culls it and draws what is left. What goes wrong is said on the page.
import { Camera } from './camera.js';
import { Culling } from './culling.js';
import { sceneOf } from './glb.js';
import { OCCLUDED, OUTSIDE, VISIBLE, loadModule } from '../maskcull.js';
import { Picture } from './picture.js';
import { makeTown } from './town.js';

const WIDTH = 960, HEIGHT = 540;
const MOST_PASSED = 100; // milliseconds by which the eye moves on at once
const FRAMES_A_LINE = 15; // between two changes of the numbers
// How far the edges of the view are drawn from above, in clip space.
const VIEW_LENGTH = 0.25;

const part = (name) => document.getElementById(name);
const isOn = (name) => part(name).checked;
const written = (number) => number.toLocaleString('en');

export function tell(error) {
    const fault = part('fault');
    fault.textContent = error?.message || String(error);
    fault.hidden = false;
}

/** A scene on its way: the eye, the culling and the picture of it. */
class Show {
    scene;
    camera;
    culling;
    picture;
    /** Times of the last frame in milliseconds, and what was drawn and found. */
    last = null;
    #module;
    #size;
    #before = performance.now();
    #frames = 0;

    constructor(module, picture, size) {
        this.#module = module;
        this.#size = size;
        this.picture = picture;
    }

    /** Shows another scene. Where it can't be shown the one before stays. */
    async take(scene) {
        const { width, height } = this.#size;
        this.culling = await Culling.make(this.#module, scene, width, height);
        this.picture.take(scene);
        this.camera = new Camera(scene, width / height);
        this.scene = scene;
        part('name').textContent = `${scene.name} of ${written(scene.objects.length)} objects`;
    }

    /** Draws what is seen now. */
    draw() {
        const { camera, culling, picture } = this, clipFromScene = camera.clipFromScene();
        const found = culling.run(clipFromScene), start = performance.now();
        const drawn = picture.drawScene(clipFromScene, camera.place, isOn('culling') ? culling.verdicts : null);
        if (isOn('tiles')) picture.drawTiles(culling.tiles());
        picture.drawAbove(culling.verdicts, camera.place, camera.edges(this.scene.far * VIEW_LENGTH));
        this.last = { ...found, drawn, submit: performance.now() - start };
    }

    step(now) {
        // the first frame's time may be from before the show began, and the eye never moves backwards
        const passed = Math.max(0, now - this.#before);
        this.#before = now;
        this.camera.pass(Math.min(passed, MOST_PASSED) / 1000);
        part('fly').checked = this.camera.isFlying;
        this.draw();
        if (this.#frames++ % FRAMES_A_LINE === 0) this.#write(passed);
        requestAnimationFrame((time) => this.step(time));
    }

    /** How many pixels there are of objects that aren't visible by the verdicts, and what the picture has besides. */
    countPixels() {
        const clipFromScene = this.camera.clipFromScene(), { counts } = this.culling.run(clipFromScene);
        const pixels = this.picture.pixelsOfObjects(clipFromScene), { verdicts } = this.culling;
        const of = (isAsked) => pixels.filter((_, k) => isAsked(verdicts[k]));
        const sum = (numbers) => numbers.reduce((all, it) => all + it, 0);
        return {
            counts,
            culled: sum(of((verdict) => verdict !== VISIBLE)),
            visible: sum(of((verdict) => verdict === VISIBLE)),
            seen: of((verdict) => verdict === VISIBLE).filter((it) => it > 0).length,
        };
    }

    #write(passed) {
        const { counts, occluders, triangles, milliseconds, drawn, submit } = this.last;
        const [visible, occluded, outside] = [VISIBLE, OCCLUDED, OUTSIDE].map((verdict) => written(counts[verdict]));
        part('counts').textContent = `${visible} visible, ${occluded} occluded, ${outside} outside: `
            + `${written(drawn)} drawn`;
        const [draw, test, calls] = [milliseconds.draw, milliseconds.test, submit].map((it) => it.toFixed(1));
        part('times').textContent = `${occluders} occluders of ${written(triangles)} triangles ${draw} ms, `
            + `tests ${test} ms, calls of WebGL ${calls} ms, from frame to frame ${passed.toFixed(0)} ms`;
    }
}

function listen(show) {
    addEventListener('keydown', ({ code }) => show.camera.press(code));
    addEventListener('keyup', ({ code }) => show.camera.release(code));
    part('fly').addEventListener('change', () => { show.camera.isFlying = isOn('fly'); });
    part('count').addEventListener('click', () => {
        const { culled, counts } = show.countPixels(), objects = counts[OCCLUDED] + counts[OUTSIDE];
        part('counted').textContent = `${written(culled)} pixels of ${written(objects)} culled objects`;
    });
    addEventListener('dragover', (event) => event.preventDefault());
    addEventListener('drop', (event) => {
        event.preventDefault();
        const [file] = event.dataTransfer.files;
        if (file) file.arrayBuffer().then((bytes) => show.take(sceneOf(bytes, file.name))).then(calm, tell);
    });
}

function calm() {
    part('fault').hidden = true;
}

/** The size of the screen: the page's own, or what its address says, as ?width=640&height=360. */
function askedSize() {
    const asked = new URLSearchParams(location.search);
    return { width: Number(asked.get('width') ?? WIDTH), height: Number(asked.get('height') ?? HEIGHT) };
}

async function start() {
    const size = askedSize(), module = await loadModule(), scene = makeTown();
    await Culling.make(module, scene, size.width, size.height); // before a canvas gets a size that can't be
    const show = new Show(module, new Picture(part('picture'), size.width, size.height), size);
    await show.take(scene);
    listen(show);
    show.step(performance.now());
    return show;
}

addEventListener('error', ({ error, message }) => tell(error ?? message));
addEventListener('unhandledrejection', ({ reason }) => tell(reason));

/** The show once it has begun; undefined where it couldn't. */
export const show = await start().catch(tell);
