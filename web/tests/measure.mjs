// How long calls take, in node or in a browser: the least of some rounds. The triangles are those of
// examples/c/measure.c, so its times by one thread are to be compared. Measure on a quiet machine.
//
//     node [--experimental-wasm-memory64] web/tests/measure.mjs [MODULE]    a file's name in web/out
import { Calls, Frame, OCCLUDED, loadModule } from '../maskcull.js';

const WIDTH = 1280, HEIGHT = 720, NEAR = 16, TRIANGLES = 20000, ROUNDS = 15;
const BOXES = 5000;

/** The draws of measure.c: a source of whole numbers from 0 to below an end. */
function drawsFrom(seed) {
    let state = BigInt(seed);
    return (end) => {
        state = BigInt.asUintN(64, state * 6364136223846793005n + 1442695040888963407n);
        return Number((state >> 33n) % BigInt(end));
    };
}

function trianglesOfDemo() {
    const below = drawsFrom(1), vertices = new Int32Array(9 * TRIANGLES);
    for (let k = 0; k < vertices.length; k += 9) {
        const x = below(16001) - 8000, y = below(4001) - 2000, z = 200 + below(16000);
        for (let corner = k; corner < k + 9; corner += 3) {
            vertices[corner] = Math.floor(36864 * (x + below(801) - 400) / 65536);
            vertices[corner + 1] = y + below(801) - 400;
            vertices[corner + 2] = z + below(201) - 100;
        }
    }
    return vertices;
}

/** The least time of so many calls in some rounds, in milliseconds a call. */
function least(call, count = 1, before = () => {}) {
    let best = Infinity;
    for (let round = 0; round < ROUNDS; round++) {
        before();
        const start = performance.now();
        for (let k = 0; k < count; k++) call();
        best = Math.min(best, (performance.now() - start) / count);
    }
    return best;
}

async function timesOfCalls(module, vertices) {
    const calls = await Calls.make(module, { width: WIDTH, height: HEIGHT, near: NEAR });
    const room = calls.room(3 * TRIANGLES, TRIANGLES);
    room.vertices.set(vertices);
    room.triangles.forEach((_, k) => { room.triangles[k] = k; });
    const clear = () => calls.clear(), draw = (count) => calls.drawRoom(count);
    const times = {
        '20,000 triangles, ms': least(() => { clear(); draw(TRIANGLES); }),
        '1,000 triangles, ms': least(() => draw(1000), 1, clear),
        'a draw of no triangle, ns': 1e6 * least(() => draw(0), 20000),
    };
    calls.clear();
    calls.draw(Int32Array.of(-32, 32, 32, 32, 32, 32, 32, -32, 32, -32, -32, 32), Uint32Array.of(0, 1, 2, 0, 2, 3));
    times['a test of 64 by 64 hidden pixels, ns'] = 1e6 * least(() => calls.test(612, 333, 676, 397, 1 << 24), 20000);
    return times;
}

/** Boxes in rows one behind another, most of them behind a wall. */
function boxes() {
    const bounds = new Float32Array(6 * BOXES);
    for (let k = 0; k < BOXES; k++) {
        const x = k % 100 - 50, z = 40 + 4 * Math.floor(k / 100);
        bounds.set([x, -1, z, x + 0.8, 1, z + 0.8], 6 * k);
    }
    return bounds;
}

async function timesOfFloats(module, vertices) {
    const clipFromView = [1, 0, 0, 0, 0, 1, 0, 0, 0, 0, 0, 1, 0, 0, 0, 0];
    const frame = await Frame.make(module, { width: WIDTH, height: HEIGHT, near: NEAR });
    const positions = Float32Array.from(vertices), indices = Uint32Array.from({ length: 3 * TRIANGLES }, (_, k) => k);
    const times = {
        '20,000 triangles in floats, ms': least(() => { frame.clear(); frame.draw(positions, indices, clipFromView); }),
    };
    const view = await Frame.make(module, { width: WIDTH, height: HEIGHT, near: 0.1 }), bounds = boxes();
    const wall = Float32Array.of(-25, 8, 30, 25, 8, 30, 25, -8, 30, -25, -8, 30), verdicts = new Uint8Array(BOXES);
    view.draw(wall, Uint16Array.of(0, 1, 2, 0, 2, 3), clipFromView);
    times['5,000 boxes, ms'] = least(() => view.testBoxes(bounds, clipFromView, verdicts));
    times['of these are hidden'] = verdicts.filter((verdict) => verdict === OCCLUDED).length;
    return times;
}

/** Times by what was measured. */
export async function measure(module) {
    const vertices = trianglesOfDemo();
    return { ...await timesOfCalls(module, vertices), ...await timesOfFloats(module, vertices) };
}

if (typeof process === 'object') {
    const fs = await import('node:fs');
    const [file = 'maskcull.wasm'] = process.argv.slice(2);
    const module = await loadModule(fs.readFileSync(new URL(`../out/${file}`, import.meta.url)));
    const times = Object.entries(await measure(module));
    for (const [what, time] of times) console.log(`${what}: ${Number(time.toPrecision(3))}`);
}
