// A module that web/build made: its size, what it exports and imports, and that the greatest of everything has room.
import assert from 'node:assert/strict';
import fs from 'node:fs';
import { Frame, VISIBLE, loadModule } from '../maskcull.js';

export const CLIP_FROM_VIEW = [1, 0, 0, 0, 0, 1, 0, 0, 0, 0, 0, 1, 0, 0, 0, 0]; // x, y and w of (x, y, z)

const [file = 'maskcull.wasm'] = process.argv.slice(4);
export const bytes = fs.readFileSync(new URL(`../out/${file}`, import.meta.url));
export const module = await loadModule(bytes);

const CALLS = ['maskcull_clear', 'maskcull_draw', 'maskcull_draw_band', 'maskcull_draw_pieces', 'maskcull_nearness',
    'maskcull_set_up', 'maskcull_set_up_floats', 'maskcull_subtile', 'maskcull_test', 'maskcull_test_box',
    'maskcull_test_box_floats', 'maskcull_test_mesh', 'maskcull_test_mesh_floats', 'maskcull_tile_count'];
const MOST_BYTES = 200000;

export function checkModule() {
    const names = WebAssembly.Module.exports(module).map(({ name, kind }) => `${name} (${kind})`).sort();
    assert.deepEqual(names, ['__heap_base (global)', ...CALLS.map((name) => `${name} (function)`), 'memory (memory)']);
    assert.deepEqual(WebAssembly.Module.imports(module), []);
    assert(bytes.length <= MOST_BYTES);
    console.log(`${file} has ${bytes.length} bytes, exports ${names.join(', ')}, and imports nothing`);
}

/** Makes a call in an engine with 64-bit memories, or without. */
export async function withMemories(areLarge, call) {
    const { validate } = WebAssembly;
    WebAssembly.validate = () => areLarge;
    return call().finally(() => { WebAssembly.validate = validate; });
}

/** Where no module is named, the wrapper takes the one that the engine can run. */
export async function checkChoice() {
    const { fetch } = globalThis, empty = Uint8Array.of(0, 0x61, 0x73, 0x6d, 1, 0, 0, 0);
    let taken;
    globalThis.fetch = async (place) => {
        taken = place.href;
        return new Response(empty);
    };
    for (const [areLarge, name] of [[true, 'maskcull.wasm'], [false, 'maskcull32.wasm']]) {
        await withMemories(areLarge, loadModule);
        assert.equal(taken, new URL(`../out/${name}`, import.meta.url).href);
    }
    globalThis.fetch = fetch;
    console.log('the module that is taken is the one for the engine');
}

/** The greatest screen, and as many vertices and triangles as a scene of the program may have. */
export async function checkRoom() {
    const frame = await Frame.make(module, { width: 2048, height: 2048, near: 7 / 8 });
    const positions = new Float32Array(3 * 262144).fill(2), indices = new Uint32Array(3 * 65536);
    positions.set([-4, -4, 2, 4, -4, 2, 4, 4, 2, -4, 4, 2]);
    indices.fill(262143).set([0, 1, 2, 0, 2, 3], indices.length - 6);
    assert.equal(frame.testBox([-1, -1, 3, 1, 1, 4], CLIP_FROM_VIEW), VISIBLE);
    frame.draw(positions, indices, CLIP_FROM_VIEW);
    const middle = frame.calls.tileCount / 2;
    // at twice the near distance, and from there no farther than rounding takes it
    const { reference } = frame.calls.subtile(middle, 0);
    assert(reference <= 65535 / 2 && reference > 65535 / 2 - 64, `reference ${reference}`);
    console.log('2048 by 2048 pixels, 262,144 vertices and 65,536 triangles have room');
}
