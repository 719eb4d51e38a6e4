// examples/c/street.cpp once more, by the wrapper: as many crates have to be hidden at each place of the camera.
import assert from 'node:assert/strict';
import fs from 'node:fs';
import { Frame, OCCLUDED } from '../maskcull.js';
import { module } from './module.mjs';

const FOOT = -3, HEAD = 5;
// left, right and both ends along the street of each wall
const WALLS = [[-7, -7, -10, 120], [3, 3, -10, 120], ...[20, 40, 60, 80].map((z) => [-7, -2, z, z])];
// of the first of each row of four: left, right, front and depth
const ROWS = [[-6, -5, 25, 2], [-11, -9, 32, 2], [5, 7, 32, 2], [1.5, 2.5, 30, 1]];

function cratesOf([left, right, front, depth]) {
    return [0, 20, 40, 60].flatMap((along) => [left, -1.6, front + along, right, -0.6, front + along + depth]);
}

function wallsOf([x0, x1, z0, z1]) {
    return [x0, HEAD, z0, x1, HEAD, z1, x1, FOOT, z1, x0, FOOT, z0];
}

export async function checkStreet() {
    const frame = await Frame.make(module, { width: 1280, height: 640, near: 0.1 });
    const positions = Float32Array.from(WALLS.flatMap(wallsOf)), crates = Float32Array.from(ROWS.flatMap(cratesOf));
    const indices = Uint16Array.from(WALLS.flatMap((_, k) => [0, 1, 2, 0, 2, 3].map((corner) => 4 * k + corner)));
    const lines = [0, 10, 18, 22, 30, 38].map((camera) => {
        const clipFromStreet = [1, 0, 0, 0, 0, 2, 0, 0, 0, 0, 0, 1, 0, 0, 0, -camera];
        frame.clear();
        frame.draw(positions, indices, clipFromStreet);
        const hidden = frame.testBoxes(crates, clipFromStreet).filter((verdict) => verdict === OCCLUDED).length;
        return `at ${camera}: ${hidden} of ${crates.length / 6} crates are hidden`;
    });
    const expected = fs.readFileSync(new URL('../../examples/c/street.stdout', import.meta.url), 'utf8').trimEnd();
    assert.deepEqual(lines, expected.split('\n').map((line) => line.split(';')[0]));
    console.log(`examples/c/street.cpp: ${lines.length} lines agree`);
}
