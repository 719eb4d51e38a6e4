// The wrapper's rounding beside doubles: what it calls hidden, or outside, isn't seen through the middle of any pixel.
// Three kinds of random frames: planes just behind a box, edges beside which a box just peeps out, and some walls with
// boxes among them. Wrong margins, edited into the wrapper, have to be found out.
import assert from 'node:assert/strict';
import fs from 'node:fs';
import * as wrapper from '../maskcull.js';
import { CLIP_FROM_VIEW, module } from './module.mjs';

const SCREENS = [[64, 32], [320, 180], [2048, 16]];
const NEAR = 7 / 8; // so that the module's near plane stands at 1
const UNIT = 1 / 1024;
// Whoever is seen is nearer by more than doubles lose.
const NEARER = 1 - 1e-9;

/** A source of numbers from 0 to below 1, the same for the same seed. */
function diceFrom(seed) {
    let state = seed >>> 0;
    return () => {
        state = (state + 0x6d2b79f5) >>> 0;
        let mixed = Math.imul(state ^ (state >>> 15), state | 1);
        mixed ^= mixed + Math.imul(mixed ^ (mixed >>> 7), mixed | 61);
        return ((mixed ^ (mixed >>> 14)) >>> 0) / 4294967296;
    };
}

const between = (dice, low, high) => low + (high - low) * dice();
const wholeBetween = (dice, low, high) => Math.floor(between(dice, low, high + 1));

/** Through the middle of a pixel: x / w and y / w. */
const rayOf = ({ width, height }, column, row) => [2 * (column + 0.5) / width - 1, 1 - 2 * (row + 0.5) / height];

const cross = (p, q) => [p[1] * q[2] - p[2] * q[1], p[2] * q[0] - p[0] * q[2], p[0] * q[1] - p[1] * q[0]];
const along = (p, [x, y]) => p[0] * x + p[1] * y + p[2];

/** A triangle of points in front of the eye: its sides as planes through the eye, and its own plane. */
function triangleOf(p, q, r) {
    const normal = cross(q.map((number, k) => number - p[k]), r.map((number, k) => number - p[k]));
    const level = normal[0] * p[0] + normal[1] * p[1] + normal[2] * p[2];
    return { sides: [cross(p, q), cross(q, r), cross(r, p)], normal, level };
}

/** Where a ray meets a triangle. */
function distanceOfTriangle({ sides, normal, level }, ray) {
    const [first, second, third] = [along(sides[0], ray), along(sides[1], ray), along(sides[2], ray)];
    const isInside = (first >= 0 && second >= 0 && third >= 0) || (first <= 0 && second <= 0 && third <= 0);
    return isInside ? level / along(normal, ray) : Infinity;
}

/** Where a ray enters a box. */
function distanceOfBox(box, ray) {
    let enters = box[2], leaves = box[5];
    for (const axis of [0, 1]) {
        const ends = [box[axis] / ray[axis], box[axis + 3] / ray[axis]].sort((a, b) => a - b);
        enters = Math.max(enters, ends[0]);
        leaves = Math.min(leaves, ends[1]);
    }
    return enters <= leaves ? enters : Infinity;
}

/** Whether a box is seen through the middle of a pixel. */
function isSeen(screen, triangles, box, column, row) {
    const ray = rayOf(screen, column, row), distance = distanceOfBox(box, ray);
    return distance < Infinity && triangles.every((it) => distance < distanceOfTriangle(it, ray) * NEARER);
}

/** Whether a box is seen through the middle of any pixel of the screen. */
function isSeenAtAll(screen, triangles, box) {
    const { width, height } = screen, pixels = [Infinity, Infinity, -Infinity, -Infinity];
    for (let k = 0; k < 8; k++) {
        const w = box[k & 4 ? 5 : 2];
        const place = [(1 + box[k & 1 ? 3 : 0] / w) * width / 2, (1 - box[k & 2 ? 4 : 1] / w) * height / 2];
        for (const axis of [0, 1]) {
            pixels[axis] = Math.min(pixels[axis], Math.floor(place[axis]));
            pixels[axis + 2] = Math.max(pixels[axis + 2], Math.ceil(place[axis]));
        }
    }
    for (let row = Math.max(0, pixels[1]); row < Math.min(height, pixels[3]); row++) {
        for (let column = Math.max(0, pixels[0]); column < Math.min(width, pixels[2]); column++) {
            if (isSeen(screen, triangles, box, column, row)) return true;
        }
    }
    return false;
}

/** Two triangles over four points, as floats have them. */
function quadOf(corners) {
    const positions = Float32Array.from(corners.flat());
    const points = [0, 1, 2, 3].map((k) => [...positions.subarray(3 * k, 3 * k + 3)]);
    const [a, b, c, d] = points;
    return { positions, points, triangles: [triangleOf(a, b, c), triangleOf(a, c, d)] };
}

const QUAD = Uint16Array.of(0, 1, 2, 0, 2, 3);

/** A wall that is wider than the view, with corners at distances that differ by a few units. */
function levelWall(dice) {
    const distance = between(dice, 1.2, 8), reach = 1.2 * distance;
    const corners = [[-1, 1], [1, 1], [1, -1], [-1, -1]];
    return quadOf(corners.map(([x, y]) => [x * reach, y * reach, distance + between(dice, -3, 3) * UNIT]));
}

/** A box with its front at a whole unit, not farther than the wall at some pixel. */
function boxBefore(dice, screen, { triangles }) {
    const column = wholeBetween(dice, 4, screen.width - 5), row = wholeBetween(dice, 4, screen.height - 5);
    const ray = rayOf(screen, column, row), wall = Math.min(...triangles.map((it) => distanceOfTriangle(it, ray)));
    const front = Math.floor(wall / UNIT) * UNIT, half = 0.3 / screen.width * front;
    const [x, y] = ray.map((number) => number * front);
    return [x - half, y - half, front, x + half, y + half, front + 1];
}

/** A wall of which an edge crosses the view. */
function edgeWall(dice) {
    const distance = between(dice, 1.1, 6), turn = between(dice, 0, 2 * Math.PI), shift = between(dice, -0.7, 0.7);
    const place = (out, across) => {
        const x = (shift + out) * Math.cos(turn) - across * Math.sin(turn);
        const y = (shift + out) * Math.sin(turn) + across * Math.cos(turn);
        const w = distance * between(dice, 0.9, 1.1);
        return [x * w, y * w, w];
    };
    return quadOf([place(0, -3), place(0, 3), place(-4, 3), place(-4, -3)]);
}

/** A pixel through whose middle a ray just misses a wall at its first side, and to which side the wall is. */
function pixelBeside(dice, screen, { triangles, points }) {
    const { width, height } = screen, slack = 0.03 + 0.25 * width / 2048; // of a pixel
    const isOpen = (ray) => triangles.every((it) => distanceOfTriangle(it, ray) === Infinity);
    for (let tries = 0; tries < 500; tries++) {
        const share = dice(), [x, y, w] = points[0].map((number, k) => number + share * (points[1][k] - number));
        const column = Math.floor((1 + x / w) * width / 2), row = Math.floor((1 - y / w) * height / 2);
        const right = dice() < 0.5 ? 1 : -1, up = dice() < 0.5 ? 1 : -1, ray = rayOf(screen, column, row);
        const isInside = column > 3 && row > 3 && column < width - 4 && row < height - 4;
        const inner = [ray[0] + right * slack * 2 / width, ray[1] + up * slack * 2 / height];
        if (isInside && isOpen(ray) && !isOpen(inner)) return { ray, right, up };
    }
    return null;
}

/** A small box behind a wall, with the middle of a pixel just beside the wall in a corner of it. */
function boxBeside(dice, screen, wall) {
    const far = between(dice, 20, 40), found = pixelBeside(dice, screen, wall);
    if (found === null) return null;
    const { ray, right, up } = found, wide = 2 / screen.width * far, high = 2 / screen.height * far;
    const [x, y] = ray.map((number) => number * far);
    const across = [x - right * 0.01 * wide, x + right * 0.8 * wide].sort((one, other) => one - other);
    const upwards = [y - up * 0.01 * high, y + up * 0.8 * high].sort((one, other) => one - other);
    return [across[0], upwards[0], far, across[1], upwards[1], far + 1];
}

function someWall(dice) {
    const distance = between(dice, 1.2, 12), [x, y] = [between(dice, -1, 1), between(dice, -1, 1)];
    const place = (across, up) => {
        const w = distance * between(dice, 0.7, 1.4);
        return [(x + across) * w, (y + up) * w, w];
    };
    const [wide, high] = [between(dice, 0.1, 1.5), between(dice, 0.1, 1.5)];
    return quadOf([place(-wide, high), place(wide, high), place(wide, -high), place(-wide, -high)]);
}

function someBox(dice) {
    const w = between(dice, 1.1, 25), [x, y] = [between(dice, -1.3, 1.3) * w, between(dice, -1.3, 1.3) * w];
    const half = between(dice, 0.002, 0.2) * w;
    return [x - half, y - half, w, x + half, y + half * between(dice, 0.2, 2), w + between(dice, 0, 2)];
}

// How many frames of each kind, what stands in one, and what is asked there.
const KINDS = {
    'planes behind a box': [60, levelWall, 1, boxBefore, 60],
    'edges beside a box': [60, edgeWall, 1, boxBeside, 60],
    'walls and boxes': [60, someWall, 12, (dice) => someBox(dice), 80],
};

/** A wall along the view and close beside the eye, all of it before the near distance: a renderer leaves it out. */
function wallBefore(dice) {
    const side = between(dice, 10, 60) * UNIT, turn = between(dice, 0.9, 1.1), near = NEAR * between(dice, 0.2, 0.6);
    const far = NEAR * between(dice, 0.97, 0.9999);
    return quadOf([[side, 1, near], [side * turn, 1, far], [side * turn, -1, far], [side, -1, near]]);
}

/** How many of so many walls before the near distance leave anything in the tiles. */
async function countDrawn({ Frame }, dice, walls) {
    const frame = await Frame.make(module, { width: 2048, height: 16, near: NEAR });
    let drawn = 0;
    for (let k = 0; k < walls; k++) {
        frame.clear();
        frame.draw(wallBefore(dice).positions, QUAD, CLIP_FROM_VIEW);
        if (frame.calls.tiles().some((number) => number !== 0)) drawn++;
    }
    return drawn;
}

/** Counts boxes that are called hidden or outside, those of them that are seen, and walls that are drawn unseen. */
export async function tally(edition, seed) {
    const { Frame, OCCLUDED, OUTSIDE } = edition, dice = diceFrom(seed);
    const counts = { asked: 0, occluded: 0, outside: 0, seen: 0, drawn: await countDrawn(edition, dice, 400) };
    for (const [frames, wall, walls, box, boxes] of Object.values(KINDS)) {
        for (let k = 0; k < frames; k++) {
            const [width, height] = SCREENS[k % SCREENS.length], screen = { width, height, near: NEAR };
            const frame = await Frame.make(module, screen), drawn = Array.from({ length: walls }, () => wall(dice));
            for (const { positions } of drawn) frame.draw(positions, QUAD, CLIP_FROM_VIEW);
            const triangles = drawn.flatMap((it) => it.triangles);
            for (let asked = 0; asked < boxes; asked++) {
                const bounds = box(dice, screen, drawn[0]);
                if (bounds === null) continue;
                const exact = Float32Array.from(bounds), verdict = frame.testBox(exact, CLIP_FROM_VIEW);
                counts.asked++;
                if (verdict === OCCLUDED) counts.occluded++;
                else if (verdict === OUTSIDE) counts.outside++;
                else continue;
                if (isSeenAtAll(screen, triangles, exact)) counts.seen++;
            }
        }
    }
    return counts;
}

// A line of the wrapper, and what it gets in place of it.
const EDITS = [
    ['a rectangle that isn\'t widened', '0.5 + pixels * 0.5 / FINEST + 1 / 16 + 1 / 1024', '0'],
    ['occluders rounded towards the eye', 'Math.ceil(point.w * this.#factors[k])', 'Math.floor(point.w)'],
    ['an object as far as its last corner', 'nearest = Math.min(nearest, w)', 'nearest = w'],
    ['a near plane at the near distance', 'BEYOND_NEAR = 8 / 7', 'BEYOND_NEAR = 1'],
    ['sides of a narrower view', '(x > right * w ? 1', '(x > 0.9 * w ? 1'],
];

/** The wrapper with an edit in it. */
function edited(old, text) {
    const source = fs.readFileSync(new URL('../maskcull.js', import.meta.url), 'utf8');
    assert.equal(source.split(old).length, 2, old);
    const whole = source.replace(old, text).replaceAll('./calls.js', String(new URL('../calls.js', import.meta.url)));
    return import(`data:text/javascript,${encodeURIComponent(whole)}`);
}

export async function checkRounding() {
    const { asked, occluded, outside, seen, drawn } = await tally(wrapper, 1);
    assert.equal(seen, 0, `${seen} boxes are seen that are called hidden or outside`);
    assert.equal(drawn, 0, `${drawn} walls before the near distance are drawn`);
    assert(occluded > 500 && outside > 500, `${occluded} are occluded and ${outside} outside`);
    console.log(`${asked} boxes beside doubles: ${occluded} occluded and ${outside} outside, none of them seen`);
    for (const [what, old, text] of EDITS) {
        const found = await tally(await edited(old, text), 1);
        assert(found.seen + found.drawn > 0, `${what} isn't found out`);
        console.log(`found out: ${what}, by ${found.seen} boxes and ${found.drawn} walls`);
    }
}
