// examples/c/first.c once more, call by call on the module itself: what it prints has to come out.
import assert from 'node:assert/strict';
import fs from 'node:fs';
import { KEEPS_BOTH, WIDE, growBy } from '../calls.js';
import { module } from './module.mjs';

const WIDTH = 64, HEIGHT = 32, NEAR = 16, TILES = 8, TILE_ROWS = 4, TILE_BYTES = 100;
const PIECE_BYTES = 36, TRIANGLE_BYTES = 12;
const WALL = [-48, 48, 48, 0, 48, 48, 0, -48, 48, -48, -48, 48]; // clockwise from the upper left corner
const FAR_WALL = [-4000, 4000, 4000, 0, 4000, 4000, 0, -4000, 4000, -4000, -4000, 4000];
const QUAD = [0, 1, 2, 0, 2, 3];
const WORDS = {
    0: 'done', 1: 'bad setup', 2: 'bad tiles', 3: 'bad index', 5: 'bad room',
    16: 'visible', 17: 'occluded', 18: 'outside',
};

const { exports } = await WebAssembly.instantiate(module, {});
const lines = [];
let end = Number(exports.__heap_base.value); // of what is in use: up to here it is the module's own
growBy(exports.memory, 1);

const say = (what, status) => lines.push(`${what}: ${WORDS[status]}`);
const sayWhether = (what, isSo) => lines.push(`${what}: ${isSo ? 'yes' : 'no'}`);

/** Where some numbers stand in the memory from now on. */
function placed(numbers) {
    const address = Math.ceil(end / 4) * 4;
    end = address + 4 * numbers.length;
    new Int32Array(exports.memory.buffer).set(numbers, address / 4);
    return BigInt(address);
}

const emptyTiles = () => placed(new Int32Array(TILES * TILE_BYTES / 4));
const bytesOf = (tiles) => new Uint8Array(exports.memory.buffer, Number(tiles), TILES * TILE_BYTES).slice();
const areSame = (some, others) => Buffer.compare(some, others) === 0;

const setup = placed([WIDTH, HEIGHT, NEAR, 0]);
const tiles = emptyTiles();
const wall = placed(WALL), quad = placed(QUAD);
const count = BigInt(TILES), drawn = [wall, 4n, quad, 2n];

function saySubtile(what, tile, of = tiles) {
    const held = placed([0, 0, 0]);
    exports.maskcull_subtile(held, of, count, tile, 0);
    const [reference, working, mask] = new Uint32Array(exports.memory.buffer, Number(held), 3);
    lines.push(`${what}: ${reference} ${working} ${mask.toString(16).padStart(8, '0')}`);
}

const testArea = (area, w) => exports.maskcull_test(setup, tiles, count, placed(area), w);

function testAreas() {
    const over = [4, 4, 28, 28];
    say('an area behind the wall', testArea(over, 96));
    say('a little behind it', testArea(over, 49));
    say('as near as the wall', testArea(over, 48));
    say('in front of it', testArea(over, 24));
    say('before the near distance', testArea(over, 15));
    say('behind, but past the wall\'s end', testArea([28, 4, 36, 12], 96));
    say('behind, and past the screen\'s corner', testArea([-9, -9, 9, 9], 96));
    say('beside the screen', testArea([64, 0, 70, 4], 96));
}

function testBox(nearW, farW) {
    const unit = Math.trunc(farW / 4), corners = [];
    for (let k = 0; k < 8; k++) corners.push(k & 1 ? -unit : -2 * unit, k & 2 ? -unit : unit, k & 4 ? nearW : farW);
    return exports.maskcull_test_box(setup, tiles, count, placed(corners));
}

function testBoxes() {
    say('a box behind the wall', testBox(96, 128));
    say('a box in front of it', testBox(24, 32));
    say('a box that the near plane cuts', testBox(8, 128));
    say('a box behind the near plane', testBox(6, 8));
}

function testQuad(left, right) {
    const corners = [-left / 2, left / 2, left, -right / 4, right / 2, right, -right / 4, -right / 2, right,
        -left / 2, -left / 2, left];
    return exports.maskcull_test_mesh(setup, tiles, count, placed(corners), 4n, quad, 2n);
}

function testMeshes() {
    say('a mesh behind the wall', testQuad(96, 96));
    say('a mesh that runs into it', testQuad(96, 24));
    say('a mesh behind the near plane', testQuad(8, 8));
    say('a mesh without a triangle', exports.maskcull_test_mesh(setup, tiles, count, wall, 4n, quad, 0n));
}

function beRefused() {
    const before = bytesOf(tiles), odd = placed([60, HEIGHT, NEAR, 0]);
    say('a width of 60', exports.maskcull_draw(odd, tiles, count, ...drawn));
    say('a tile too few', exports.maskcull_draw(setup, tiles, count - 1n, ...drawn));
    say('three vertices of four', exports.maskcull_draw(setup, tiles, count, wall, 3n, quad, 2n));
    say('a band past the last row', exports.maskcull_draw_band(setup, tiles, count, 1, ...drawn));
    say('no vertices, and no triangles', exports.maskcull_draw(setup, tiles, count, wall, 0n, quad, 0n));
    sayWhether('the tiles are as they were', areSame(before, bytesOf(tiles)));
}

function drawByBands() {
    const upper = emptyTiles(), lower = upper + BigInt(TILES / 2 * TILE_BYTES), half = count / 2n;
    say('the upper band', exports.maskcull_draw_band(setup, upper, half, 0, ...drawn));
    say('the lower band', exports.maskcull_draw_band(setup, lower, half, TILE_ROWS / 2, ...drawn));
    sayWhether('both make the same tiles', areSame(bytesOf(upper), bytesOf(tiles)));
}

/** Sets some of the wall's triangles up into room for so many pieces: how many there are stands at a place. */
function setUp(what, first, triangles, pieces, room, listed) {
    const from = quad + BigInt(TRIANGLE_BYTES * first);
    say(what, exports.maskcull_set_up(setup, wall, 4n, from, BigInt(triangles), pieces, BigInt(room), listed));
    return new BigUint64Array(exports.memory.buffer, Number(listed), 1)[0];
}

function drawByPieces() {
    const anew = emptyTiles(), half = count / 2n, pieces = placed(new Int32Array(4 * PIECE_BYTES / 4));
    const listed = (placed([0, 0, 0]) + 7n) / 8n * 8n, behind = pieces + BigInt(2 * PIECE_BYTES);
    setUp('room for one piece too few', 0, 2, pieces, 3, listed);
    const first = setUp('the first triangle', 0, 1, pieces, 2, listed);
    const second = setUp('the second triangle', 1, 1, behind, 2, listed);
    lines.push(`pieces: ${first} and ${second}`);
    say('onto a row too many', exports.maskcull_draw_pieces(setup, anew, count, 1, pieces, first));
    for (const row of [0, TILE_ROWS / 2]) {
        const rows = row === 0 ? anew : anew + BigInt(TILES / 2 * TILE_BYTES);
        say('the first piece onto a band', exports.maskcull_draw_pieces(setup, rows, half, row, pieces, first));
        say('the second piece onto it', exports.maskcull_draw_pieces(setup, rows, half, row, behind, second));
    }
    sayWhether('they make the same tiles', areSame(bytesOf(anew), bytesOf(tiles)));
    const none = setUp('no pieces at all', 0, 0, pieces, 0, listed);
    say('and none drawn', exports.maskcull_draw_pieces(setup, anew, count, 0, pieces, none));
}

function showPicture() {
    const stride = WIDTH + 4, elements = (HEIGHT - 1) * stride + WIDTH;
    const out = placed(new Int32Array(Math.ceil(elements / 2)));
    const picture = new Uint16Array(exports.memory.buffer, Number(out), elements).fill(7);
    const show = (what, room, apart) => say(what,
        exports.maskcull_nearness(setup, tiles, count, out, BigInt(room), BigInt(apart)));
    show('rows shorter than the screen', elements, WIDTH - 1);
    show('an element too few', elements - 1, stride);
    show('a picture', elements, stride);
    sayWhether('it shows the wall alone', picture.every((shade, i) =>
        shade === (i % stride < WIDTH / 2 ? 21845 : i % stride < WIDTH ? 0 : 7)));
}

function tellDistancesApart(grade, winding) {
    const chosen = placed([WIDTH, HEIGHT, NEAR, winding]), over = placed([4, 4, 28, 28]), anew = emptyTiles();
    lines.push(grade);
    say('a wall far off', exports.maskcull_draw(chosen, anew, count, placed(FAR_WALL), 4n, quad, 2n));
    saySubtile('the first subtile', 0n, anew);
    say('an area a little behind it', exports.maskcull_test(chosen, anew, count, over, 4001));
    say('as near as it', exports.maskcull_test(chosen, anew, count, over, 4000));
}

export function checkFirst() {
    lines.push(`tiles: ${exports.maskcull_tile_count(WIDTH, HEIGHT)}, of a width of 60: `
        + `${exports.maskcull_tile_count(60, HEIGHT)}`);
    say('before the wall is drawn', testArea([0, 0, 8, 4], 96));
    say('drawn', exports.maskcull_draw(setup, tiles, count, ...drawn));
    saySubtile('the first subtile', 0n);
    saySubtile('the first of the right half', 1n);
    saySubtile('one that isn\'t there', count);
    testAreas();
    testBoxes();
    testMeshes();
    beRefused();
    drawByBands();
    drawByPieces();
    showPicture();
    exports.maskcull_clear(tiles, count);
    sayWhether('a cleared tile is zero bytes', bytesOf(tiles).every((byte) => byte === 0));
    tellDistancesApart('narrow', KEEPS_BOTH);
    tellDistancesApart('wide', KEEPS_BOTH + WIDE);
    say('wide, with a winding of 3', exports.maskcull_draw(placed([WIDTH, HEIGHT, NEAR, 3 + WIDE]), tiles, count,
        ...drawn));
    // The line with null is of inline code in maskcull.h.
    const expected = fs.readFileSync(new URL('../../examples/c/first.stdout', import.meta.url), 'utf8').trimEnd();
    assert.deepEqual(lines, expected.split('\n').filter((line) => !line.endsWith(': null')));
    console.log(`examples/c/first.c: ${lines.length} lines agree`);
}
