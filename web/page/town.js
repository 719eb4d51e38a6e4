// A scene that is made: buildings along streets, the same each time. Lengths are metres, y is upwards from the ground.
import { DROPS_CLOCKWISE } from '../maskcull.js';

const LOTS = 71; // along each side
const LOT = 22;
const LOTS_A_BLOCK = 4;
const STREET = 14;
const END = 1500; // of the ground, from the middle
// Occluders lie so far within what is drawn that no rounding takes them out of it.
const WITHIN = 0.25;
// Outside of a box: four sides, the top and the bottom, each counterclockwise as it is seen.
const FACES = [
    0, 6, 4, 0, 2, 6, 1, 7, 3, 1, 5, 7, 0, 5, 1, 0, 4, 5, 2, 7, 6, 2, 3, 7, 4, 7, 5, 4, 6, 7, 0, 3, 2, 0, 1, 3,
];

/** A source of numbers from 0 to below 1, the same for the same seed. */
function diceFrom(seed) {
    let state = seed;
    return () => {
        state = (Math.imul(state, 1664525) + 1013904223) >>> 0;
        return state / 4294967296;
    };
}

/** The eight corners of a box: of their number bit 0 is for x, bit 1 for z and bit 2 for y. */
function cornersOf([x0, y0, z0, x1, y1, z1]) {
    return [0, 1, 2, 3, 4, 5, 6, 7].flatMap((k) => [k & 1 ? x1 : x0, k & 4 ? y1 : y0, k & 2 ? z1 : z0]);
}

/** Where the lot with a number begins, along x or z. The middle of the town is 0. */
function lotStart(number) {
    const middle = (LOTS * LOT + Math.floor(LOTS / LOTS_A_BLOCK) * STREET) / 2;
    return number * LOT + Math.floor(number / LOTS_A_BLOCK) * STREET - middle;
}

/** The middle of the street before the block with a number. */
const streetMiddle = (block) => lotStart(LOTS_A_BLOCK * block) - STREET / 2;

function buildingOn(column, row, dice) {
    const [x, z] = [lotStart(column), lotStart(row)], sides = [3, 2, 1, 0].map(() => 0.5 + 4 * dice());
    const middle = Math.exp(-((x / 350) ** 2 + (z / 350) ** 2));
    const height = 6 + 12 * dice() + middle * 70 * dice() ** 2;
    return [x + sides[0], 0, z + sides[1], x + LOT - sides[2], height, z + LOT - sides[3]];
}

/** The way of the eye: along streets from crossing to crossing, and back to the first. */
function streetPath() {
    const crossings = [[2, 2], [2, 8], [8, 8], [8, 4], [14, 4], [14, 14], [10, 14], [10, 9], [5, 9], [5, 15], [1, 15],
        [1, 2]];
    return crossings.map(([column, row], k) => [streetMiddle(column), 4 + 9 * (k % 3), streetMiddle(row)]);
}

export function makeTown() {
    const dice = diceFrom(44), objects = [];
    for (let row = 0; row < LOTS; row++) {
        for (let column = 0; column < LOTS; column++) {
            const bounds = buildingOn(column, row, dice), [x0, y0, z0, x1, y1, z1] = bounds;
            const inner = [x0 + WITHIN, y0, z0 + WITHIN, x1 - WITHIN, y1 - WITHIN, z1 - WITHIN];
            objects.push({
                bounds,
                positions: Float32Array.from(cornersOf(bounds)),
                indices: Uint16Array.from(FACES),
                occluder: { positions: Float32Array.from(cornersOf(inner)), indices: Uint16Array.from(FACES) },
            });
        }
    }
    const corners = cornersOf([-END, 0, -END, END, 0, END]);
    const ground = { positions: Float32Array.from(corners), indices: [0, 3, 1, 0, 2, 3] };
    const path = streetPath();
    return { name: 'a town', near: 1, far: 4000, winding: DROPS_CLOCKWISE, objects, ground, path, speed: 25 };
}
