// maskcull in the browser: finds, before a frame is rendered, which objects are hidden behind others. No build step, no
// other library.
//
//     import { Frame, VISIBLE, loadModule } from './maskcull.js';
//
//     const frame = await Frame.make(await loadModule(), { width: 1280, height: 720, near: 0.1 });
//     frame.clear();                                                                   // each frame
//     frame.draw(wall.positions, wall.indices, clipFromWorld);
//     if (frame.testBox(house.bounds, clipFromWorld) === VISIBLE) drawTheHouse();
//
// This layer takes floats and makes calls in whole numbers (calls.js), which run in a proved module. No proof covers
// this layer. It rounds so that an occluder is never nearer and an object never farther than it is, and tests an object
// as a little wider than it is. An occluder with a point that is no number, or too far, isn't drawn; an object with one
// is visible.
//
// A matrix takes (x, y, z, 1) to clip space. It has 16 numbers, column by column, as in WebGL and in three.js:
// projection times view times model. The projection has to be a perspective; with any other nothing is hidden. What
// shows only through a slit between two occluders, or between one and the screen's edge, may be called hidden if the
// slit is narrower than a pixel of the frame, since a pixel is tested at its centre; or narrower than three pixels if
// the occluders are at the near plane and rounding moves their edges. So make the frame as large as the picture, or let
// occluders lie within what is drawn.
import { Calls, MaskcullError, NARROW, OCCLUDED, OUTSIDE, VISIBLE, countOf, demandAmong, start } from './calls.js';

export {
    Calls, DROPS_CLOCKWISE, DROPS_COUNTERCLOCKWISE, KEEPS_BOTH, MaskcullError, NARROW, OCCLUDED, OUTSIDE, VISIBLE, WIDE,
    loadModule,
} from './calls.js';

/** @typedef {import('./calls.js').Screen} Screen */

/**
 * @param {string} name
 * @param {ArrayLike<number>} numbers
 * @param {number} length
 */
function demandLength(name, numbers, length) {
    if (numbers?.length === length) return;
    throw new MaskcullError('array', `${name} has ${length} numbers, and this one ${numbers?.length ?? 'none'}.`);
}

// The module's near plane stands a little beyond the near distance. What is drawn of a triangle is up to 1/15 further
// from the eye than the triangle, and rounding adds less than 1/16: so no part is drawn of what a renderer, which cuts
// at the near distance, leaves out.
const BEYOND_NEAR = 8 / 7;
// The greatest near distance there is, so the finest whole numbers: a unit is 1/1024 of the module's.
const FINEST = 1024;
// Further from 0 than the guard, 16384 times FINEST, and well within 32 bits.
const MOST = 1e9;
// Past the guard, where the module drops a triangle.
const PAST_GUARD = 0x7fffffff;
// As much as a triangle may have to be moved away from the eye. One that is seen more from its edge is dropped.
const STEEPEST = 1 / 16;

/** @typedef {{ x: number, y: number, w: number }} Point in clip space, in units */

/**
 * In pixels: half of one to the sample in its middle; a coordinate of an occluder moves by half a unit and, where the
 * near plane cuts, w by another half, at w = FINEST or more; the module rounds to a sixteenth; and what doubles lose.
 * @param {number} pixels
 */
const margin = (pixels) => 0.5 + pixels * 0.5 / FINEST + 1 / 16 + 1 / 1024;

/**
 * @param {ArrayLike<number>} points
 * @param {number} k
 * @returns {Point}
 */
const pointAt = (points, k) => ({ x: points[3 * k], y: points[3 * k + 1], w: points[3 * k + 2] });

/**
 * @param {Point} p
 * @param {Point} q
 * @returns {Point}
 */
const minus = (p, q) => ({ x: p.x - q.x, y: p.y - q.y, w: p.w - q.w });

/**
 * @param {Point} p
 * @param {Point} q
 * @returns {Point}
 */
const cross = (p, q) => ({ x: p.y * q.w - p.w * q.y, y: p.w * q.x - p.x * q.w, w: p.x * q.y - p.y * q.x });

/**
 * @param {Point} p
 * @param {Point} q
 */
const dot = (p, q) => p.x * q.x + p.y * q.y + p.w * q.w;

/** @param {Point} p */
const size = (p) => Math.max(Math.abs(p.x), Math.abs(p.y), Math.abs(p.w));

/**
 * @param {Float64Array} points
 * @param {number} place
 * @param {Float64Array} rows
 * @param {number} x
 * @param {number} y
 * @param {number} z
 */
function setPoint(points, place, rows, x, y, z) {
    points[place] = rows[0] * x + rows[1] * y + rows[2] * z + rows[3];
    points[place + 1] = rows[4] * x + rows[5] * y + rows[6] * z + rows[7];
    points[place + 2] = rows[8] * x + rows[9] * y + rows[10] * z + rows[11];
}

/**
 * By which sides of the view all of some points are out of it, as bits: right of `right` screens, left of it, above
 * `top` screens, below, or behind the eye. All between the points is so too. -1 where one is no finite number.
 * @param {Float64Array} points
 * @param {number} count
 * @param {number} right
 * @param {number} top
 */
function sidesOf(points, count, right, top) {
    let sides = 31;
    for (let k = 0; k < 3 * count; k += 3) {
        const x = points[k], y = points[k + 1], w = points[k + 2];
        if (!(Math.abs(x) < Infinity && Math.abs(y) < Infinity && Math.abs(w) < Infinity)) return -1;
        sides &= (x > right * w ? 1 : 0) | (-x > right * w ? 2 : 0) | (y > top * w ? 4 : 0) | (-y > top * w ? 8 : 0)
            | (w <= 0 ? 16 : 0);
    }
    return sides;
}

/**
 * A screen's tiles, for coordinates in floats: a matrix takes what is drawn and tested to clip space.
 */
export class Frame {
    /** The calls beneath, in units of 1/1024 of 8/7 of the near distance. */
    calls;
    #scale;
    // The rows of the matrix in use for x, y and w; the points of a mesh by this matrix, by how much each is moved, and
    // the points that are tested.
    #rows = new Float64Array(12);
    #points = new Float64Array(0);
    #factors = new Float64Array(0);
    #hull = new Float64Array(24);

    /**
     * @param {WebAssembly.Module} module
     * @param {Screen} screen near: that of the camera. Occluders reach from 8/7 of it to 16384 times as far.
     */
    static async make(module, screen) {
        return new Frame(await start(module), screen);
    }

    /**
     * @param {any} exports of an instance of the module that nobody else uses
     * @param {Screen} screen
     */
    constructor(exports, screen) {
        this.#scale = FINEST / (BEYOND_NEAR * screen.near);
        if (!(this.#scale > 0 && this.#scale < Infinity)) {
            throw new MaskcullError('near', `A near distance of ${screen.near} can't be: it is a number above 0.`);
        }
        this.calls = new Calls(exports, { ...screen, near: FINEST, grade: NARROW });
    }

    /** Empties all tiles. */
    clear() {
        this.calls.clear();
    }

    /**
     * Draws occluder triangles, after all that were drawn before. Those with a point that is no number or further than
     * 16384 near distances are left out, and those that are seen too nearly edge-on to say how far they are.
     * @param {Float32Array} positions x, y and z of each vertex
     * @param {Uint16Array | Uint32Array} indices the numbers of three vertices for each triangle
     * @param {ArrayLike<number>} matrix from positions to clip space
     */
    draw(positions, indices, matrix) {
        const [vertexCount, triangleCount] = this.#toClip(positions, indices, matrix);
        const { vertices, triangles } = this.calls.room(vertexCount, triangleCount);
        this.#factors.fill(1, 0, vertexCount);
        let kept = 0;
        for (let k = 0; k < indices.length; k += 3) {
            if (!this.#stretch(indices[k], indices[k + 1], indices[k + 2])) continue;
            triangles[kept] = indices[k];
            triangles[kept + 1] = indices[k + 1];
            triangles[kept + 2] = indices[k + 2];
            kept += 3;
        }
        for (let k = 0; k < vertexCount; k++) this.#setFarther(vertices, k);
        this.calls.drawRoom(kept / 3);
    }

    /**
     * The verdict of all within a box. It is visible too if a corner is nearer than 8/7 of the near distance and not
     * all of the box is beside the screen or behind the eye.
     * @param {ArrayLike<number>} bounds the least x, y and z and the greatest ones
     * @param {ArrayLike<number>} matrix from the box to clip space
     * @returns {number}
     */
    testBox(bounds, matrix) {
        this.#take(matrix);
        demandLength('A box', bounds, 6);
        return this.#boxVerdict(bounds, 0);
    }

    /**
     * The verdicts of many boxes.
     * @param {Float32Array} bounds of each the least x, y and z and the greatest ones
     * @param {ArrayLike<number>} matrix from the boxes to clip space
     * @param {Uint8Array} [verdicts] is filled, if it is given
     */
    testBoxes(bounds, matrix, verdicts) {
        this.#take(matrix);
        const count = countOf('bounds', bounds, [Float32Array], 6);
        const filled = verdicts ?? new Uint8Array(count), room = countOf('verdicts', filled, [Uint8Array], 1);
        if (room < count) throw new MaskcullError('array', `There is room for ${room} verdicts, of ${count} boxes.`);
        for (let k = 0; k < count; k++) filled[k] = this.#boxVerdict(bounds, 6 * k);
        return filled;
    }

    /**
     * The verdict of a mesh. Each triangle is tested as the rectangle around it: sharper than a box, and slower.
     * @param {Float32Array} positions x, y and z of each vertex
     * @param {Uint16Array | Uint32Array} indices the numbers of three vertices for each triangle
     * @param {ArrayLike<number>} matrix from positions to clip space
     */
    testMesh(positions, indices, matrix) {
        this.#toClip(positions, indices, matrix);
        let found = OUTSIDE;
        for (let k = 0; k < indices.length; k += 3) {
            for (let corner = 0; corner < 3; corner++) {
                const first = 3 * indices[k + corner];
                this.#hull.set(this.#points.subarray(first, first + 3), 3 * corner);
            }
            const verdict = this.#hullVerdict(3);
            if (verdict === VISIBLE) return VISIBLE;
            if (verdict === OCCLUDED) found = OCCLUDED;
        }
        return found;
    }

    /**
     * Takes a mesh to clip space, and tells how many vertices and triangles it has.
     * @param {Float32Array} positions
     * @param {Uint16Array | Uint32Array} indices
     * @param {ArrayLike<number>} matrix
     */
    #toClip(positions, indices, matrix) {
        this.#take(matrix);
        const vertexCount = countOf('positions', positions, [Float32Array], 3);
        const triangleCount = countOf('indices', indices, [Uint16Array, Uint32Array], 3);
        demandAmong(indices, vertexCount);
        if (this.#factors.length < vertexCount) {
            this.#points = new Float64Array(3 * vertexCount);
            this.#factors = new Float64Array(vertexCount);
        }
        for (let k = 0; k < positions.length; k += 3) {
            setPoint(this.#points, k, this.#rows, positions[k], positions[k + 1], positions[k + 2]);
        }
        return [vertexCount, triangleCount];
    }

    /** @param {ArrayLike<number>} matrix */
    #take(matrix) {
        demandLength('A matrix', matrix, 16);
        for (let k = 0; k < 12; k++) {
            const row = [0, 1, 3][Math.floor(k / 4)];
            this.#rows[k] = matrix[row + 4 * (k % 4)] * this.#scale;
        }
    }

    // A triangle's plane is a x + b y + c w = 1. Rounding moves a vertex by up to half a unit along each axis, which
    // lowers the left side by `rounding` at most, and snapping by a sixteenth of a pixel at most, which lowers it by
    // w * `snapping`. So a vertex that is taken away from the eye by its factor has a left side of 1 at least: no point
    // of the drawn triangle is nearer than the plane there. A vertex of more triangles takes their greatest factor, so
    // that neighbours keep their common edge without a gap.
    /**
     * Whether a triangle can be drawn; then its vertices are moved by enough.
     * @param {number} i
     * @param {number} j
     * @param {number} k
     */
    #stretch(i, j, k) {
        const p = pointAt(this.#points, i), q = pointAt(this.#points, j), r = pointAt(this.#points, k);
        const side = minus(q, p), other = minus(r, p), normal = cross(side, other);
        // too thin a triangle for its normal to be known
        if (!(size(normal) > 1e-4 * size(side) * size(other))) return false;
        const level = Math.abs(dot(normal, p));
        const a = Math.abs(normal.x) / level, b = Math.abs(normal.y) / level, c = Math.abs(normal.w) / level;
        const snapping = (a / this.calls.width + b / this.calls.height) / 8;
        const rounding = 0.5 * (a + b + c + snapping) + 1e-5; // and what doubles lose
        if (!(rounding + snapping * Math.max(0, p.w, q.w, r.w) < STEEPEST)) return false;
        this.#raise(i, p.w, rounding, snapping);
        this.#raise(j, q.w, rounding, snapping);
        this.#raise(k, r.w, rounding, snapping);
        return true;
    }

    /**
     * @param {number} k
     * @param {number} w
     * @param {number} rounding
     * @param {number} snapping
     */
    #raise(k, w, rounding, snapping) {
        const factor = (1 + rounding) / (1 - snapping * Math.max(0, w));
        this.#factors[k] = Math.max(this.#factors[k], factor);
    }

    /**
     * Moves a point by its factor away from the eye along its ray, so that it stays on the screen where it is, and
     * rounds.
     * @param {Int32Array} vertices
     * @param {number} k
     */
    #setFarther(vertices, k) {
        const point = pointAt(this.#points, k);
        // up to a whole number first: then only x and y are rounded in front of the near plane
        const factor = point.w >= FINEST ? Math.ceil(point.w * this.#factors[k]) / point.w : this.#factors[k];
        const x = point.x * factor, y = point.y * factor, w = point.w * factor;
        const isNear = Math.abs(x) < MOST && Math.abs(y) < MOST && Math.abs(w) < MOST;
        vertices[3 * k] = isNear ? Math.round(x) : PAST_GUARD;
        vertices[3 * k + 1] = isNear ? Math.round(y) : 0;
        vertices[3 * k + 2] = isNear ? Math.round(w) : 0;
    }

    /**
     * @param {ArrayLike<number>} bounds
     * @param {number} first
     */
    #boxVerdict(bounds, first) {
        for (let corner = 0; corner < 8; corner++) {
            const x = bounds[first + (corner & 1 ? 3 : 0)];
            const y = bounds[first + (corner & 2 ? 4 : 1)];
            const z = bounds[first + (corner & 4 ? 5 : 2)];
            setPoint(this.#hull, 3 * corner, this.#rows, x, y, z);
        }
        return this.#hullVerdict(8);
    }

    /**
     * The verdict of all within the first so many points of the hull.
     * @param {number} count
     */
    #hullVerdict(count) {
        const hull = this.#hull, { width, height } = this.calls;
        const sides = sidesOf(hull, count, 1 + 2 * margin(width) / width, 1 + 2 * margin(height) / height);
        if (sides < 0) return VISIBLE;
        if (sides > 0) return OUTSIDE;
        let left = Infinity, top = Infinity, right = -Infinity, bottom = -Infinity, nearest = MOST;
        for (let k = 0; k < 3 * count; k += 3) {
            const w = hull[k + 2];
            const x = width * 0.5 * (1 + hull[k] / w), y = height * 0.5 * (1 - hull[k + 1] / w);
            if (!(w >= FINEST && Math.abs(x) < MOST && Math.abs(y) < MOST)) return VISIBLE;
            left = Math.min(left, x);
            right = Math.max(right, x);
            top = Math.min(top, y);
            bottom = Math.max(bottom, y);
            nearest = Math.min(nearest, w);
        }
        // outwards to whole pixels, past all that the edge of an occluder may have moved; w down: the object isn't held
        // to be farther than its nearest point
        const across = margin(width), down = margin(height);
        return this.calls.test(Math.floor(left - across), Math.floor(top - down), Math.ceil(right + across),
            Math.ceil(bottom + down), Math.floor(nearest));
    }
}
