// Where the eye is and what it sees: along a path by itself, or by keys. Matrices are column by column.

const HEIGHT_OF_VIEW = Math.PI / 3;
const TURN_A_SECOND = 1.2;
// What keys do: along, across and up in the unit of the speed, and turns to the left and upwards.
const KEYS = {
    KeyW: [1, 0, 0, 0, 0], KeyS: [-1, 0, 0, 0, 0], KeyD: [0, 1, 0, 0, 0], KeyA: [0, -1, 0, 0, 0],
    KeyE: [0, 0, 1, 0, 0], KeyQ: [0, 0, -1, 0, 0],
    ArrowLeft: [0, 0, 0, 1, 0], ArrowRight: [0, 0, 0, -1, 0], ArrowUp: [0, 0, 0, 0, 1], ArrowDown: [0, 0, 0, 0, -1],
};

/** The matrix that does what `second` does and then what `first` does. */
export function product(first, second) {
    return Float32Array.from({ length: 16 }, (_, k) => {
        const row = k % 4, column = k - row;
        return [0, 1, 2, 3].reduce((sum, i) => sum + first[row + 4 * i] * second[column + i], 0);
    });
}

function perspective(aspect, near, far) {
    const up = 1 / Math.tan(HEIGHT_OF_VIEW / 2), depth = 1 / (near - far);
    return [up / aspect, 0, 0, 0, 0, up, 0, 0, 0, 0, (near + far) * depth, -1, 0, 0, 2 * near * far * depth, 0];
}

const mixed = (from, to, share) => from.map((number, k) => number + (to[k] - number) * share);

export class Camera {
    isFlying = true;
    #path;
    #middle;
    #lengths;
    #speed;
    #lens;
    #gone = 0;
    #pressed = new Set();

    /** For a scene, on a picture that is so many times as wide as high. The eye looks to its middle, or ahead. */
    constructor({ path, middle, speed, near, far }, aspect) {
        this.#path = path;
        this.#middle = middle;
        this.#speed = speed;
        this.#lens = perspective(aspect, near, far);
        const next = (k) => path[(k + 1) % path.length];
        this.#lengths = path.map((place, k) => Math.hypot(...next(k).map((it, axis) => it - place[axis])));
        this.fly(0);
    }

    /** Goes to the place on the path that is reached after so many seconds. */
    fly(seconds) {
        this.#gone = seconds * this.#speed;
        this.place = this.#placeAfter(this.#gone);
        // A second ahead, so that corners are turned smoothly.
        const looked = this.#middle ?? this.#placeAfter(this.#gone + this.#speed);
        const [x, y, z] = looked.map((it, k) => it - this.place[k]);
        this.turn = Math.atan2(-x, -z);
        this.tilt = Math.atan2(y, Math.hypot(x, z));
    }

    press(key) {
        if (!(key in KEYS)) return;
        this.#pressed.add(key);
        this.isFlying = false;
    }

    release(key) {
        this.#pressed.delete(key);
    }

    /** Moves on by so many seconds. */
    pass(seconds) {
        if (this.isFlying) {
            this.fly(this.#gone / this.#speed + seconds);
            return;
        }
        for (const key of this.#pressed) {
            const [along, across, up, left, upwards] = KEYS[key], way = this.#speed * seconds;
            this.turn += left * TURN_A_SECOND * seconds;
            this.tilt = Math.max(-1.5, Math.min(1.5, this.tilt + upwards * TURN_A_SECOND * seconds));
            const [sine, cosine] = [Math.sin(this.turn), Math.cos(this.turn)];
            this.place[0] += way * (-sine * along + cosine * across);
            this.place[1] += way * up;
            this.place[2] += way * (-cosine * along - sine * across);
        }
    }

    /** From the scene to clip space. */
    clipFromScene() {
        const [sine, cosine] = [Math.sin(this.turn), Math.cos(this.turn)];
        const [down, level] = [Math.sin(this.tilt), Math.cos(this.tilt)];
        const right = [cosine, 0, -sine], up = [sine * down, level, cosine * down];
        const back = [sine * level, -down, cosine * level];
        const moves = [right, up, back].map((axis) => -axis.reduce((sum, it, k) => sum + it * this.place[k], 0));
        const view = [0, 1, 2].flatMap((k) => [right[k], up[k], back[k], 0]);
        return product(this.#lens, [...view, ...moves, 1]);
    }

    /** Where the left and the right edge of the view have come after some length, at the height of the eye. */
    edges(length) {
        const half = Math.atan(1 / this.#lens[0]);
        return [half, -half].map((aside) => {
            const turn = this.turn + aside;
            return [this.place[0] - length * Math.sin(turn), this.place[1], this.place[2] - length * Math.cos(turn)];
        });
    }

    #placeAfter(length) {
        const whole = this.#lengths.reduce((sum, it) => sum + it, 0);
        let left = length % whole, k = 0;
        while (left > this.#lengths[k]) left -= this.#lengths[k++];
        return mixed(this.#path[k], this.#path[(k + 1) % this.#path.length], left / this.#lengths[k]);
    }
}
