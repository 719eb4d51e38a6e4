// Draws a scene by WebGL2: what the eye sees at the left, and from above what is culled at the right.
import { VISIBLE } from '../maskcull.js';
import { ABOVE, IDS, SCENE, SCREEN, TILES, VERTICES } from './shaders.js';

const SKY = [0.74, 0.82, 0.9, 1], PAPER = [0.93, 0.93, 0.9, 1], NOTHING = [0, 0, 0, 0];
const VERDICTS_A_ROW = 256;
const TILE_NUMBERS = 25;

function shaderOf(gl, kind, text) {
    const shader = gl.createShader(kind);
    gl.shaderSource(shader, text);
    gl.compileShader(shader);
    if (!gl.getShaderParameter(shader, gl.COMPILE_STATUS)) throw new Error(gl.getShaderInfoLog(shader));
    return shader;
}

/** A program with its uniforms by name. Vertices have a position in place 0, and the number of their object in 1. */
function programOf(gl, vertices, fragments) {
    const program = gl.createProgram();
    gl.attachShader(program, shaderOf(gl, gl.VERTEX_SHADER, vertices));
    gl.attachShader(program, shaderOf(gl, gl.FRAGMENT_SHADER, fragments));
    gl.bindAttribLocation(program, 0, 'position');
    gl.bindAttribLocation(program, 1, 'object');
    gl.linkProgram(program);
    if (!gl.getProgramParameter(program, gl.LINK_STATUS)) throw new Error(gl.getProgramInfoLog(program));
    const uniforms = {};
    for (let k = 0; k < gl.getProgramParameter(program, gl.ACTIVE_UNIFORMS); k++) {
        const { name } = gl.getActiveUniform(program, k);
        uniforms[name] = gl.getUniformLocation(program, name);
    }
    return { program, uniforms };
}

function bufferOf(gl, kind, numbers) {
    const buffer = gl.createBuffer();
    gl.bindBuffer(kind, buffer);
    gl.bufferData(kind, numbers, gl.STATIC_DRAW);
    return buffer;
}

/** A texture of whole numbers. */
function textureOf(gl) {
    const texture = gl.createTexture();
    gl.bindTexture(gl.TEXTURE_2D, texture);
    gl.texParameteri(gl.TEXTURE_2D, gl.TEXTURE_MIN_FILTER, gl.NEAREST);
    gl.texParameteri(gl.TEXTURE_2D, gl.TEXTURE_MAG_FILTER, gl.NEAREST);
    return texture;
}

/** All vertices and triangles of some objects in one piece, and where the triangles of each begin. */
function joined(objects) {
    const sum = (lengthOf) => objects.reduce((all, it) => all + lengthOf(it), 0);
    const positions = new Float32Array(sum((it) => it.positions.length));
    const numbers = new Uint32Array(positions.length / 3);
    const indices = new Uint32Array(sum((it) => it.indices.length)), starts = [0];
    let vertices = 0;
    objects.forEach((object, number) => {
        const count = object.positions.length / 3, start = starts[number];
        positions.set(object.positions, 3 * vertices);
        numbers.fill(number, vertices, vertices + count);
        object.indices.forEach((index, k) => { indices[start + k] = vertices + index; });
        vertices += count;
        starts.push(start + object.indices.length);
    });
    return { positions, numbers, indices, starts };
}

/** The least x, y and z of some objects, and the greatest ones. */
function extentOf(objects) {
    const extent = [Infinity, Infinity, Infinity, -Infinity, -Infinity, -Infinity];
    for (const { bounds } of objects) {
        bounds.forEach((number, k) => { extent[k] = Math[k < 3 ? 'min' : 'max'](extent[k], number); });
    }
    return extent;
}

/** From a scene to the square at the right, seen from above: x to the right, z downwards. */
function aboveMatrix([x0, y0, z0, x1, y1, z1]) {
    const half = 0.52 * Math.max(x1 - x0, z1 - z0), high = 1.1 * (y1 - y0) || 1;
    return [1 / half, 0, 0, 0, 0, 0, -1 / high, 0, 0, -1 / half, 0, 0,
        -(x0 + x1) / 2 / half, (z0 + z1) / 2 / half, y0 / high, 1];
}

export class Picture {
    #gl;
    #width;
    #height;
    #programs;
    #verdicts;
    #tiles;
    #plain;
    #identities;
    #scene = null;

    /** On a canvas, with so many pixels for what the eye sees. */
    constructor(canvas, width, height) {
        canvas.width = width + height;
        canvas.height = height;
        const gl = canvas.getContext('webgl2', { antialias: false });
        if (gl === null) throw new Error('This browser draws no WebGL2, which the page needs.');
        this.#gl = gl;
        this.#width = width;
        this.#height = height;
        this.#programs = {
            scene: programOf(gl, VERTICES, SCENE),
            above: programOf(gl, VERTICES, ABOVE),
            identities: programOf(gl, VERTICES, IDS),
            tiles: programOf(gl, SCREEN, TILES),
        };
        this.#verdicts = textureOf(gl);
        this.#tiles = textureOf(gl);
        this.#plain = gl.createVertexArray();
        this.#identities = this.#makeIdentities();
        gl.enable(gl.SCISSOR_TEST);
    }

    /** Takes the objects of a scene, in place of those that it has, and what they stand on, which is no object. */
    take({ objects, ground, far }) {
        const gl = this.#gl, array = gl.createVertexArray();
        const { positions, numbers, indices, starts } = joined([...objects, ground]);
        gl.bindVertexArray(array);
        const buffers = [bufferOf(gl, gl.ARRAY_BUFFER, positions)];
        gl.vertexAttribPointer(0, 3, gl.FLOAT, false, 0, 0);
        gl.enableVertexAttribArray(0);
        buffers.push(bufferOf(gl, gl.ARRAY_BUFFER, numbers));
        gl.vertexAttribIPointer(1, 1, gl.UNSIGNED_INT, 0, 0);
        gl.enableVertexAttribArray(1);
        buffers.push(bufferOf(gl, gl.ELEMENT_ARRAY_BUFFER, indices));
        if (this.#scene !== null) {
            gl.deleteVertexArray(this.#scene.array);
            this.#scene.buffers.forEach((buffer) => gl.deleteBuffer(buffer));
        }
        this.#scene = { array, buffers, starts, count: objects.length, far, above: aboveMatrix(extentOf(objects)) };
    }

    /** What the eye sees: objects that are visible by the verdicts, or all without these. Tells how many it draws. */
    drawScene(clipFromScene, eye, verdicts) {
        const gl = this.#gl, { starts, count, far } = this.#scene;
        const { uniforms } = this.#begin('scene', clipFromScene, SKY);
        gl.uniform3f(uniforms.eye, ...eye);
        gl.uniform1f(uniforms.far, far);
        gl.uniform3f(uniforms.sky, ...SKY.slice(0, 3));
        gl.uniform1ui(uniforms.count, count);
        gl.drawElements(gl.TRIANGLES, starts[count + 1] - starts[count], gl.UNSIGNED_INT, 4 * starts[count]);
        let drawn = 0;
        for (let k = 0; k < count; k++) {
            if (verdicts !== null && verdicts[k] !== VISIBLE) continue;
            gl.drawElements(gl.TRIANGLES, starts[k + 1] - starts[k], gl.UNSIGNED_INT, 4 * starts[k]);
            drawn++;
        }
        return drawn;
    }

    /** From above, coloured by the verdicts; and the two edges of the view, which leads from the eye to both ends. */
    drawAbove(verdicts, eye, ends) {
        const gl = this.#gl, { uniforms } = this.#begin('above', this.#scene.above, PAPER);
        this.#setNumbers(this.#verdicts, [gl.R8UI, gl.UNSIGNED_BYTE], verdicts, VERDICTS_A_ROW);
        gl.uniform1ui(uniforms.count, this.#scene.count);
        this.#drawAll();
        gl.bindVertexArray(this.#plain);
        const lines = bufferOf(gl, gl.ARRAY_BUFFER, Float32Array.from([...eye, ...ends[0], ...eye, ...ends[1]]));
        gl.vertexAttribPointer(0, 3, gl.FLOAT, false, 0, 0);
        gl.enableVertexAttribArray(0);
        gl.vertexAttribI4ui(1, this.#scene.count, 0, 0, 0);
        gl.disable(gl.DEPTH_TEST);
        gl.drawArrays(gl.LINES, 0, 4);
        gl.disableVertexAttribArray(0);
        gl.deleteBuffer(lines);
    }

    /** The depths in tiles, over what the eye sees. */
    drawTiles(tiles) {
        const gl = this.#gl, { program, uniforms } = this.#programs.tiles;
        gl.useProgram(program);
        gl.bindVertexArray(this.#plain);
        this.#setView(false);
        this.#setNumbers(this.#tiles, [gl.R32UI, gl.UNSIGNED_INT], tiles, TILE_NUMBERS * Math.ceil(this.#width / 32));
        gl.uniform1i(uniforms.height, this.#height);
        gl.disable(gl.DEPTH_TEST);
        gl.enable(gl.BLEND);
        gl.blendFunc(gl.SRC_ALPHA, gl.ONE_MINUS_SRC_ALPHA);
        gl.drawArrays(gl.TRIANGLES, 0, 3);
        gl.disable(gl.BLEND);
    }

    /** How many pixels each object has, where all are drawn with a depth test, each in a colour of its own. */
    pixelsOfObjects(clipFromScene) {
        const gl = this.#gl, bytes = new Uint8Array(4 * this.#width * this.#height);
        gl.bindFramebuffer(gl.FRAMEBUFFER, this.#identities);
        this.#begin('identities', clipFromScene, NOTHING);
        this.#drawAll();
        gl.readPixels(0, 0, this.#width, this.#height, gl.RGBA, gl.UNSIGNED_BYTE, bytes);
        gl.bindFramebuffer(gl.FRAMEBUFFER, null);
        const counts = new Uint32Array(this.#scene.count);
        for (let k = 0; k < bytes.length; k += 4) {
            const number = bytes[k] + 256 * bytes[k + 1] + 65536 * bytes[k + 2]; // 0 where there is no object
            if (number > 0) counts[number - 1]++;
        }
        return counts;
    }

    /** Waits until all is drawn. */
    finish() {
        this.#gl.readPixels(0, 0, 1, 1, this.#gl.RGBA, this.#gl.UNSIGNED_BYTE, new Uint8Array(4));
    }

    #drawAll() {
        const gl = this.#gl;
        gl.drawElements(gl.TRIANGLES, this.#scene.starts[this.#scene.count], gl.UNSIGNED_INT, 0);
    }

    /** Clears the view at the left, or the one from above, and begins with a program. */
    #begin(name, matrix, background) {
        const gl = this.#gl, made = this.#programs[name];
        this.#setView(name === 'above');
        gl.clearColor(...background);
        gl.enable(gl.DEPTH_TEST);
        gl.clear(gl.COLOR_BUFFER_BIT | gl.DEPTH_BUFFER_BIT);
        gl.useProgram(made.program);
        gl.bindVertexArray(this.#scene.array);
        gl.uniformMatrix4fv(made.uniforms.clipFromScene, false, matrix);
        return made;
    }

    #setView(isAbove) {
        const view = isAbove ? [this.#width, 0, this.#height, this.#height] : [0, 0, this.#width, this.#height];
        this.#gl.viewport(...view);
        this.#gl.scissor(...view);
    }

    /** Fills a texture, which has rows of so many whole numbers. */
    #setNumbers(texture, [format, type], numbers, width) {
        const gl = this.#gl, height = Math.ceil(numbers.length / width);
        const whole = new numbers.constructor(width * height);
        whole.set(numbers);
        gl.bindTexture(gl.TEXTURE_2D, texture);
        gl.pixelStorei(gl.UNPACK_ALIGNMENT, 1);
        gl.texImage2D(gl.TEXTURE_2D, 0, format, width, height, 0, gl.RED_INTEGER, type, whole);
    }

    /** Where objects are drawn in colours of their own. */
    #makeIdentities() {
        const gl = this.#gl, framebuffer = gl.createFramebuffer();
        gl.bindFramebuffer(gl.FRAMEBUFFER, framebuffer);
        const parts = [[gl.RGBA8, gl.COLOR_ATTACHMENT0], [gl.DEPTH_COMPONENT24, gl.DEPTH_ATTACHMENT]];
        for (const [format, attachment] of parts) {
            const buffer = gl.createRenderbuffer();
            gl.bindRenderbuffer(gl.RENDERBUFFER, buffer);
            gl.renderbufferStorage(gl.RENDERBUFFER, format, this.#width, this.#height);
            gl.framebufferRenderbuffer(gl.FRAMEBUFFER, attachment, gl.RENDERBUFFER, buffer);
        }
        gl.bindFramebuffer(gl.FRAMEBUFFER, null);
        return framebuffer;
    }
}
