// The library as the page uses it: the package of bindings/js, on images of 8 bits, whose memory is taken until `reset`. No pixel
// is computed here.
import { load, RGBA8 } from '../../bindings/js/pix.js';

// The region of a whole image.
export const whole = ({ width, height }) => [0, 0, width, height];

// One instance of the library.
export class Library {
    constructor(pix) {
        this.pix = pix;
        this.taken = [];
    }

    static async of(module) {
        return new Library(await load(module));
    }

    // How many images were taken. Set to an earlier number it gives the later ones back.
    get top() {
        return this.taken.length;
    }

    set top(count) {
        this.taken.splice(count).forEach((image) => image.free());
    }

    // How many bytes they have.
    get size() {
        return this.taken.reduce((sum, image) => sum + image.byteLength, 0);
    }

    reset() {
        this.top = 0;
    }

    // A clear image: red, green, blue and alpha of 8 bits, premultiplied.
    image(width, height) {
        const image = this.pix.newImage(width, height, RGBA8);
        this.taken.push(image);
        return image;
    }
}
