// What is done with a picture: it is kept as a file for slides, or fills the screen.
import { button, element } from "./elements.mjs";

/** How a picture looks, in what a file has in the place of the page's style. */
const LOOKS = [
    "fill", "fill-opacity", "stroke", "stroke-width", "stroke-opacity", "stroke-dasharray", "stroke-linejoin", "paint-order", "font-family", "font-size",
    "font-weight", "text-anchor", "dominant-baseline",
];
/** A picture in points has this many times as many of them as it is wide. */
const FINE = 2;

/**
 * A picture as a text of its own, on the colour that is behind it.
 * @param {SVGSVGElement} picture
 */
function standalone(picture) {
    const copy = /** @type {SVGSVGElement} */ (picture.cloneNode(true));
    const originals = [...picture.querySelectorAll("*")];
    [...copy.querySelectorAll("*")].forEach((it, index) => {
        const look = getComputedStyle(originals[index]);
        it.removeAttribute("class");
        it.removeAttribute("style");
        if (it.localName !== "title" && it.localName !== "g") {
            LOOKS.forEach((name) => it.setAttribute(name, look.getPropertyValue(name)));
        }
    });
    const { width, height } = picture.viewBox.baseVal;
    const behind = document.createElementNS("http://www.w3.org/2000/svg", "rect");
    Object.entries({ width, height, fill: getComputedStyle(document.body).backgroundColor }).forEach(([name, value]) => behind.setAttribute(name, String(value)));
    copy.prepend(behind);
    copy.removeAttribute("class");
    copy.setAttribute("xmlns", "http://www.w3.org/2000/svg");
    copy.setAttribute("width", String(width));
    copy.setAttribute("height", String(height));
    return new XMLSerializer().serializeToString(copy);
}

/**
 * A picture in points.
 * @param {SVGSVGElement} picture
 * @returns {Promise<Blob>}
 */
async function points(picture) {
    const { width, height } = picture.viewBox.baseVal;
    const address = URL.createObjectURL(new Blob([standalone(picture)], { type: "image/svg+xml" }));
    try {
        const image = new Image();
        image.src = address;
        await image.decode();
        const canvas = element("canvas", { width: Math.round(FINE * width), height: Math.round(FINE * height) });
        const context = canvas.getContext("2d");
        if (context === null) {
            throw new Error("the browser draws no pictures");
        }
        context.drawImage(image, 0, 0, canvas.width, canvas.height);
        return await new Promise((done, failed) => canvas.toBlob((blob) => (blob === null ? failed(new Error("the browser makes no PNG")) : done(blob)), "image/png"));
    } finally {
        URL.revokeObjectURL(address);
    }
}

/**
 * A picture with its buttons.
 * @param {SVGSVGElement} picture
 * @param {string} name of the files that are kept
 * @param {(name: string, file: Blob) => void} hand gives a file to the reader of the page
 */
export function figureOf(picture, name, hand) {
    const figure = element("figure", {}, picture);
    const fill = () => (document.fullscreenElement === null ? figure.requestFullscreen() : document.exitFullscreen());
    figure.append(element("figcaption", { class: "bar" },
        button("Keep as SVG", () => hand(`${name}.svg`, new Blob([standalone(picture)], { type: "image/svg+xml" }))),
        button("Keep as PNG", async () => hand(`${name}.png`, await points(picture))),
        "requestFullscreen" in figure && button("Fill the screen", fill)));
    return figure;
}
